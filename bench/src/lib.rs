//! The bench that holds the proved settlement book against the peer.
//!
//! - [`bridge`]: the C interface of the proved side.
//! - [`call`]: calls, lists of calls and what they start from.
//! - [`text`]: the two texts of a day.
//! - [`answer`]: what a call brings back, in one form for both sides.
//! - [`proved_side`], [`peer_side`]: the calls carried out on each side.
//! - [`beyond`]: states that no book can have.
//! - [`compare`]: a list of calls run on both sides.
//! - [`generate`]: systematic and random lists.
//! - [`shrink`]: the shortest list that still shows a mismatch.
//! - [`tally`]: how often each number occurred.
//! - [`report`]: calls and mismatches as text.
//! - [`options`], [`run`]: the differential test as a program.
//! - [`timing`], [`callgrind`], [`stack`]: medians of several runs, counted
//!   instructions, and the least stack.
//! - [`workloads`]: the calls that are measured.
//! - [`programs`], [`one_byte`]: the programs that are measured, and an input of
//!   which each read brings one byte.
//! - [`worst_day`]: the day that costs the proved book most.
//! - `mock`, `wrong_statements`, `wrong_pages`: the C interface over the peer,
//!   with deliberate bugs (feature `mock` only).

#![deny(unsafe_code)]
#![warn(missing_docs)]

pub mod answer;
pub mod beyond;
pub mod bridge;
pub mod call;
pub mod callgrind;
pub mod compare;
pub mod draw;
pub mod generate;
#[cfg(feature = "mock")]
pub mod mock;
pub mod one_byte;
pub mod options;
pub mod peer_side;
pub mod programs;
pub mod proved_side;
pub mod report;
pub mod run;
pub mod shrink;
pub mod stack;
pub mod tally;
pub mod text;
pub mod timing;
pub mod workloads;
pub mod worst_day;
#[cfg(feature = "mock")]
mod wrong_pages;
#[cfg(feature = "mock")]
mod wrong_statements;
