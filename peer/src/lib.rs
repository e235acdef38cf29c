//! The settlement book of one participant and one trading day.
//!
//! An independent implementation, written from the specification and its
//! later requests (W1 and W2 so far) only, to be compared call by call with
//! another one. Sentences of these papers stand in quotes where their rule is
//! implemented.
//!
//! - [`refusal`]: the numbers 1 to 16 that a call can bring back.
//! - [`units`]: price, quantity, cents, ticks and hour.
//! - [`money`]: offers, guarantees, offsets and failure charges.
//! - [`names`]: decoding, spelling and order of names.
//! - [`records`]: reading and writing of records and changes.
//! - [`questions`]: amounts worked from standing records.
//! - [`register`]: the plain register, a list of accepted changes.
//! - [`book`]: the book over lent bytes.
//! - [`feed`]: records back to back.
//! - [`hour_offset_call`]: one hour's offset over numbers and bytes.
//! - [`statement`]: the lines of the day's statement, and its text.
//! - [`pages`]: the same lines on pages for the binder.

#![forbid(unsafe_code)]
#![warn(missing_docs)]

pub mod book;
pub mod feed;
pub mod hour_offset_call;
pub mod money;
pub mod names;
pub mod pages;
pub mod questions;
pub mod records;
pub mod refusal;
pub mod register;
pub mod statement;
pub mod units;
