//! The C interface of the proved side, version 2.
//!
//! Every function returns 0 or the number of a refusal; a missing layer's
//! functions return [`MISSING`]. A slice is two arguments, pointer and count
//! of elements. The wrappers fix the lengths of the outputs by their types and
//! pass everything else on as it is.

#![allow(unsafe_code)]

use crate::text::Text;
use std::fmt;

/// The version of the interface that these wrappers speak.
pub const VERSION: u32 = 2;
/// What a function of a missing layer returns.
pub const MISSING: u32 = 0xFFFF_FFFF;
/// Most imports of an hour.
pub const IMPORTS_MOST: usize = 16;
/// Sizes of an hour's guarantees: the number of imports, then start and length
/// of each.
pub const GUARANTEE_SIZES: usize = 1 + 2 * IMPORTS_MOST;
/// Amounts of an hour's guarantees: the offset, then each credit.
pub const GUARANTEE_AMOUNTS: usize = 1 + IMPORTS_MOST;

/// The symbols of the static library.
mod symbols {
    extern "C" {
        pub fn pewatuno_interface() -> u32;
        pub fn pewatuno_layers() -> u32;
        pub fn pewatuno_write(
            method: u32,
            record: *const u8,
            record_count: usize,
            out: *mut u8,
            out_count: usize,
            sizes: *mut u64,
            sizes_count: usize,
        ) -> u32;
        pub fn pewatuno_next(
            bytes: *const u8,
            bytes_count: usize,
            sizes: *mut u64,
            sizes_count: usize,
        ) -> u32;
        pub fn pewatuno_compare(
            first: *const u8,
            first_count: usize,
            second: *const u8,
            second_count: usize,
            sizes: *mut u64,
            sizes_count: usize,
        ) -> u32;
        pub fn pewatuno_amount(
            prices: *const u8,
            prices_count: usize,
            record: *const u8,
            record_count: usize,
            amounts: *mut i64,
            amounts_count: usize,
        ) -> u32;
        pub fn pewatuno_change(
            method: u32,
            state: *mut u64,
            state_count: usize,
            lent: *mut u8,
            lent_count: usize,
            record: *const u8,
            record_count: usize,
        ) -> u32;
        pub fn pewatuno_record(
            state: *const u64,
            state_count: usize,
            lent: *const u8,
            lent_count: usize,
            mark: *const u8,
            mark_count: usize,
            hour: u32,
            name: *const u8,
            name_count: usize,
            sizes: *mut u64,
            sizes_count: usize,
        ) -> u32;
        pub fn pewatuno_count(
            state: *const u64,
            state_count: usize,
            lent: *const u8,
            lent_count: usize,
            mark: *const u8,
            mark_count: usize,
            hour: u32,
            sizes: *mut u64,
            sizes_count: usize,
        ) -> u32;
        pub fn pewatuno_free(
            state: *const u64,
            state_count: usize,
            lent: *const u8,
            lent_count: usize,
            sizes: *mut u64,
            sizes_count: usize,
        ) -> u32;
        pub fn pewatuno_guarantees(
            state: *const u64,
            state_count: usize,
            lent: *const u8,
            lent_count: usize,
            hour: u32,
            sizes: *mut u64,
            sizes_count: usize,
            amounts: *mut i64,
            amounts_count: usize,
        ) -> u32;
        pub fn pewatuno_unit_day(
            state: *const u64,
            state_count: usize,
            lent: *const u8,
            lent_count: usize,
            name: *const u8,
            name_count: usize,
            amounts: *mut i64,
            amounts_count: usize,
        ) -> u32;
        pub fn pewatuno_failure_charge(
            state: *const u64,
            state_count: usize,
            lent: *const u8,
            lent_count: usize,
            mark: *const u8,
            mark_count: usize,
            hour: u32,
            name: *const u8,
            name_count: usize,
            amounts: *mut i64,
            amounts_count: usize,
        ) -> u32;
        pub fn pewatuno_feed(
            state: *mut u64,
            state_count: usize,
            lent: *mut u8,
            lent_count: usize,
            input: *const u8,
            input_count: usize,
            sizes: *mut u64,
            sizes_count: usize,
        ) -> u32;
        pub fn pewatuno_statement(
            state: *const u64,
            state_count: usize,
            lent: *const u8,
            lent_count: usize,
            out: *mut u8,
            out_count: usize,
            sizes: *mut u64,
            sizes_count: usize,
        ) -> u32;
        pub fn pewatuno_pages(
            state: *const u64,
            state_count: usize,
            lent: *const u8,
            lent_count: usize,
            out: *mut u8,
            out_count: usize,
            sizes: *mut u64,
            sizes_count: usize,
        ) -> u32;
        pub fn pewatuno_hour_offset(
            result: *mut u8,
            result_count: usize,
            records: *const u8,
            records_count: usize,
        ) -> u32;
    }
}

/// A layer of the proved side, as a bit of `pewatuno_layers`.
#[derive(Clone, Copy, Debug, PartialEq, Eq, Hash)]
pub enum Layer {
    /// Names, and reading and writing of records.
    Records = 0,
    /// Amounts of single records.
    Amounts = 1,
    /// Changes of a book and the questions for keys and free bytes.
    Book = 2,
    /// Questions for amounts.
    AmountQuestions = 3,
    /// The C call for one hour's offset.
    HourOffset = 4,
    /// Records back to back, and the statement.
    Statement = 5,
}

impl Layer {
    /// All layers, in the order of their bits.
    pub const ALL: [Layer; 6] = [
        Layer::Records,
        Layer::Amounts,
        Layer::Book,
        Layer::AmountQuestions,
        Layer::HourOffset,
        Layer::Statement,
    ];

    /// The layer in words.
    pub const fn words(self) -> &'static str {
        match self {
            Layer::Records => "names and records",
            Layer::Amounts => "amounts of single records",
            Layer::Book => "changes and key questions",
            Layer::AmountQuestions => "amount questions",
            Layer::HourOffset => "the hour's offset call",
            Layer::Statement => "records back to back and the statement",
        }
    }
}

/// The layers that the library has.
#[derive(Clone, Copy, Debug, PartialEq, Eq)]
pub struct Layers(pub u32);

impl Layers {
    /// Whether a layer is there.
    pub const fn has(self, layer: Layer) -> bool {
        self.0 >> layer as u32 & 1 == 1
    }
}

/// Why the library can't be used.
#[derive(Clone, Copy, Debug, PartialEq, Eq)]
pub struct WrongVersion {
    /// The version it speaks.
    pub found: u32,
}

impl fmt::Display for WrongVersion {
    fn fmt(&self, out: &mut fmt::Formatter<'_>) -> fmt::Result {
        write!(
            out,
            "the static library speaks interface version {}, this bench version {VERSION}; \
             make the library anew with `tools/build bridge` and build the bench of the same \
             sources",
            self.found
        )
    }
}

impl std::error::Error for WrongVersion {}

/// The layers of a library of the right version.
pub fn open() -> Result<Layers, WrongVersion> {
    match interface() {
        VERSION => Ok(Layers(layers())),
        found => Err(WrongVersion { found }),
    }
}

/// What a book carries, within what the interface takes.
#[derive(Clone, Copy, Debug, Default, PartialEq, Eq, Hash)]
pub struct State {
    /// Number of changes.
    pub changes: u16,
    /// Used bytes.
    pub used: u32,
    /// Closed, or still open.
    pub closed: bool,
}

impl State {
    /// The three numbers of the interface.
    pub fn numbers(self) -> [u64; 3] {
        [
            u64::from(self.changes),
            u64::from(self.used),
            u64::from(self.closed),
        ]
    }

    /// The state of three numbers, none outside the interface's range.
    pub fn of_numbers(numbers: [u64; 3]) -> Option<State> {
        Some(State {
            changes: u16::try_from(numbers[0]).ok()?,
            used: u32::try_from(numbers[1]).ok()?,
            closed: match numbers[2] {
                0 => false,
                1 => true,
                _ => return None,
            },
        })
    }
}

/// The version the library speaks.
pub fn interface() -> u32 {
    // SAFETY: takes nothing and gives a number.
    unsafe { symbols::pewatuno_interface() }
}

/// The library's layers as bits.
pub fn layers() -> u32 {
    // SAFETY: takes nothing and gives a number.
    unsafe { symbols::pewatuno_layers() }
}

/// Reads one whole change and writes it in its written form.
pub fn write(method: u32, record: &[u8], out: &mut [u8], sizes: &mut [u64; 1]) -> u32 {
    // SAFETY: each pointer comes with the count of its own slice.
    unsafe {
        symbols::pewatuno_write(
            method,
            record.as_ptr(),
            record.len(),
            out.as_mut_ptr(),
            out.len(),
            sizes.as_mut_ptr(),
            sizes.len(),
        )
    }
}

/// How many bytes the change takes that the bytes begin with.
pub fn next(bytes: &[u8], sizes: &mut [u64; 1]) -> u32 {
    // SAFETY: each pointer comes with the count of its own slice.
    unsafe { symbols::pewatuno_next(bytes.as_ptr(), bytes.len(), sizes.as_mut_ptr(), sizes.len()) }
}

/// The order of two spelled names: 0 before, 1 same, 2 after.
pub fn compare(first: &[u8], second: &[u8], sizes: &mut [u64; 1]) -> u32 {
    // SAFETY: each pointer comes with the count of its own slice.
    unsafe {
        symbols::pewatuno_compare(
            first.as_ptr(),
            first.len(),
            second.as_ptr(),
            second.len(),
            sizes.as_mut_ptr(),
            sizes.len(),
        )
    }
}

/// The amount of one record under the prices of a `PR` record.
pub fn amount(prices: &[u8], record: &[u8], amounts: &mut [i64; 1]) -> u32 {
    // SAFETY: each pointer comes with the count of its own slice.
    unsafe {
        symbols::pewatuno_amount(
            prices.as_ptr(),
            prices.len(),
            record.as_ptr(),
            record.len(),
            amounts.as_mut_ptr(),
            amounts.len(),
        )
    }
}

/// A change of a book; its numbers are handed back in `numbers`, whatever they
/// are.
pub fn change(
    method: u32,
    state: State,
    numbers: &mut [u64; 3],
    lent: &mut [u8],
    record: &[u8],
) -> u32 {
    *numbers = state.numbers();
    change_of_numbers(method, numbers, lent, record)
}

/// A change of the book of some numbers, as many as there are.
pub fn change_of_numbers(method: u32, numbers: &mut [u64], lent: &mut [u8], record: &[u8]) -> u32 {
    // SAFETY: each pointer comes with the count of its own slice.
    unsafe {
        symbols::pewatuno_change(
            method,
            numbers.as_mut_ptr(),
            numbers.len(),
            lent.as_mut_ptr(),
            lent.len(),
            record.as_ptr(),
            record.len(),
        )
    }
}

/// Start and length of the record of a key.
pub fn record(
    state: State,
    lent: &[u8],
    mark: &[u8],
    hour: u32,
    name: &[u8],
    sizes: &mut [u64; 2],
) -> u32 {
    let numbers = state.numbers();
    // SAFETY: each pointer comes with the count of its own slice.
    unsafe {
        symbols::pewatuno_record(
            numbers.as_ptr(),
            numbers.len(),
            lent.as_ptr(),
            lent.len(),
            mark.as_ptr(),
            mark.len(),
            hour,
            name.as_ptr(),
            name.len(),
            sizes.as_mut_ptr(),
            sizes.len(),
        )
    }
}

/// How many records of a mark and hour stand.
pub fn count(state: State, lent: &[u8], mark: &[u8], hour: u32, sizes: &mut [u64; 1]) -> u32 {
    let numbers = state.numbers();
    // SAFETY: each pointer comes with the count of its own slice.
    unsafe {
        symbols::pewatuno_count(
            numbers.as_ptr(),
            numbers.len(),
            lent.as_ptr(),
            lent.len(),
            mark.as_ptr(),
            mark.len(),
            hour,
            sizes.as_mut_ptr(),
            sizes.len(),
        )
    }
}

/// The free bytes.
pub fn free(state: State, lent: &[u8], sizes: &mut [u64; 1]) -> u32 {
    free_of_numbers(&state.numbers(), lent, sizes)
}

/// The free bytes of the book of some numbers, as many as there are.
pub fn free_of_numbers(numbers: &[u64], lent: &[u8], sizes: &mut [u64; 1]) -> u32 {
    // SAFETY: each pointer comes with the count of its own slice.
    unsafe {
        symbols::pewatuno_free(
            numbers.as_ptr(),
            numbers.len(),
            lent.as_ptr(),
            lent.len(),
            sizes.as_mut_ptr(),
            sizes.len(),
        )
    }
}

/// An hour's guarantees.
pub fn guarantees(
    state: State,
    lent: &[u8],
    hour: u32,
    sizes: &mut [u64; GUARANTEE_SIZES],
    amounts: &mut [i64; GUARANTEE_AMOUNTS],
) -> u32 {
    let numbers = state.numbers();
    // SAFETY: each pointer comes with the count of its own slice.
    unsafe {
        symbols::pewatuno_guarantees(
            numbers.as_ptr(),
            numbers.len(),
            lent.as_ptr(),
            lent.len(),
            hour,
            sizes.as_mut_ptr(),
            sizes.len(),
            amounts.as_mut_ptr(),
            amounts.len(),
        )
    }
}

/// Day total and reversal of a unit.
pub fn unit_day(state: State, lent: &[u8], name: &[u8], amounts: &mut [i64; 2]) -> u32 {
    let numbers = state.numbers();
    // SAFETY: each pointer comes with the count of its own slice.
    unsafe {
        symbols::pewatuno_unit_day(
            numbers.as_ptr(),
            numbers.len(),
            lent.as_ptr(),
            lent.len(),
            name.as_ptr(),
            name.len(),
            amounts.as_mut_ptr(),
            amounts.len(),
        )
    }
}

/// The charge of a standing `FI` or `FE`.
pub fn failure_charge(
    state: State,
    lent: &[u8],
    mark: &[u8],
    hour: u32,
    name: &[u8],
    amounts: &mut [i64; 1],
) -> u32 {
    let numbers = state.numbers();
    // SAFETY: each pointer comes with the count of its own slice.
    unsafe {
        symbols::pewatuno_failure_charge(
            numbers.as_ptr(),
            numbers.len(),
            lent.as_ptr(),
            lent.len(),
            mark.as_ptr(),
            mark.len(),
            hour,
            name.as_ptr(),
            name.len(),
            amounts.as_mut_ptr(),
            amounts.len(),
        )
    }
}

/// Takes records back to back: how many, and how many bytes. The book's numbers
/// are handed back in `numbers`, whatever they are.
pub fn feed(
    state: State,
    numbers: &mut [u64; 3],
    lent: &mut [u8],
    input: &[u8],
    sizes: &mut [u64; 2],
) -> u32 {
    *numbers = state.numbers();
    feed_of_numbers(numbers, lent, input, sizes)
}

/// Takes records back to back into the book of some numbers, as many as there are.
pub fn feed_of_numbers(
    numbers: &mut [u64],
    lent: &mut [u8],
    input: &[u8],
    sizes: &mut [u64; 2],
) -> u32 {
    // SAFETY: each pointer comes with the count of its own slice.
    unsafe {
        symbols::pewatuno_feed(
            numbers.as_mut_ptr(),
            numbers.len(),
            lent.as_mut_ptr(),
            lent.len(),
            input.as_ptr(),
            input.len(),
            sizes.as_mut_ptr(),
            sizes.len(),
        )
    }
}

/// A text of the day, and its length.
pub fn text(text: Text, state: State, lent: &[u8], out: &mut [u8], sizes: &mut [u64; 1]) -> u32 {
    let numbers = state.numbers();
    let call = match text {
        Text::Statement => symbols::pewatuno_statement,
        Text::Pages => symbols::pewatuno_pages,
    };
    // SAFETY: each pointer comes with the count of its own slice.
    unsafe {
        call(
            numbers.as_ptr(),
            numbers.len(),
            lent.as_ptr(),
            lent.len(),
            out.as_mut_ptr(),
            out.len(),
            sizes.as_mut_ptr(),
            sizes.len(),
        )
    }
}

/// The C call for one hour's offset; the result is of any length.
pub fn hour_offset(result: &mut [u8], records: &[u8]) -> u32 {
    // SAFETY: each pointer comes with the count of its own slice.
    unsafe {
        symbols::pewatuno_hour_offset(
            result.as_mut_ptr(),
            result.len(),
            records.as_ptr(),
            records.len(),
        )
    }
}
