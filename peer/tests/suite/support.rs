//! Builders and a small generator that the tests share.

use peer::book::Book;
use peer::records::raw::{self, RawName, RawUnit};
use peer::refusal::Refusal;
use std::fs;
use std::path::{Path, PathBuf};

/// The most bytes that count.
pub const FULL: usize = 65_535;

pub fn name(spelled: &[u8]) -> RawName {
    RawName::of(spelled)
}

pub fn price(hour: u8, energy: i32, pre_dispatch: i32) -> Vec<u8> {
    raw::price(hour, [energy; 12], pre_dispatch)
}

pub fn import(hour: u8, spelled: &[u8], quantity: u32, list: &[(i32, u32)]) -> Vec<u8> {
    raw::import(hour, &name(spelled), [quantity; 12], list)
}

pub fn export(hour: u8, spelled: &[u8], quantity: u32) -> Vec<u8> {
    raw::export(hour, &name(spelled), [quantity; 12])
}

pub fn unit(hour: u8, spelled: &[u8], unit: &RawUnit) -> Vec<u8> {
    raw::unit(hour, &name(spelled), unit)
}

pub fn failed_import(hour: u8, spelled: &[u8], quantities: [u32; 2], prices: [i32; 2]) -> Vec<u8> {
    raw::failure(b"FI", hour, &name(spelled), quantities, prices)
}

pub fn failed_export(hour: u8, spelled: &[u8], quantities: [u32; 2], prices: [i32; 2]) -> Vec<u8> {
    raw::failure(b"FE", hour, &name(spelled), quantities, prices)
}

pub fn withdraw(mark: &[u8; 2], hour: u8, spelled: &[u8]) -> Vec<u8> {
    raw::withdraw(mark, hour, &name(spelled))
}

pub use raw::correct;

/// The unit of document 001's hour. Start-up and speed no-load are set apart.
pub fn worked_unit() -> RawUnit {
    RawUnit {
        start_up: 0,
        no_load: 37_000,
        schedules: [[600; 12], [400; 12], [500; 12], [400; 12], [600; 12]],
        reserves: [
            ([600; 12], [100; 12]),
            ([0; 12], [0; 12]),
            ([0; 12], [0; 12]),
        ],
        lists: [
            vec![(2800, 100), (2800, 300), (3500, 500), (4500, 600)],
            vec![(2300, 100), (2300, 300), (3000, 500), (4000, 600)],
            vec![(100, 100)],
            vec![],
            vec![],
        ],
    }
}

/// The statement example's hour 5.
pub fn example_hour() -> Vec<u8> {
    [
        price(5, 3000, 3000),
        import(5, b"A%2FB", 100, &[(4000, 100)]),
        import(5, b"C", 200, &[(3200, 200)]),
        export(5, b"D", 250),
    ]
    .concat()
}

/// The example of a negative offset.
pub fn negative_offset_hour() -> Vec<u8> {
    let mut energy = [3900; 12];
    energy[0] = 5100;
    let mut exported = [0; 12];
    exported[0] = 100;
    [
        raw::price(1, energy, 0),
        import(1, b"A", 100, &[(4000, 100)]),
        raw::export(1, &name(b"E"), exported),
    ]
    .concat()
}

/// A book together with the bytes it was kept in.
pub struct Kept {
    pub book: Book,
    pub bytes: Vec<u8>,
}

impl Kept {
    pub fn fresh(length: usize) -> Kept {
        Kept {
            book: Book::new(),
            bytes: vec![0xA5; length],
        }
    }

    /// A general change over all bytes.
    pub fn change(&mut self, bytes: &[u8]) -> Result<(), Refusal> {
        let (book, answer) = self.book.change(&mut self.bytes, bytes);
        self.book = book;
        answer
    }

    /// A change that must be accepted.
    pub fn must(&mut self, bytes: &[u8]) {
        assert_eq!(self.change(bytes), Ok(()));
    }

    /// The number of a change that must be refused and leave all as it was.
    pub fn refused(&mut self, bytes: &[u8]) -> u32 {
        let before = (self.book, self.bytes.clone());
        let number = self.change(bytes).expect_err("a refusal").number();
        assert_eq!((self.book, self.bytes.clone()), before);
        number
    }
}

/// The number of a refused answer.
pub fn number<T: std::fmt::Debug>(answer: Result<T, Refusal>) -> u32 {
    answer.expect_err("a refusal").number()
}

/// A small xorshift generator over 64 bits.
pub struct Draw(u64);

impl Draw {
    pub fn new(seed: u64) -> Draw {
        Draw(seed.max(1))
    }

    pub fn next(&mut self) -> u64 {
        self.0 ^= self.0 << 13;
        self.0 ^= self.0 >> 7;
        self.0 ^= self.0 << 17;
        self.0
    }

    /// A number below `bound`.
    pub fn below(&mut self, bound: u64) -> u64 {
        (self.next() >> 11) % bound
    }

    /// True once in so many draws.
    pub fn once_in(&mut self, times: u64) -> bool {
        self.below(times) == 0
    }

    pub fn pick<T: Copy>(&mut self, from: &[T]) -> T {
        from[self.below(from.len() as u64) as usize]
    }
}

/// The cents of a printed line.
pub fn printed_cents(line: &str) -> i64 {
    let amount = line.split(' ').nth(3).expect("an amount");
    amount.replace('.', "").parse().expect("cents")
}

/// What a printed line counts in the total.
pub fn counted(line: &str) -> i64 {
    match &line[3..6] {
        "IOG" | "PCG" | "REV" => printed_cents(line),
        "OFF" | "IFC" | "EFC" => -printed_cents(line),
        "ERR" => 0,
        kind => panic!("{kind} before the last line"),
    }
}

/// One hour of small amounts, many of them near half a cent; its price may
/// lack.
pub fn drawn_hour(hour: u8, draw: &mut Draw) -> Vec<u8> {
    let mut out = Vec::new();
    let mut small = |bound: u64| draw.below(bound) as i32;
    if small(4) > 0 {
        out.extend(price(hour, small(30) - 15, small(30)));
    }
    for spelled in [b"A", b"B", b"C"] {
        out.extend(import(hour, spelled, small(8) as u32, &[(small(20), 8)]));
    }
    out.extend(export(hour, b"A", small(25) as u32));
    for spelled in [b"A", b"B"] {
        let quantities = [small(5) as u32, small(3) as u32];
        let prices = [small(20), small(20)];
        out.extend(failed_import(hour, spelled, quantities, prices));
        out.extend(failed_export(hour, spelled, quantities, prices));
    }
    let drawn = RawUnit {
        start_up: small(3) as u32,
        schedules: std::array::from_fn(|_| [small(6) as u32; 12]),
        ..RawUnit::idle()
    };
    out.extend(unit(hour, if small(2) > 0 { b"G" } else { b"H" }, &drawn));
    out
}

/// A file or folder of the repository.
pub fn repository(path: &str) -> PathBuf {
    Path::new(env!("CARGO_MANIFEST_DIR")).join("..").join(path)
}

pub fn text_of(path: &Path) -> String {
    fs::read_to_string(path).unwrap_or_else(|fault| panic!("{}: {fault}", path.display()))
}

/// The sample files with this ending.
pub fn samples(ending: &str) -> Vec<PathBuf> {
    let mut found = Vec::new();
    for folder in ["samples", "samples/refusals"] {
        let files = fs::read_dir(repository(folder)).expect("a folder of samples");
        found.extend(files.map(|file| file.expect("a file").path()));
    }
    found.retain(|path| {
        path.extension()
            .is_some_and(|extension| extension == ending)
    });
    assert!(found.len() > 20, "only {} with .{ending}", found.len());
    found
}
