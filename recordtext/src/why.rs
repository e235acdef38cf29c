//! Why a record can't be read: the field, its value and the rule.
//!
//! A walk over the bytes by the table of [`layout`], with the checks in the
//! order of reading. The rules are the peer's own.

use crate::layout::{self, Kind};
use crate::units::Unit;
use peer::money::offer::{check_count, Offer, PAIRS_MOST};
use peer::names::{self, DECODED_MOST, SPELLED_MOST, VISIBLE};
use peer::records::Mark;
use peer::refusal::Refusal;
use peer::units::{Hour, Price, Quantity};

/// The first fault of a record.
#[derive(Clone, Debug, PartialEq, Eq)]
pub struct Fault {
    /// The rule.
    pub refusal: Refusal,
    /// Field, value and rule in words.
    pub why: String,
    /// The first byte of what is wrong, counted from the record's first.
    pub at: usize,
}

/// What can be said of the record that some bytes start with.
pub struct Look {
    /// Change, mark, hour and name, as far as they can be read.
    pub head: String,
    /// The first fault; none if the record can be read.
    pub fault: Option<Fault>,
}

/// Looks at the record that the bytes start with.
pub fn look(bytes: &[u8]) -> Look {
    let mut walk = Walk {
        bytes,
        at: 0,
        head: Vec::new(),
        numbers: Vec::new(),
        lists: Vec::new(),
    };
    let fault = walk.change().err();
    Look {
        head: walk.head.join(" "),
        fault,
    }
}

/// A name as it stands in text, between quotes where it would be misread.
pub fn quoted(spelled: &[u8]) -> String {
    let spelled = String::from_utf8_lossy(spelled);
    if spelled.starts_with(['#', '"']) {
        format!("\"{spelled}\"")
    } else {
        spelled.into_owned()
    }
}

type Walked<Found = ()> = Result<Found, Fault>;

/// A place in the bytes that moves on with each field.
struct Walk<'a> {
    bytes: &'a [u8],
    at: usize,
    head: Vec<String>,
    /// The numbers of each field, and the first byte of the first.
    numbers: Vec<(&'static str, usize, Vec<i64>)>,
    /// The last quantity of each list that has pairs.
    lists: Vec<(&'static str, i64)>,
}

impl<'a> Walk<'a> {
    fn change(&mut self) -> Walked {
        let mark = self.take(2, "mark")?;
        match mark {
            b"TB" | b"CL" => {
                self.say_mark(mark);
                Ok(())
            }
            b"CO" | b"WD" => {
                self.say_mark(mark);
                let outer = String::from_utf8_lossy(mark);
                let place = format!("mark behind {outer}");
                let inner = self.take(2, &place)?;
                let inner = self.known_mark(inner, &place, layout::SIX)?;
                if mark == b"CO" {
                    self.filed(inner)
                } else {
                    self.withdrawn(inner)
                }
            }
            mark => {
                let mark = self.known_mark(mark, "mark", layout::TEN)?;
                self.filed(mark)
            }
        }
    }

    /// Mark, hour and name.
    fn withdrawn(&mut self, mark: Mark) -> Walked {
        self.hour()?;
        if layout::is_named(mark) {
            return self.name();
        }
        match self.byte("name, length")? {
            0 => Ok(()),
            length => {
                let why = format!(
                    "name, length: {length}, but a withdrawal of PR has no name, so the length is 0"
                );
                self.fault(Refusal::NameFault, why, self.at - 1)
            }
        }
    }

    /// The fields of a record, then the schedules against their lists.
    fn filed(&mut self, mark: Mark) -> Walked {
        self.hour()?;
        if layout::is_named(mark) {
            self.name()?;
        }
        for field in layout::fields(mark) {
            match field.kind {
                Kind::Numbers(unit, count) => self.numbers(field.word, unit, count)?,
                Kind::List => self.list(field.word)?,
            }
        }
        let mut bounds = layout::bounds(mark).iter();
        bounds.try_for_each(|&(schedule, list)| self.within(schedule, list))
    }

    fn known_mark(&mut self, mark: &[u8], place: &str, known: &str) -> Walked<Mark> {
        if let Some(mark) = Mark::of_bytes(mark) {
            self.say_mark(&mark.bytes());
            return Ok(mark);
        }
        let mut told = format!("{:02X} {:02X}", mark[0], mark[1]);
        if mark.iter().all(|byte| VISIBLE.contains(byte)) {
            told += &format!(" ('{}')", String::from_utf8_lossy(mark));
        }
        let why = format!("{place}: {told} is none of {known}");
        self.fault(Refusal::MarkUnknown, why, self.at - 2)
    }

    fn hour(&mut self) -> Walked {
        let hour = self.byte("hour")?;
        if let Err(refusal) = Hour::new(u32::from(hour)) {
            let why = format!("hour: {hour} is not 1 to {}", Hour::COUNT);
            return self.fault(refusal, why, self.at - 1);
        }
        self.head.push(hour.to_string());
        Ok(())
    }

    fn name(&mut self) -> Walked {
        let length = usize::from(self.byte("name, length")?);
        if !(1..=SPELLED_MOST).contains(&length) {
            let why = format!("name, length: {length} is not 1 to {SPELLED_MOST}");
            return self.fault(Refusal::NameFault, why, self.at - 1);
        }
        let start = self.at;
        let spelled = self.take(length, "name")?;
        if let Err(refusal) = names::decode(spelled) {
            let (place, why) = name_fault(spelled);
            return self.fault(refusal, why, start + place);
        }
        self.head.push(quoted(spelled));
        Ok(())
    }

    fn numbers(&mut self, word: &'static str, unit: Unit, count: usize) -> Walked {
        let start = self.at;
        let mut numbers = Vec::with_capacity(count);
        for place in 1..=count {
            let place = match count {
                1 => word.to_string(),
                _ => format!("{word}, number {place} of {count}"),
            };
            numbers.push(self.number(unit, &place, ": ")?);
        }
        self.numbers.push((word, start, numbers));
        Ok(())
    }

    /// One number; what joins place and value stands between them.
    fn number(&mut self, unit: Unit, place: &str, join: &str) -> Walked<i64> {
        let bytes = self.take(4, place)?;
        let number = unit.number([bytes[0], bytes[1], bytes[2], bytes[3]]);
        match unit.fault(number) {
            None => Ok(number),
            Some(fault) => {
                let why = format!("{place}{join}{fault}");
                self.fault(Refusal::NumberOutside, why, self.at - 4)
            }
        }
    }

    fn list(&mut self, word: &'static str) -> Walked {
        let count = usize::from(self.byte(&format!("{word}, count"))?);
        if count == 0 && self.may_be_empty(word)? {
            return Ok(());
        }
        if let Err(refusal) = check_count(count) {
            let why = format!("{word}, count: {count} is not 1 to {PAIRS_MOST}");
            return self.fault(refusal, why, self.at - 1);
        }
        let start = self.at;
        let mut pairs = Vec::with_capacity(count);
        for place in 1..=count {
            let pair = format!("{word}, pair {place} of {count}");
            let price = self.number(Unit::Price, &format!("{pair}: price"), " ")?;
            let quantity = self.number(Unit::Quantity, &format!("{pair}: quantity"), " ")?;
            pairs.push((price, quantity));
        }
        self.lists.push((word, pairs[count - 1].1));
        match misplaced(&pairs) {
            None => Ok(()),
            Some((place, fault)) => {
                let why = format!("{word}, pair {} of {count}: {fault}", place + 1);
                self.fault(Refusal::ListFault, why, start + 8 * place)
            }
        }
    }

    /// Whether a list may have no pairs: a reserve's, where nothing is
    /// scheduled.
    fn may_be_empty(&mut self, list: &str) -> Walked<bool> {
        let Some(schedule) = layout::reserve_schedule(list) else {
            return Ok(false);
        };
        let (_, numbers) = self.read(schedule);
        match numbers.iter().position(|&quantity| quantity > 0) {
            None => Ok(true),
            Some(place) => {
                let quantity = numbers[place];
                let interval = place + 1;
                let why = format!(
                    "{list}: the list is empty, but {schedule}, interval {interval}, is {quantity}"
                );
                self.fault(Refusal::ListFault, why, self.at - 1)
            }
        }
    }

    /// Each interval of a schedule against the last quantity of a list; one
    /// without pairs has been checked with its count.
    fn within(&self, schedule: &str, list: &str) -> Walked {
        let Some(&(_, last)) = self.lists.iter().find(|found| found.0 == list) else {
            return Ok(());
        };
        let (start, numbers) = self.read(schedule);
        match numbers.iter().position(|&quantity| quantity > last) {
            None => Ok(()),
            Some(place) => {
                let (interval, quantity) = (place + 1, numbers[place]);
                let why = format!(
                    "{schedule}, interval {interval}: {quantity} is beyond the {list}'s last quantity {last}"
                );
                self.fault(Refusal::BeyondList, why, start + 4 * place)
            }
        }
    }

    /// The numbers of a field that was read, and where they start.
    fn read(&self, word: &str) -> (usize, &[i64]) {
        let found = self.numbers.iter().find(|field| field.0 == word);
        found.map_or((0, &[]), |(_, start, numbers)| (*start, numbers))
    }

    fn say_mark(&mut self, mark: &[u8]) {
        self.head.push(String::from_utf8_lossy(mark).into_owned());
    }

    fn byte(&mut self, place: &str) -> Walked<u8> {
        self.take(1, place).map(|one| one[0])
    }

    fn take(&mut self, count: usize, place: &str) -> Walked<&'a [u8]> {
        let rest = &self.bytes[self.at..];
        let Some(taken) = rest.get(..count) else {
            let why = format!("{place}: {}", missing(rest, count));
            return self.fault(Refusal::EndsEarly, why, self.bytes.len());
        };
        self.at += count;
        Ok(taken)
    }

    fn fault<Found>(&self, refusal: Refusal, why: String, at: usize) -> Walked<Found> {
        Err(Fault { refusal, why, at })
    }
}

/// How many bytes of a field are missing behind those that are there.
fn missing(there: &[u8], count: usize) -> String {
    let missing = count - there.len();
    let verb = if missing == 1 { "is" } else { "are" };
    match (there, count) {
        (_, 1) => "the byte is missing".to_string(),
        ([], 2) => "both bytes are missing".to_string(),
        ([], _) => format!("all {count} bytes are missing"),
        // A line end behind the last record, mostly.
        (&[one], 2) => format!("1 of 2 bytes is missing behind {one:02X}"),
        _ => format!("{missing} of {count} bytes {verb} missing"),
    }
}

/// What is wrong with a spelled name, and at which of its bytes.
fn name_fault(spelled: &[u8]) -> (usize, String) {
    let (least, most) = (VISIBLE.start(), VISIBLE.end());
    let outside = format!("outside 0x{least:02X} to 0x{most:02X}");
    let name = format!("name '{}'", spelled.escape_ascii());
    let (mut at, mut decoded) = (0, 0);
    while at < spelled.len() {
        let place = format!("{name}, byte {} of {}", at + 1, spelled.len());
        match names::decode_byte(&spelled[at..]) {
            Err(_) if spelled[at] == b'%' => {
                return (at, format!("{place}: % without two hex digits behind it"));
            }
            Err(_) => return (at, format!("{place}: 0x{:02X} is {outside}", spelled[at])),
            Ok((byte, taken)) if !VISIBLE.contains(&byte) => {
                let spelling = String::from_utf8_lossy(&spelled[at..at + taken]);
                return (
                    at,
                    format!("{place}: {spelling} spells 0x{byte:02X}, {outside}"),
                );
            }
            Ok((_, taken)) => at += taken,
        }
        decoded += 1;
    }
    (
        0,
        format!("{name}: {decoded} bytes when decoded, above {DECODED_MOST}"),
    )
}

/// The first pair that breaks the order, counted from 0, and how.
fn misplaced(pairs: &[(i64, i64)]) -> Option<(usize, String)> {
    let units = |&(price, quantity): &(i64, i64)| {
        let price = Price::new(i32::try_from(price).ok()?).ok()?;
        Some((price, Quantity::new(u32::try_from(quantity).ok()?).ok()?))
    };
    let checked: Vec<(Price, Quantity)> = pairs.iter().filter_map(units).collect();
    let place = (0..checked.len()).find(|&place| Offer::new(&checked[..=place]).is_err())?;
    let (price, quantity) = pairs[place];
    let Some(before) = place.checked_sub(1).map(|before| pairs[before]) else {
        return Some((place, format!("quantity {quantity} is not above 0")));
    };
    let fault = if price < before.0 {
        format!("price {price} is below {} of the pair before", before.0)
    } else {
        format!(
            "quantity {quantity} is not above {} of the pair before",
            before.1
        )
    };
    Some((place, fault))
}
