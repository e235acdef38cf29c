//! Reading. "Fields are read left to right, each checked when complete, a
//! name's length byte and a list's count by themselves, a list's order after
//! its last pair, then 7, 8".

use super::{
    Change, ExportRecord, FailureRecord, ImportRecord, Key, Mark, Method, PriceRecord, Record,
    UnitRecord,
};
use crate::money::failure::Failure;
use crate::money::intertie::ImportSchedule;
use crate::money::offer::{check_count, Offer, PAIRS_MOST};
use crate::money::production::{Reserve, UnitHour, RESERVES};
use crate::names::{self, Name};
use crate::refusal::Refusal;
use crate::units::{Cents, Hour, Price, Quantity, INTERVALS};

/// Reads one change of any mark; the bytes must end with it, else 8.
pub fn parse_change(bytes: &[u8]) -> Result<Change, Refusal> {
    let mut reader = Reader::new(bytes);
    let method = reader.method()?;
    reader.whole(method)
}

/// Reads the change that the bytes start with and says where it ends.
pub fn parse_change_prefix(bytes: &[u8]) -> Result<(Change, usize), Refusal> {
    let mut reader = Reader::new(bytes);
    let found = reader.method()?;
    let change = reader.body(found)?;
    Ok((change, reader.at))
}

/// Reads one change for a method; another method's mark gives 2 "at the place
/// of the mark's check", and the bytes must end with the change, else 8.
pub fn parse_for(method: Method, bytes: &[u8]) -> Result<Change, Refusal> {
    let mut reader = Reader::new(bytes);
    let found = reader.method()?;
    if found.method() != method {
        return Err(Refusal::MarkUnknown);
    }
    reader.whole(found)
}

/// Reads the record of one of the six marks that the bytes start with and
/// says where it ends.
pub fn parse_record_prefix(bytes: &[u8]) -> Result<(Record, usize), Refusal> {
    let mut reader = Reader::new(bytes);
    let mark = reader.mark_of_the_six()?;
    let record = reader.record(mark)?;
    Ok((record, reader.at))
}

/// Reads the `PR`, `IM` or `EX` record that the bytes start with, "another
/// mark gives 2, another hour than the first record's 3", both at the place of
/// that field's check.
pub fn parse_hour_record(
    bytes: &[u8],
    required_hour: Option<Hour>,
) -> Result<(Record, usize), Refusal> {
    let mut reader = Reader::new(bytes);
    reader.required_hour = required_hour;
    let mark = reader.mark_of_the_six()?;
    if !matches!(mark, Mark::Price | Mark::Import | Mark::Export) {
        return Err(Refusal::MarkUnknown);
    }
    let record = reader.record(mark)?;
    Ok((record, reader.at))
}

/// Reads the change that the bytes start with, none unless it is byte for
/// byte what writing gives. Names are the only field with several spellings.
pub fn parse_canonical_prefix(bytes: &[u8]) -> Option<(Change, usize)> {
    let mut reader = Reader::new(bytes);
    let method = reader.method().ok()?;
    let change = reader.body(method).ok()?;
    reader.canonical.then_some((change, reader.at))
}

/// What the first two bytes call for.
#[derive(Clone, Copy)]
enum Found {
    File(Mark),
    Correct,
    Withdraw,
    TakeBack,
    Close,
}

impl Found {
    fn method(self) -> Method {
        match self {
            Found::File(_) => Method::File,
            Found::Correct => Method::Correct,
            Found::Withdraw => Method::Withdraw,
            Found::TakeBack => Method::TakeBack,
            Found::Close => Method::Close,
        }
    }
}

/// A place in the bytes that moves on with each field.
struct Reader<'a> {
    bytes: &'a [u8],
    at: usize,
    required_hour: Option<Hour>,
    canonical: bool,
}

impl<'a> Reader<'a> {
    fn new(bytes: &'a [u8]) -> Reader<'a> {
        Reader {
            bytes,
            at: 0,
            required_hour: None,
            canonical: true,
        }
    }

    /// The change, then 8 if bytes are left.
    fn whole(mut self, found: Found) -> Result<Change, Refusal> {
        let change = self.body(found)?;
        if self.at == self.bytes.len() {
            Ok(change)
        } else {
            Err(Refusal::BytesLeftOver)
        }
    }

    /// What follows the first mark.
    fn body(&mut self, found: Found) -> Result<Change, Refusal> {
        match found {
            Found::File(mark) => self.record(mark).map(Change::File),
            Found::Correct => {
                let mark = self.mark_of_the_six()?;
                self.record(mark).map(Change::Correct)
            }
            Found::Withdraw => self.withdrawn_key().map(Change::Withdraw),
            Found::TakeBack => Ok(Change::TakeBack),
            Found::Close => Ok(Change::Close),
        }
    }

    /// "`WD`: mark of one of the six, hour, name (for `PR` the length byte 0;
    /// another there, or 0 elsewhere, gives 4)."
    fn withdrawn_key(&mut self) -> Result<Key, Refusal> {
        let mark = self.mark_of_the_six()?;
        let hour = self.hour()?;
        if mark != Mark::Price {
            return Ok(Key::named(mark, hour, self.name()?));
        }
        match self.byte()? {
            0 => Ok(Key::price(hour)),
            _ => Err(Refusal::NameFault),
        }
    }

    /// The fields of a record, then 7.
    fn record(&mut self, mark: Mark) -> Result<Record, Refusal> {
        match mark {
            Mark::Price => self.price_record().map(Record::Price),
            Mark::Import => self.import_record().map(Record::Import),
            Mark::Export => self.export_record().map(Record::Export),
            Mark::Unit => self.unit_record().map(Record::Unit),
            Mark::ImportFailure => self.failure_record().map(Record::ImportFailure),
            Mark::ExportFailure => self.failure_record().map(Record::ExportFailure),
        }
    }

    fn price_record(&mut self) -> Result<PriceRecord, Refusal> {
        Ok(PriceRecord {
            hour: self.hour()?,
            energy: self.twelve(Self::price)?,
            pre_dispatch: self.price()?,
        })
    }

    fn import_record(&mut self) -> Result<ImportRecord, Refusal> {
        let record = ImportRecord {
            hour: self.hour()?,
            name: self.name()?,
            schedule: ImportSchedule {
                quantities: self.twelve(Self::quantity)?,
                offer: self.offer()?,
            },
        };
        record.schedule.check_within_list()?;
        Ok(record)
    }

    fn export_record(&mut self) -> Result<ExportRecord, Refusal> {
        Ok(ExportRecord {
            hour: self.hour()?,
            name: self.name()?,
            quantities: self.twelve(Self::quantity)?,
        })
    }

    fn unit_record(&mut self) -> Result<Box<UnitRecord>, Refusal> {
        let record = Box::new(UnitRecord {
            hour: self.hour()?,
            name: self.name()?,
            unit: self.unit_hour()?,
        });
        record.unit.check_within_lists()?;
        Ok(record)
    }

    fn unit_hour(&mut self) -> Result<UnitHour, Refusal> {
        let start_up = self.cents()?;
        let no_load = self.cents()?;
        let day_ahead = self.twelve(Self::quantity)?;
        let real_time = self.twelve(Self::quantity)?;
        let unconstrained = self.twelve(Self::quantity)?;
        let metered = self.twelve(Self::quantity)?;
        let capacity = self.twelve(Self::quantity)?;
        let mut reserves = self.reserve_schedules()?;
        let day_ahead_offer = self.offer()?;
        let real_time_offer = self.offer()?;
        for reserve in &mut reserves {
            reserve.offer = self.reserve_offer(&reserve.schedules)?;
        }
        Ok(UnitHour {
            start_up,
            no_load,
            day_ahead,
            real_time,
            unconstrained,
            metered,
            capacity,
            reserves,
            day_ahead_offer,
            real_time_offer,
        })
    }

    /// "for each of the three reserves, in C4's order, 12 prices and 12
    /// schedules"; their lists come later.
    fn reserve_schedules(&mut self) -> Result<[Reserve; RESERVES], Refusal> {
        let mut next = || {
            Ok(Reserve {
                prices: self.twelve(Self::price)?,
                schedules: self.twelve(Self::quantity)?,
                offer: None,
            })
        };
        Ok([next()?, next()?, next()?])
    }

    fn failure_record(&mut self) -> Result<FailureRecord, Refusal> {
        Ok(FailureRecord {
            hour: self.hour()?,
            name: self.name()?,
            failure: Failure {
                day_ahead: self.quantity()?,
                pre_dispatch: self.quantity()?,
                day_ahead_price: self.price()?,
                pre_dispatch_price: self.price()?,
            },
        })
    }

    /// The first mark of a change.
    fn method(&mut self) -> Result<Found, Refusal> {
        match self.two()? {
            b"CO" => Ok(Found::Correct),
            b"WD" => Ok(Found::Withdraw),
            b"TB" => Ok(Found::TakeBack),
            b"CL" => Ok(Found::Close),
            bytes => {
                let mark = Mark::of_bytes(bytes).ok_or(Refusal::MarkUnknown)?;
                Ok(Found::File(mark))
            }
        }
    }

    /// A mark where only the six are allowed.
    fn mark_of_the_six(&mut self) -> Result<Mark, Refusal> {
        Mark::of_bytes(self.two()?).ok_or(Refusal::MarkUnknown)
    }

    fn hour(&mut self) -> Result<Hour, Refusal> {
        let hour = Hour::new(u32::from(self.byte()?))?;
        match self.required_hour {
            Some(required) if required != hour => Err(Refusal::HourOutside),
            _ => Ok(hour),
        }
    }

    /// "a length byte 1 to 36, then that many bytes". The length is checked by
    /// itself, the bytes once all are there.
    fn name(&mut self) -> Result<Name, Refusal> {
        let len = usize::from(self.byte()?);
        if !(1..=names::SPELLED_MOST).contains(&len) {
            return Err(Refusal::NameFault);
        }
        let spelled = self.take(len)?;
        let name = names::decode(spelled)?;
        self.canonical &= name.is_spelled(spelled);
        Ok(name)
    }

    /// "List: count byte, then (i32 price, u32 quantity) pairs."
    fn offer(&mut self) -> Result<Offer, Refusal> {
        let count = usize::from(self.byte()?);
        self.pairs(count)
    }

    /// "A reserve list may be empty if its schedules are all 0, else count 0
    /// gives 6."
    fn reserve_offer(
        &mut self,
        schedules: &[Quantity; INTERVALS],
    ) -> Result<Option<Offer>, Refusal> {
        match usize::from(self.byte()?) {
            0 if Reserve::may_be_unoffered(schedules) => Ok(None),
            count => self.pairs(count).map(Some),
        }
    }

    /// The pairs behind a count, which is checked first.
    fn pairs(&mut self, count: usize) -> Result<Offer, Refusal> {
        check_count(count)?;
        let mut pairs = [(Price::default(), Quantity::ZERO); PAIRS_MOST];
        for pair in &mut pairs[..count] {
            *pair = (self.price()?, self.quantity()?);
        }
        Offer::new(&pairs[..count])
    }

    fn twelve<Unit: Copy + Default>(
        &mut self,
        next: impl Fn(&mut Self) -> Result<Unit, Refusal>,
    ) -> Result<[Unit; INTERVALS], Refusal> {
        let mut numbers = [Unit::default(); INTERVALS];
        for number in &mut numbers {
            *number = next(self)?;
        }
        Ok(numbers)
    }

    fn price(&mut self) -> Result<Price, Refusal> {
        Price::new(i32::from_le_bytes(self.four()?))
    }

    fn quantity(&mut self) -> Result<Quantity, Refusal> {
        Quantity::new(u32::from_le_bytes(self.four()?))
    }

    fn cents(&mut self) -> Result<Cents, Refusal> {
        Cents::new(u32::from_le_bytes(self.four()?))
    }

    fn byte(&mut self) -> Result<u8, Refusal> {
        self.take(1).map(|one| one[0])
    }

    fn two(&mut self) -> Result<&'a [u8; 2], Refusal> {
        self.fixed()
    }

    fn four(&mut self) -> Result<[u8; 4], Refusal> {
        self.fixed().copied()
    }

    fn fixed<const N: usize>(&mut self) -> Result<&'a [u8; N], Refusal> {
        let rest = &self.bytes[self.at..];
        let taken = rest.first_chunk().ok_or(Refusal::EndsEarly)?;
        self.at += N;
        Ok(taken)
    }

    fn take(&mut self, count: usize) -> Result<&'a [u8], Refusal> {
        let rest = &self.bytes[self.at..];
        let taken = rest.get(..count).ok_or(Refusal::EndsEarly)?;
        self.at += count;
        Ok(taken)
    }
}
