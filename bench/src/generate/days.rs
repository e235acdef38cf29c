//! Random books that have amounts to ask for: a traded hour, a unit's day.

use crate::call::{Ask, Call, Lent, List, Start, Way};
use crate::draw::Draw;
use crate::generate::books::{self, Style, DAY, TRADE, UNITS};
use crate::generate::forms::Form;
use crate::generate::{money, names};
use peer::records::raw;
use peer::register::{Register, LENT_MOST};

/// A list that begins with an hour, its prices and up to 16 imports and
/// exports.
pub fn traded_hour(draw: &mut Draw) -> List {
    let (hour, records) = money::traded_hour(draw);
    let style = Style {
        hours: &DAY[usize::from(hour) - 1..usize::from(hour)],
        ..style(&TRADE)
    };
    let hour = u32::from(hour);
    asked_around(draw, style, records, Ask::Guarantees { hour })
}

/// A list that begins with a unit in some hours or all, most of them with their
/// prices.
pub fn unit_day(draw: &mut Draw) -> List {
    let decoded = draw.pick(&names::POOL);
    let name = names::spell(draw, decoded);
    let mut hours = DAY;
    draw.shuffle(&mut hours);
    let most = draw.pick(&[1, 2, 5, 24, 24]);
    let unpriced = draw.once_in(6);
    let mut records = Vec::new();
    for (place, &hour) in hours[..most].iter().enumerate() {
        let form = Form::valid(draw, *b"GH", hour, &name);
        if place > 0 || !unpriced {
            records.push(money::prices_at(draw, hour, &form));
        }
        records.push(form.bytes());
    }
    asked_around(draw, style(&UNITS), records, Ask::UnitDay { name })
}

fn style(marks: &'static [[u8; 2]]) -> Style {
    Style {
        room: LENT_MOST,
        names: 24,
        marks,
        hours: &DAY,
        calls: 20,
        priced: false,
        steady: false,
    }
}

/// Files the records in any order and some again behind `CO`; the question comes
/// after these, and last.
fn asked_around(draw: &mut Draw, style: Style, mut records: Vec<Vec<u8>>, ask: Ask) -> List {
    draw.shuffle(&mut records);
    let again = records.iter().filter(|_| draw.once_in(8));
    let again: Vec<Vec<u8>> = again.map(|record| raw::correct(record)).collect();
    records.extend(again);
    let mut register = Register::new();
    let mut calls = Vec::new();
    for record in records {
        // A refusal leaves the register as it was.
        let _ = register.change(style.room, &record);
        let way = Way::Any;
        calls.push(Call::Book(Lent::Whole, Ask::Change { way, record }));
    }
    let asked = Call::Book(Lent::Whole, ask);
    calls.push(asked.clone());
    calls.extend(books::story(draw, style, register));
    calls.push(asked);
    let start = Start::Fresh(style.room);
    List { start, calls }
}

#[cfg(test)]
mod tests {
    use super::*;

    /// The register that answers a list's first question.
    fn asked_first(list: &List) -> (Register, &Ask) {
        let mut register = Register::new();
        for call in &list.calls {
            match call {
                Call::Book(_, Ask::Change { record, .. }) => {
                    register.change(LENT_MOST, record).expect("accepted");
                }
                Call::Book(_, ask) => return (register, ask),
                Call::Alone(_) => break,
            }
        }
        panic!("no question");
    }

    #[test]
    fn some_hour_has_sixteen_imports() {
        let mut draw = Draw::new(3);
        let most = (0..40).map(|_| {
            let list = traded_hour(&mut draw);
            let (register, Ask::Guarantees { hour }) = asked_first(&list) else {
                panic!("guarantees first");
            };
            let guarantees = register.guarantees(LENT_MOST, *hour);
            guarantees.map_or(0, |all| all.credits.len())
        });
        assert_eq!(most.max(), Some(16));
    }

    #[test]
    fn most_days_have_their_prices() {
        let mut draw = Draw::new(3);
        let answered = (0..40).filter(|_| {
            let list = unit_day(&mut draw);
            let (register, Ask::UnitDay { name }) = asked_first(&list) else {
                panic!("a unit's day first");
            };
            register.unit_day(LENT_MOST, name).is_ok()
        });
        assert!(answered.count() > 20);
    }
}
