//! Records as text: back and forth without a loss.

use crate::support::*;
use peer::names;
use peer::records::parse_change_prefix;
use peer::records::raw::{self, RawPairs, RawUnit};
use recordtext::{make, show, Style};

/// Draws records that break no rule.
struct Drawn(Draw);

impl Drawn {
    fn hour(&mut self) -> u8 {
        1 + self.0.below(24) as u8
    }

    fn price(&mut self) -> i32 {
        match self.0.below(4) {
            0 => 3000,
            1 => self.0.pick(&[-200_000, 200_000, 0, -1]),
            _ => self.0.below(400_001) as i32 - 200_000,
        }
    }

    /// Runs of equal numbers and single ones.
    fn twelve<T: Copy>(&mut self, next: impl Fn(&mut Drawn) -> T) -> [T; 12] {
        let mut last = next(self);
        std::array::from_fn(|_| {
            if self.0.once_in(3) {
                last = next(self);
            }
            last
        })
    }

    fn quantities(&mut self, most: u32) -> [u32; 12] {
        self.twelve(|drawn| drawn.0.below(u64::from(most) + 1) as u32)
    }

    /// A list of 1 to 20 pairs.
    fn list(&mut self) -> RawPairs {
        let (mut price, mut quantity) = (-200_000, 0);
        let mut list = RawPairs::new();
        for _ in 0..=self.0.below(20) {
            price += self.0.below(20_001) as i32;
            quantity += 1 + self.0.below(5_000) as u32;
            list.push((price, quantity));
        }
        list
    }

    /// A spelled name, each byte plain or encoded with digits in any case.
    fn spelled(&mut self) -> Vec<u8> {
        let count = 1 + self.0.below(12);
        let mut spelled = Vec::new();
        for _ in 0..count {
            let byte = match self.0.below(3) {
                0 => self.0.pick(b"#\"%/x@"),
                _ => 0x21 + self.0.below(94) as u8,
            };
            match self.0.below(3) {
                0 => spelled.extend(format!("%{byte:02x}").bytes()),
                1 => spelled.extend(format!("%{byte:02X}").bytes()),
                _ if byte == b'%' => spelled.extend(b"%25"),
                _ => spelled.push(byte),
            }
        }
        assert!(names::decode(&spelled).is_ok());
        spelled
    }

    fn unit(&mut self) -> RawUnit {
        let mut unit = RawUnit::idle();
        unit.start_up = self.0.below(100_000_001) as u32;
        unit.no_load = self.0.below(100_000_001) as u32;
        unit.lists[0] = self.list();
        unit.lists[1] = self.list();
        unit.schedules = std::array::from_fn(|_| self.quantities(100_000));
        let most = unit.lists[..2].iter().map(|list| last_quantity(list)).min();
        unit.schedules[0] = self.quantities(most.unwrap_or(0));
        for which in 0..3 {
            unit.reserves[which].0 = self.twelve(Drawn::price);
            if self.0.once_in(2) {
                unit.lists[2 + which] = self.list();
                unit.reserves[which].1 = self.quantities(last_quantity(&unit.lists[2 + which]));
            }
        }
        unit
    }

    fn record(&mut self) -> Vec<u8> {
        let hour = self.hour();
        let spelled = self.spelled();
        let name = name(&spelled);
        match self.0.below(6) {
            0 => raw::price(hour, self.twelve(Drawn::price), self.price()),
            1 => {
                let list = self.list();
                raw::import(hour, &name, self.quantities(last_quantity(&list)), &list)
            }
            2 => raw::export(hour, &name, self.quantities(100_000)),
            3 => raw::unit(hour, &name, &self.unit()),
            other => {
                let quantities = [self.0.below(100_001) as u32, 7];
                let mark = if other == 4 { b"FI" } else { b"FE" };
                raw::failure(mark, hour, &name, quantities, [self.price(), self.price()])
            }
        }
    }

    fn change(&mut self) -> Vec<u8> {
        match self.0.below(10) {
            0 => b"TB".to_vec(),
            1 => b"CL".to_vec(),
            2 => withdraw(b"PR", self.hour(), b""),
            3 => {
                let mark = self.0.pick(&[b"IM", b"EX", b"GH", b"FI", b"FE"]);
                withdraw(mark, self.hour(), &self.spelled())
            }
            4 | 5 => correct(&self.record()),
            _ => self.record(),
        }
    }
}

fn last_quantity(list: &[(i32, u32)]) -> u32 {
    list.last().map_or(0, |pair| pair.1)
}

/// The text of bytes that break no rule.
fn shown(bytes: &[u8]) -> String {
    let shown = show(bytes, Style::default());
    assert_eq!(shown.refused, None);
    shown.text
}

#[test]
fn made_from_what_is_shown_the_bytes_are_the_same() {
    let mut drawn = Drawn(Draw::new(11));
    for _ in 0..4000 {
        let bytes = drawn.change();
        for units in [false, true] {
            let style = Style {
                units,
                ..Style::default()
            };
            let text = show(&bytes, style).text;
            assert_eq!(make(&text).as_ref(), Ok(&bytes), "{text}");
        }
    }
}

#[test]
fn so_they_are_for_records_back_to_back_with_headings() {
    let mut drawn = Drawn(Draw::new(12));
    for _ in 0..100 {
        let bytes: Vec<u8> = (0..30).flat_map(|_| drawn.change()).collect();
        assert_eq!(make(shown(&bytes)).as_ref(), Ok(&bytes));
        let headed = show(
            &bytes,
            Style {
                headings: true,
                ..Style::default()
            },
        );
        assert_eq!(headed.text.matches("# record ").count(), 30);
        assert_eq!(make(&headed.text).as_ref(), Ok(&bytes));
        assert_eq!(shown(&make(&headed.text).unwrap()), shown(&bytes));
    }
}

/// What stands before a damaged record is shown; the damage has its number
/// and its place.
#[test]
fn a_damaged_record_is_told_with_its_number_and_place() {
    let mut drawn = Drawn(Draw::new(13));
    let mut seen = [0; 17];
    for _ in 0..4000 {
        let before = drawn.change();
        let mut damaged = drawn.change();
        let place = drawn.0.below(damaged.len() as u64) as usize;
        match drawn.0.below(3) {
            0 => damaged.truncate(place.max(1)),
            1 => damaged[place] = drawn.0.below(256) as u8,
            _ => damaged[place.min(5)] ^= 1 << drawn.0.below(8),
        }
        let Err(refusal) = parse_change_prefix(&damaged) else {
            continue;
        };
        let shown = show(&[&before[..], &damaged].concat(), Style::default());
        let refused = shown.refused.expect("a refusal");
        assert_eq!(make(&shown.text).as_ref(), Ok(&before));
        assert_eq!((refused.ordinal, refused.start), (2, before.len()));
        let at = refused.at.expect("a place");
        assert!((before.len()..=before.len() + damaged.len()).contains(&at));
        assert_eq!(refused.refusal, refusal);
        seen[refusal.number() as usize] += 1;
    }
    assert!(seen[1..=7].iter().all(|&times| times > 0), "{seen:?}");
    assert_eq!(seen[8..], [0; 9]);
}
