//! Random lists of calls on a book from fresh, or from a reachable one.

use crate::bridge::State;
use crate::call::{Ask, Call, Kind, Lent, List, Start, Way};
use crate::draw::Draw;
use crate::generate::changes::{self, KeyBytes};
use crate::generate::forms::{self, MarkBytes};
use crate::generate::{days, names};
use crate::peer_side::read;
use peer::questions::Standing;
use peer::records::{Change, Key};
use peer::register::{Register, LENT_MOST, LISTED_MOST};

/// What a list of calls prefers.
#[derive(Clone, Copy, Debug)]
pub struct Style {
    /// Bytes there are.
    pub room: usize,
    /// How many names are used.
    pub names: usize,
    /// Marks that are filed.
    pub marks: &'static [MarkBytes],
    /// Hours that are filed in.
    pub hours: &'static [u8],
    /// Calls of the list.
    pub calls: usize,
    /// Whether each hour's prices are filed first.
    pub priced: bool,
    /// Whether most changes are accepted and none closes the book.
    pub steady: bool,
}

const SMALL: [MarkBytes; 2] = [*b"FI", *b"FE"];
/// What an hour trades.
pub const TRADE: [MarkBytes; 4] = [*b"IM", *b"IM", *b"EX", *b"PR"];
/// What a unit's day needs.
pub const UNITS: [MarkBytes; 4] = [*b"GH", *b"GH", *b"GH", *b"PR"];
const CHARGED: [MarkBytes; 3] = [*b"FI", *b"FE", *b"PR"];

/// Every hour of the day.
pub static DAY: [u8; 24] = [
    1, 2, 3, 4, 5, 6, 7, 8, 9, 10, 11, 12, 13, 14, 15, 16, 17, 18, 19, 20, 21, 22, 23, 24,
];

/// Comes now and then: 512 listed from fresh.
pub const LONG: Style = Style {
    room: LENT_MOST,
    names: 12,
    marks: &SMALL,
    hours: &[1, 2, 3, 4, 5, 6, 7, 24],
    calls: 1300,
    priced: false,
    steady: true,
};

fn style(draw: &mut Draw) -> Style {
    let marks: &'static [MarkBytes] = match draw.below(6) {
        0 => &SMALL,
        1 => &TRADE,
        2 => &UNITS,
        3 => &CHARGED,
        _ => &forms::MARKS,
    };
    let hours: &'static [u8] = match draw.below(7) {
        0..=2 => &[7],
        3 | 4 => &[1, 1, 1, 2, 24],
        5 => &[1, 2, 3, 12, 23, 24],
        _ => &DAY,
    };
    let rooms = [
        0, 54, 55, 56, 300, 2000, 9000, 9000, 20_000, 20_000, LENT_MOST, 70_000,
    ];
    Style {
        room: draw.pick(&rooms),
        names: draw.pick(&[2, 6, 20, 24]),
        marks,
        hours,
        calls: 40 + draw.below(80),
        priced: draw.once_in(2),
        steady: false,
    }
}

/// A random list.
pub fn list(draw: &mut Draw) -> List {
    match draw.below(400) {
        0 => from_fresh(draw, LONG),
        1..=16 => from_full(draw),
        17..=100 => from_crowded(draw),
        101..=125 => days::traded_hour(draw),
        126..=150 => days::unit_day(draw),
        _ => {
            let style = style(draw);
            from_fresh(draw, style)
        }
    }
}

fn from_fresh(draw: &mut Draw, style: Style) -> List {
    let start = Start::Fresh(style.room);
    let calls = story(draw, style, Register::new());
    List { start, calls }
}

/// From a book with 512 changes, or a few less.
fn from_full(draw: &mut Draw) -> List {
    let style = Style {
        calls: 30,
        steady: false,
        ..LONG
    };
    let listed = LISTED_MOST - draw.pick(&[0, 0, 1, 5]);
    let register = filled(draw, style, listed);
    from_register(draw, style, register)
}

/// From a book whose one hour holds as many of a mark as it may.
fn from_crowded(draw: &mut Draw) -> List {
    let style = crowded(draw);
    let register = filled(draw, style, 26);
    from_register(draw, style, register)
}

/// One hour and one mark.
pub fn crowded(draw: &mut Draw) -> Style {
    Style {
        room: draw.pick(&[20_000, LENT_MOST]),
        names: 24,
        hours: &[7],
        calls: 30,
        marks: match draw.below(4) {
            0 => &forms::MARKS[3..4],
            1 => &forms::MARKS[1..2],
            2 => &forms::MARKS[2..3],
            _ => &SMALL,
        },
        priced: false,
        steady: false,
    }
}

fn from_register(draw: &mut Draw, style: Style, register: Register) -> List {
    let start = given(&register, style.room);
    let calls = story(draw, style, register);
    List { start, calls }
}

/// Calls on the book of a register.
pub fn story(draw: &mut Draw, style: Style, register: Register) -> Vec<Call> {
    Story::new(draw, style, register).calls()
}

/// The book and bytes of a register.
pub fn given(register: &Register, room: usize) -> Start {
    let mut bytes = register.written();
    bytes.resize(room.max(bytes.len()), 0xA5);
    let state = State {
        changes: register.list().len() as u16,
        used: register.used() as u32,
        closed: register.is_closed(),
    };
    Start::Given(state, bytes)
}

/// A register of so many accepted changes, or of as many as a few more tries
/// give.
pub fn filled(draw: &mut Draw, style: Style, listed: usize) -> Register {
    let mut story = Story::new(draw, style, Register::new());
    for _ in 0..listed * 2 + 20 {
        if story.register.list().len() == listed {
            break;
        }
        let method = match story.draw.below(8) {
            0 => Way::Correct,
            1 => Way::Withdraw,
            _ => Way::File,
        };
        let record = story.good(method);
        // A refusal leaves the register as it was.
        let _ = story.register.change(style.room, &record);
    }
    story.register
}

/// A list of calls in the making, with the register that it leads to.
pub struct Story<'a> {
    /// The generator.
    pub draw: &'a mut Draw,
    style: Style,
    /// What the calls so far lead to.
    pub register: Register,
}

impl Story<'_> {
    /// A story from a register on.
    pub fn new(draw: &mut Draw, style: Style, register: Register) -> Story<'_> {
        Story {
            draw,
            style,
            register,
        }
    }

    fn calls(mut self) -> Vec<Call> {
        let mut calls = Vec::with_capacity(self.style.calls);
        if self.style.priced {
            for record in self.prices() {
                calls.push(self.filing(record));
            }
        }
        let mut after_closing = 0;
        while calls.len() < self.style.calls && after_closing < 14 {
            let (lent, ask) = match self.draw.below(10) {
                0..=6 => self.change(),
                _ => self.question(),
            };
            self.follow(lent, &ask);
            calls.push(Call::Book(lent, ask));
            after_closing += usize::from(self.register.is_closed());
        }
        calls
    }

    /// The prices of each hour.
    pub fn prices(&mut self) -> Vec<Vec<u8>> {
        let records = self.style.hours.iter().map(|&hour| {
            let key = KeyBytes {
                mark: *b"PR",
                hour,
                name: Vec::new(),
            };
            changes::record(self.draw, &key)
        });
        records.collect()
    }

    /// Files a record.
    fn filing(&mut self, record: Vec<u8>) -> Call {
        let way = Way::File;
        let ask = Ask::Change { way, record };
        self.follow(Lent::Whole, &ask);
        Call::Book(Lent::Whole, ask)
    }

    /// A change of any mark that is accepted where nothing but its own key
    /// matters.
    pub fn any_good(&mut self) -> Vec<u8> {
        let method = self.method_for_any();
        self.good(method)
    }

    /// A change of any mark that aims at each number alike.
    pub fn any_aimed(&mut self) -> (Lent, Vec<u8>) {
        let method = self.method_for_any();
        let number = self.draw.pick(Kind::Change(method).numbers());
        self.made(Way::Any, method, number)
    }

    /// Lets the register take a change.
    fn follow(&mut self, lent: Lent, ask: &Ask) {
        if let Ask::Change { way, record } = ask {
            let lent = lent.length(self.register.used(), self.style.room);
            // A refusal leaves the register as it was.
            let _ = match way.method() {
                Some(method) => self.register.call(method, lent, record),
                None => self.register.change(lent, record),
            };
        }
    }

    fn hour(&mut self) -> u8 {
        self.draw.pick(self.style.hours)
    }

    fn spelled(&mut self) -> Vec<u8> {
        let decoded = self.draw.pick(&names::POOL[..self.style.names]);
        names::spell(self.draw, decoded)
    }

    fn any_key(&mut self) -> KeyBytes {
        let mark = self.draw.pick(self.style.marks);
        KeyBytes {
            mark,
            hour: self.hour(),
            name: if mark == *b"PR" {
                Vec::new()
            } else {
                self.spelled()
            },
        }
    }

    fn stands(&self, key: &KeyBytes) -> bool {
        let hour = u32::from(key.hour);
        let lent = self.register.used();
        self.register
            .record(lent, &key.mark, hour, &key.name)
            .is_ok()
    }

    /// A key that doesn't stand, if a few tries find one.
    fn absent_key(&mut self) -> KeyBytes {
        let mut key = self.any_key();
        for _ in 0..8 {
            if !self.stands(&key) {
                break;
            }
            key = self.any_key();
        }
        key
    }

    /// A standing key in some spelling, if a few tries find one.
    fn standing_key(&mut self) -> KeyBytes {
        self.standing_of(&forms::MARKS)
    }

    /// The same, of one of these marks.
    fn standing_of(&mut self, marks: &[MarkBytes]) -> KeyBytes {
        for _ in 0..12 {
            let list = self.register.list();
            if list.is_empty() {
                break;
            }
            let listed = &list[self.draw.below(list.len())];
            let key = match &listed.change {
                Change::File(record) | Change::Correct(record) => record.key(),
                Change::Withdraw(key) => *key,
                Change::TakeBack | Change::Close => break,
            };
            if marks.contains(&key.mark.bytes()) && self.register.find(&key).is_some() {
                return self.respelled(&key);
            }
        }
        self.any_key()
    }

    fn respelled(&mut self, key: &Key) -> KeyBytes {
        let name = key.name;
        KeyBytes {
            mark: key.mark.bytes(),
            hour: key.hour.number(),
            name: name.map_or_else(Vec::new, |name| names::spell(self.draw, name.decoded())),
        }
    }

    /// A change that is accepted where nothing but its own key matters.
    fn good(&mut self, method: Way) -> Vec<u8> {
        let key = match method {
            Way::File | Way::Any => self.absent_key(),
            _ => self.standing_key(),
        };
        changes::good(self.draw, method, &key)
    }

    fn change(&mut self) -> (Lent, Ask) {
        let way = match self.draw.below(20) {
            0..=5 => Way::Any,
            6..=10 => Way::File,
            11..=13 => Way::Correct,
            14..=16 => Way::Withdraw,
            17 | 18 => Way::TakeBack,
            _ if self.style.steady => Way::File,
            _ => Way::Close,
        };
        let method = match way {
            Way::Any => self.method_for_any(),
            way => way,
        };
        let number = self.wanted(method);
        let (lent, record) = self.made(way, method, number);
        (lent, Ask::Change { way, record })
    }

    fn method_for_any(&mut self) -> Way {
        match self.draw.below(40) {
            0..=17 => Way::File,
            18..=26 => Way::Correct,
            27..=34 => Way::Withdraw,
            35..=38 => Way::TakeBack,
            _ if self.style.steady => Way::File,
            _ => Way::Close,
        }
    }

    /// The number that a change aims at: mostly 0, closing seldom.
    fn wanted(&mut self, method: Way) -> u32 {
        let numbers = Kind::Change(method).numbers();
        let often = match method {
            Way::Close => self.draw.once_in(6),
            Way::TakeBack if self.style.steady => self.draw.once_in(5),
            _ if self.style.steady => !self.draw.once_in(10),
            Way::TakeBack => self.draw.once_in(2),
            _ => self.draw.below(5) < 3,
        };
        match often {
            true => 0,
            false => numbers[1 + self.draw.below(numbers.len() - 1)],
        }
    }

    /// A lent length and bytes that aim at a number.
    fn made(&mut self, called: Way, method: Way, number: u32) -> (Lent, Vec<u8>) {
        let record = match number {
            1..=8 => changes::misread(self.draw, called, method, number),
            10 => self.good_for(method, true),
            11 => self.good_for(method, false),
            _ => self.good(method),
        };
        let lent = match number {
            13 => self.short(called, &record),
            16 => self.less_than_used(),
            _ => self.enough(called, &record),
        };
        (lent, record)
    }

    /// A change of a standing key, or of one that doesn't stand.
    fn good_for(&mut self, method: Way, standing: bool) -> Vec<u8> {
        let key = if standing {
            self.standing_key()
        } else {
            self.absent_key()
        };
        changes::good(self.draw, method, &key)
    }

    fn written(called: Way, record: &[u8]) -> i64 {
        read(called, record).map_or(0, |change| change.written_len() as i64)
    }

    /// Less free than the change takes.
    fn short(&mut self, called: Way, record: &[u8]) -> Lent {
        let written = Self::written(called, record);
        match self.draw.below(3) {
            0 => Lent::Used(0),
            1 => Lent::Used(self.draw.between(0, written.max(1) - 1)),
            _ => Lent::Used((written - 1).max(0)),
        }
    }

    fn less_than_used(&mut self) -> Lent {
        match self.draw.below(3) {
            0 => Lent::Exactly(0),
            1 => Lent::Used(-1),
            _ => Lent::Used(-self.draw.between(1, 200)),
        }
    }

    /// Mostly all bytes, at times exactly what the change takes or a little
    /// more.
    fn enough(&mut self, called: Way, record: &[u8]) -> Lent {
        match self.draw.below(12) {
            0 => Lent::Used(Self::written(called, record)),
            1 => Lent::Used(Self::written(called, record) + 1),
            2 => Lent::Exactly(LENT_MOST),
            3 => Lent::Exactly(self.draw.below(self.style.room + 1)),
            _ => Lent::Whole,
        }
    }

    fn question(&mut self) -> (Lent, Ask) {
        let lent = match self.draw.below(12) {
            0 => self.less_than_used(),
            1 => Lent::Used(0),
            2 => Lent::Used(self.draw.between(0, 100)),
            3 => Lent::Exactly(LENT_MOST),
            _ => Lent::Whole,
        };
        (lent, self.asked())
    }

    fn asked(&mut self) -> Ask {
        let has_units = self.style.marks.contains(b"GH");
        match self.draw.below(10) {
            0 => {
                let (mark, hour, name) = self.asked_key(&forms::MARKS);
                Ask::Record { mark, hour, name }
            }
            1 => {
                let (mark, hour, _) = self.asked_key(&forms::MARKS);
                Ask::Count { mark, hour }
            }
            2 => Ask::Free,
            3 | 4 => {
                let (_, hour, _) = self.asked_key(&TRADE[..1]);
                Ask::Guarantees { hour }
            }
            5..=7 if has_units || self.draw.once_in(6) => {
                let (_, _, name) = self.asked_key(&UNITS[..1]);
                Ask::UnitDay { name }
            }
            _ => {
                let (mark, hour, name) = self.asked_key(&SMALL);
                Ask::FailureCharge { mark, hour, name }
            }
        }
    }

    /// The arguments of a question: mostly a standing key of one of these
    /// marks, at times another or one with a fault.
    fn asked_key(&mut self, marks: &[MarkBytes]) -> (Vec<u8>, u32, Vec<u8>) {
        let mut key = match self.draw.below(4) {
            0 => self.any_key(),
            _ => self.standing_of(marks),
        };
        if !marks.contains(&key.mark) {
            key.mark = self.draw.pick(marks);
            key.name = self.spelled();
        }
        let mark = self.asked_mark(key.mark);
        let hour = self.asked_hour(key.hour);
        (mark, hour, self.asked_name(key.name))
    }

    fn asked_mark(&mut self, mark: MarkBytes) -> Vec<u8> {
        let others: [&[u8]; 9] = [b"", b"P", b"PRX", b"CO", b"WD", b"TB", b"CL", b"ZZ", b"im"];
        match self.draw.below(8) {
            0 => self.draw.pick(&others).to_vec(),
            1 => self.draw.pick(&forms::MARKS).to_vec(),
            _ => mark.to_vec(),
        }
    }

    fn asked_hour(&mut self, hour: u8) -> u32 {
        let hour = u32::from(hour);
        match self.draw.below(10) {
            0 => self.draw.pick(&[0, 25, 255, 256 + hour, u32::MAX]),
            _ => hour,
        }
    }

    fn asked_name(&mut self, name: Vec<u8>) -> Vec<u8> {
        match self.draw.below(8) {
            0 => names::bad(self.draw),
            1 => names::any(self.draw),
            _ => name,
        }
    }
}

#[cfg(test)]
mod tests {
    use super::*;

    #[test]
    fn a_full_book_is_full() {
        let mut draw = Draw::new(1);
        let register = filled(&mut draw, LONG, LISTED_MOST);
        assert_eq!(register.list().len(), LISTED_MOST);
        assert!(register.used() <= LENT_MOST);
    }

    #[test]
    fn a_long_list_reaches_512_and_leaves_it_again() {
        let mut draw = Draw::new(4);
        let list = from_fresh(&mut draw, LONG);
        let mut register = Register::new();
        let mut most = 0;
        let mut left_again = false;
        for call in &list.calls {
            if let Call::Book(lent, Ask::Change { way, record }) = call {
                let lent = lent.length(register.used(), LONG.room);
                let _ = match way.method() {
                    Some(method) => register.call(method, lent, record),
                    None => register.change(lent, record),
                };
                left_again |= most == LISTED_MOST && register.list().len() < LISTED_MOST;
                most = most.max(register.list().len());
            }
        }
        assert_eq!(most, LISTED_MOST);
        assert!(left_again);
    }

    #[test]
    fn a_given_start_is_the_registers_list_as_written() {
        let mut draw = Draw::new(2);
        let style = style(&mut draw);
        let register = filled(
            &mut draw,
            Style {
                room: 9000,
                ..style
            },
            20,
        );
        let Start::Given(state, bytes) = given(&register, 9000) else {
            panic!("a given start");
        };
        assert_eq!(bytes.len(), 9000);
        assert_eq!(bytes[..state.used as usize], register.written());
    }

    #[test]
    fn the_same_seed_gives_the_same_list() {
        assert_eq!(list(&mut Draw::new(9)), list(&mut Draw::new(9)));
        assert_ne!(list(&mut Draw::new(9)), list(&mut Draw::new(10)));
    }
}
