//! Pages for the binder (W2): the lines of the unpaged statement, read back
//! by columns.

use crate::support::*;
use peer::pages::{pages, settle_pages};
use peer::records::raw::RawUnit;
use peer::register::Register;
use peer::statement::{dollars, settle};
use peer::units::Ticks;
use std::io::Write;
use std::process::{Command, Stdio};

/// Twelve bytes that are each spelled with three.
const LONGEST: &str = "%2F%2F%2F%2F%2F%2F%2F%2F%2F%2F%2F%2F";
const CLOSE: &[u8] = b"CL";

/// A page as it is read back.
struct Page {
    number: String,
    /// The entries, a space between their fields.
    entries: Vec<String>,
    sum: String,
}

fn blank() -> String {
    " ".repeat(72)
}

fn paged(parts: &[Vec<u8>]) -> String {
    String::from_utf8(settle_pages(&parts.concat())).unwrap()
}

fn unpaged(parts: &[Vec<u8>]) -> String {
    String::from_utf8(settle(&parts.concat())).unwrap()
}

/// "pages of exactly 72 columns and 60 lines, each line ending in one
/// newline".
fn read_back(text: &str) -> Vec<Page> {
    assert_eq!(text.len() % (60 * 73), 0);
    for line in text.as_bytes().chunks(73) {
        assert_eq!(line[72], b'\n');
        assert!(line[..72].iter().all(|byte| (0x20..=0x7E).contains(byte)));
    }
    let lines: Vec<&str> = text.lines().collect();
    lines.chunks(60).map(read_page).collect()
}

/// "line 2 is blank, and 57 lines carry entries. .. Unused lines are blanks".
fn read_page(lines: &[&str]) -> Page {
    assert_eq!(lines[1], blank());
    let carrying = &lines[2..59];
    let used = carrying.iter().take_while(|line| **line != blank()).count();
    assert!(carrying[used..].iter().all(|line| *line == blank()));
    Page {
        number: right_aligned(lines[0]),
        entries: carrying[..used].iter().map(|line| entry(line)).collect(),
        sum: right_aligned(lines[59]),
    }
}

/// What stands alone on a line and ends in column 72.
fn right_aligned(line: &str) -> String {
    let text = line.trim_start();
    assert!(!text.is_empty() && !text.contains(' '), "{line:?}");
    text.to_string()
}

/// "Hour in columns 1 to 2, kind in 4 to 6, written name from 8 to 43, amount
/// right-aligned ending in 72."
fn entry(line: &str) -> String {
    let fields = [
        &line[..2],
        &line[3..6],
        line[7..43].trim_end(),
        line[43..].trim_start(),
    ];
    for field in fields {
        assert!(!field.is_empty() && !field.contains(' '), "{line:?}");
    }
    assert_eq!((&line[2..3], &line[6..7], &line[43..44]), (" ", " ", " "));
    fields.join(" ")
}

/// Whole cents as they are printed.
fn printed(cents: i64) -> String {
    dollars(Ticks(cents * Ticks::PER_CENT))
}

/// The pages of an input, after all that must hold of them beside the
/// unpaged statement.
fn checked(parts: &[Vec<u8>]) -> Vec<Page> {
    let pages = read_back(&paged(parts));
    let statement = unpaged(parts);
    let lines: Vec<&str> = statement.lines().collect();
    let entries: Vec<&String> = pages.iter().flat_map(|page| &page.entries).collect();
    assert_eq!(entries, lines);
    let mut day = 0;
    for (before, page) in pages.iter().enumerate() {
        let left = lines.len() - 57 * before;
        assert_eq!(page.entries.len(), left.min(57));
        assert_eq!(page.number, (before + 1).to_string());
        let sum = sum_of(&page.entries);
        assert_eq!(page.sum, printed(sum));
        day += sum;
    }
    let total = format!("DD TOT - {}", printed(day));
    assert_eq!(lines.last(), Some(&&total[..]));
    pages
}

/// A page's sum "by W1's signs", from its printed lines. "W1's line .. isn't
/// in its page's sum."
fn sum_of(entries: &[String]) -> i64 {
    entries
        .iter()
        .filter(|entry| !entry.starts_with("DD TOT "))
        .map(|entry| counted(entry))
        .sum()
}

/// Number, count of entries and sum of each page.
fn outline(pages: &[Page]) -> Vec<(&str, usize, &str)> {
    pages
        .iter()
        .map(|page| (&page.number[..], page.entries.len(), &page.sum[..]))
        .collect()
}

/// A day with so many lines before its total: failed imports, the first
/// charged 0.01, the second 0.02 and so on.
fn day_of(lines: usize) -> Vec<Vec<u8>> {
    let mut parts = Vec::new();
    for line in 0..lines {
        let hour = (line / 16 + 1) as u8;
        if line % 16 == 0 {
            parts.push(price(hour, 0, 200_000));
        }
        let spelled = format!("N{line:03}");
        // 12 times 10 ticks are a cent.
        let prices = [0, 10 * (line as i32 + 1)];
        parts.push(failed_import(hour, spelled.as_bytes(), [1, 0], prices));
    }
    parts
}

/// One page with these lines from line 3 on.
fn single_page(entries: &[&str], sum: &str) -> String {
    let mut lines = vec![format!("{}1", " ".repeat(71)), blank()];
    lines.extend(entries.iter().map(|entry| entry.to_string()));
    lines.resize(59, blank());
    lines.push(" ".repeat(72 - sum.len()) + sum);
    lines.join("\n") + "\n"
}

#[test]
fn the_papers_example_on_its_page() {
    let entries = [
        "05 IOG A%2FB                                                      100.00",
        "05 IOG C                                                           40.00",
        "05 OFF -                                                           90.00",
        "DD TOT -                                                           50.00",
    ];
    let parts = [example_hour()];
    assert_eq!(paged(&parts), single_page(&entries, "50.00"));
    checked(&parts);
}

#[test]
fn an_empty_day_is_one_page() {
    let entries = ["DD TOT -                                                            0.00"];
    let expected = single_page(&entries, "0.00");
    assert_eq!(expected.len(), 60 * 73);
    assert_eq!(pages(&Register::new()), expected);
    for parts in [
        vec![],
        vec![price(1, 3000, 3000)],
        vec![example_hour(), b"TB".repeat(4)],
    ] {
        assert_eq!(paged(&parts), expected);
        checked(&parts);
    }
}

#[test]
fn fifty_six_lines_and_the_total_fill_a_page() {
    let found = checked(&day_of(56));
    assert_eq!(outline(&found), [("1", 57, "-15.96")]);
    assert_eq!(found[0].entries[55], "04 IFC N055 0.56");
    assert_eq!(found[0].entries[56], "DD TOT - -15.96");
}

#[test]
fn after_fifty_seven_lines_the_total_opens_a_page() {
    let found = checked(&day_of(57));
    assert_eq!(outline(&found), [("1", 57, "-16.53"), ("2", 1, "0.00")]);
    assert_eq!(found[0].entries[56], "04 IFC N056 0.57");
    assert_eq!(found[1].entries, ["DD TOT - -16.53"]);
}

#[test]
fn the_fifty_eighth_line_stands_on_page_2() {
    let found = checked(&day_of(58));
    assert_eq!(outline(&found), [("1", 57, "-16.53"), ("2", 2, "-0.58")]);
    let expected = ["04 IFC N057 0.58", "DD TOT - -17.11"];
    assert_eq!(found[1].entries, expected);
}

#[test]
fn every_count_of_lines_up_to_seven_pages() {
    for lines in 0..=384 {
        assert_eq!(checked(&day_of(lines)).len(), lines / 57 + 1);
    }
}

#[test]
fn a_page_number_of_two_digits() {
    let mut parts = day_of(384);
    for place in 0..80 {
        let spelled = format!("U{place}");
        let hour = place / 8 + 1;
        parts.push(unit(hour, spelled.as_bytes(), &RawUnit::idle()));
    }
    // 384 + 160 lines and the total.
    let found = checked(&parts);
    assert_eq!(outline(&found)[9], ("10", 32, "0.00"));
    assert_eq!(found.len(), 10);
}

#[test]
fn the_number_of_an_err_stands_as_its_amount() {
    let parts = [
        example_hour(),
        import(7, b"A", 100, &[(4000, 100)]),
        failed_import(7, b"F", [1000, 0], [0, 1000]),
        unit(5, LONGEST.as_bytes(), &worked_unit()),
        unit(7, LONGEST.as_bytes(), &worked_unit()),
        unit(5, b"H", &worked_unit()),
    ];
    let entries = [
        "05 IOG A%2FB                                                      100.00",
        "05 IOG C                                                           40.00",
        "05 OFF -                                                           90.00",
        "07 ERR -                                                              15",
        "DD ERR %2F%2F%2F%2F%2F%2F%2F%2F%2F%2F%2F%2F                           15",
        "DD PCG H                                                          410.00",
        "DD REV H                                                            0.00",
        "DD TOT -                                                          460.00",
    ];
    assert_eq!(paged(&parts), single_page(&entries, "460.00"));
    checked(&parts);
}

#[test]
fn a_page_of_err_lines_only_has_sum_0() {
    let mut parts = Vec::new();
    for hour in 1..=24 {
        parts.push(failed_export(hour, b"A", [9, 0], [9, 0]));
        for first in ["U", "V"] {
            let spelled = format!("{first}{hour}");
            parts.push(unit(hour, spelled.as_bytes(), &worked_unit()));
        }
    }
    let found = checked(&parts);
    assert_eq!(outline(&found), [("1", 57, "0.00"), ("2", 16, "0.00")]);
    assert_eq!(found[0].entries[23], "24 ERR - 15");
    assert_eq!(found[1].entries[14], "DD ERR V9 15");
}

/// The unit with the largest day total, or the least, under an energy price
/// at the other end: C1 and C4 at their limits, C2 and C3 0.
fn extreme_unit(up: bool) -> RawUnit {
    let end = if up { 200_000 } else { -200_000 };
    let most = [100_000; 12];
    let cents = if up { 100_000_000 } else { 0 };
    RawUnit {
        start_up: cents,
        no_load: cents,
        // D, R, A and K at the limit; U 0 leaves all of D to the reserve.
        schedules: [most, most, [0; 12], most, most],
        reserves: [([-end; 12], most), ([0; 12], [0; 12]), ([0; 12], [0; 12])],
        lists: [
            vec![(end, 100_000)],
            vec![(-end, 100_000)],
            vec![(end, 100_000)],
            vec![],
            vec![],
        ],
    }
}

/// A day of four such units in all 24 hours, the first with the longest name.
fn extreme_day(up: bool) -> Vec<Vec<u8>> {
    let energy = if up { -200_000 } else { 200_000 };
    let mut parts = Vec::new();
    for hour in 1..=24 {
        parts.push(price(hour, energy, 0));
        for spelled in [LONGEST, "A", "B", "C"] {
            parts.push(unit(hour, spelled.as_bytes(), &extreme_unit(up)));
        }
    }
    parts
}

#[test]
fn the_longest_name_beside_the_largest_amount() {
    // C1 4.1e10 and C4 -4e10 ticks in each of 288 intervals, and 24 starts.
    let parts = extreme_day(true);
    let found = checked(&parts);
    assert_eq!(outline(&found), [("1", 9, "7872000000.00")]);
    let text = paged(&parts);
    let line = text.lines().nth(2).unwrap();
    let expected = format!("DD PCG {LONGEST}{}1968000000.00", " ".repeat(16));
    assert_eq!(line, expected);
    assert_eq!((LONGEST.len(), line.len()), (36, 72));
}

#[test]
fn the_largest_amounts_below_zero() {
    // -8e10 ticks in each of 288 intervals, which the reversals give back.
    let found = checked(&extreme_day(false));
    assert_eq!(outline(&found), [("1", 9, "0.00")]);
    assert_eq!(
        found[0].entries[..2],
        [
            format!("DD PCG {LONGEST} -1920000000.00"),
            format!("DD REV {LONGEST} 1920000000.00")
        ]
    );
}

#[test]
fn the_largest_charges_are_taken_off_each_page() {
    let mut parts = Vec::new();
    for hour in 1..=4 {
        parts.push(price(hour, 0, -200_000));
        for letter in b'A'..=b'P' {
            let prices = [200_000, -200_000];
            parts.push(failed_export(hour, &[letter], [100_000, 0], prices));
        }
    }
    let found = checked(&parts);
    assert_eq!(found[0].entries[0], "01 EFC A 40000000.00");
    let expected = [("1", 57, "-2280000000.00"), ("2", 8, "-280000000.00")];
    assert_eq!(outline(&found), expected);
    assert_eq!(found[1].entries[7], "DD TOT - -2560000000.00");
}

#[test]
fn a_negative_offset_adds_to_its_page() {
    let parts = [negative_offset_hour()];
    let found = checked(&parts);
    assert_eq!(outline(&found), [("1", 3, "9.17")]);
    assert_eq!(found[0].entries[1], "01 OFF - -9.17");
}

#[test]
fn a_refusal_is_unpaged() {
    let twice = [price(1, 1, 1), price(1, 1, 1)];
    assert_eq!(paged(&twice), "REF 2 10\n");
    assert_eq!(paged(&[example_hour(), b"CLTB".to_vec()]), "REF 6 9\n");
    assert_eq!(paged(&[b"\n".to_vec()]), "REF 1 1\n");
    // 100 lines on two pages, had the last record not been refused.
    let long = [day_of(100), vec![b"ZZ".to_vec()]].concat();
    assert_eq!(paged(&long), "REF 108 2\n");
    assert_eq!(unpaged(&long), "REF 108 2\n");
}

#[test]
fn a_closed_book_gets_its_pages() {
    for open in [vec![], vec![example_hour()], day_of(57)] {
        let closed = [&open[..], &[CLOSE.to_vec()]].concat();
        assert_eq!(paged(&closed), paged(&open));
        checked(&closed);
    }
}

#[test]
fn a_book_read_from_bytes_gives_the_same_pages() {
    let parts = day_of(60);
    let mut kept = Kept::fresh(FULL);
    let mut register = Register::new();
    for part in &parts {
        kept.must(part);
        register.change(FULL, part).unwrap();
    }
    let standing = kept.book.read(&kept.bytes).unwrap();
    assert_eq!(pages(&standing), paged(&parts));
    assert_eq!(pages(&register), paged(&parts));
}

/// A name that begins with this byte, its other bytes drawn and each spelled
/// plainly or encoded.
fn drawn_name(first: u8, draw: &mut Draw) -> Vec<u8> {
    let mut spelled = vec![first];
    for _ in 0..draw.below(12) {
        let byte = 0x21 + draw.below(94) as u8;
        if byte == b'%' || draw.once_in(2) {
            spelled.extend(format!("%{byte:02x}").into_bytes());
        } else {
            spelled.push(byte);
        }
    }
    spelled
}

/// Up to eight failures of an hour with prices and quantities of any size.
fn drawn_failures(hour: u8, draw: &mut Draw) -> Vec<u8> {
    let mut out = Vec::new();
    for place in 0..draw.below(9) as u8 {
        let spelled = drawn_name(b'a' + place, draw);
        let quantities = std::array::from_fn(|_| draw.below(100_001) as u32);
        let prices = std::array::from_fn(|_| draw.below(400_001) as i32 - 200_000);
        let failed = draw.pick(&[failed_import, failed_export]);
        out.extend(failed(hour, &spelled, quantities, prices));
    }
    out
}

/// A day that is empty, sparse or busy, open or closed.
fn drawn_day(draw: &mut Draw) -> Vec<Vec<u8>> {
    let share = draw.below(9);
    let mut parts = Vec::new();
    for hour in 1..=24 {
        if draw.below(8) < share {
            parts.push(drawn_hour(hour, draw));
            parts.push(drawn_failures(hour, draw));
        }
    }
    if draw.once_in(4) {
        parts.push(CLOSE.to_vec());
    }
    parts
}

#[test]
fn pages_of_many_drawn_days() {
    let mut draw = Draw::new(0xB1DE);
    let mut days_by_pages = [0; 8];
    let mut errors = 0;
    for _ in 0..400 {
        let found = checked(&drawn_day(&mut draw));
        days_by_pages[found.len()] += 1;
        let entries = found.iter().flat_map(|page| &page.entries);
        errors += entries.filter(|entry| &entry[3..6] == "ERR").count();
    }
    assert!(days_by_pages[1..=5].iter().all(|&days| days > 10));
    assert!(errors > 100);
}

#[test]
fn the_program_prints_the_pages_of_its_input() {
    for parts in [day_of(57), vec![], vec![b"Z".to_vec()]] {
        let mut program = Command::new(env!("CARGO_BIN_EXE_peer-pages"))
            .stdin(Stdio::piped())
            .stdout(Stdio::piped())
            .spawn()
            .expect("peer-pages");
        let mut input = program.stdin.take().expect("its input");
        input.write_all(&parts.concat()).expect("all records");
        drop(input);
        let output = program.wait_with_output().expect("its end");
        assert!(output.status.success());
        assert_eq!(String::from_utf8(output.stdout).unwrap(), paged(&parts));
    }
}
