//! Names: decoded ones, their spellings, and ones that break the rule.

use crate::draw::Draw;
use peer::records::raw::RawName;

/// Decoded names, more than an hour takes; some are prefixes of others, some
/// differ in spelled and decoded order, some hold a percent sign.
pub const POOL: [&[u8]; 24] = [
    b"A",
    b"A/B",
    b"A.B",
    b"A/b",
    b"%2F",
    b"/",
    b"AB",
    b"A!",
    b"~",
    b"%",
    b"%41",
    b"B",
    b"C",
    b"a",
    b"z-_.~0189",
    b"!!!!!!!!!!!!",
    b"AAAAAAAAAAAA",
    b"AAAAAAAAAAA",
    b"D",
    b"E",
    b"F",
    b"G",
    b"H",
    b"I",
];

/// One of the ways to spell a decoded name.
pub fn spell(draw: &mut Draw, decoded: &[u8]) -> Vec<u8> {
    match draw.below(3) {
        0 => canonical(decoded),
        1 => decoded.iter().flat_map(|&byte| mixed(draw, byte)).collect(),
        _ => {
            let odd = draw.below(decoded.len());
            let bytes = decoded.iter().enumerate();
            bytes
                .flat_map(|(place, &byte)| {
                    if place == odd {
                        mixed(draw, byte)
                    } else {
                        one_canonical(byte)
                    }
                })
                .collect()
        }
    }
}

/// The spelling that writing gives.
pub fn canonical(decoded: &[u8]) -> Vec<u8> {
    decoded
        .iter()
        .flat_map(|&byte| one_canonical(byte))
        .collect()
}

fn one_canonical(byte: u8) -> Vec<u8> {
    if byte.is_ascii_alphanumeric() || b"-._~".contains(&byte) {
        vec![byte]
    } else {
        format!("%{byte:02X}").into_bytes()
    }
}

/// Every spelling of one decoded byte: plainly, with capital hex digits, and
/// with small ones where they differ.
pub fn spellings(byte: u8) -> Vec<Vec<u8>> {
    let mut all = vec![format!("%{byte:02X}").into_bytes()];
    let small = format!("%{byte:02x}").into_bytes();
    if small != all[0] {
        all.push(small);
    }
    if (0x21..=0x7E).contains(&byte) && byte != b'%' {
        all.push(vec![byte]);
    }
    all
}

fn mixed(draw: &mut Draw, byte: u8) -> Vec<u8> {
    let ways = spellings(byte);
    ways[draw.below(ways.len())].clone()
}

/// A decoded name of any bytes that a name may hold.
pub fn any_decoded(draw: &mut Draw) -> Vec<u8> {
    let length = draw.pick(&[1, 1, 2, 3, 5, 11, 12]);
    (0..length)
        .map(|_| match draw.below(4) {
            0 => b'%',
            1 => draw.pick(b"Aa0-._~/2F"),
            _ => draw.between(0x21, 0x7E) as u8,
        })
        .collect()
}

/// A valid spelled name.
pub fn any(draw: &mut Draw) -> Vec<u8> {
    if draw.once_in(2) {
        let decoded = draw.pick(&POOL);
        return spell(draw, decoded);
    }
    let decoded = any_decoded(draw);
    spell(draw, &decoded)
}

/// Spelled bytes that break the rule.
pub fn bad(draw: &mut Draw) -> Vec<u8> {
    let mut spelled = any(draw);
    match draw.below(9) {
        0 => spelled.clear(),
        1 => spelled = vec![b'A'; 13 + draw.below(24)],
        2 => spelled = b"%2F".repeat(12).into_iter().chain([b'A']).collect(),
        3 => spelled.extend(draw.pick::<&[u8]>(&[b"%", b"%2", b"%A"])),
        4 => spelled.splice(0..0, *b"%G0").for_each(drop),
        5 => spelled.splice(0..0, *b"%0g").for_each(drop),
        6 => spelled.extend(draw.pick::<&[u8]>(&[b"%20", b"%7F", b"%00", b"%ff", b"%80"])),
        7 => spelled.push(draw.pick(&[0x00, 0x20, 0x7F, 0x80, 0xFF])),
        _ => spelled.splice(0..0, *b"%%4").for_each(drop),
    }
    spelled
}

/// A name as a record lays it out, breaking the rule.
pub fn bad_raw(draw: &mut Draw) -> RawName {
    match draw.below(4) {
        0 => RawName {
            length: draw.pick(&[0, 37, 38, 255]),
            spelled: any(draw),
        },
        _ => RawName::of(&bad(draw)),
    }
}

#[cfg(test)]
mod tests {
    use super::*;
    use peer::names::decode;

    #[test]
    fn spellings_decode_to_their_name() {
        let mut draw = Draw::new(1);
        for _ in 0..2000 {
            let decoded = any_decoded(&mut draw);
            let spelled = spell(&mut draw, &decoded);
            assert_eq!(decode(&spelled).unwrap().decoded(), decoded);
            assert_eq!(decode(&spelled).unwrap().spelled(), canonical(&decoded));
        }
        assert_eq!(spellings(b'J').len(), 3);
        assert_eq!(spellings(b'A').len(), 2);
        assert_eq!(spellings(b'%').len(), 1);
    }

    #[test]
    fn bad_names_are_bad() {
        let mut draw = Draw::new(2);
        for _ in 0..2000 {
            let spelled = bad(&mut draw);
            assert!(decode(&spelled).is_err(), "{spelled:?}");
        }
    }

    #[test]
    fn the_pool_has_more_names_than_an_hour_takes() {
        let mut names: Vec<Vec<u8>> = POOL.iter().map(|name| canonical(name)).collect();
        names.sort();
        names.dedup();
        assert_eq!(names.len(), POOL.len());
        assert!(names.len() > 17);
    }
}
