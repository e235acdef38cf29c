//! Names: decoding, canonical spelling, byte order.

use crate::refusal::Refusal;
use std::cmp::Ordering;
use std::fmt;
use std::ops::RangeInclusive;

/// Most bytes of a spelled name.
pub const SPELLED_MOST: usize = 36;
/// Most bytes of a decoded name.
pub const DECODED_MOST: usize = 12;
/// Bytes that a name may hold.
pub const VISIBLE: RangeInclusive<u8> = 0x21..=0x7E;

/// A decoded name: "1 to 12 bytes, each 0x21 to 0x7E".
#[derive(Clone, Copy, PartialEq, Eq, Hash)]
pub struct Name {
    bytes: [u8; DECODED_MOST],
    len: u8,
}

impl Name {
    /// A name from its decoded bytes, `%` being an ordinary byte here; 4 if
    /// they break the rule.
    pub fn from_decoded(decoded: &[u8]) -> Result<Name, Refusal> {
        let lengths = 1..=DECODED_MOST;
        if !lengths.contains(&decoded.len()) || !decoded.iter().all(|byte| VISIBLE.contains(byte)) {
            return Err(Refusal::NameFault);
        }
        let mut bytes = [0; DECODED_MOST];
        bytes[..decoded.len()].copy_from_slice(decoded);
        Ok(Name {
            bytes,
            len: decoded.len() as u8,
        })
    }

    /// The decoded bytes.
    pub fn decoded(&self) -> &[u8] {
        &self.bytes[..usize::from(self.len)]
    }

    /// "Writing spells RFC 3986 unreserved bytes plainly and all others as
    /// `%` and two capital hex digits."
    pub fn spelled(&self) -> Vec<u8> {
        let (room, len) = self.spell();
        room[..len].to_vec()
    }

    /// Whether these bytes are the canonical spelling.
    pub fn is_spelled(&self, spelled: &[u8]) -> bool {
        let (room, len) = self.spell();
        room[..len] == *spelled
    }

    /// The canonical spelling in room for the longest one, and its length.
    fn spell(&self) -> ([u8; SPELLED_MOST], usize) {
        let mut room = [0; SPELLED_MOST];
        let mut len = 0;
        for &byte in self.decoded() {
            if is_unreserved(byte) {
                room[len] = byte;
                len += 1;
            } else {
                let three = [b'%', hex_digit(byte >> 4), hex_digit(byte & 15)];
                room[len..len + 3].copy_from_slice(&three);
                len += 3;
            }
        }
        (room, len)
    }

    /// Bytes of the canonical spelling, 1 to 36.
    pub fn spelled_len(&self) -> usize {
        self.decoded()
            .iter()
            .map(|&byte| if is_unreserved(byte) { 1 } else { 3 })
            .sum()
    }
}

/// "decoded name in byte order, a prefix first".
impl Ord for Name {
    fn cmp(&self, other: &Name) -> Ordering {
        self.decoded().cmp(other.decoded())
    }
}

impl PartialOrd for Name {
    fn partial_cmp(&self, other: &Name) -> Option<Ordering> {
        Some(self.cmp(other))
    }
}

impl fmt::Debug for Name {
    fn fmt(&self, out: &mut fmt::Formatter<'_>) -> fmt::Result {
        write!(out, "Name({:?})", String::from_utf8_lossy(self.decoded()))
    }
}

/// Decodes a spelled name, lent without its length byte. "a length byte 1 to
/// 36, then that many bytes 0x21 to 0x7E, `%` only before two hex digits.
/// Decoded exactly once, 1 to 12 bytes, each 0x21 to 0x7E." Every fault is 4.
pub fn decode(spelled: &[u8]) -> Result<Name, Refusal> {
    if spelled.len() > SPELLED_MOST {
        return Err(Refusal::NameFault);
    }
    let mut decoded = [0; DECODED_MOST];
    let mut len = 0;
    let mut rest = spelled;
    while !rest.is_empty() {
        let (byte, taken) = decode_byte(rest)?;
        *decoded.get_mut(len).ok_or(Refusal::NameFault)? = byte;
        len += 1;
        rest = &rest[taken..];
    }
    Name::from_decoded(&decoded[..len])
}

/// The first decoded byte and how many spelled bytes it took.
pub fn decode_byte(spelled: &[u8]) -> Result<(u8, usize), Refusal> {
    match *spelled {
        [b'%', high, low, ..] => match (hex_value(high), hex_value(low)) {
            (Some(high), Some(low)) => Ok((high << 4 | low, 3)),
            _ => Err(Refusal::NameFault),
        },
        [byte, ..] if byte != b'%' && VISIBLE.contains(&byte) => Ok((byte, 1)),
        _ => Err(Refusal::NameFault),
    }
}

/// RFC 3986, section 2.3: letters, digits, `-`, `.`, `_` and `~`.
fn is_unreserved(byte: u8) -> bool {
    byte.is_ascii_alphanumeric() || matches!(byte, b'-' | b'.' | b'_' | b'~')
}

/// RFC 3986, section 2.1: hex digits are read in either case.
fn hex_value(digit: u8) -> Option<u8> {
    match digit {
        b'0'..=b'9' => Some(digit - b'0'),
        b'A'..=b'F' => Some(digit - b'A' + 10),
        b'a'..=b'f' => Some(digit - b'a' + 10),
        _ => None,
    }
}

/// A capital hex digit of 0 to 15.
fn hex_digit(value: u8) -> u8 {
    b"0123456789ABCDEF"[usize::from(value)]
}

#[cfg(test)]
mod tests {
    use super::*;

    fn decoded(spelled: &[u8]) -> Vec<u8> {
        decode(spelled).expect("a name").decoded().to_vec()
    }

    fn refused(spelled: &[u8]) {
        assert_eq!(decode(spelled), Err(Refusal::NameFault), "{spelled:?}");
    }

    #[test]
    fn the_papers_spellings() {
        assert_eq!(decode(b"A/B"), decode(b"A%2FB"));
        assert_eq!(decoded(b"A%2FB"), b"A/B");
        assert_eq!(decoded(b"A%2fb"), b"A/b");
        assert_ne!(decode(b"A%2FB"), decode(b"A%2fb"));
        assert_eq!(decoded(b"%252F"), b"%2F");
        assert_ne!(decode(b"%252F"), decode(b"/"));
        refused(b"A%2");
    }

    #[test]
    fn percent_needs_two_hex_digits() {
        for spelled in [
            &b"%"[..],
            b"A%",
            b"%4",
            b"%G1",
            b"%1G",
            b"%%41",
            b"%4%31",
            b"% 1",
        ] {
            refused(spelled);
        }
        assert_eq!(decoded(b"%41%5a%7e"), b"AZ~");
    }

    #[test]
    fn decoded_bytes_are_visible() {
        for spelled in [
            &b"%20"[..],
            b"%7F",
            b"%00",
            b"%80",
            b"%FF",
            b" ",
            b"\x7f",
            b"\x80",
            b"A\n",
        ] {
            refused(spelled);
        }
        assert_eq!(decoded(b"!"), b"!");
        assert_eq!(decoded(b"%21"), b"!");
        assert_eq!(decoded(b"~"), b"~");
    }

    #[test]
    fn lengths() {
        refused(b"");
        refused(&[b'A'; 13]);
        refused(&[b'A'; 37]);
        assert_eq!(decoded(&[b'A'; 12]), [b'A'; 12]);
        assert_eq!(decoded(&b"%2F".repeat(12)), [b'/'; 12]);
        refused(&b"%2F".repeat(13));
        let mut eleven_and_two = b"%41".repeat(11);
        eleven_and_two.extend(b"BC");
        refused(&eleven_and_two);
    }

    #[test]
    fn unreserved_bytes_are_spelled_plainly_and_all_others_encoded() {
        let plain = b"ABCDEFGHIJKLMNOPQRSTUVWXYZabcdefghijklmnopqrstuvwxyz0123456789-._~";
        for byte in 0x21..=0x7E_u8 {
            let name = Name::from_decoded(&[byte]).unwrap();
            let expected = if plain.contains(&byte) {
                vec![byte]
            } else {
                format!("%{byte:02X}").into_bytes()
            };
            assert_eq!(name.spelled(), expected);
            assert_eq!(name.spelled_len(), expected.len());
            assert_eq!(decode(&expected), Ok(name));
        }
    }

    #[test]
    fn from_decoded_takes_percent_as_an_ordinary_byte() {
        let name = Name::from_decoded(b"%2F").unwrap();
        assert_eq!(name.spelled(), b"%252F");
        for bad in [&b""[..], b"AAAAAAAAAAAAA", b" ", b"\x7f", b"A\0"] {
            assert_eq!(Name::from_decoded(bad), Err(Refusal::NameFault));
        }
    }

    #[test]
    fn canonical_means_what_writing_gives() {
        let alphabet = b"%2FfAa57~/";
        let mut spelled = Vec::new();
        for count in 1..=5_u32 {
            for mut code in 0..(alphabet.len() as u32).pow(count) {
                spelled.clear();
                for _ in 0..count {
                    spelled.push(alphabet[(code % 10) as usize]);
                    code /= 10;
                }
                if let Ok(name) = decode(&spelled) {
                    let is_same = name.spelled() == spelled;
                    assert_eq!(name.is_spelled(&spelled), is_same, "{spelled:?}");
                }
            }
        }
    }

    #[test]
    fn a_prefix_comes_first() {
        let mut names: Vec<Name> = [&b"AB"[..], b"B", b"A/B", b"A", b"A.B", b"a", b"A~", b"%41!"]
            .iter()
            .map(|spelled| decode(spelled).unwrap())
            .collect();
        names.sort();
        let sorted: Vec<&[u8]> = names.iter().map(Name::decoded).collect();
        let expected: [&[u8]; 8] = [b"A", b"A!", b"A.B", b"A/B", b"AB", b"A~", b"B", b"a"];
        assert_eq!(sorted, expected);
    }
}
