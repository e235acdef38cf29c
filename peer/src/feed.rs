//! Records back to back.

use crate::records::{parse_change_prefix, Change};
use crate::refusal::Refusal;

/// How far an input was read.
#[derive(Clone, Copy, Debug, Default, PartialEq, Eq)]
pub struct Fed {
    /// Records that were taken.
    pub count: u64,
    /// Bytes that they took.
    pub taken: usize,
    /// Why the next record was refused; none at the end of the input.
    pub refusal: Option<Refusal>,
}

/// Hands the records of an input to `take` in turn, or why one can't be read,
/// up to the first that is refused.
pub fn feed(
    input: &[u8],
    mut take: impl FnMut(Result<Change, Refusal>) -> Result<(), Refusal>,
) -> Fed {
    let mut fed = Fed::default();
    while fed.taken < input.len() {
        let (change, length) = match parse_change_prefix(&input[fed.taken..]) {
            Ok((change, length)) => (Ok(change), length),
            Err(refusal) => (Err(refusal), 0),
        };
        if let Err(refusal) = take(change) {
            fed.refusal = Some(refusal);
            break;
        }
        fed.count += 1;
        fed.taken += length;
    }
    fed
}

#[cfg(test)]
mod tests {
    use super::*;
    use crate::register::Register;

    #[test]
    fn reading_stops_at_the_first_refusal() {
        let mut register = Register::new();
        let price = crate::records::raw::price(5, [3000; 12], 3000);
        let input = [&price[..], b"TB", &price, &price, b"TB"].concat();
        let fed = feed(&input, |change| register.take(65_535, change));
        let refusal = Some(Refusal::KeyStands);
        let expected = Fed {
            count: 3,
            taken: 112,
            refusal,
        };
        assert_eq!(fed, expected);
        assert_eq!(register.used(), 55);
        let rest = feed(&input[fed.taken + 55..], |change| register.take(55, change));
        assert_eq!((rest.count, rest.taken, rest.refusal), (1, 2, None));
    }

    #[test]
    fn what_cannot_be_read_is_told_after_16() {
        let mut register = Register::new();
        let price = crate::records::raw::price(5, [3000; 12], 3000);
        assert_eq!(register.change(55, &price), Ok(()));
        let short = feed(b"Z", |change| register.take(54, change));
        assert_eq!(short.refusal, Some(Refusal::NotTogether));
        let cut = feed(b"Z", |change| register.take(55, change));
        assert_eq!(cut.refusal, Some(Refusal::EndsEarly));
    }
}
