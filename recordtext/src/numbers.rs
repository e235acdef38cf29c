//! The numbers of refusals in words.

use peer::refusal::Refusal;

/// The rule in words. This is the one table; what people read elsewhere
/// (manual, C header, samples) has the same words.
pub const fn words(refusal: Refusal) -> &'static str {
    match refusal {
        Refusal::EndsEarly => "the bytes end early",
        Refusal::MarkUnknown => "the mark is unknown, or not allowed inside CO or WD",
        Refusal::HourOutside => "the hour is not 1 to 24",
        Refusal::NameFault => "the name breaks its rule",
        Refusal::NumberOutside => "a number is outside its range",
        Refusal::ListFault => "a list breaks its rule",
        Refusal::BeyondList => "a schedule lies beyond its list",
        Refusal::BytesLeftOver => "bytes are left over",
        Refusal::Closed => "the day is closed",
        Refusal::KeyStands => "the key stands already",
        Refusal::NoSuchKey => "there is no such key",
        Refusal::HourFull => "the hour holds 16 of that mark (8 for GH)",
        Refusal::NoSpace => "free bytes are short, or 512 changes are listed",
        Refusal::NothingToTakeBack => "there is nothing to take back",
        Refusal::PriceMissing => "a price that is needed is not filed",
        Refusal::NotTogether => "book and lent bytes do not belong together",
    }
}

/// Number and words, as people are told: `4: the name breaks its rule`.
pub fn told(refusal: Refusal) -> String {
    format!("{}: {}", refusal.number(), words(refusal))
}

/// The numbers that a record or a call can be refused with, a line for each.
pub fn list() -> String {
    Refusal::ALL.map(|refusal| told(refusal) + "\n").concat()
}

#[cfg(test)]
mod tests {
    use super::*;

    #[test]
    fn each_number_has_words_of_its_own() {
        for refusal in Refusal::ALL {
            let same = |other: &&Refusal| words(**other) == words(refusal);
            assert_eq!(Refusal::ALL.iter().filter(same).count(), 1);
        }
        assert_eq!(told(Refusal::NameFault), "4: the name breaks its rule");
        assert_eq!(list().lines().count(), 16);
    }
}
