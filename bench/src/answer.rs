//! What a call brings back, in one form for both sides.

/// A number, and what was answered where it is 0.
#[derive(Clone, Debug, Default, PartialEq, Eq)]
pub struct Answer {
    /// 0, or the number of the refusal.
    pub number: u32,
    /// Starts, lengths, counts, or the three numbers of a changed book.
    pub sizes: Vec<u64>,
    /// Amounts in ticks.
    pub amounts: Vec<i64>,
    /// Written bytes.
    pub bytes: Vec<u8>,
    /// What else the call did that it must not do; never set for the peer.
    pub fault: Option<&'static str>,
}

impl Answer {
    /// A refusal.
    pub fn refused(number: u32) -> Answer {
        Answer {
            number,
            ..Answer::default()
        }
    }

    /// An answer in sizes.
    pub fn sizes(sizes: &[u64]) -> Answer {
        Answer {
            sizes: sizes.to_vec(),
            ..Answer::default()
        }
    }

    /// An answer in amounts.
    pub fn amounts(amounts: &[i64]) -> Answer {
        Answer {
            amounts: amounts.to_vec(),
            ..Answer::default()
        }
    }

    /// The answer of the C call: eight bytes as an amount, others as they are.
    pub fn result(bytes: Vec<u8>) -> Answer {
        match <[u8; 8]>::try_from(&bytes[..]) {
            Ok(ticks) => Answer::amounts(&[i64::from_le_bytes(ticks)]),
            Err(_) => Answer {
                bytes,
                ..Answer::default()
            },
        }
    }

    /// The same with a fault noted.
    pub fn with_fault(self, fault: &'static str) -> Answer {
        Answer {
            fault: Some(fault),
            ..self
        }
    }
}
