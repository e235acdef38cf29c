//! How a day ended.

/// The exit statuses. Of several days the greatest is returned.
#[derive(Clone, Copy, Debug, PartialEq, Eq, PartialOrd, Ord)]
#[repr(u8)]
pub enum Status {
    /// Every amount of the day stands in its statement.
    Settled = 0,
    /// A record was refused, and nothing is settled.
    Refused = 1,
    /// An hour or a unit lacks a price, and its amounts.
    PriceMissing = 2,
    /// There is no whole statement.
    Trouble = 3,
}

impl Status {
    /// The status of an output: a whole statement is the line of a refusal
    /// alone, or the day's lines and their total behind them.
    pub fn of(output: &[u8]) -> Status {
        let text = output.strip_suffix(b"\n").unwrap_or_default();
        let lines: Vec<Line> = text.split(|&byte| byte == b'\n').map(Line::of).collect();
        match &lines[..] {
            [Line::Refusal] => Status::Refused,
            [day @ .., Line::Total] if day.iter().all(Line::is_of_a_day) => {
                match day.contains(&Line::PriceMissing) {
                    true => Status::PriceMissing,
                    false => Status::Settled,
                }
            }
            _ => Status::Trouble,
        }
    }
}

/// What a line of an output is.
#[derive(PartialEq, Eq)]
enum Line {
    /// `REF n r`.
    Refusal,
    /// An hour's or a unit's amount.
    Amount,
    /// `ERR` in the place of amounts.
    PriceMissing,
    /// `DD TOT - amount`.
    Total,
    /// No line of a statement.
    Other,
}

impl Line {
    fn of(line: &[u8]) -> Line {
        let fields: Vec<&[u8]> = line.split(|&byte| byte == b' ').collect();
        match fields[..] {
            [b"REF", _, _] => Line::Refusal,
            [b"DD", b"TOT", b"-", _] => Line::Total,
            [_, b"ERR", _, _] => Line::PriceMissing,
            [_, _, _, _] => Line::Amount,
            _ => Line::Other,
        }
    }

    fn is_of_a_day(&self) -> bool {
        matches!(self, Line::Amount | Line::PriceMissing)
    }
}

#[cfg(test)]
mod tests {
    use super::*;

    const TOTAL: &str = "DD TOT - -1.00\n";

    #[test]
    fn statements_and_their_statuses() {
        for (day, status) in [
            ("", Status::Settled),
            ("05 IOG C 40.00\n05 OFF - 0.00\n", Status::Settled),
            ("05 ERR - 15\n06 OFF - 0.00\n", Status::PriceMissing),
            ("DD PCG G1 0.00\nDD ERR G2 15\n", Status::PriceMissing),
            ("05 IOG ERR 40.00\nDD PCG REF 0.00\n", Status::Settled),
            ("05 IOG TOT 40.00\nDD PCG - 0.00\n", Status::Settled),
        ] {
            let statement = format!("{day}{TOTAL}");
            assert_eq!(Status::of(statement.as_bytes()), status, "{statement}");
        }
        assert_eq!(Status::of(b"REF 3 10\n"), Status::Refused);
    }

    /// Cut off at any byte, or with more behind it.
    #[test]
    fn other_outputs_are_no_whole_statements() {
        for statement in ["05 ERR - 15\nDD PCG G1 0.00\nDD TOT - 0.00\n", "REF 3 10\n"] {
            for end in 0..statement.len() {
                let cut = &statement[..end];
                assert_eq!(Status::of(cut.as_bytes()), Status::Trouble, "{cut}");
            }
            for more in ["\n", "05 OFF - 0.00\n", "REF 1 2\n", TOTAL] {
                let longer = format!("{statement}{more}");
                assert_eq!(Status::of(longer.as_bytes()), Status::Trouble, "{longer}");
            }
        }
        for output in ["\n", "REF 3\n", "settled\nDD TOT - 0.00\n"] {
            assert_eq!(Status::of(output.as_bytes()), Status::Trouble, "{output}");
        }
    }
}
