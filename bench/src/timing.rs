//! Medians of several runs, taken in turn on both sides.

use std::time::{Duration, Instant};

/// How long one run lasts at least.
#[derive(Clone, Copy, Debug)]
pub struct Pace {
    /// Least time of a run.
    pub run: Duration,
    /// Runs of each side, of which the median counts.
    pub runs: usize,
}

impl Pace {
    /// The usual pace.
    pub const USUAL: Pace = Pace {
        run: Duration::from_millis(30),
        runs: 9,
    };

    /// A quick look.
    pub const QUICK: Pace = Pace {
        run: Duration::from_millis(3),
        runs: 3,
    };
}

/// Nanoseconds of one piece of work on each side.
#[derive(Clone, Copy, Debug, PartialEq)]
pub struct Times {
    /// The proved side.
    pub proved: f64,
    /// The peer.
    pub peer: f64,
}

impl Times {
    /// Proved over peer.
    pub fn ratio(self) -> f64 {
        self.proved / self.peer
    }
}

/// Times both sides: a warm-up that also finds how often the work fits into a
/// run, then runs of either side in turn.
pub fn timed(pace: Pace, mut proved: impl FnMut(), mut peer: impl FnMut()) -> Times {
    let proved_count = warmed(pace, &mut proved);
    let peer_count = warmed(pace, &mut peer);
    let mut proved_runs = Vec::new();
    let mut peer_runs = Vec::new();
    for _ in 0..pace.runs {
        proved_runs.push(one_run(proved_count, &mut proved));
        peer_runs.push(one_run(peer_count, &mut peer));
    }
    Times {
        proved: median(proved_runs),
        peer: median(peer_runs),
    }
}

/// How often the work fits into one run.
fn warmed(pace: Pace, work: &mut impl FnMut()) -> u32 {
    let mut count = 1;
    loop {
        let begun = Instant::now();
        for _ in 0..count {
            work();
        }
        if begun.elapsed() >= pace.run || count > 1 << 24 {
            return count;
        }
        count *= 2;
    }
}

/// Nanoseconds of one piece of work.
fn one_run(count: u32, work: &mut impl FnMut()) -> f64 {
    let begun = Instant::now();
    for _ in 0..count {
        work();
    }
    begun.elapsed().as_nanos() as f64 / f64::from(count)
}

fn median(mut runs: Vec<f64>) -> f64 {
    runs.sort_by(f64::total_cmp);
    runs[runs.len() / 2]
}

/// Nanoseconds in a readable unit.
pub fn readable(nanoseconds: f64) -> String {
    match nanoseconds {
        n if n < 10_000.0 => format!("{n:.0} ns"),
        n if n < 10_000_000.0 => format!("{:.1} us", n / 1e3),
        n => format!("{:.1} ms", n / 1e6),
    }
}

#[cfg(test)]
mod tests {
    use super::*;

    #[test]
    fn the_median_is_the_middle_one() {
        assert_eq!(median(vec![9.0, 1.0, 5.0]), 5.0);
        assert_eq!(median(vec![2.0]), 2.0);
    }

    #[test]
    fn times_are_readable() {
        assert_eq!(readable(12.4), "12 ns");
        assert_eq!(readable(12_400.0), "12.4 us");
        assert_eq!(readable(12_400_000.0), "12.4 ms");
    }
}
