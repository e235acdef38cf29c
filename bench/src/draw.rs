//! A small seeded generator of numbers.

/// Draws numbers; the same seed gives the same ones.
#[derive(Clone, Debug)]
pub struct Draw(u64);

impl Draw {
    /// A generator for a seed.
    pub fn new(seed: u64) -> Draw {
        Draw(scattered(seed).max(1))
    }

    /// The generator of one list of a run.
    pub fn for_list(seed: u64, part: u64, ordinal: u64) -> Draw {
        Draw::new(scattered(scattered(seed) ^ part.rotate_left(56)) ^ ordinal)
    }

    /// The next 64 bits.
    pub fn bits(&mut self) -> u64 {
        self.0 ^= self.0 << 13;
        self.0 ^= self.0 >> 7;
        self.0 ^= self.0 << 17;
        self.0
    }

    /// A number below `bound`, which is above 0.
    pub fn below(&mut self, bound: usize) -> usize {
        ((self.bits() >> 11) % bound as u64) as usize
    }

    /// A number from the least to the greatest, both included.
    pub fn between(&mut self, least: i64, greatest: i64) -> i64 {
        let span = (greatest - least + 1).unsigned_abs();
        least + ((self.bits() >> 11) % span) as i64
    }

    /// True once in so many draws.
    pub fn once_in(&mut self, times: usize) -> bool {
        self.below(times) == 0
    }

    /// One of the given.
    pub fn pick<T: Copy>(&mut self, from: &[T]) -> T {
        from[self.below(from.len())]
    }

    /// Any byte.
    pub fn byte(&mut self) -> u8 {
        (self.bits() >> 32) as u8
    }

    /// Puts the elements into another order.
    pub fn shuffle<T>(&mut self, elements: &mut [T]) {
        for place in (1..elements.len()).rev() {
            elements.swap(place, self.below(place + 1));
        }
    }
}

/// Neighbouring seeds far apart.
fn scattered(seed: u64) -> u64 {
    let mut mixed = seed.wrapping_add(0x9E37_79B9_7F4A_7C15);
    mixed = (mixed ^ mixed >> 30).wrapping_mul(0xBF58_476D_1CE4_E5B9);
    mixed = (mixed ^ mixed >> 27).wrapping_mul(0x94D0_49BB_1331_11EB);
    mixed ^ mixed >> 31
}

#[cfg(test)]
mod tests {
    use super::*;

    #[test]
    fn the_same_seed_gives_the_same_numbers() {
        let first: Vec<u64> = (0..10)
            .map({
                let mut d = Draw::new(7);
                move |_| d.bits()
            })
            .collect();
        let again: Vec<u64> = (0..10)
            .map({
                let mut d = Draw::new(7);
                move |_| d.bits()
            })
            .collect();
        let other: Vec<u64> = (0..10)
            .map({
                let mut d = Draw::new(8);
                move |_| d.bits()
            })
            .collect();
        assert_eq!(first, again);
        assert_ne!(first, other);
    }

    #[test]
    fn bounds_are_kept_and_reached() {
        let mut draw = Draw::new(1);
        let mut seen = [false; 5];
        for _ in 0..200 {
            seen[(draw.between(-2, 2) + 2) as usize] = true;
        }
        assert_eq!(seen, [true; 5]);
    }
}
