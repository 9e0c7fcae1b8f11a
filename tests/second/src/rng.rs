//! A small seedable generator of numbers (splitmix64). The same seed gives the
//! same numbers on every machine.

pub struct Rng {
    state: u64,
}

impl Rng {
    pub fn new(seed: u64) -> Rng {
        Rng { state: seed }
    }

    pub fn next_u64(&mut self) -> u64 {
        self.state = self.state.wrapping_add(0x9E37_79B9_7F4A_7C15);
        let mut mixed = self.state;
        mixed = (mixed ^ (mixed >> 30)).wrapping_mul(0xBF58_476D_1CE4_E5B9);
        mixed = (mixed ^ (mixed >> 27)).wrapping_mul(0x94D0_49BB_1331_11EB);
        mixed ^ (mixed >> 31)
    }

    /// Another generator, decided by where this one stands. What is drawn from it
    /// is not drawn from this one, whose numbers stay as they are.
    pub fn aside(&self) -> Rng {
        let mut copy = Rng::new(self.state);
        Rng::new(copy.next_u64())
    }

    /// A number below `limit`, and 0 if there is none. The slight unevenness
    /// of the remainder does not matter here.
    pub fn below(&mut self, limit: usize) -> usize {
        if limit == 0 {
            0
        } else {
            (self.next_u64() % limit as u64) as usize
        }
    }

    /// A number from `low` to `high`, both included.
    pub fn between(&mut self, low: usize, high: usize) -> usize {
        low + self.below(high.saturating_sub(low).saturating_add(1))
    }

    pub fn byte(&mut self) -> u8 {
        self.next_u64() as u8
    }

    pub fn word(&mut self) -> u32 {
        self.next_u64() as u32
    }

    pub fn flag(&mut self) -> bool {
        self.below(2) == 1
    }

    /// True in so many of a hundred cases.
    pub fn chance(&mut self, percent: usize) -> bool {
        self.below(100) < percent
    }

    pub fn pick<T: Copy>(&mut self, choices: &[T]) -> Option<T> {
        choices.get(self.below(choices.len())).copied()
    }

    /// One of a fixed, non-empty list.
    pub fn one_of<T: Copy, const N: usize>(&mut self, choices: [T; N]) -> T {
        choices[self.below(N)]
    }
}
