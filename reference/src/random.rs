//! Random numbers from a seed: the same seed gives the same cases on every machine (SplitMix64).

pub struct Source {
    state: u64,
}

impl Source {
    /// The numbers for one case: cases of one seed do not depend on each other.
    pub fn new(seed: u64, case: u64) -> Source {
        let mut source = Source {
            state: seed ^ case.wrapping_mul(0xD1B5_4A32_D192_ED03),
        };
        source.draw();
        source
    }

    pub fn draw(&mut self) -> u64 {
        self.state = self.state.wrapping_add(0x9E37_79B9_7F4A_7C15);
        let mut z = self.state;
        z = (z ^ (z >> 30)).wrapping_mul(0xBF58_476D_1CE4_E5B9);
        z = (z ^ (z >> 27)).wrapping_mul(0x94D0_49BB_1331_11EB);
        z ^ (z >> 31)
    }

    /// A number from 0 to count - 1.
    pub fn below(&mut self, count: u64) -> u64 {
        self.draw() % count
    }

    pub fn index(&mut self, count: usize) -> usize {
        self.below(count as u64) as usize
    }

    /// A number from lowest to highest, all alike.
    pub fn between(&mut self, lowest: u64, highest: u64) -> u64 {
        lowest + self.below(highest - lowest + 1)
    }

    /// A number from lowest to highest, in half of the draws one of the ends or their neighbours.
    pub fn with_ends(&mut self, lowest: u64, highest: u64) -> u64 {
        let near = match self.below(8) {
            0 => lowest,
            1 => highest,
            2 => lowest + 1,
            3 => highest.saturating_sub(1),
            _ => self.between(lowest, highest),
        };
        near.clamp(lowest, highest)
    }

    /// Whether something that happens once in so many draws happens.
    pub fn once_in(&mut self, draws: u64) -> bool {
        self.below(draws) == 0
    }

    pub fn one_of<T: Copy>(&mut self, choices: &[T]) -> T {
        choices[self.index(choices.len())]
    }
}
