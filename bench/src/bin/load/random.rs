//! Numbers that look random and are the same in each run.

/// The state of an xorshift generator.
pub struct Random {
    state: u64,
}

impl Random {
    /// The numbers of a file.
    pub fn of_file(file: usize) -> Random {
        let mut random = Random {
            state: 88172645463333171 + 104729 * file as u64,
        };
        for _ in 0..9 {
            random.below(2);
        }
        random
    }

    pub fn below(&mut self, end: u64) -> u64 {
        self.state ^= self.state << 13;
        self.state ^= self.state >> 7;
        self.state ^= self.state << 17;
        self.state % end
    }
}
