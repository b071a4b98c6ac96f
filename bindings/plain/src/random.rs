//! What the random programs draw: the same each time.
use crate::Params;

pub struct Random(u64);

impl Random {
    pub fn new(seed: u64) -> Random {
        Random(seed.wrapping_mul(0x9E37_79B9_7F4A_7C15) | 1)
    }

    pub fn below(&mut self, n: u32) -> u32 {
        self.0 ^= self.0 << 13;
        self.0 ^= self.0 >> 7;
        self.0 ^= self.0 << 17;
        (self.0 >> 20) as u32 % n
    }

    pub fn one_of<const N: usize>(&mut self, choices: [u32; N]) -> u32 {
        choices[self.below(N as u32) as usize]
    }

    pub fn reservation(&mut self) -> (u32, u32) {
        loop {
            let most = self.one_of([10, 1000, 1 << 24]);
            let period = 1 + self.below(most);
            let runtime = 1 + self.below(period);
            if Params::new(runtime, period).is_some() {
                return (runtime, period);
            }
        }
    }

    pub fn constants(&mut self) -> (u32, u32) {
        let umax = 1 + self.below(1 << 20).max(self.below(1 << 20));
        (umax, self.below(umax + 1))
    }
}
