//! The bandwidths of a runqueue.

use crate::change::Change;

/// The bandwidth of its active tasks, and that of all its tasks.
#[derive(Clone, Copy, Default)]
pub struct Sums {
    pub running: u32,
    pub this: u32,
}

impl Sums {
    pub fn after(self, change: Change) -> Sums {
        Sums {
            running: (self.running as i32 + change.running) as u32,
            this: (self.this as i32 + change.this) as u32,
        }
    }

    pub fn of_bits(bits: u64) -> Sums {
        Sums {
            running: bits as u32,
            this: (bits >> 32) as u32,
        }
    }

    pub fn bits(self) -> u64 {
        u64::from(self.running) | u64::from(self.this) << 32
    }
}
