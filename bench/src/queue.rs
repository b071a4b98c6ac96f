//! The constants of a runqueue.

use crate::sums::Sums;

/// The bandwidth that it admits, and that of it which running tasks may reclaim at all times.
#[derive(Clone, Copy)]
pub struct Queue {
    pub umax: u32,
    pub uextra: u32,
}

impl Queue {
    /// That of an ask that is of no runqueue.
    pub const NONE: Queue = Queue { umax: 1, uextra: 0 };

    /// What a task of this bandwidth that ran for `length` takes from its budget.
    pub fn charge(self, length: u32, bandwidth: u32, sums: Sums) -> u64 {
        let inactive = i64::from(sums.this) - i64::from(sums.running);
        let reclaimed = i64::from(self.umax) - inactive - i64::from(self.uextra);
        let rate = reclaimed.max(bandwidth.into());
        u64::from(length) * rate as u64 / u64::from(self.umax)
    }
}
