//! What is left of a task's reservation.

/// A budget, and the deadline until which it is to be used.
#[derive(Clone, Copy)]
pub struct Server {
    pub budget: u32,
    pub deadline: u32,
}

impl Server {
    pub fn of_bits(bits: u64) -> Server {
        Server {
            budget: bits as u32,
            deadline: (bits >> 32) as u32,
        }
    }

    pub fn bits(self) -> u64 {
        u64::from(self.budget) | u64::from(self.deadline) << 32
    }
}
