//! The word of a task that threads share.

use crate::place::Place;
use crate::state::State;

/// Where the task is, whether a thread has claimed it, and how often it waited for its 0-lag
/// moment.
#[derive(Clone, Copy)]
pub struct TaskWord {
    pub place: Place,
    pub is_claimed: bool,
    pub count: u32,
}

impl TaskWord {
    /// The bit of a claim.
    pub const CLAIM: u64 = 8;

    pub fn of_bits(bits: u64) -> TaskWord {
        let runqueue = (bits >> 4 & 255) as u32;
        let place = match bits & 7 {
            0 => Place::Away,
            1 => Place::On(runqueue, State::Contending),
            2 => Place::On(runqueue, State::NonContending),
            4 => Place::Gone,
            _ => Place::On(runqueue, State::Inactive),
        };
        TaskWord {
            place,
            is_claimed: bits & TaskWord::CLAIM != 0,
            count: (bits >> 12) as u32,
        }
    }

    /// The bits of a task that nobody has claimed.
    pub fn unclaimed_bits(place: Place, count: u32) -> u64 {
        let (state, runqueue) = match place {
            Place::Away => (0, 0),
            Place::Gone => (4, 0),
            Place::On(runqueue, state) => (state as u64, u64::from(runqueue)),
        };
        state | runqueue << 4 | u64::from(count) << 12
    }
}
