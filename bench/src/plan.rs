//! What all files say.

use crate::line::Line;
use crate::queue::Queue;
use crate::reservation::Reservation;
use std::ops::Range;

/// The runqueues and their scripts, by file; the tasks and their names, in the order of files and
/// lines.
#[derive(Default)]
pub struct Plan {
    pub queues: Vec<Queue>,
    pub tasks: Vec<Reservation>,
    pub names: Vec<Vec<u8>>,
    pub scripts: Vec<Vec<Line>>,
}

impl Plan {
    /// The numbers of the runqueues.
    pub fn runqueues(&self) -> Range<u32> {
        0..self.queues.len() as u32
    }
}
