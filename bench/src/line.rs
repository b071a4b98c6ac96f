//! A line of a script.

use crate::verb::Verb;

/// Its moment, what it asks for, its task's number, and how long the task ran; the last two where
/// it has them.
#[derive(Clone, Copy)]
pub struct Line {
    pub moment: u32,
    pub verb: Verb,
    pub task: u32,
    pub length: u32,
}
