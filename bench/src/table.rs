//! What a worker asks.

use crate::ask::Ask;
use crate::reply::Reply;
use crate::sums::Sums;

/// A book of all tasks, or one thread's way to a book that threads share.
pub trait Table {
    fn ask(&mut self, task: u32, ask: Ask) -> Reply;
    fn read(&mut self, runqueue: u32) -> Sums;
}
