//! What an ask adds to the sums of a runqueue.

/// What it adds to the bandwidth of the active tasks, and to that of all tasks.
#[derive(Clone, Copy)]
pub struct Change {
    pub running: i32,
    pub this: i32,
}
