//! What a task on a runqueue does.

/// It works or waits for a processor, it is blocked before its 0-lag time, or it is blocked after
/// it.
#[derive(Clone, Copy, PartialEq)]
pub enum State {
    Contending = 1,
    NonContending = 2,
    Inactive = 3,
}
