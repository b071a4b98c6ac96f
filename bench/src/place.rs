//! Where a task is.

use crate::state::State;

/// On no runqueue, ended, or on a runqueue.
#[derive(Clone, Copy, PartialEq)]
pub enum Place {
    Away,
    Gone,
    On(u32, State),
}
