//! What can be wrong with a file.

/// The faults by their numbers in `docs/FORMAT.md`.
#[derive(Clone, Copy)]
pub enum FaultKind {
    BadHeader = 28,
    BadLine = 29,
    BadNumber = 30,
    OutOfRange = 31,
    DuplicateTask = 32,
    UnknownTask = 33,
    MomentGoesBack = 34,
    MissingQueue = 35,
    CutShort = 36,
}
