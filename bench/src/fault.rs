//! The first fault of the files.

use crate::fault_kind::FaultKind;

/// A fault with its file's number, and its line's, which counts from 1.
pub struct Fault {
    pub kind: FaultKind,
    pub file: usize,
    pub line: usize,
}
