//! A line of a file whose task has no number yet.

use crate::verb::Verb;

/// A name may stand before its task is declared, so names are looked up when all files are read.
pub struct Event<'a> {
    pub moment: u32,
    pub verb: Verb,
    pub name: &'a [u8],
    pub length: u32,
    pub line: usize,
}
