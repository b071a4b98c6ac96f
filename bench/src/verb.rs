//! What a line asks for.

#[derive(Clone, Copy, PartialEq)]
pub enum Verb {
    Join,
    Wake,
    Block,
    Leave,
    Exit,
    Run,
    Read,
}
