//! Passes of two tables are told apart.
#![deny(unused_must_use)]
use neddwyrol::RunqueueRecord;
use neddwyrol_table::Pass;

fn opened() -> Pass {
    Pass::open(&[], &[RunqueueRecord::new(1, 1)], 1).unwrap()
}

#[test]
#[should_panic(expected = "two passes of two tables")]
fn do_not_meet() {
    opened().meet(&mut opened());
}

#[test]
#[should_panic(expected = "two passes of two tables")]
fn are_not_gathered() {
    let _refused = opened().gather(opened());
}
