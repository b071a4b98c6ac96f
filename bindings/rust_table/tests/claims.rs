//! A call in two steps: what is given back was no call, and a claim that is dropped gives its task back.
#![deny(unused_must_use)]
use neddwyrol::{codes, Moment, Op, Reading, Runqueue, RunqueueRecord, Task, TaskRecord};
use neddwyrol_table::{codes as table, Claim, Finished, Pass, Started};

fn held(pass: Pass, task: u32, op: Op) -> Claim {
    match pass.start(Task(task), op) {
        Started::Held(claim) => claim,
        Started::Answered(_, reply) => panic!("answered {}", reply.kind),
        Started::Busy(_) => panic!("busy"),
    }
}

fn opened(passes: u32) -> Pass {
    Pass::open(&[TaskRecord::new(4, 8)], &[RunqueueRecord::new(codes::UNIT, 0)], passes).unwrap()
}

#[test]
fn a_claim_keeps_others_out() {
    let (mut first, mut last) = (opened(2), [Reading::default()]);
    let second = first.part().unwrap();
    let Started::Answered(first, left) = first.start(Task(0), Op::leave()) else { panic!() };
    assert_eq!(left.kind, codes::NOT_ON);
    let mut claim = held(first, 0, Op::join(Runqueue(0), Moment(0)));
    let task = claim.task();
    assert_eq!((task.runtime, task.period, task.budget, task.state), (4, 8, 4, codes::AWAY));
    let Started::Busy(second) = second.start(Task(0), Op::join(Runqueue(0), Moment(0))) else { panic!() };
    let Finished::Held(claim) = claim.finish(0) else { panic!() };
    let first = claim.cancel();
    let Finished::Done(mut second, joined) = held(second, 0, Op::join(Runqueue(0), Moment(0))).finish(1) else { panic!() };
    assert_eq!(joined.kind, codes::JOINED);
    second.gather(first).unwrap();
    second.close(&mut last).unwrap();
    assert_eq!((last[0].running_bw, last[0].this_bw), (codes::UNIT / 2, codes::UNIT / 2));
}

#[test]
fn a_claim_that_is_dropped_cancels_itself() {
    let mut first = opened(2);
    let claim = held(first.part().unwrap(), 0, Op::join(Runqueue(0), Moment(0)));
    assert_eq!(first.apply(Task(0), Op::join(Runqueue(0), Moment(0)), 1).kind, table::BUSY);
    std::thread::spawn(move || drop(claim)).join().unwrap();
    assert_eq!(first.apply(Task(0), Op::join(Runqueue(0), Moment(0)), 1).kind, codes::JOINED);
    assert_eq!(first.close(&mut []).unwrap_err().fault.0, table::MISSING);
}
