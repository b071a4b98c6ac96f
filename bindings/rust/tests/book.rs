//! The calls of the crate, each once.
#![deny(unused_must_use)]
use neddwyrol::{abi, audit, audit_fault, charge, codes, exhaustion, kernel_charge, open_fault, version, Ask, Book, Capacity, Event, Fault, FaultAt, KernelSums, Moment, Op, Params, Reading, Reply, Runqueue, RunqueueRecord, Server, Task, TaskRecord};

const HALF: Params = Params { runtime: 4, period: 8 };
const A: Task = Task(0);
const B: Task = Task(1);
const C: Task = Task(2);
const HERE: Runqueue = Runqueue(0);
const THERE: Runqueue = Runqueue(1);

fn memory() -> ([TaskRecord; 2], [RunqueueRecord; 1]) {
    ([TaskRecord::new(4, 8), TaskRecord::new(4, 8)], [RunqueueRecord::new(codes::UNIT, 0)])
}

#[test]
fn openings() {
    let (mut tasks, mut queues) = memory();
    assert_eq!((abi(), version()), (codes::ABI, codes::VERSION));
    assert!(Book::open(&mut tasks, &mut []).is_err_and(|fault| fault == Fault(codes::NO_QUEUE)));
    queues[0].uextra = codes::UNIT + 1;
    assert!(Book::open(&mut tasks, &mut queues).is_err_and(|fault| fault == Fault(codes::UEXTRA_OUT_OF_RANGE)));
    queues[0].uextra = codes::UNIT;
    tasks[1].runtime = 9;
    assert!(Book::open(&mut tasks, &mut queues).is_err_and(|fault| fault == Fault(codes::RUNTIME_OUT_OF_RANGE)));
    assert_eq!(tasks[0], TaskRecord::new(4, 8));
    assert_eq!(open_fault(&tasks, &queues), Err(FaultAt { fault: Fault(codes::RUNTIME_OUT_OF_RANGE), number: 1 }));
    assert_eq!(Fault(codes::RUNTIME_OUT_OF_RANGE).to_string(), "neddwyrol: 2 RUNTIME_OUT_OF_RANGE");
    assert_eq!((codes::name(103), codes::name(99)), ("WAITING", "UNKNOWN"));
}

#[test]
fn a_server_of_many_processors() {
    let mut tasks = vec![TaskRecord::new(1, 4); 100_000];
    let mut queues = vec![RunqueueRecord::new(codes::UNIT, 0); 1_000];
    let mut book = Book::open(&mut tasks, &mut queues).unwrap();
    for task in 0..100_000 {
        let reply = book.join(Task(task), Runqueue(task % 1_000), Moment(0));
        assert_eq!(reply.is_granted(), task < 4_000, "{task}");
    }
    assert_eq!(book.reading(Runqueue(999)), Some(Reading { running_bw: codes::UNIT, this_bw: codes::UNIT }));
    assert_eq!(audit(&tasks, &queues), Ok(()));
    queues[999].this_bw -= 1;
    assert_eq!(audit(&tasks, &queues), Err(Fault(codes::WRONG_THIS_BW)));
    assert_eq!(audit_fault(&tasks, &queues), Err(FaultAt { fault: Fault(codes::WRONG_THIS_BW), number: 999 }));
    tasks[70_000].state = 5;
    assert_eq!(audit_fault(&tasks, &queues), Err(FaultAt { fault: Fault(codes::STATE_OUT_OF_RANGE), number: 70_000 }));
}

#[test]
fn batches_and_histories() {
    let (mut tasks, mut queues) = memory();
    let mut book = Book::open(&mut tasks, &mut queues).unwrap();
    let asks = [(0, Op::join(HERE, Moment(0))), (1, Op::join(HERE, Moment(0))), (0, Op::charge(HERE, 2)), (0, Op::block(HERE, Moment(2))), (2, Op::leave())];
    let asks = asks.map(|(task, op)| Ask::new(Task(task), op));
    let mut replies = [Reply::default(); 4];
    assert_eq!(book.apply_all(&asks, &mut replies), 4);
    assert_eq!(replies.map(|reply| reply.kind), [codes::JOINED, codes::JOINED, codes::CHARGED, codes::WAITING]);
    assert_eq!((replies[3].number, replies[3].deadline), (1, 4));

    let mut history: Vec<Event> = asks.iter().zip(&replies).map(|(ask, reply)| Event::call(Task(ask.task), ask.op, *reply)).collect();
    history.push(Event::reading(HERE, book.reading(HERE).unwrap()));
    let mut again = memory();
    assert_eq!(Book::open(&mut again.0, &mut again.1).unwrap().check(&history), 5);
    history[4].running_bw = 1;
    assert_eq!(Book::open(&mut again.0, &mut again.1).unwrap().check(&history), 4);
    history[2].reply.budget = 3;
    assert_eq!(Book::open(&mut again.0, &mut again.1).unwrap().check(&history), 2);
}

#[test]
fn snapshots() {
    let (mut tasks, mut queues) = memory();
    let mut book = Book::open(&mut tasks, &mut queues).unwrap();
    book.join(A, HERE, Moment(0)).granted().unwrap();
    let (mut saved, mut sums) = (book.tasks().to_vec(), book.queues().to_vec());
    let moved = [book.block(A, HERE, Moment(0)), book.leave(A), book.retune(A, 2, 8), book.exit(A)].map(|reply| reply.kind);
    assert_eq!(moved, [codes::ASLEEP, codes::LEFT, codes::RETUNED, codes::ENDED]);
    let mut book = Book::resume(&mut saved, &mut sums).unwrap();
    assert_eq!(book.wake(A, HERE, Moment(0)).kind, codes::ALREADY_CONTENDING);
    assert_eq!(book.timer(A, 1, Moment(4)).kind, codes::STALE);
    assert_eq!(book.run(A, THERE, 2).granted(), Err(Fault(codes::NO_OP)));
    sums[0].running_bw = 0;
    assert!(Book::resume(&mut saved, &mut sums).is_err_and(|fault| fault == Fault(codes::WRONG_RUNNING_BW)));
}

#[test]
fn moves() {
    let mut tasks = [TaskRecord::new(4, 8), TaskRecord::new(4, 8), TaskRecord::new(1, 8)];
    let mut queues = [RunqueueRecord::new(codes::UNIT, 0), RunqueueRecord::new(codes::UNIT / 2, 0)];
    let mut book = Book::open(&mut tasks, &mut queues).unwrap();
    book.join(A, HERE, Moment(0)).granted().unwrap();
    book.join(C, HERE, Moment(0)).granted().unwrap();
    assert_eq!((book.earliest(HERE), book.earliest(THERE), book.next_timer(HERE)), (Some((A, Moment(8))), None, None));
    book.run(A, HERE, 1).granted().unwrap();
    let moved = book.move_to(A, THERE).granted().unwrap();
    assert_eq!((moved.kind, moved.number, book.tasks()[0].budget), (codes::MOVED, 0, 4 - 1));
    assert_eq!(book.reading(THERE), Some(Reading { running_bw: codes::UNIT / 2, this_bw: codes::UNIT / 2 }));
    assert_eq!([book.move_to(A, THERE), book.move_to(C, THERE), book.move_to(B, THERE)].map(|it| it.kind), [codes::ALREADY_ON, codes::FULL, codes::NOT_ON]);
    assert_eq!((book.exhaustion(A), book.exhaustion(B)), (Some(3), None));
    let waits = book.block(A, THERE, Moment(1));
    assert_eq!((book.next_timer(THERE), book.move_to(A, HERE).kind), (Some((A, Moment(waits.deadline))), codes::NOT_CONTENDING));
}

#[test]
fn origins() {
    let (mut tasks, mut queues) = memory();
    let mut book = Book::open(&mut tasks, &mut queues).unwrap();
    assert_eq!(book.rebase_limit(), Ok(Moment(u32::MAX)));
    assert_eq!(book.rebase(Moment(u32::MAX)).kind, codes::REBASED);
    let mut history = vec![];
    for (task, op) in [(A, Op::join(HERE, Moment(10))), (B, Op::join(HERE, Moment(10))), (A, Op::charge(HERE, 2)), (A, Op::block(HERE, Moment(12)))] {
        history.push(Event::call(task, op, book.apply(task, op)));
    }
    assert_eq!((book.rebase_limit(), book.tasks()[0].count), (Ok(Moment(14)), 1));
    let far = book.rebase(Moment(15));
    assert_eq!((far.kind, far.number, book.tasks()[1].deadline), (codes::TOO_FAR, 0, 18));
    history.push(Event::rebase(Moment(15), far));
    history.push(Event::rebase(Moment(12), book.rebase(Moment(12)).granted().unwrap()));
    assert_eq!((book.tasks()[0].deadline, book.tasks()[0].count, book.tasks()[1].deadline), (6, 1, 6));
    assert_eq!([1, 2].map(|now| book.timer(A, 1, Moment(now)).kind), [codes::EARLY, codes::RETIRED]);
    book.rebase(Moment(6)).granted().unwrap();
    assert_eq!((book.tasks()[0].count, book.tasks()[1].deadline), (0, 0));
    assert_eq!(book.wake(A, HERE, Moment(0)).deadline, 8);
    let mut again = memory();
    assert_eq!(Book::open(&mut again.0, &mut again.1).unwrap().check(&history), 6);
    history[5].number = 11;
    assert_eq!(Book::open(&mut again.0, &mut again.1).unwrap().check(&history), 6);
    history[4].reply.number = 1;
    assert_eq!(Book::open(&mut again.0, &mut again.1).unwrap().check(&history), 4);
}

#[test]
fn arithmetic() {
    let server = Server { budget: 2, deadline: 8 };
    assert_eq!((HALF.bw(), HALF.check(), Params { runtime: 9, period: 8 }.check()), (524288, Ok(()), Err(Fault(2))));
    assert_eq!(Capacity { umax: 5, uextra: 6 }.check(), Err(Fault(codes::UEXTRA_OUT_OF_RANGE)));
    assert_eq!(Server { budget: 2, deadline: 10 }.zero_lag(Params { runtime: 3, period: 10 }), Ok(4));
    assert_eq!(server.woken(HALF, Moment(5)), Ok(Server { budget: 4, deadline: 13 }));
    assert_eq!(server.depleted(HALF, 10), Ok((3, Server { budget: 4, deadline: 32 })));
    let queue = Capacity { umax: 996147, uextra: 200000 };
    assert_eq!(charge(1000, 262144, queue, Reading { running_bw: 262144, this_bw: 262144 }), Ok(799));
    assert_eq!(exhaustion(800, 262144, queue, Reading { running_bw: 262144, this_bw: 262144 }), Ok(1001));
    assert_eq!(charge(1, 1, queue, Reading { running_bw: 2, this_bw: 1 }), Err(Fault(codes::RUNNING_OUT_OF_RANGE)));
    let sums = KernelSums { this_bw: 104857, running_bw: 104857, extra_bw: 0, max_bw: 996147, bw_ratio: 269 };
    assert_eq!(kernel_charge(0x061200, 1_000_000, 104857, sums), 998_241);
    assert_eq!(kernel_charge(0x060100, 1_000_000, 104857, sums), 1_000_000);
}
