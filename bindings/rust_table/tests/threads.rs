//! Four threads over one shared table, a pass each. A thread has a runqueue of its own, which it also reads, and two tasks on a
//! fifth, which all share. There no reply depends on another thread's tasks, so the histories one after another are one of
//! the book's: it has to give each of them, and the last sums. `threads TABLES` opens so many. It is a plain program, so that
//! helgrind sees these threads alone.
#![deny(unused_must_use)]
use neddwyrol::{codes, Book, Event, Moment, Op, Reading, Reply, Runqueue, RunqueueRecord, Task, TaskRecord};
use neddwyrol_table::{codes as table, Pass};

const THREADS: u32 = 4;
const EACH: u32 = 4;
const SHARED: u32 = THREADS;
const ROUNDS: u32 = 3;

/// Asks until no other pass is in the way, and writes the call down.
fn asked(pass: &mut Pass, events: &mut Vec<Event>, task: u32, op: Op) -> Reply {
    loop {
        let reply = pass.apply(Task(task), op, 1);
        if reply.kind != table::BUSY && reply.kind != table::LOST {
            events.push(Event::call(Task(task), op, reply));
            return reply;
        }
    }
}

fn work(mut pass: Pass, number: u32) -> (Pass, Vec<Event>) {
    let mut events = vec![];
    for round in 0..ROUNDS {
        for k in 0..EACH {
            let (task, now, is_own) = (number * EACH + k, 40 * round, k < 2);
            let queue = if is_own { number } else { SHARED };
            let arrival = if round == 0 { Op::join(Runqueue(queue), Moment(now)) } else { Op::wake(Runqueue(queue), Moment(now)) };
            asked(&mut pass, &mut events, task, arrival);
            if is_own {
                asked(&mut pass, &mut events, task, Op::charge(Runqueue(queue), 3 + k));
                events.push(Event::reading(Runqueue(queue), pass.read(Runqueue(queue)).unwrap()));
            }
            let blocked = asked(&mut pass, &mut events, task, Op::block(Runqueue(queue), Moment(now + 1)));
            if blocked.kind == codes::WAITING && round % 2 == 0 {
                asked(&mut pass, &mut events, task, Op::timer(blocked.number, Moment(blocked.deadline)));
            }
        }
    }
    (pass, events)
}

fn try_table() {
    let mut tasks = vec![TaskRecord::new(10, 100); (THREADS * EACH) as usize];
    let mut queues = vec![RunqueueRecord::new(codes::UNIT, codes::UNIT / 10); THREADS as usize + 1];
    let mut first = Pass::open(&tasks, &queues, THREADS).unwrap();
    let mut passes: Vec<_> = (1..THREADS).map(|_| first.part().unwrap()).collect();
    assert_eq!(first.part().err().map(|fault| fault.0), Some(table::NO_PART));
    assert_eq!((first.apply(Task(99), Op::exit(), 0).kind, first.apply(Task(0), Op { kind: 9, a: 0, b: 0 }, 0).kind), (codes::NO_TASK, codes::NO_OP));
    assert_eq!(first.read(Runqueue(9)), None);
    passes.push(first);
    let threads: Vec<_> = (0..).zip(passes).map(|(number, pass)| std::thread::spawn(move || work(pass, number))).collect();
    let (mut passes, mut history) = (vec![], vec![]);
    for thread in threads {
        let (pass, events) = thread.join().unwrap();
        passes.push(pass);
        history.extend(events);
    }
    let (mut last, mut all) = (vec![Reading::default(); queues.len()], passes.pop().unwrap());
    all.meet(&mut passes[0]);
    let refused = all.close(&mut last).unwrap_err();
    assert_eq!(refused.fault.0, table::MISSING);
    let mut all = refused.pass.unwrap();
    for pass in passes {
        all.gather(pass).unwrap();
    }
    all.close(&mut last).unwrap();
    let mut book = Book::open(&mut tasks, &mut queues).unwrap();
    assert_eq!(book.check(&history), history.len());
    assert_eq!(last, (0..last.len()).map(|r| book.reading(Runqueue(r as u32)).unwrap()).collect::<Vec<_>>());
}

fn main() {
    assert_eq!(Pass::open(&[], &[], 1).err().map(|fault| fault.0), Some(codes::NO_QUEUE));
    assert_eq!(Pass::open(&[], &[RunqueueRecord::new(1, 1)], 65).err().map(|fault| fault.0), Some(table::TOO_MANY_PASSES));
    let tables = std::env::args().nth(1).and_then(|it| it.parse().ok()).unwrap_or(100);
    for _ in 0..tables {
        try_table();
    }
    println!("{tables} tables of four threads have the book's histories, and its sums at the end");
}
