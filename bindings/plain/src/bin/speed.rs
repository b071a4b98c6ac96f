//! Nanoseconds of a transition, of plain Rust's book and of the library: 8 tasks on one runqueue, in
//! rounds of charge, block, timer and wake, and charges alone.
use neddwyrol::{codes, Book, Moment, Runqueue, RunqueueRecord, Task, TaskRecord};
use plain::{Op, Params, Queue, Reply};
use std::hint::black_box;
use std::time::Instant;

/// What a task runs at a time: so much that its block waits, and a timer fires.
const RUN: u32 = 16;

fn plain_run(rounds: u32, charges_alone: bool) -> (u64, u64, f64) {
    let params = vec![Params::new(100, 1000).unwrap(); 8];
    let mut book = black_box(plain::Book::new(&params, &[Queue { umax: 996_147, uextra: 0 }]));
    let (mut sum, mut ops) = (0u64, 0u64);
    for task in 0..8 {
        book.ask(task, Op::Join(0, 0));
    }
    let start = Instant::now();
    for i in 0..rounds {
        let (moment, task) = (i * 16, i & 7);
        if let Reply::Charged(charged, ..) = book.ask(task, Op::Charge(0, RUN)) {
            sum += charged;
        }
        ops += 1;
        if charges_alone {
            continue;
        }
        if let Reply::Waiting(ticket, z) = book.ask(task, Op::Block(0, moment)) {
            sum += u64::from(z);
            sum += u64::from(matches!(book.ask(task, Op::Timer(ticket, z)), Reply::Retired));
            ops += 1;
        }
        if let Reply::Woken(server) = book.ask(task, Op::Wake(0, moment + 8)) {
            sum += u64::from(server.deadline);
        }
        ops += 2;
    }
    (ops, sum, start.elapsed().as_secs_f64())
}

fn library_run(rounds: u32, charges_alone: bool) -> (u64, u64, f64) {
    let mut tasks = [TaskRecord::new(100, 1000); 8];
    let mut queues = [RunqueueRecord::new(996_147, 0)];
    let mut book = Book::open(&mut tasks, &mut queues).unwrap();
    let (mut sum, mut ops) = (0u64, 0u64);
    for task in 0..8 {
        book.join(Task(task), Runqueue(0), Moment(0)).granted().unwrap();
    }
    let start = Instant::now();
    for i in 0..rounds {
        let (moment, task) = (i * 16, i & 7);
        sum += book.run(Task(task), Runqueue(0), RUN).charged;
        ops += 1;
        if charges_alone {
            continue;
        }
        let waits = book.block(Task(task), Runqueue(0), Moment(moment));
        if waits.kind == codes::WAITING {
            sum += u64::from(waits.deadline);
            sum += u64::from(book.timer(Task(task), waits.number, Moment(waits.deadline)).kind == codes::RETIRED);
            ops += 1;
        }
        let woken = book.wake(Task(task), Runqueue(0), Moment(moment + 8));
        if woken.kind == codes::WOKEN {
            sum += u64::from(woken.deadline);
        }
        ops += 2;
    }
    (ops, sum, start.elapsed().as_secs_f64())
}

/// The least of many short runs, turn by turn, so that other work of the machine does not count.
fn main() {
    let turns = std::env::args().nth(1).and_then(|it| it.parse().ok()).unwrap_or(1000);
    for (name, charges_alone, most) in [("transitions", false, 1.3), ("charges", true, 1.1)] {
        let (mut plain, mut library) = (f64::MAX, f64::MAX);
        for _ in 0..turns {
            let (ops, sum, took) = plain_run(2000, charges_alone);
            plain = plain.min(1e9 * took / ops as f64);
            let (other_ops, other_sum, took) = library_run(2000, charges_alone);
            library = library.min(1e9 * took / other_ops as f64);
            assert_eq!((ops, sum), (other_ops, other_sum));
        }
        println!("{name}: plain Rust {plain:.1} ns, library {library:.1} ns, ratio {:.2} (at most {most})", library / plain);
    }
}
