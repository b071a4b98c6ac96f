//! Random ops and rebases, asked of the library, and the ops of a plain book in 64 bits that has one origin: each reply, each sum and
//! each record has to be the same, with deadlines less the origin and tickets less the count that was forgotten. Every history
//! has to be found to be the book's. `rebases OPS` asks about so many.
use neddwyrol::{audit, codes, Book, Event, Moment, Op, Reading, Runqueue, RunqueueRecord, Task, TaskRecord};
use plain::endless::{self, Answer, Place};
use plain::random::Random;

/// What the library's numbers are counted from: the origin of its moments, and of each task the count that was forgotten.
struct Since {
    origin: u64,
    counts: Vec<u64>,
}

impl Since {
    fn reply(&self, t: usize, answer: Answer) -> (u32, u64, u64, u64, u64) {
        let Answer { kind, number, budget, deadline, charged } = answer;
        let number = number - if kind == codes::WAITING { self.counts[t] } else { 0 };
        let has_moment = matches!(kind, codes::JOINED | codes::WOKEN | codes::CHARGED | codes::WAITING | codes::EARLY);
        (kind, number, budget, deadline - if has_moment { self.origin } else { 0 }, charged)
    }

    /// The same op of the library.
    fn op(&self, t: usize, op: endless::Op) -> Op {
        let (queue, moment) = (|r: usize| Runqueue(r as u32), |m: u64| Moment((m - self.origin) as u32));
        match op {
            endless::Op::Join(r, m) => Op::join(queue(r), moment(m)),
            endless::Op::Wake(r, m) => Op::wake(queue(r), moment(m)),
            endless::Op::Block(r, m) => Op::block(queue(r), moment(m)),
            endless::Op::Leave => Op::leave(),
            endless::Op::Timer(ticket, m) => Op::timer((ticket - self.counts[t]) as u32, moment(m)),
            endless::Op::Exit => Op::exit(),
            endless::Op::Charge(r, run) => Op::charge(queue(r), run as u32),
            endless::Op::Retune(runtime, period) => Op::retune(runtime as u32, period as u32),
            endless::Op::Move(r) => Op::move_to(queue(r)),
        }
    }
}

fn next_op(random: &mut Random, task: &endless::Task, forgotten: u64, queues: u32, moment: u64) -> endless::Op {
    let r = match task.queue() {
        Some(r) if random.below(4) > 0 => r,
        _ => random.below(queues) as usize,
    };
    let most = random.one_of([4, 400, 4000, 1 << 24]);
    // (a ticket from before a rebase has to be dropped, unless its task waits)
    let ticket = task.count.saturating_sub(u64::from(random.below(10) == 0)).max(forgotten);
    match random.below(20) {
        0 | 1 => endless::Op::Join(r, moment),
        2..=5 => endless::Op::Wake(r, moment),
        6..=9 => endless::Op::Block(r, moment),
        10 => endless::Op::Leave,
        11..=13 => endless::Op::Timer(ticket, moment),
        14 if random.below(200) == 0 => endless::Op::Exit,
        14 => {
            let (runtime, period) = random.reservation();
            endless::Op::Retune(runtime.into(), period.into())
        }
        15 => endless::Op::Move(random.below(queues) as usize),
        _ => endless::Op::Charge(r, 1 + u64::from(random.below(most))),
    }
}

/// How far the origin is to go: up to what may be, or a little more, or to now.
fn next_by(random: &mut Random, limit: u32, now: u64) -> u32 {
    let now = now as u32;
    match random.below(5) {
        0 => limit,
        1 => limit.saturating_add(1),
        2 => random.below(limit.max(1)),
        3 => limit.min(now),
        _ => now,
    }
}

struct Told {
    asked: u64,
    granted: u64,
    rebases: u64,
    refused: u64,
    latest: u64,
}

/// One book: so many ops.
fn try_book(seed: u64, ops: u32, told: &mut Told) {
    let mut random = Random::new(seed);
    let (n, m) = (1 + random.below(6), 1 + random.below(3));
    let mut tasks: Vec<_> = (0..n).map(|_| random.reservation()).map(|(runtime, period)| TaskRecord::new(runtime, period)).collect();
    let mut queues: Vec<_> = (0..m).map(|_| random.constants()).map(|(umax, uextra)| RunqueueRecord::new(umax, uextra)).collect();
    let (mut first_tasks, mut first_queues) = (tasks.clone(), queues.clone());
    let (mut other_tasks, mut other_queues) = (tasks.clone(), queues.clone());
    let mut plain = endless::Book {
        tasks: tasks.iter().map(|it| endless::Task::new(it.runtime.into(), it.period.into())).collect(),
        queues: queues.iter().map(|it| endless::Queue { umax: it.umax.into(), uextra: it.uextra.into() }).collect(),
    };
    let mut since = Since { origin: 0, counts: vec![0; n as usize] };
    let mut book = Book::open(&mut tasks, &mut queues).unwrap();
    let (mut now, mut history) = (0u64, vec![]);
    for _ in 0..ops {
        let step = random.one_of([2, 20, 5000, 1 << 24]);
        now = (now + u64::from(random.below(step))).min(since.origin + i32::MAX as u64);
        if random.below(20) == 0 {
            let limit = plain.tasks.iter().filter_map(endless::Task::bound).min();
            let limit = limit.map_or(u32::MAX, |it| u32::try_from(it - since.origin as i64).unwrap());
            assert_eq!(book.rebase_limit(), Ok(Moment(limit)), "seed {seed}");
            let by = next_by(&mut random, limit, now - since.origin);
            let reply = book.rebase(Moment(by));
            history.push(Event::rebase(Moment(by), reply));
            let origin = since.origin + u64::from(by);
            if let Some(late) = plain.tasks.iter().position(|it| it.bound().is_some_and(|bound| bound < origin as i64)) {
                assert_eq!((reply.kind, reply.number, by > limit), (codes::TOO_FAR, late as u32, true), "seed {seed}");
                told.refused += 1;
            } else {
                assert_eq!((reply.kind, reply.number, by <= limit), (codes::REBASED, 0, true), "seed {seed}");
                since.origin = origin;
                for (count, it) in since.counts.iter_mut().zip(&plain.tasks) {
                    if !matches!(it.place, Place::Waiting(_)) {
                        *count = it.count;
                    }
                }
                now = now.max(origin);
                told.rebases += 1;
            }
            assert_eq!((reply.budget, reply.deadline, reply.charged), (0, 0, 0));
        }
        let t = random.below(n) as usize;
        let op = next_op(&mut random, &plain.tasks[t], since.counts[t], m, now);
        let asked = since.op(t, op);
        let reply = book.apply(Task(t as u32), asked);
        history.push(Event::call(Task(t as u32), asked, reply));
        let want = since.reply(t, plain.ask(t, op, since.origin + u64::from(u32::MAX)));
        let got = (reply.kind, reply.number.into(), reply.budget.into(), reply.deadline.into(), reply.charged);
        assert_eq!(got, want, "seed {seed} {op:?} of {t}");
        told.asked += 1;
        told.granted += u64::from(reply.is_granted());
        for r in 0..m {
            let reading = Reading { running_bw: plain.running_bw(r as usize) as u32, this_bw: plain.this_bw(r as usize) as u32 };
            assert_eq!(book.reading(Runqueue(r)), Some(reading), "seed {seed} after {op:?}");
        }
        let (r, relative) = (random.below(m), |it: Option<(usize, u64)>| it.map(|(t, moment)| (Task(t as u32), Moment((moment - since.origin) as u32))));
        let earliest = plain.first(|it| (it.place == Place::Ready(r as usize)).then_some(it.deadline));
        let fires = plain.first(|it| (it.place == Place::Waiting(r as usize)).then(|| it.zero_lag() as u64));
        assert_eq!((book.earliest(Runqueue(r)), book.next_timer(Runqueue(r))), (relative(earliest), relative(fires)), "seed {seed}");
        for ((got, it), forgotten) in book.tasks().iter().zip(&plain.tasks).zip(&since.counts) {
            let deadline = it.deadline.saturating_sub(since.origin);
            let want = (it.runtime, it.period, it.budget, deadline, it.count - forgotten);
            assert_eq!((got.runtime.into(), got.period.into(), got.budget.into(), got.deadline.into(), got.count.into()), want, "seed {seed} after {op:?}");
        }
    }
    told.latest = told.latest.max(now);
    assert_eq!(audit(&tasks, &queues), Ok(()), "seed {seed}");
    let mut again = Book::open(&mut first_tasks, &mut first_queues).unwrap();
    assert_eq!(again.check(&history), history.len(), "seed {seed}");
    assert_eq!((again.tasks(), again.queues()), (&*tasks, &*queues), "seed {seed}");

    // a rebase by another moment, or with another reply, is not the book's
    if let Some(at) = history.iter().rposition(|it| it.kind == codes::REBASE && it.reply.kind == codes::REBASED) {
        history[at].reply.kind = codes::TOO_FAR;
        assert_eq!(Book::open(&mut other_tasks, &mut other_queues).unwrap().check(&history), at, "seed {seed}");
    }
}

fn main() {
    let wanted: u64 = std::env::args().nth(1).and_then(|it| it.parse().ok()).unwrap_or(1_000_000);
    let (mut seed, mut told) = (0, Told { asked: 0, granted: 0, rebases: 0, refused: 0, latest: 0 });
    while told.asked < wanted {
        seed += 1;
        try_book(seed, 4000, &mut told);
    }
    let Told { asked, granted, rebases, refused, latest } = told;
    println!("{asked} ops asked, {granted} granted, {rebases} rebases and {refused} refused, moments up to {latest}: as plain Rust's in 64 bits");
}
