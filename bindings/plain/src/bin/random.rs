//! Random ops, also out of range, asked of the library and of plain Rust's book: each reply, each sum and each record has
//! to be the same, and every history has to be found to be the book's. `random OPS` asks about so many.
use neddwyrol::{audit, codes, Book, Event, Moment, Op, Reading, Runqueue, RunqueueRecord, Task, TaskRecord};
use plain::{random::Random, Op as PlainOp, Params, Place, Queue, Reply, State};

fn numbers(reply: Reply) -> (u32, u32, u32, u32, u64) {
    match reply {
        Reply::Joined(s) => (codes::JOINED, 0, s.budget, s.deadline, 0),
        Reply::Woken(s) => (codes::WOKEN, 0, s.budget, s.deadline, 0),
        Reply::Waiting(ticket, z) => (codes::WAITING, ticket, 0, z, 0),
        Reply::Asleep => (codes::ASLEEP, 0, 0, 0, 0),
        Reply::Left(r) => (codes::LEFT, r, 0, 0, 0),
        Reply::Retired => (codes::RETIRED, 0, 0, 0, 0),
        Reply::Ended => (codes::ENDED, 0, 0, 0, 0),
        Reply::Charged(charged, count, s) => (codes::CHARGED, count, s.budget, s.deadline, charged),
        Reply::Retuned => (codes::RETUNED, 0, 0, 0, 0),
        Reply::Moved(r) => (codes::MOVED, r, 0, 0, 0),
        Reply::Gone => (codes::GONE, 0, 0, 0, 0),
        Reply::NotOn => (codes::NOT_ON, 0, 0, 0, 0),
        Reply::AlreadyOn(r) => (codes::ALREADY_ON, r, 0, 0, 0),
        Reply::Elsewhere(r) => (codes::ELSEWHERE, r, 0, 0, 0),
        Reply::AlreadyContending => (codes::ALREADY_CONTENDING, 0, 0, 0, 0),
        Reply::NotContending => (codes::NOT_CONTENDING, 0, 0, 0, 0),
        Reply::StillContending => (codes::STILL_CONTENDING, 0, 0, 0, 0),
        Reply::StillActive => (codes::STILL_ACTIVE, 0, 0, 0, 0),
        Reply::Worn => (codes::WORN, 0, 0, 0, 0),
        Reply::Stale => (codes::STALE, 0, 0, 0, 0),
        Reply::Early(z) => (codes::EARLY, 0, 0, z, 0),
        Reply::Full => (codes::FULL, 0, 0, 0, 0),
        Reply::DeadlineOverflow => (codes::DEADLINE_OVERFLOW, 0, 0, 0, 0),
    }
}

fn plain_op(op: Op) -> PlainOp {
    match op.kind {
        codes::JOIN => PlainOp::Join(op.a, op.b),
        codes::WAKE => PlainOp::Wake(op.a, op.b),
        codes::BLOCK => PlainOp::Block(op.a, op.b),
        codes::LEAVE => PlainOp::Leave,
        codes::TIMER => PlainOp::Timer(op.a, op.b),
        codes::EXIT => PlainOp::Exit,
        codes::CHARGE => PlainOp::Charge(op.a, op.b),
        codes::MOVE => PlainOp::Move(op.a),
        _ => PlainOp::Retune(op.a, op.b),
    }
}

fn is_op(op: Op, queues: u32) -> bool {
    match op.kind {
        codes::JOIN | codes::WAKE | codes::BLOCK => op.a < queues && op.b <= i32::MAX as u32,
        codes::LEAVE | codes::EXIT => true,
        codes::TIMER => op.b <= i32::MAX as u32,
        codes::CHARGE => op.a < queues && (1..=1 << 24).contains(&op.b),
        codes::RETUNE => Params::new(op.a, op.b).is_some(),
        codes::MOVE => op.a < queues,
        _ => false,
    }
}

fn state(place: Place) -> (u32, Option<u32>) {
    match place {
        Place::Away => (codes::AWAY, None),
        Place::Gone => (codes::GONE_FOR_GOOD, None),
        Place::On(r, State::Contending) => (codes::CONTENDING, Some(r)),
        Place::On(r, State::NonContending) => (codes::NON_CONTENDING, Some(r)),
        Place::On(r, State::Inactive) => (codes::INACTIVE, Some(r)),
    }
}

fn next_op(random: &mut Random, tasks: u32, queues: u32, moment: u32, book: &plain::Book) -> (u32, Op) {
    let (more, wide) = (random.below(40) == 0, random.below(40) == 0);
    let (task, r) = (random.below(tasks + u32::from(more)), random.below(queues + u32::from(wide)));
    let most = random.one_of([4, 400, 4000, 1 << 25]);
    let (run, stale) = (random.below(most), random.below(10) == 0);
    let ticket = book.records.get(task as usize).map_or(0, |held| held.count).wrapping_sub(u32::from(stale));
    let late = if random.below(200) == 0 { 1 << 31 } else { 0 };
    let op = match random.below(20) {
        0 | 1 => Op::join(Runqueue(r), Moment(moment | late)),
        2..=4 => Op::wake(Runqueue(r), Moment(moment)),
        5..=7 => Op::block(Runqueue(r), Moment(moment)),
        8 => Op::leave(),
        9..=11 => Op::timer(ticket, Moment(moment | late)),
        12 if random.below(100) == 0 => Op::exit(),
        13 => {
            let (runtime, period) = random.reservation();
            Op::retune(runtime, if random.below(20) == 0 { 0 } else { period })
        }
        14 if random.below(20) == 0 => Op { kind: 10 + random.below(90), a: r, b: moment },
        14 | 15 => Op::move_to(Runqueue(r)),
        _ => Op::charge(Runqueue(r), run),
    };
    (task, op)
}

fn main() {
    let wanted: u64 = std::env::args().nth(1).and_then(|it| it.parse().ok()).unwrap_or(1_000_000);
    let (mut asked, mut granted, mut outside, mut seed) = (0u64, 0u64, 0u64, 0u64);
    while asked < wanted {
        seed += 1;
        let mut random = Random::new(seed);
        let (n, m) = (1 + random.below(6), 1 + random.below(3));
        let reservations: Vec<_> = (0..n).map(|_| random.reservation()).collect();
        let constants: Vec<_> = (0..m).map(|_| random.constants()).collect();
        let params: Vec<_> = reservations.iter().map(|&(runtime, period)| Params::new(runtime, period).unwrap()).collect();
        let queue = |&(umax, uextra): &(u32, u32)| Queue { umax, uextra };
        let mut plain = plain::Book::new(&params, &constants.iter().map(queue).collect::<Vec<_>>());
        let mut tasks: Vec<_> = reservations.iter().map(|&(runtime, period)| TaskRecord::new(runtime, period)).collect();
        let mut queues: Vec<_> = constants.iter().map(|&(umax, uextra)| RunqueueRecord::new(umax, uextra)).collect();
        let (mut first_tasks, mut first_queues) = (tasks.clone(), queues.clone());
        let mut book = Book::open(&mut tasks, &mut queues).unwrap();
        let (mut moment, mut history) = (0u32, vec![]);
        for _ in 0..1000 {
            let step = random.one_of([2, 20, 5000, 1 << 22]);
            moment = (moment + random.below(step)).min(i32::MAX as u32);
            let (task, op) = next_op(&mut random, n, m, moment, &plain);
            let reply = book.apply(Task(task), op);
            asked += 1;
            let want = if task >= n {
                (codes::NO_TASK, 0, 0, 0, 0)
            } else if !is_op(op, m) {
                (codes::NO_OP, 0, 0, 0, 0)
            } else {
                history.push(Event::call(Task(task), op, reply));
                numbers(plain.ask(task, plain_op(op)))
            };
            outside += u64::from(want.0 == codes::NO_TASK || want.0 == codes::NO_OP);
            granted += u64::from(reply.is_granted());
            assert_eq!((reply.kind, reply.number, reply.budget, reply.deadline, reply.charged), want, "seed {seed} {op:?} of {task}");
            for (r, &(running_bw, this_bw)) in (0..).zip(&plain.sums) {
                assert_eq!(book.reading(Runqueue(r)), Some(Reading { running_bw, this_bw }), "seed {seed} after {op:?}");
            }
            if random.below(4) == 0 {
                let on = random.below(m);
                let want = [plain.earliest(on), plain.next_timer(on)].map(|it| it.map(|(t, moment)| (Task(t), Moment(moment))));
                assert_eq!([book.earliest(Runqueue(on)), book.next_timer(Runqueue(on))], want, "seed {seed}");
                match book.exhaustion(Task(task)) {
                    Some(run) => assert!(plain.is_exhausted_by(task, run), "seed {seed}: {run} of {task}"),
                    None => assert!(!plain.records.get(task as usize).is_some_and(|held| matches!(held.place, Place::On(_, State::Contending)))),
                }
            }
            if random.below(8) == 0 {
                history.push(Event::reading(Runqueue(0), book.reading(Runqueue(0)).unwrap()));
            }
            if let (Some(got), Some(held)) = (book.tasks().get(task as usize), plain.records.get(task as usize)) {
                let (state, on) = state(held.place);
                assert_eq!((got.runtime, got.period, got.budget, got.deadline), (held.params.runtime, held.params.period, held.server.budget, held.server.deadline));
                assert_eq!((got.count, got.state, on.map_or(got.queue, |r| r)), (held.count, state, got.queue), "seed {seed}");
            }
        }
        assert_eq!(audit(&tasks, &queues), Ok(()), "seed {seed}");
        let mut again = Book::open(&mut first_tasks, &mut first_queues).unwrap();
        assert_eq!(again.check(&history), history.len(), "seed {seed}");
        assert_eq!(again.tasks(), tasks, "seed {seed}");

        // one event is made another: there the history stops
        let at = random.below(history.len() as u32) as usize;
        match history[at].kind {
            codes::CALL => history[at].reply.budget ^= 1,
            _ => history[at].this_bw ^= 1,
        }
        let memory = || {
            let tasks: Vec<_> = reservations.iter().map(|&(runtime, period)| TaskRecord::new(runtime, period)).collect();
            (tasks, constants.iter().map(|&(umax, uextra)| RunqueueRecord::new(umax, uextra)).collect::<Vec<_>>())
        };
        let (mut tasks, mut queues) = memory();
        assert_eq!(Book::open(&mut tasks, &mut queues).unwrap().check(&history), at, "seed {seed}");
        let (mut first_tasks, mut first_queues) = memory();
        assert_eq!(Book::open(&mut first_tasks, &mut first_queues).unwrap().check(&history[..at]), at, "seed {seed}");
        assert!(tasks == first_tasks && queues == first_queues, "seed {seed}: the call that is not the book's was made");
    }
    println!("{asked} ops asked, {granted} granted, {outside} out of range: replies, sums and records as plain Rust's");
}
