//! The book in plain Rust, without proofs: the same numbers are kept, and the logic is its own.

pub mod endless;
pub mod random;

#[derive(Clone, Copy)]
pub struct Queue {
    pub umax: u32,
    pub uextra: u32,
}

#[derive(Clone, Copy)]
pub struct Params {
    pub runtime: u32,
    pub period: u32,
}

#[derive(Clone, Copy, PartialEq)]
pub struct Server {
    pub budget: u32,
    pub deadline: u32,
}

#[derive(Clone, Copy, PartialEq)]
pub enum State {
    Contending,
    NonContending,
    Inactive,
}

#[derive(Clone, Copy, PartialEq)]
pub enum Place {
    Away,
    Gone,
    On(u32, State),
}

#[derive(Clone, Copy)]
pub struct Record {
    pub place: Place,
    pub count: u32,
    pub server: Server,
    pub params: Params,
}

#[derive(Clone, Copy, Debug)]
pub enum Op {
    Join(u32, u32),
    Wake(u32, u32),
    Block(u32, u32),
    Leave,
    Timer(u32, u32),
    Exit,
    Charge(u32, u32),
    Retune(u32, u32),
    Move(u32),
}

#[derive(Clone, Copy)]
pub enum Reply {
    Joined(Server),
    Woken(Server),
    Waiting(u32, u32),
    Asleep,
    Left(u32),
    Retired,
    Ended,
    Charged(u64, u32, Server),
    Retuned,
    Moved(u32),
    Gone,
    NotOn,
    AlreadyOn(u32),
    Elsewhere(u32),
    AlreadyContending,
    NotContending,
    StillContending,
    StillActive,
    Worn,
    Stale,
    Early(u32),
    Full,
    DeadlineOverflow,
}

impl Params {
    pub fn new(runtime: u32, period: u32) -> Option<Params> {
        if !(1..=1 << 24).contains(&period) || !(1..=period).contains(&runtime) {
            return None;
        }
        let params = Params { runtime, period };
        (params.bw() > 0).then_some(params)
    }

    fn bw(&self) -> u32 {
        ((u64::from(self.runtime) << 20) / u64::from(self.period)) as u32
    }

    fn fresh(&self) -> Server {
        Server { budget: self.runtime, deadline: 0 }
    }

    fn woken(&self, server: Server, moment: u32) -> Server {
        let left = (i64::from(server.deadline) - i64::from(moment)) * i64::from(self.runtime);
        if i64::from(server.budget) * i64::from(self.period) > left {
            Server { budget: self.runtime, deadline: moment + self.period }
        } else {
            server
        }
    }

    fn zero_lag(&self, server: Server) -> i64 {
        i64::from(server.deadline) - i64::from(server.budget) * i64::from(self.period) / i64::from(self.runtime)
    }

    fn deplete(&self, server: Server, charged: u64) -> Option<(u32, Server)> {
        let (budget, runtime) = (u64::from(server.budget), u64::from(self.runtime));
        if charged < budget {
            return Some((0, Server { budget: server.budget - charged as u32, ..server }));
        }
        let count = (charged - budget) / runtime + 1;
        let deadline = u32::try_from(u64::from(server.deadline) + count * u64::from(self.period)).ok()?;
        Some((count as u32, Server { budget: (budget + count * runtime - charged) as u32, deadline }))
    }
}

fn charge(run: u32, bw: u32, queue: Queue, running: u32, this: u32) -> u64 {
    let rate = i64::from(bw).max(i64::from(queue.umax) - (i64::from(this) - i64::from(running)) - i64::from(queue.uextra));
    u64::from(run) * rate as u64 / u64::from(queue.umax)
}

impl Book {
    fn on(&self, r: u32, state: State) -> impl Iterator<Item = (u32, &Record)> {
        (0..).zip(&self.records).filter(move |(_, held)| held.place == Place::On(r, state))
    }

    /// The ready task of a runqueue with the earliest deadline, and that deadline.
    pub fn earliest(&self, r: u32) -> Option<(u32, u32)> {
        self.on(r, State::Contending).map(|(t, held)| (held.server.deadline, t)).min().map(|(d, t)| (t, d))
    }

    /// The task of a runqueue that waits for the earliest 0-lag time, and that moment.
    pub fn next_timer(&self, r: u32) -> Option<(u32, u32)> {
        self.on(r, State::NonContending).map(|(t, held)| (held.params.zero_lag(held.server).max(0) as u32, t)).min().map(|(z, t)| (t, z))
    }

    /// Whether a ready task's budget is used up by this run, and not by one less.
    pub fn is_exhausted_by(&self, t: u32, run: u64) -> bool {
        let held = self.records[t as usize];
        let Place::On(r, State::Contending) = held.place else { return false };
        let (queue, (running, this)) = (self.queues[r as usize], self.sums[r as usize]);
        let rate = i128::from(held.params.bw()).max(i128::from(queue.umax) - i128::from(this) + i128::from(running) - i128::from(queue.uextra));
        let is_enough = |run: u64| i128::from(run) * rate / i128::from(queue.umax) >= i128::from(held.server.budget);
        is_enough(run) && (run == 0 || !is_enough(run - 1))
    }
}

fn refusal(place: Place, count: u32, op: Op) -> Option<Reply> {
    use State::*;
    match (op, place) {
        (Op::Timer(ticket, _), Place::On(_, NonContending)) if ticket == count => None,
        (Op::Timer(..), _) => Some(Reply::Stale),
        (_, Place::Gone) => Some(Reply::Gone),
        (Op::Join(..), Place::On(on, _)) => Some(Reply::AlreadyOn(on)),
        (Op::Move(r), Place::On(on, _)) if on == r => Some(Reply::AlreadyOn(on)),
        (Op::Move(_), Place::On(_, Contending)) => None,
        (Op::Move(_), Place::On(..)) => Some(Reply::NotContending),
        (Op::Join(..) | Op::Exit | Op::Retune(..), Place::Away) => None,
        (_, Place::Away) => Some(Reply::NotOn),
        (Op::Wake(r, _) | Op::Block(r, _) | Op::Charge(r, _), Place::On(on, _)) if on != r => Some(Reply::Elsewhere(on)),
        (Op::Wake(..), Place::On(_, Contending)) => Some(Reply::AlreadyContending),
        (Op::Wake(..), _) => None,
        (Op::Block(..), Place::On(_, Contending)) if count == 16_777_215 => Some(Reply::Worn),
        (Op::Block(..) | Op::Charge(..), Place::On(_, Contending)) => None,
        (Op::Block(..) | Op::Charge(..), _) => Some(Reply::NotContending),
        (Op::Leave, Place::On(_, Contending)) => Some(Reply::StillContending),
        (Op::Leave, _) => None,
        (Op::Exit | Op::Retune(..), Place::On(_, Inactive)) => None,
        (Op::Exit | Op::Retune(..), _) => Some(Reply::StillActive),
    }
}

pub struct Book {
    pub records: Vec<Record>,

    /// running_bw and this_bw of each runqueue.
    pub sums: Vec<(u32, u32)>,
    pub queues: Vec<Queue>,
}

impl Book {
    pub fn new(tasks: &[Params], queues: &[Queue]) -> Book {
        let record = |&params: &Params| Record { place: Place::Away, count: 0, server: params.fresh(), params };
        Book { records: tasks.iter().map(record).collect(), sums: vec![(0, 0); queues.len()], queues: queues.to_vec() }
    }

    pub fn ask(&mut self, task: u32, op: Op) -> Reply {
        use State::*;
        let held = self.records[task as usize];
        if let Some(reply) = refusal(held.place, held.count, op) {
            return reply;
        }
        let r = match (op, held.place) {
            (Op::Join(r, _) | Op::Wake(r, _) | Op::Block(r, _) | Op::Charge(r, _), _) | (_, Place::On(r, _)) => r,
            _ => 0,
        };
        let (queue, (running, this)) = (self.queues[r as usize], self.sums[r as usize]);
        let (mut next, bw) = (held, held.params.bw());
        let (reply, sums) = match op {
            Op::Join(_, moment) => {
                if this + bw > queue.umax {
                    return Reply::Full;
                }
                next.server = held.params.woken(held.server, moment);
                next.place = Place::On(r, Contending);
                (Reply::Joined(next.server), (running + bw, this + bw))
            }
            Op::Wake(_, moment) => {
                next.server = held.params.woken(held.server, moment);
                next.place = Place::On(r, Contending);
                let more = if held.place == Place::On(r, Inactive) { bw } else { 0 };
                (Reply::Woken(next.server), (running + more, this))
            }
            Op::Block(_, moment) => {
                let z = held.params.zero_lag(held.server);
                if z > i64::from(moment) {
                    next.count += 1;
                    next.place = Place::On(r, NonContending);
                    (Reply::Waiting(next.count, z as u32), (running, this))
                } else {
                    next.place = Place::On(r, Inactive);
                    (Reply::Asleep, (running - bw, this))
                }
            }
            Op::Charge(_, run) => {
                let charged = charge(run, bw, queue, running, this);
                let Some((count, server)) = held.params.deplete(held.server, charged) else {
                    return Reply::DeadlineOverflow;
                };
                next.server = server;
                (Reply::Charged(charged, count, server), (running, this))
            }
            Op::Leave => {
                next.place = Place::Away;
                let active = if held.place == Place::On(r, NonContending) { bw } else { 0 };
                (Reply::Left(r), (running - active, this - bw))
            }
            Op::Timer(_, moment) => {
                let z = held.params.zero_lag(held.server);
                if i64::from(moment) < z {
                    return Reply::Early(z as u32);
                }
                next.place = Place::On(r, Inactive);
                (Reply::Retired, (running - bw, this))
            }
            Op::Exit => {
                next.place = Place::Gone;
                let on = if held.place == Place::Away { 0 } else { bw };
                (Reply::Ended, (running, this - on))
            }
            Op::Move(to) => {
                let there = &mut self.sums[to as usize];
                if there.1 + bw > self.queues[to as usize].umax {
                    return Reply::Full;
                }
                *there = (there.0 + bw, there.1 + bw);
                next.place = Place::On(to, Contending);
                (Reply::Moved(r), (running - bw, this - bw))
            }
            Op::Retune(runtime, period) => {
                let params = Params::new(runtime, period).expect("a reservation");
                let on = held.place != Place::Away;
                if on && this - bw + params.bw() > queue.umax {
                    return Reply::Full;
                }
                next.params = params;
                next.server = params.fresh();
                (Reply::Retuned, (running, if on { this - bw + params.bw() } else { this }))
            }
        };
        self.sums[r as usize] = sums;
        self.records[task as usize] = next;
        reply
    }
}
