//! The book in plain Rust, with moments, deadlines and counts of 64 bits from one origin: none of them comes to an end.
use neddwyrol::codes;

#[derive(Clone, Copy, PartialEq, Debug)]
pub enum Place {
    Away,
    Ready(usize),
    Waiting(usize),
    Asleep(usize),
    Gone,
}

#[derive(Clone, Copy)]
pub struct Task {
    pub runtime: u64,
    pub period: u64,
    pub budget: u64,
    pub deadline: u64,
    pub count: u64,
    pub place: Place,
}

#[derive(Clone, Copy)]
pub struct Queue {
    pub umax: u64,
    pub uextra: u64,
}

#[derive(Clone, Copy, Debug)]
pub enum Op {
    Join(usize, u64),
    Wake(usize, u64),
    Block(usize, u64),
    Leave,
    Timer(u64, u64),
    Exit,
    Charge(usize, u64),
    Retune(u64, u64),
    Move(usize),
}

/// What is answered, as a `neddwyrol::Reply` has it.
#[derive(Clone, Copy, Default, PartialEq, Debug)]
pub struct Answer {
    pub kind: u32,
    pub number: u64,
    pub budget: u64,
    pub deadline: u64,
    pub charged: u64,
}

pub struct Book {
    pub tasks: Vec<Task>,
    pub queues: Vec<Queue>,
}

impl Task {
    pub fn new(runtime: u64, period: u64) -> Task {
        Task { runtime, period, budget: runtime, deadline: 0, count: 0, place: Place::Away }
    }

    fn bw(&self) -> u64 {
        (self.runtime << 20) / self.period
    }

    pub fn queue(&self) -> Option<usize> {
        match self.place {
            Place::Ready(r) | Place::Waiting(r) | Place::Asleep(r) => Some(r),
            Place::Away | Place::Gone => None,
        }
    }

    fn is_active(&self) -> bool {
        matches!(self.place, Place::Ready(_) | Place::Waiting(_))
    }

    pub fn zero_lag(&self) -> i64 {
        self.deadline as i64 - (self.budget * self.period / self.runtime) as i64
    }

    /// What an origin may not pass: a ready task's deadline, a waiting task's 0-lag time.
    pub fn bound(&self) -> Option<i64> {
        match self.place {
            Place::Ready(_) => Some(self.deadline as i64),
            Place::Waiting(_) => Some(self.zero_lag()),
            _ => None,
        }
    }

    fn arrive(&mut self, r: usize, moment: u64) {
        let left = (i128::from(self.deadline) - i128::from(moment)) * i128::from(self.runtime);
        if i128::from(self.budget) * i128::from(self.period) > left {
            (self.budget, self.deadline) = (self.runtime, moment + self.period);
        }
        self.place = Place::Ready(r);
    }
}

fn refused(kind: u32) -> Answer {
    Answer { kind, ..Answer::default() }
}

impl Book {
    fn sum(&self, r: usize, counts: impl Fn(&Task) -> bool) -> u64 {
        self.tasks.iter().filter(|it| it.queue() == Some(r) && counts(it)).map(Task::bw).sum()
    }

    pub fn running_bw(&self, r: usize) -> u64 {
        self.sum(r, Task::is_active)
    }

    pub fn this_bw(&self, r: usize) -> u64 {
        self.sum(r, |_| true)
    }

    fn is_full(&self, r: usize, more: u64) -> bool {
        self.this_bw(r) + more > self.queues[r].umax
    }

    /// The task that comes first by this moment, where one has it.
    pub fn first(&self, moment: impl Fn(&Task) -> Option<u64>) -> Option<(usize, u64)> {
        (0..).zip(&self.tasks).filter_map(|(t, it)| Some((moment(it)?, t))).min().map(|(moment, t)| (t, moment))
    }

    fn refusal(&self, task: &Task, op: Op) -> Option<Answer> {
        use Place::*;
        let on = |r| Some(Answer { kind: codes::ALREADY_ON, number: r as u64, ..Answer::default() });
        let kind = match (op, task.place) {
            (Op::Timer(ticket, _), Waiting(_)) if ticket == task.count => return None,
            (Op::Timer(..), _) => codes::STALE,
            (_, Gone) => codes::GONE,
            (Op::Join(..), Ready(r) | Waiting(r) | Asleep(r)) => return on(r),
            (Op::Join(..) | Op::Exit | Op::Retune(..), Away) => return None,
            (_, Away) => codes::NOT_ON,
            (Op::Move(to), Ready(r) | Waiting(r) | Asleep(r)) if to == r => return on(r),
            (Op::Move(_), Ready(_)) => return None,
            (Op::Move(_), _) => codes::NOT_CONTENDING,
            (Op::Leave, Ready(_)) => codes::STILL_CONTENDING,
            (Op::Leave, _) => return None,
            (Op::Exit | Op::Retune(..), Asleep(_)) => return None,
            (Op::Exit | Op::Retune(..), _) => codes::STILL_ACTIVE,
            (Op::Wake(here, _) | Op::Block(here, _) | Op::Charge(here, _), Ready(r) | Waiting(r) | Asleep(r)) if here != r => {
                return Some(Answer { kind: codes::ELSEWHERE, number: r as u64, ..Answer::default() })
            }
            (Op::Wake(..), Ready(_)) => codes::ALREADY_CONTENDING,
            (Op::Wake(..), _) | (Op::Block(..) | Op::Charge(..), Ready(_)) => return None,
            (Op::Block(..) | Op::Charge(..), _) => codes::NOT_CONTENDING,
        };
        Some(refused(kind))
    }

    /// Asks an op. A charge that would put the deadline after `latest` is refused.
    pub fn ask(&mut self, t: usize, op: Op, latest: u64) -> Answer {
        let mut task = self.tasks[t];
        if let Some(answer) = self.refusal(&task, op) {
            return answer;
        }
        let mut answer = Answer::default();
        match op {
            Op::Join(r, moment) => {
                if self.is_full(r, task.bw()) {
                    return refused(codes::FULL);
                }
                task.arrive(r, moment);
                answer = Answer { kind: codes::JOINED, budget: task.budget, deadline: task.deadline, ..answer };
            }
            Op::Wake(r, moment) => {
                task.arrive(r, moment);
                answer = Answer { kind: codes::WOKEN, budget: task.budget, deadline: task.deadline, ..answer };
            }
            Op::Block(r, moment) => {
                let z = task.zero_lag();
                if z > moment as i64 {
                    task.count += 1;
                    task.place = Place::Waiting(r);
                    answer = Answer { kind: codes::WAITING, number: task.count, deadline: z as u64, ..answer };
                } else {
                    task.place = Place::Asleep(r);
                    answer.kind = codes::ASLEEP;
                }
            }
            Op::Leave => {
                answer = Answer { kind: codes::LEFT, number: task.queue().unwrap_or(0) as u64, ..answer };
                task.place = Place::Away;
            }
            Op::Timer(_, moment) => {
                let z = task.zero_lag();
                if z > moment as i64 {
                    return Answer { kind: codes::EARLY, deadline: z as u64, ..answer };
                }
                task.place = Place::Asleep(task.queue().unwrap_or(0));
                answer.kind = codes::RETIRED;
            }
            Op::Exit => {
                task.place = Place::Gone;
                answer.kind = codes::ENDED;
            }
            Op::Charge(r, run) => {
                let queue = self.queues[r];
                let idle = self.this_bw(r) - self.running_bw(r) + queue.uextra;
                let charged = run * task.bw().max(queue.umax.saturating_sub(idle)) / queue.umax;
                let mut recharges = 0;
                if charged >= task.budget {
                    recharges = (charged - task.budget) / task.runtime + 1;
                }
                task.budget = task.budget + recharges * task.runtime - charged;
                task.deadline += recharges * task.period;
                if task.deadline > latest {
                    return refused(codes::DEADLINE_OVERFLOW);
                }
                answer = Answer { kind: codes::CHARGED, number: recharges, budget: task.budget, deadline: task.deadline, charged };
            }
            Op::Retune(runtime, period) => {
                let next = Task { count: task.count, place: task.place, ..Task::new(runtime, period) };
                if task.queue().is_some_and(|r| self.this_bw(r) - task.bw() + next.bw() > self.queues[r].umax) {
                    return refused(codes::FULL);
                }
                task = next;
                answer.kind = codes::RETUNED;
            }
            Op::Move(to) => {
                if self.is_full(to, task.bw()) {
                    return refused(codes::FULL);
                }
                answer = Answer { kind: codes::MOVED, number: task.queue().unwrap_or(0) as u64, ..answer };
                task.place = Place::Ready(to);
            }
        }
        self.tasks[t] = task;
        answer
    }
}
