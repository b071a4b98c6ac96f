//! What is known of a task.

use crate::ask::Ask;
use crate::change::Change;
use crate::outcome::Outcome;
use crate::place::Place;
use crate::queue::Queue;
use crate::reply::Reply;
use crate::reservation::Reservation;
use crate::server::Server;
use crate::state::State;
use crate::sums::Sums;

/// Where it is, how often it waited for its 0-lag time, and its server.
#[derive(Clone, Copy)]
pub struct Record {
    pub place: Place,
    pub count: u32,
    pub server: Server,
}

impl Record {
    /// That of a task at the start.
    pub fn new(reservation: Reservation) -> Record {
        Record {
            place: Place::Away,
            count: 0,
            server: Server {
                budget: reservation.runtime,
                deadline: 0,
            },
        }
    }

    /// What an ask does that its place does not refuse, with the runqueue's constants and sums.
    pub fn settle(self, task: Reservation, queue: Queue, sums: Sums, ask: Ask) -> Outcome {
        match ask {
            Ask::Join { runqueue, moment } => self.join(task, queue, sums, runqueue, moment),
            Ask::Wake { runqueue, moment } => self.wake(task, runqueue, moment),
            Ask::Block { runqueue, moment } => self.block(task, runqueue, moment),
            Ask::Charge { length, .. } => self.charge(task, queue, sums, length),
            Ask::Leave => self.leave(task),
            Ask::Timer { moment, .. } => self.timer(task, moment),
            Ask::Exit => self.exit(task),
        }
    }

    fn join(self, task: Reservation, queue: Queue, sums: Sums, on: u32, moment: u32) -> Outcome {
        if sums.this + task.bandwidth > queue.umax {
            return self.unchanged(Reply::Full);
        }
        let server = task.woken(self.server, moment);
        let bandwidth = task.bandwidth as i32;
        Outcome {
            record: Record {
                place: Place::On(on, State::Contending),
                server,
                ..self
            },
            reply: Reply::Joined(server),
            change: Some(Change {
                running: bandwidth,
                this: bandwidth,
            }),
        }
    }

    fn wake(self, task: Reservation, on: u32, moment: u32) -> Outcome {
        let server = task.woken(self.server, moment);
        let was_inactive = self.place == Place::On(on, State::Inactive);
        Outcome {
            record: Record {
                place: Place::On(on, State::Contending),
                server,
                ..self
            },
            reply: Reply::Woken(server),
            change: was_inactive.then_some(Change {
                running: task.bandwidth as i32,
                this: 0,
            }),
        }
    }

    fn block(self, task: Reservation, on: u32, moment: u32) -> Outcome {
        let zero_lag = task.zero_lag(self.server);
        if zero_lag <= moment.into() {
            return self.sleeps(task, on, Reply::Asleep);
        }
        let count = self.count + 1;
        Outcome {
            record: Record {
                place: Place::On(on, State::NonContending),
                count,
                ..self
            },
            reply: Reply::Waiting {
                ticket: count,
                zero_lag: zero_lag as u32,
            },
            change: None,
        }
    }

    fn charge(self, task: Reservation, queue: Queue, sums: Sums, length: u32) -> Outcome {
        let charge = queue.charge(length, task.bandwidth, sums);
        let Some((refills, server)) = task.depleted(self.server, charge) else {
            return self.unchanged(Reply::DeadlineOverflow);
        };
        Outcome {
            record: Record { server, ..self },
            reply: Reply::Charged {
                charge,
                refills,
                server,
            },
            change: None,
        }
    }

    fn leave(self, task: Reservation) -> Outcome {
        let (on, state) = self.seat();
        let bandwidth = task.bandwidth as i32;
        let is_active = state == State::NonContending;
        Outcome {
            record: Record {
                place: Place::Away,
                ..self
            },
            reply: Reply::Left(on),
            change: Some(Change {
                running: if is_active { -bandwidth } else { 0 },
                this: -bandwidth,
            }),
        }
    }

    fn timer(self, task: Reservation, moment: u32) -> Outcome {
        let zero_lag = task.zero_lag(self.server);
        if i64::from(moment) < zero_lag {
            return self.unchanged(Reply::Early(zero_lag as u32));
        }
        self.sleeps(task, self.seat().0, Reply::Retired)
    }

    fn exit(self, task: Reservation) -> Outcome {
        let is_on = matches!(self.place, Place::On(..));
        Outcome {
            record: Record {
                place: Place::Gone,
                ..self
            },
            reply: Reply::Ended,
            change: is_on.then_some(Change {
                running: 0,
                this: -(task.bandwidth as i32),
            }),
        }
    }

    /// The task's bandwidth is no longer that of an active task.
    fn sleeps(self, task: Reservation, on: u32, reply: Reply) -> Outcome {
        Outcome {
            record: Record {
                place: Place::On(on, State::Inactive),
                ..self
            },
            reply,
            change: Some(Change {
                running: -(task.bandwidth as i32),
                this: 0,
            }),
        }
    }

    fn unchanged(self, reply: Reply) -> Outcome {
        Outcome {
            record: self,
            reply,
            change: None,
        }
    }

    /// The runqueue and the state of a task that is on one, as the refusals have seen to.
    fn seat(self) -> (u32, State) {
        match self.place {
            Place::On(runqueue, state) => (runqueue, state),
            Place::Away | Place::Gone => unreachable!(),
        }
    }
}
