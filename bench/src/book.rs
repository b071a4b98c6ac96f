//! The book of one thread.

use crate::ask::Ask;
use crate::plan::Plan;
use crate::queue::Queue;
use crate::record::Record;
use crate::reply::Reply;
use crate::reservation::Reservation;
use crate::sums::Sums;
use crate::table::Table;

/// The records of all tasks, and the sums of all runqueues.
pub struct Book {
    records: Vec<Record>,
    sums: Vec<Sums>,
    tasks: Vec<Reservation>,
    queues: Vec<Queue>,
    tries: u8,
}

impl Book {
    pub fn new(plan: &Plan, tries: u8) -> Book {
        Book {
            records: plan.tasks.iter().map(|task| Record::new(*task)).collect(),
            sums: vec![Sums::default(); plan.queues.len()],
            tasks: plan.tasks.clone(),
            queues: plan.queues.clone(),
            tries,
        }
    }
}

impl Table for Book {
    fn ask(&mut self, task: u32, ask: Ask) -> Reply {
        let (number, reservation) = (task as usize, self.tasks[task as usize]);
        let record = self.records[number];
        if let Some(reply) = ask.refusal(record.place, record.count) {
            return reply;
        }
        let runqueue = ask.runqueue(record.place).map(|on| on as usize);
        let (queue, sums) = match runqueue {
            Some(on) => (self.queues[on], self.sums[on]),
            None => (Queue::NONE, Sums::default()),
        };
        let outcome = record.settle(reservation, queue, sums, ask);
        if self.tries == 0 && ask.changes_sums(record, reservation) {
            return match outcome.reply {
                Reply::Early(zero_lag) => Reply::Early(zero_lag),
                _ => Reply::Lost,
            };
        }
        if let (Some(change), Some(on)) = (outcome.change, runqueue) {
            self.sums[on] = sums.after(change);
        }
        self.records[number] = outcome.record;
        outcome.reply
    }

    fn read(&mut self, runqueue: u32) -> Sums {
        self.sums[runqueue as usize]
    }
}
