//! The words that threads share without a lock.

use crate::plan::Plan;
use crate::queue::Queue;
use crate::reservation::Reservation;
use crate::sums::Sums;
use std::sync::atomic::{AtomicU64, Ordering};

/// A row of words: one for each runqueue, and then two for each task, its place and its server.
pub struct SharedWords {
    words: Vec<AtomicU64>,
    pub tasks: Vec<Reservation>,
    pub queues: Vec<Queue>,
}

impl SharedWords {
    pub fn new(plan: &Plan) -> SharedWords {
        let count = plan.queues.len() + 2 * plan.tasks.len();
        let shared = SharedWords {
            words: (0..count).map(|_| AtomicU64::new(0)).collect(),
            tasks: plan.tasks.clone(),
            queues: plan.queues.clone(),
        };
        for (number, task) in (0..).zip(&plan.tasks) {
            let budget = u64::from(task.runtime);
            shared.server(number).store(budget, Ordering::Relaxed);
        }
        shared
    }

    /// What the runqueue reads now.
    pub fn sums(&self, runqueue: u32) -> Sums {
        Sums::of_bits(self.queue(runqueue).load(Ordering::Acquire))
    }

    pub fn queue(&self, runqueue: u32) -> &AtomicU64 {
        &self.words[runqueue as usize]
    }

    pub fn task(&self, task: u32) -> &AtomicU64 {
        &self.words[self.queues.len() + 2 * task as usize]
    }

    pub fn server(&self, task: u32) -> &AtomicU64 {
        &self.words[self.queues.len() + 2 * task as usize + 1]
    }
}
