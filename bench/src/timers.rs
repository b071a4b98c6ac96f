//! The timers of one file.

use std::collections::BTreeSet;

/// A moment, a task's number and a ticket: the order in which timers come due.
pub type Timer = (u32, u32, u32);

/// The armed timers, at most one of each task.
pub struct Timers {
    all: BTreeSet<Timer>,
    of_task: Vec<Option<Timer>>,
    next: u32,
}

impl Timers {
    pub fn new(tasks: usize) -> Timers {
        Timers {
            all: BTreeSet::new(),
            of_task: vec![None; tasks],
            next: u32::MAX,
        }
    }

    /// Arms the timer of a task in place of the one that it may have.
    pub fn arm(&mut self, timer: Timer) {
        let of_task = &mut self.of_task[timer.1 as usize];
        if let Some(old) = of_task.replace(timer) {
            self.all.remove(&old);
        }
        self.all.insert(timer);
        self.find_next();
    }

    pub fn cancel(&mut self, task: u32) {
        if let Some(timer) = self.of_task[task as usize].take() {
            self.all.remove(&timer);
            self.find_next();
        }
    }

    /// Takes the first timer whose moment has come.
    pub fn take_due(&mut self, moment: u32) -> Option<Timer> {
        if self.next > moment {
            return None;
        }
        let timer = self.all.pop_first()?;
        self.of_task[timer.1 as usize] = None;
        self.find_next();
        Some(timer)
    }

    fn find_next(&mut self) {
        self.next = self.all.first().map_or(u32::MAX, |timer| timer.0);
    }
}
