//! One thread's way to the shared words.

use crate::ask::Ask;
use crate::queue::Queue;
use crate::record::Record;
use crate::reply::Reply;
use crate::reservation::Reservation;
use crate::server::Server;
use crate::shared_words::SharedWords;
use crate::sums::Sums;
use crate::table::Table;
use crate::task_word::TaskWord;
use std::sync::atomic::Ordering::{AcqRel, Acquire, Release};

/// It claims a task for the time of an ask, and changes a runqueue's word by an exchange that
/// another thread may make fail.
pub struct Pass<'a> {
    shared: &'a SharedWords,
    tries: u8,
    rounds: u16,
}

impl<'a> Pass<'a> {
    pub fn new(shared: &'a SharedWords, tries: u8, rounds: u16) -> Pass<'a> {
        Pass {
            shared,
            tries,
            rounds,
        }
    }

    /// Claims the task, and gives its record and the word that it had; or the reply, where there is
    /// nothing to do.
    fn claim(&self, task: u32, ask: Ask, rounds: &mut u16) -> Result<(Record, u64), Reply> {
        let word = self.shared.task(task);
        loop {
            let bits = word.load(Acquire);
            let seen = TaskWord::of_bits(bits);
            if !seen.is_claimed {
                if let Some(reply) = ask.refusal(seen.place, seen.count) {
                    return Err(reply);
                }
                let claimed = bits | TaskWord::CLAIM;
                if word
                    .compare_exchange(bits, claimed, AcqRel, Acquire)
                    .is_ok()
                {
                    return self.claimed(task, ask, bits);
                }
            }
            *rounds -= 1;
            if *rounds == 0 {
                return Err(Reply::Busy);
            }
        }
    }

    /// The record of a task that was just claimed, whose word was `bits`. A timer that is early
    /// gives it back.
    fn claimed(&self, task: u32, ask: Ask, bits: u64) -> Result<(Record, u64), Reply> {
        let server = Server::of_bits(self.shared.server(task).load(Acquire));
        if let Ask::Timer { moment, .. } = ask {
            let zero_lag = self.shared.tasks[task as usize].zero_lag(server);
            if i64::from(moment) < zero_lag {
                self.shared.task(task).store(bits, Release);
                return Err(Reply::Early(zero_lag as u32));
            }
        }
        let TaskWord { place, count, .. } = TaskWord::of_bits(bits);
        let record = Record {
            place,
            count,
            server,
        };
        Ok((record, bits))
    }

    /// Tries to change the runqueue's word; nothing where all tries of all rounds are lost.
    fn exchange(
        &self,
        record: Record,
        task: Reservation,
        runqueue: u32,
        ask: Ask,
        rounds: &mut u16,
    ) -> Option<(Record, Reply)> {
        let word = self.shared.queue(runqueue);
        let queue = self.shared.queues[runqueue as usize];
        loop {
            for _ in 0..self.tries {
                let bits = word.load(Acquire);
                let sums = Sums::of_bits(bits);
                let outcome = record.settle(task, queue, sums, ask);
                let Some(change) = outcome.change else {
                    return Some((outcome.record, outcome.reply));
                };
                let changed = sums.after(change).bits();
                if word
                    .compare_exchange(bits, changed, AcqRel, Acquire)
                    .is_ok()
                {
                    return Some((outcome.record, outcome.reply));
                }
            }
            *rounds -= 1;
            if *rounds == 0 {
                return None;
            }
        }
    }

    /// What an ask does that changes no runqueue's word.
    fn settle(
        &self,
        record: Record,
        task: Reservation,
        runqueue: Option<u32>,
        ask: Ask,
    ) -> (Record, Reply) {
        let queue = runqueue.map_or(Queue::NONE, |on| self.shared.queues[on as usize]);
        let sums = match (ask, runqueue) {
            (Ask::Charge { .. }, Some(on)) => self.shared.sums(on),
            _ => Sums::default(),
        };
        let outcome = record.settle(task, queue, sums, ask);
        (outcome.record, outcome.reply)
    }
}

impl Table for Pass<'_> {
    fn ask(&mut self, task: u32, ask: Ask) -> Reply {
        let mut rounds = self.rounds;
        let (record, bits) = match self.claim(task, ask, &mut rounds) {
            Ok(claimed) => claimed,
            Err(reply) => return reply,
        };
        let reservation = self.shared.tasks[task as usize];
        let word = self.shared.task(task);
        let (after, reply) = match ask.runqueue(record.place) {
            Some(on) if ask.changes_sums(record, reservation) => {
                match self.exchange(record, reservation, on, ask, &mut rounds) {
                    Some(done) => done,
                    None => {
                        word.store(bits, Release);
                        return Reply::Lost;
                    }
                }
            }
            runqueue => self.settle(record, reservation, runqueue, ask),
        };
        let server = self.shared.server(task);
        server.store(after.server.bits(), Release);
        let bits = TaskWord::unclaimed_bits(after.place, after.count);
        word.store(bits, Release);
        reply
    }

    fn read(&mut self, runqueue: u32) -> Sums {
        self.shared.sums(runqueue)
    }
}
