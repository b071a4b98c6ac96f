//! An event file that is made.

use crate::random::Random;
use crate::tasks::Tasks;
use std::fmt::{Arguments, Write};

/// No turn is longer than this.
const TURN_MAX: usize = 120;
/// A little less than the latest moment that a file may have.
const MOMENT_MAX: u64 = 2_140_000_000;

/// Its text, and the moment of its last line.
pub struct Script {
    text: String,
    moment: u64,
}

impl Script {
    fn new() -> Script {
        Script {
            text: String::from("grub 1\nqueue 996147 200000\n"),
            moment: 0,
        }
    }

    /// A file of at most so many bytes in which tasks wake, run, mostly block, and are now and then
    /// read.
    pub fn of_turns(tasks: &Tasks, file: usize, bytes: usize) -> String {
        let mut random = Random::of_file(file);
        let mut script = Script::new();
        let mut is_contending = vec![false; tasks.all().len()];
        let declared = tasks.declared_by(file);
        for task in &declared {
            let period = 1000 + random.below(99000);
            let runtime = period * (20 + random.below(60)) / 100 / tasks.in_each as u64;
            script.line(format_args!("task T{task:03} {} {period}", runtime.max(2)));
        }
        for task in declared {
            script.at(format_args!("join T{task:03}"));
            is_contending[task] = true;
        }
        let played = tasks.played_by(file);
        while script.has_room(TURN_MAX, bytes) {
            let task = played[random.below(played.len() as u64) as usize];
            script.turn(task, &mut is_contending[task], &mut random);
        }
        script.text
    }

    /// A file of at most so many bytes that reads its runqueue in each line, at moments that are
    /// `step` apart.
    pub fn of_reads(step: u64, bytes: usize) -> String {
        let mut script = Script::new();
        while script.has_room("at 2147483647 read\n".len(), bytes) {
            script.at(format_args!("read"));
            script.moment += step;
        }
        script.text
    }

    fn has_room(&self, room: usize, bytes: usize) -> bool {
        self.text.len() + room < bytes && self.moment < MOMENT_MAX
    }

    fn turn(&mut self, task: usize, is_contending: &mut bool, random: &mut Random) {
        if !*is_contending {
            self.moment += random.below(700);
            self.at(format_args!("wake T{task:03}"));
            *is_contending = true;
        }
        for _ in 0..1 + random.below(2) {
            let length = 20 + random.below(900);
            self.at(format_args!("run T{task:03} {length}"));
            self.moment += length;
        }
        if random.below(5) != 0 {
            self.at(format_args!("block T{task:03}"));
            *is_contending = false;
        }
        if random.below(8) == 0 {
            self.at(format_args!("read"));
        }
    }

    /// A line at the moment.
    fn at(&mut self, words: Arguments) {
        let moment = self.moment;
        self.line(format_args!("at {moment} {words}"));
    }

    fn line(&mut self, words: Arguments) {
        writeln!(self.text, "{words}").expect("a string takes all text");
    }
}
