//! The three ways to play the files of a plan.

use crate::book::Book;
use crate::locked::Locked;
use crate::pass::Pass;
use crate::plan::Plan;
use crate::shared_words::SharedWords;
use crate::sums::Sums;
use crate::table::Table;
use crate::text::Text;
use crate::worker::Worker;
use std::sync::Mutex;
use std::thread;

/// By one thread, by threads that lock one book, or by threads that exchange words.
pub enum Way {
    Run,
    Threads,
    LockFree,
}

impl Way {
    /// The way of this name.
    pub fn of(name: &str) -> Option<Way> {
        match name {
            "run" => Some(Way::Run),
            "threads" => Some(Way::Threads),
            "lockfree" => Some(Way::LockFree),
            _ => None,
        }
    }

    /// The reports of the files, in their order.
    pub fn reports(&self, plan: &Plan, tries: u8, rounds: u16) -> Vec<Text> {
        match self {
            Way::Run => by_one_thread(plan, tries),
            Way::Threads => by_a_lock(plan, tries),
            Way::LockFree => by_shared_words(plan, tries, rounds),
        }
    }
}

fn by_one_thread(plan: &Plan, tries: u8) -> Vec<Text> {
    let mut book = Book::new(plan, tries);
    let reports = plan
        .runqueues()
        .map(|runqueue| Worker::new(plan, runqueue, &mut book).report())
        .collect();
    closed(reports, |runqueue| book.read(runqueue))
}

fn by_a_lock(plan: &Plan, tries: u8) -> Vec<Text> {
    let book = Mutex::new(Book::new(plan, tries));
    let reports = by_threads(plan, || Locked::new(&book));
    closed(reports, |runqueue| Locked::new(&book).read(runqueue))
}

fn by_shared_words(plan: &Plan, tries: u8, rounds: u16) -> Vec<Text> {
    let words = SharedWords::new(plan);
    let reports = by_threads(plan, || Pass::new(&words, tries, rounds));
    closed(reports, |runqueue| words.sums(runqueue))
}

/// A thread for each file, with a table of its own that `open` makes.
fn by_threads<T: Table>(plan: &Plan, open: impl Fn() -> T + Sync) -> Vec<Text> {
    let work = |runqueue| Worker::new(plan, runqueue, &mut open()).report();
    thread::scope(|scope| {
        let work = &work;
        let threads: Vec<_> = plan
            .runqueues()
            .map(|runqueue| scope.spawn(move || work(runqueue)))
            .collect();
        threads
            .into_iter()
            .map(|thread| thread.join().expect("a worker does not panic"))
            .collect()
    })
}

/// The reports with their last lines: what each runqueue reads after all scripts ended.
fn closed(mut reports: Vec<Text>, mut read: impl FnMut(u32) -> Sums) -> Vec<Text> {
    for (runqueue, report) in (0..).zip(&mut reports) {
        report.word(b"close ");
        report.sums(read(runqueue));
    }
    reports
}
