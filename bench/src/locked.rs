//! The book behind a lock.

use crate::ask::Ask;
use crate::book::Book;
use crate::reply::Reply;
use crate::sums::Sums;
use crate::table::Table;
use std::sync::{Mutex, MutexGuard};

/// One thread's way to the book: each call locks it.
pub struct Locked<'a> {
    book: &'a Mutex<Book>,
}

impl<'a> Locked<'a> {
    pub fn new(book: &'a Mutex<Book>) -> Locked<'a> {
        Locked { book }
    }

    fn lock(&self) -> MutexGuard<'a, Book> {
        self.book.lock().expect("no worker panics")
    }
}

impl Table for Locked<'_> {
    fn ask(&mut self, task: u32, ask: Ask) -> Reply {
        self.lock().ask(task, ask)
    }

    fn read(&mut self, runqueue: u32) -> Sums {
        self.lock().read(runqueue)
    }
}
