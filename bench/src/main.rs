//! The work of `grubrun` on event files of version 1 in plain Rust, with the standard library alone
//! and nothing proved: what `bench/compare.py` measures `grubrun` beside. `plain run FILE...`
//! plays the files one after another in one thread, `plain threads` has a thread for each file and
//! one book behind a lock, and `plain lockfree` a thread for each file over shared words that are
//! exchanged.

mod ask;
mod book;
mod change;
mod command;
mod event;
mod fault;
mod fault_kind;
mod line;
mod line_words;
mod locked;
mod outcome;
mod pass;
mod place;
mod plan;
mod queue;
mod reader;
mod record;
mod reply;
mod reservation;
mod server;
mod shared_words;
mod state;
mod sums;
mod table;
mod task_word;
mod text;
mod timers;
mod verb;
mod way;
mod worker;

use command::Command;
use reader::Reader;
use std::io::Write;
use std::process::exit;
use text::Text;

fn main() {
    let Some(command) = Command::of(std::env::args().skip(1)) else {
        eprintln!("usage: plain run|threads|lockfree [--tries N] [--rounds N] FILE...");
        exit(2);
    };
    let files: Vec<Vec<u8>> = command.files.iter().map(|path| bytes_of(path)).collect();
    let plan = Reader::read(&files).unwrap_or_else(|fault| {
        let path = command.files.get(fault.file).map_or("", |path| path);
        eprintln!("plain: {path}:{}: {}", fault.line, fault.kind as u8);
        exit(1)
    });
    print(&command.way.reports(&plan, command.tries, command.rounds));
}

fn bytes_of(path: &str) -> Vec<u8> {
    std::fs::read(path).unwrap_or_else(|error| {
        eprintln!("plain: {path}: {error}");
        exit(3)
    })
}

fn print(reports: &[Text]) {
    let mut output = std::io::stdout().lock();
    for report in reports {
        if output.write_all(report.bytes()).is_err() {
            exit(3);
        }
    }
    if output.flush().is_err() {
        exit(3);
    }
}
