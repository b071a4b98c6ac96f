//! From the bytes of files to a plan.

use crate::event::Event;
use crate::fault::Fault;
use crate::fault_kind::FaultKind;
use crate::line::Line;
use crate::line_words::LineWords;
use crate::plan::Plan;
use crate::queue::Queue;
use crate::reservation::Reservation;
use crate::verb::Verb;
use std::collections::HashMap;

const FILES_MAX: usize = 64;
const TASKS_MAX: usize = 256;
const BANDWIDTH_MAX: u64 = 1 << 20;
const LENGTH_MAX: u64 = 1 << 24;
const MOMENT_MAX: u64 = 2147483647;

/// What is read so far, with the numbers of the tasks that were declared.
#[derive(Default)]
pub struct Reader<'a> {
    plan: Plan,
    numbers: HashMap<&'a [u8], u32>,
}

impl<'a> Reader<'a> {
    /// The plan of the files, or their first fault. Names are looked up when no other fault is
    /// left.
    pub fn read(files: &'a [Vec<u8>]) -> Result<Plan, Fault> {
        let whole = |kind, file| Fault {
            kind,
            file,
            line: 1,
        };
        if files.is_empty() {
            return Err(whole(FaultKind::MissingQueue, 0));
        }
        if files.len() > FILES_MAX {
            return Err(whole(FaultKind::OutOfRange, FILES_MAX));
        }
        let mut reader = Reader::default();
        let mut all = Vec::new();
        for (file, bytes) in files.iter().enumerate() {
            let events = reader.file(bytes);
            all.push(events.map_err(|(kind, line)| Fault { kind, file, line })?);
        }
        for (file, events) in all.into_iter().enumerate() {
            let script = reader.script(events);
            let script = script.map_err(|(kind, line)| Fault { kind, file, line })?;
            reader.plan.scripts.push(script);
        }
        Ok(reader.plan)
    }

    /// Reads one file: what its lines ask for, or its first fault with its line.
    fn file(&mut self, bytes: &'a [u8]) -> Result<Vec<Event<'a>>, (FaultKind, usize)> {
        let mut events = Vec::new();
        let mut rest = bytes;
        let mut number = 0;
        while !rest.is_empty() {
            number += 1;
            let Some(end) = rest.iter().position(|byte| *byte == b'\n') else {
                return Err((FaultKind::CutShort, number));
            };
            let line = self.line(number, &rest[..end], &mut events);
            line.map_err(|kind| (kind, number))?;
            rest = &rest[end + 1..];
        }
        match number {
            0 => Err((FaultKind::BadHeader, 1)),
            1 => Err((FaultKind::MissingQueue, 2)),
            _ => Ok(events),
        }
    }

    fn line(
        &mut self,
        number: usize,
        line: &'a [u8],
        events: &mut Vec<Event<'a>>,
    ) -> Result<(), FaultKind> {
        if number == 1 {
            return match line {
                b"grub 1" => Ok(()),
                _ => Err(FaultKind::BadHeader),
            };
        }
        let words = LineWords::of(line);
        if number == 2 {
            return self.queue(&words);
        }
        match words.word(0) {
            b"task" if events.is_empty() => self.task(&words),
            b"at" => {
                let last = events.last().map_or(0, |event| event.moment);
                events.push(event(&words, last, number)?);
                Ok(())
            }
            _ => Err(FaultKind::BadLine),
        }
    }

    fn queue(&mut self, words: &LineWords) -> Result<(), FaultKind> {
        if words.word(0) != b"queue" {
            return Err(FaultKind::MissingQueue);
        }
        if words.count() != 3 || words.word(1).is_empty() || words.word(2).is_empty() {
            return Err(FaultKind::BadLine);
        }
        let (umax, uextra) = (words.number(1)?, words.number(2)?);
        self.plan.queues.push(Queue {
            umax: within(umax, 1, BANDWIDTH_MAX)?,
            uextra: within(uextra, 0, umax)?,
        });
        Ok(())
    }

    fn task(&mut self, words: &LineWords<'a>) -> Result<(), FaultKind> {
        let name = words.word(1);
        let has_empty = words.word(2).is_empty() || words.word(3).is_empty();
        if words.count() != 4 || !words.is_name(1) || has_empty {
            return Err(FaultKind::BadLine);
        }
        let (runtime, period) = (words.number(2)?, words.number(3)?);
        let task = Reservation::new(within(runtime, 1, period)?, within(period, 1, LENGTH_MAX)?);
        if task.bandwidth == 0 || self.plan.tasks.len() == TASKS_MAX {
            return Err(FaultKind::OutOfRange);
        }
        if self.numbers.contains_key(name) {
            return Err(FaultKind::DuplicateTask);
        }
        self.numbers.insert(name, self.plan.tasks.len() as u32);
        self.plan.tasks.push(task);
        self.plan.names.push(name.to_vec());
        Ok(())
    }

    /// The lines of a file with the numbers of their tasks.
    fn script(&self, events: Vec<Event>) -> Result<Vec<Line>, (FaultKind, usize)> {
        let mut lines = Vec::with_capacity(events.len());
        for event in events {
            let task = match (event.verb, self.numbers.get(event.name)) {
                (Verb::Read, _) => 0,
                (_, Some(number)) => *number,
                (_, None) => return Err((FaultKind::UnknownTask, event.line)),
            };
            lines.push(Line {
                moment: event.moment,
                verb: event.verb,
                task,
                length: event.length,
            });
        }
        Ok(lines)
    }
}

/// What a line after `at` asks for, whose moment may not be before `last`.
fn event<'a>(words: &LineWords<'a>, last: u32, line: usize) -> Result<Event<'a>, FaultKind> {
    let count = words.count();
    let verb = match (words.word(2), count) {
        (b"join", 4) => Verb::Join,
        (b"wake", 4) => Verb::Wake,
        (b"block", 4) => Verb::Block,
        (b"leave", 4) => Verb::Leave,
        (b"exit", 4) => Verb::Exit,
        (b"run", 5) => Verb::Run,
        (b"read", 3) => Verb::Read,
        _ => return Err(FaultKind::BadLine),
    };
    let has_length = verb == Verb::Run;
    let has_empty = words.word(1).is_empty() || (has_length && words.word(4).is_empty());
    if has_empty || (count > 3 && !words.is_name(3)) {
        return Err(FaultKind::BadLine);
    }
    let moment = words.number(1)?;
    let length = if has_length { words.number(4)? } else { 1 };
    let moment = within(moment, 0, MOMENT_MAX)?;
    let length = within(length, 1, LENGTH_MAX)?;
    if moment < last {
        return Err(FaultKind::MomentGoesBack);
    }
    Ok(Event {
        moment,
        verb,
        name: words.word(3),
        length,
        line,
    })
}

/// A number that is within its limits.
fn within(number: u64, least: u64, most: u64) -> Result<u32, FaultKind> {
    if number < least || number > most {
        Err(FaultKind::OutOfRange)
    } else {
        Ok(number as u32)
    }
}
