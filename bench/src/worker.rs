//! The work on one file.

use crate::ask::Ask;
use crate::line::Line;
use crate::plan::Plan;
use crate::reply::Reply;
use crate::table::Table;
use crate::text::Text;
use crate::timers::Timers;
use crate::verb::Verb;

/// It asks a table what its file's script says, and writes the report.
pub struct Worker<'a, T> {
    plan: &'a Plan,
    runqueue: u32,
    table: &'a mut T,
    timers: Timers,
    text: Text,
}

impl<'a, T: Table> Worker<'a, T> {
    pub fn new(plan: &'a Plan, runqueue: u32, table: &'a mut T) -> Worker<'a, T> {
        Worker {
            plan,
            runqueue,
            table,
            timers: Timers::new(plan.tasks.len()),
            text: Text::default(),
        }
    }

    /// The report of the file, without its last line.
    pub fn report(mut self) -> Text {
        self.text.pair(b"runqueue ", self.runqueue);
        self.text.end_line();
        for line in &self.plan.scripts[self.runqueue as usize] {
            while let Some((moment, task, ticket)) = self.timers.take_due(line.moment) {
                let reply = self.table.ask(task, Ask::Timer { ticket, moment });
                self.begin(moment, b"timer", Some(task), Some(ticket));
                reply.write(&mut self.text);
            }
            self.play(*line);
        }
        self.text
    }

    fn play(&mut self, line: Line) {
        let (runqueue, moment) = (self.runqueue, line.moment);
        match line.verb {
            Verb::Join => {
                self.ask(line, Ask::Join { runqueue, moment }, b"join", None);
            }
            Verb::Wake => self.wake(line),
            Verb::Block => {
                self.ask(line, Ask::Block { runqueue, moment }, b"block", None);
            }
            Verb::Leave => {
                self.ask(line, Ask::Leave, b"leave", None);
            }
            Verb::Exit => {
                self.ask(line, Ask::Exit, b"exit", None);
            }
            Verb::Run => {
                let length = line.length;
                let ask = Ask::Charge { runqueue, length };
                self.ask(line, ask, b"run", Some(length));
            }
            Verb::Read => {
                let sums = self.table.read(runqueue);
                self.begin(moment, b"read", None, None);
                self.text.sums(sums);
            }
        }
    }

    /// A task that wakes here and is elsewhere is brought here.
    fn wake(&mut self, line: Line) {
        let (runqueue, moment) = (self.runqueue, line.moment);
        let wake = Ask::Wake { runqueue, moment };
        if let Reply::Elsewhere(_) = self.ask(line, wake, b"wake", None) {
            if let Reply::Left(_) = self.ask(line, Ask::Leave, b"leave", None) {
                self.ask(line, Ask::Join { runqueue, moment }, b"join", None);
            }
        }
    }

    /// Asks, minds the timer of the task, and writes the line of the answer.
    fn ask(&mut self, line: Line, ask: Ask, word: &[u8], number: Option<u32>) -> Reply {
        let reply = self.table.ask(line.task, ask);
        match reply {
            Reply::Waiting { ticket, zero_lag } => self.timers.arm((zero_lag, line.task, ticket)),
            Reply::Woken(_) | Reply::Joined(_) | Reply::Left(_) => self.timers.cancel(line.task),
            _ => {}
        }
        self.begin(line.moment, word, Some(line.task), number);
        reply.write(&mut self.text);
        reply
    }

    /// A line up to its answer.
    fn begin(&mut self, moment: u32, word: &[u8], task: Option<u32>, number: Option<u32>) {
        self.text.pair(b"at ", moment);
        self.text.word(b" ");
        self.text.word(word);
        if let Some(task) = task {
            self.text.word(b" ");
            self.text.word(&self.plan.names[task as usize]);
        }
        if let Some(number) = number {
            self.text.pair(b" ", number);
        }
        self.text.word(b": ");
    }
}
