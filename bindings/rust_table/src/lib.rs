//! The shared table of Neddwyrol: one book that threads use without a lock, each by a [`Pass`] of its own. Every call that is
//! made stands at one point of one history, which a book of one thread could have given. `neddwyrol_table.h` says what each
//! call promises.
#![no_std]
#![deny(unsafe_op_in_unsafe_fn)]

pub mod codes;
mod raw;

use codes::{BUSY, HELD, LOST};
use neddwyrol::{codes::DONE, Fault, Op, Reading, Reply, Runqueue, RunqueueRecord, Task, TaskRecord};

/// The right of one thread to make calls, with the passes that it gathered. It may go to another thread. Its table is freed
/// with the last pass.
pub struct Pass {
    held: raw::Pass,
}

// SAFETY: the library proves that what a pass leads to may go to another thread.
unsafe impl Send for Pass {}

impl Drop for Pass {
    fn drop(&mut self) {
        if !self.held.at.is_null() {
            // SAFETY: a pass that is not null was given by the library, and is in no other call.
            unsafe { raw::nd_pass_free(self.taken()) }
        }
    }
}

/// A pass that has a task, with those that it gathered. It may go to another thread. One that is dropped cancels itself: the
/// task is given back, and its pass is dropped.
pub struct Claim {
    held: raw::Claim,
}

// SAFETY: the library proves that what a claim leads to may go to another thread.
unsafe impl Send for Claim {}

impl Drop for Claim {
    fn drop(&mut self) {
        if !self.held.at.is_null() {
            self.given_back();
        }
    }
}

/// What came of [`Pass::start`].
#[must_use = "it has the pass or the claim, which are dropped with it"]
pub enum Started {
    /// The place, the count, the ticket or an early timer decided the reply. No call was made where it is 70 or 71.
    Answered(Pass, Reply),
    /// Another pass has the task, or changed it meanwhile: no call was made.
    Busy(Pass),
    /// The pass has the task.
    Held(Claim),
}

/// What came of [`Claim::finish`].
#[must_use = "it has the pass or the claim, which are dropped with it"]
pub enum Finished {
    /// The call was made, and the task given back.
    Done(Pass, Reply),
    /// Every try was lost to a change of the runqueue's sums: no call was made, and the pass still has the task.
    Held(Claim),
}

/// Why a pass was not gathered or a table not closed, with the pass, where there was memory to give it back.
pub struct Refused {
    pub fault: Fault,
    pub pass: Option<Pass>,
}

impl core::fmt::Debug for Refused {
    fn fmt(&self, f: &mut core::fmt::Formatter<'_>) -> core::fmt::Result {
        write!(f, "{}", self.fault)
    }
}

fn nothing() -> raw::Pass {
    raw::Pass { at: core::ptr::null_mut() }
}

fn no_claim() -> raw::Claim {
    raw::Claim { at: core::ptr::null_mut() }
}

impl Pass {
    /// Opens a table of these reservations and constants, at most 256 tasks and 64 runqueues, with 1 to 64 passes. The pass has
    /// all others gathered: [`Pass::part`] gives each to a thread. Faults: 1 to 8 as of `Book::open`, and 23 to 25.
    pub fn open(tasks: &[TaskRecord], queues: &[RunqueueRecord], passes: u32) -> Result<Pass, Fault> {
        let mut held = nothing();
        // SAFETY: both point to that many structs, which are only read, and the pass owns nothing yet.
        match unsafe { raw::nd_table_open(tasks.as_ptr(), tasks.len(), queues.as_ptr(), queues.len(), passes, &mut held) } {
            DONE => Ok(Pass { held }),
            fault => Err(Fault(fault)),
        }
    }

    /// The pass as a call takes it: until it is given back there is nothing here.
    fn taken(&mut self) -> raw::Pass {
        core::mem::replace(&mut self.held, nothing())
    }

    /// Where its table lies.
    fn place(&mut self) -> *mut u8 {
        let (pass, mut table) = (self.taken(), raw::Table { at: core::ptr::null_mut() });
        // SAFETY: the pass is the library's and in no other call; what is written owns nothing before. So in the calls below.
        unsafe { raw::nd_pass_table(pass, &mut table, &mut self.held) };
        table.at
    }

    /// # Panics
    /// Where the other pass is of another table.
    fn hold_to_table(&mut self, other: &mut Pass) {
        assert_eq!(self.place(), other.place(), "neddwyrol: two passes of two tables");
    }

    fn found(held: raw::Pass) -> Option<Pass> {
        (!held.at.is_null()).then_some(Pass { held })
    }

    /// Takes the last pass that was gathered out again. Fault 27: none is gathered, or memory was refused.
    pub fn part(&mut self) -> Result<Pass, Fault> {
        let (pass, mut part) = (self.taken(), nothing());
        // SAFETY: as above.
        match unsafe { raw::nd_pass_part(pass, &mut self.held, &mut part) } {
            DONE => Ok(Pass { held: part }),
            fault => Err(Fault(fault)),
        }
    }

    /// Asks an op for a task, as `Book::apply`. No call is made where the kind is 50, another pass has the task, or 52, so many
    /// tries were lost, each to a change of the runqueue's sums. An op that changes no sum needs no try.
    #[must_use = "the op may be refused, or not be asked"]
    pub fn apply(&mut self, task: Task, op: Op, tries: u8) -> Reply {
        let pass = self.taken();
        // SAFETY: as above.
        unsafe { raw::nd_pass_apply(pass, task.0, op, tries, &mut self.held) }
    }

    /// The same in two steps: begins a call. It takes the task, unless the place, the count, the ticket or an early timer decides
    /// the reply.
    pub fn start(mut self, task: Task, op: Op) -> Started {
        let (pass, mut claim) = (self.taken(), no_claim());
        // SAFETY: as above.
        let reply = unsafe { raw::nd_pass_start(pass, task.0, op, &mut self.held, &mut claim) };
        match reply.kind {
            HELD => Started::Held(Claim { held: claim }),
            BUSY => Started::Busy(self),
            _ => Started::Answered(self, reply),
        }
    }

    /// The sums of a runqueue at one moment, where it is there.
    #[must_use]
    pub fn read(&mut self, queue: Runqueue) -> Option<Reading> {
        let (pass, mut reading) = (self.taken(), Reading::default());
        // SAFETY: as above.
        let fault = unsafe { raw::nd_pass_read(pass, queue.0, &mut reading, &mut self.held) };
        (fault == DONE).then_some(reading)
    }

    /// Afterwards what one of the two has seen is a beginning of what the other has.
    ///
    /// # Panics
    /// Where the other pass is of another table.
    pub fn meet(&mut self, other: &mut Pass) {
        self.hold_to_table(other);
        let (first, second) = (self.taken(), other.taken());
        // SAFETY: as above, and both are of one table.
        unsafe { raw::nd_pass_meet(first, second, &mut self.held, &mut other.held) }
    }

    /// Takes in another pass, with those that it gathered. Fault 42: memory was refused.
    ///
    /// # Panics
    /// Where the other pass is of another table.
    pub fn gather(&mut self, mut other: Pass) -> Result<(), Refused> {
        self.hold_to_table(&mut other);
        let (first, second, mut back) = (self.taken(), other.taken(), nothing());
        // SAFETY: as above, and both are of one table.
        match unsafe { raw::nd_pass_gather(first, second, &mut self.held, &mut back) } {
            DONE => Ok(()),
            fault => Err(Refused { fault: Fault(fault), pass: Pass::found(back) }),
        }
    }

    /// Closes the table by a pass that has gathered all others, and writes the last sums of its runqueues, as many as there is
    /// room for. Fault 26: a pass is not gathered; 42: memory was refused. Then nothing is written.
    pub fn close(mut self, readings: &mut [Reading]) -> Result<(), Refused> {
        let (pass, mut back) = (self.taken(), nothing());
        // SAFETY: as above, and the readings are so many.
        match unsafe { raw::nd_table_close(pass, readings.as_mut_ptr(), readings.len(), &mut back) } {
            DONE => Ok(()),
            fault => Err(Refused { fault: Fault(fault), pass: Pass::found(back) }),
        }
    }
}

impl Claim {
    /// The claim as a call takes it: until it is given back there is nothing here.
    fn taken(&mut self) -> raw::Claim {
        core::mem::replace(&mut self.held, no_claim())
    }

    /// The task as it is in the history that the pass has seen.
    #[must_use]
    pub fn task(&mut self) -> TaskRecord {
        let (claim, mut task) = (self.taken(), TaskRecord::default());
        // SAFETY: the claim is the library's and in no other call; what is written owns nothing before. So in the calls below.
        unsafe { raw::nd_claim_record(claim, &mut task, &mut self.held) };
        task
    }

    /// Makes the call, unless so many tries are lost, each to a change of the runqueue's sums. An op that changes no sum needs
    /// no try.
    pub fn finish(mut self, tries: u8) -> Finished {
        let (claim, mut held) = (self.taken(), nothing());
        // SAFETY: as above.
        let reply = unsafe { raw::nd_claim_finish(claim, tries, &mut held, &mut self.held) };
        match reply.kind {
            LOST => Finished::Held(self),
            _ => Finished::Done(Pass { held }, reply),
        }
    }

    /// Gives the task back: no call was made.
    #[must_use = "the pass is dropped with it"]
    pub fn cancel(mut self) -> Pass {
        self.given_back()
    }

    fn given_back(&mut self) -> Pass {
        let (claim, mut held) = (self.taken(), nothing());
        // SAFETY: as above.
        unsafe { raw::nd_claim_cancel(claim, &mut held) };
        Pass { held }
    }
}
