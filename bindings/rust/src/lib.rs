//! The bandwidth accounting of Linux SCHED_DEADLINE (GRUB, greedy reclamation of unused bandwidth), over Neddwyrol's
//! proved library for C. `neddwyrol.h` says what each call promises.
//!
//! A [`Book`] stands over an array of [`TaskRecord`] and one of [`RunqueueRecord`] that its caller owns. They are read directly,
//! and copied as a snapshot; only a `Book` writes them. No call asks anything of the numbers that it is given, so nothing here can
//! break memory. Moments, runs, runtimes, periods, budgets and deadlines have one unit, which the caller chooses;
//! bandwidths are in 1/2^20.
#![no_std]
#![deny(unsafe_op_in_unsafe_fn)]

pub mod codes;
mod raw;

/// The number of a task, from 0.
#[derive(Clone, Copy, Debug, PartialEq, Eq, PartialOrd, Ord, Hash)]
pub struct Task(pub u32);

/// The number of a runqueue, from 0.
#[derive(Clone, Copy, Debug, PartialEq, Eq, PartialOrd, Ord, Hash)]
pub struct Runqueue(pub u32);

/// A moment, in the unit of the book.
#[derive(Clone, Copy, Debug, PartialEq, Eq, PartialOrd, Ord, Hash)]
pub struct Moment(pub u32);

/// What is kept of a task. Before the opening its runtime and period alone count.
#[repr(C)]
#[derive(Clone, Copy, Debug, Default, PartialEq, Eq)]
pub struct TaskRecord {
    pub runtime: u32,
    pub period: u32,
    pub budget: u32,
    pub deadline: u32,
    pub count: u32,
    pub state: u32,
    pub queue: u32,
}

/// A runqueue. Before the opening its umax and uextra alone count.
#[repr(C)]
#[derive(Clone, Copy, Debug, Default, PartialEq, Eq)]
pub struct RunqueueRecord {
    pub umax: u32,
    pub uextra: u32,
    pub running_bw: u32,
    pub this_bw: u32,
}

/// What is asked for a task.
#[repr(C)]
#[derive(Clone, Copy, Debug, Default, PartialEq, Eq)]
#[must_use = "`Book::apply` asks it"]
pub struct Op {
    pub kind: u32,
    pub a: u32,
    pub b: u32,
}

/// What is answered. A compiler warns where one is dropped:
///
/// ```compile_fail
/// #![deny(unused_must_use)]
/// fn drops(book: &mut neddwyrol::Book) {
///     book.leave(neddwyrol::Task(0));
/// }
/// ```
#[repr(C)]
#[derive(Clone, Copy, Debug, Default, PartialEq, Eq)]
pub struct Reply {
    pub kind: u32,
    pub number: u32,
    pub budget: u32,
    pub deadline: u32,
    pub charged: u64,
}

/// An op that is asked for a task.
#[repr(C)]
#[derive(Clone, Copy, Debug, Default, PartialEq, Eq)]
pub struct Ask {
    pub task: u32,
    pub op: Op,
}

/// An event of a recorded history: a call with its reply, a reading, or a rebase with its reply.
#[repr(C)]
#[derive(Clone, Copy, Debug, Default, PartialEq, Eq)]
pub struct Event {
    pub kind: u32,
    pub pass: u32,
    pub number: u32,
    pub op: Op,
    pub running_bw: u32,
    pub this_bw: u32,
    pub reply: Reply,
}

/// A reservation: a runtime in each period.
#[repr(C)]
#[derive(Clone, Copy, Debug, Default, PartialEq, Eq)]
pub struct Params {
    pub runtime: u32,
    pub period: u32,
}

/// The constants of a runqueue.
#[repr(C)]
#[derive(Clone, Copy, Debug, Default, PartialEq, Eq)]
pub struct Capacity {
    pub umax: u32,
    pub uextra: u32,
}

/// A task's server: what is left of its budget, and its deadline.
#[repr(C)]
#[derive(Clone, Copy, Debug, Default, PartialEq, Eq)]
pub struct Server {
    pub budget: u32,
    pub deadline: u32,
}

/// The sums of a runqueue.
#[repr(C)]
#[derive(Clone, Copy, Debug, Default, PartialEq, Eq)]
pub struct Reading {
    pub running_bw: u32,
    pub this_bw: u32,
}

/// The number of a fault, as `neddwyrol.h` and [`codes`] have it. It prints its number and its name.
#[derive(Clone, Copy, Debug, PartialEq, Eq)]
pub struct Fault(pub u32);

impl core::fmt::Display for Fault {
    fn fmt(&self, f: &mut core::fmt::Formatter<'_>) -> core::fmt::Result {
        write!(f, "neddwyrol: {} {}", self.0, codes::name(self.0))
    }
}

impl core::error::Error for Fault {}

fn unless(fault: u32) -> Result<(), Fault> {
    if fault == codes::DONE {
        Ok(())
    } else {
        Err(Fault(fault))
    }
}

impl TaskRecord {
    /// A task that reserves this runtime in each period, before the opening.
    pub fn new(runtime: u32, period: u32) -> TaskRecord {
        TaskRecord { runtime, period, ..TaskRecord::default() }
    }
}

impl RunqueueRecord {
    /// A runqueue that admits so much bandwidth, of which running tasks may reclaim `uextra` at all times.
    pub fn new(umax: u32, uextra: u32) -> RunqueueRecord {
        RunqueueRecord { umax, uextra, ..RunqueueRecord::default() }
    }
}

impl Op {
    pub fn join(queue: Runqueue, moment: Moment) -> Op {
        Op { kind: codes::JOIN, a: queue.0, b: moment.0 }
    }

    pub fn wake(queue: Runqueue, moment: Moment) -> Op {
        Op { kind: codes::WAKE, a: queue.0, b: moment.0 }
    }

    pub fn block(queue: Runqueue, moment: Moment) -> Op {
        Op { kind: codes::BLOCK, a: queue.0, b: moment.0 }
    }

    pub fn leave() -> Op {
        Op { kind: codes::LEAVE, a: 0, b: 0 }
    }

    pub fn timer(ticket: u32, moment: Moment) -> Op {
        Op { kind: codes::TIMER, a: ticket, b: moment.0 }
    }

    pub fn exit() -> Op {
        Op { kind: codes::EXIT, a: 0, b: 0 }
    }

    pub fn charge(queue: Runqueue, run: u32) -> Op {
        Op { kind: codes::CHARGE, a: queue.0, b: run }
    }

    pub fn retune(runtime: u32, period: u32) -> Op {
        Op { kind: codes::RETUNE, a: runtime, b: period }
    }
}

impl Op {
    /// A ready task goes to another runqueue as it is.
    pub fn move_to(queue: Runqueue) -> Op {
        Op { kind: codes::MOVE, a: queue.0, b: 0 }
    }
}

impl Ask {
    pub fn new(task: Task, op: Op) -> Ask {
        Ask { task: task.0, op }
    }
}

impl Reply {
    /// Whether the op was granted. Else nothing was written.
    #[must_use]
    pub fn is_granted(&self) -> bool {
        self.kind >= codes::JOINED
    }

    /// The reply, where the op was granted; else its kind as a fault.
    pub fn granted(self) -> Result<Reply, Fault> {
        if self.is_granted() {
            Ok(self)
        } else {
            Err(Fault(self.kind))
        }
    }
}

impl Event {
    /// A call with its reply.
    pub fn call(task: Task, op: Op, reply: Reply) -> Event {
        Event { kind: codes::CALL, number: task.0, op, reply, ..Event::default() }
    }

    /// A rebase with its reply.
    pub fn rebase(by: Moment, reply: Reply) -> Event {
        Event { kind: codes::REBASE, number: by.0, reply, ..Event::default() }
    }

    /// A reading of a runqueue.
    pub fn reading(queue: Runqueue, now: Reading) -> Event {
        Event { kind: codes::READING, number: queue.0, running_bw: now.running_bw, this_bw: now.this_bw, ..Event::default() }
    }
}

/// A book over its caller's memory.
pub struct Book<'a> {
    tasks: &'a mut [TaskRecord],
    queues: &'a mut [RunqueueRecord],
}

impl<'a> Book<'a> {
    /// Makes a book of the reservations and constants in the memory, where every task is away. A fault, 1 to 8, leaves it
    /// as it was.
    pub fn open(tasks: &'a mut [TaskRecord], queues: &'a mut [RunqueueRecord]) -> Result<Book<'a>, Fault> {
        // SAFETY: both point to that many structs, which nobody else has during the call. So in every call below.
        unless(unsafe { raw::nd_open(tasks.as_mut_ptr(), tasks.len(), queues.as_mut_ptr(), queues.len()) })?;
        Ok(Book { tasks, queues })
    }

    /// The book that stands in the memory already, as in a snapshot. A fault says why there is none.
    pub fn resume(tasks: &'a mut [TaskRecord], queues: &'a mut [RunqueueRecord]) -> Result<Book<'a>, Fault> {
        audit(tasks, queues)?;
        Ok(Book { tasks, queues })
    }

    /// Asks an op for a task.
    #[must_use = "the op may be refused"]
    #[inline]
    pub fn apply(&mut self, task: Task, op: Op) -> Reply {
        // SAFETY: as above.
        unsafe { raw::nd_apply(self.tasks.as_mut_ptr(), self.tasks.len(), self.queues.as_mut_ptr(), self.queues.len(), task.0, op) }
    }

    /// Asks ops one after another, as many as there is room for replies, and answers how many that were.
    #[must_use = "it answers how many ops were asked"]
    pub fn apply_all(&mut self, asks: &[Ask], replies: &mut [Reply]) -> usize {
        let (tasks, queues) = (&mut *self.tasks, &mut *self.queues);
        // SAFETY: as above.
        unsafe {
            raw::nd_apply_all(
                tasks.as_mut_ptr(),
                tasks.len(),
                queues.as_mut_ptr(),
                queues.len(),
                asks.as_ptr(),
                asks.len(),
                replies.as_mut_ptr(),
                replies.len(),
            )
        }
    }

    /// Moves the origin of time: what was this moment is the moment 0 from then on. `neddwyrol.h` says what a rebase changes, and
    /// which timers have to be dropped before.
    #[must_use = "the rebase may be refused"]
    pub fn rebase(&mut self, by: Moment) -> Reply {
        // SAFETY: as above.
        unsafe { raw::nd_rebase(self.tasks.as_mut_ptr(), self.tasks.len(), self.queues.as_mut_ptr(), self.queues.len(), by.0) }
    }

    /// The last moment that a rebase may make the moment 0.
    pub fn rebase_limit(&self) -> Result<Moment, Fault> {
        let mut by = 0;
        // SAFETY: both point to that many structs, which are only read, and the number is its own.
        unless(unsafe { raw::nd_rebase_limit(self.tasks.as_ptr(), self.tasks.len(), self.queues.as_ptr(), self.queues.len(), &mut by) })?;
        Ok(Moment(by))
    }

    /// Replays a recorded history: how many events the book gives.
    #[must_use = "it answers how many events the book gives"]
    pub fn check(&mut self, events: &[Event]) -> usize {
        let (tasks, queues) = (&mut *self.tasks, &mut *self.queues);
        // SAFETY: as above.
        unsafe { raw::nd_check(tasks.as_mut_ptr(), tasks.len(), queues.as_mut_ptr(), queues.len(), events.as_ptr(), events.len()) }
    }

    #[must_use = "the op may be refused"]
    pub fn join(&mut self, task: Task, queue: Runqueue, moment: Moment) -> Reply {
        self.apply(task, Op::join(queue, moment))
    }

    #[must_use = "the op may be refused"]
    pub fn wake(&mut self, task: Task, queue: Runqueue, moment: Moment) -> Reply {
        self.apply(task, Op::wake(queue, moment))
    }

    #[must_use = "the op may be refused"]
    pub fn block(&mut self, task: Task, queue: Runqueue, moment: Moment) -> Reply {
        self.apply(task, Op::block(queue, moment))
    }

    #[must_use = "the op may be refused"]
    pub fn leave(&mut self, task: Task) -> Reply {
        self.apply(task, Op::leave())
    }

    #[must_use = "the op may be refused"]
    pub fn timer(&mut self, task: Task, ticket: u32, moment: Moment) -> Reply {
        self.apply(task, Op::timer(ticket, moment))
    }

    #[must_use = "the op may be refused"]
    pub fn exit(&mut self, task: Task) -> Reply {
        self.apply(task, Op::exit())
    }

    /// Charges a run of a task that contends.
    #[must_use = "the op may be refused"]
    pub fn run(&mut self, task: Task, queue: Runqueue, run: u32) -> Reply {
        self.apply(task, Op::charge(queue, run))
    }

    #[must_use = "the op may be refused"]
    pub fn retune(&mut self, task: Task, runtime: u32, period: u32) -> Reply {
        self.apply(task, Op::retune(runtime, period))
    }

    /// A contending task goes to another runqueue, with budget, deadline and count as they are.
    #[must_use = "the op may be refused"]
    pub fn move_to(&mut self, task: Task, queue: Runqueue) -> Reply {
        self.apply(task, Op::move_to(queue))
    }

    /// The contending task of a runqueue with the earliest deadline, and that deadline.
    #[must_use]
    pub fn earliest(&self, queue: Runqueue) -> Option<(Task, Moment)> {
        let (mut task, mut deadline) = (0, 0);
        // SAFETY: the tasks are only read, and the numbers are its own. So in the next call.
        let fault = unsafe { raw::nd_earliest(self.tasks.as_ptr(), self.tasks.len(), queue.0, &mut task, &mut deadline) };
        (fault == codes::DONE).then_some((Task(task), Moment(deadline)))
    }

    /// The task of a runqueue that waits for the earliest 0-lag time, and that moment. The ticket of its timer is its count.
    #[must_use]
    pub fn next_timer(&self, queue: Runqueue) -> Option<(Task, Moment)> {
        let (mut task, mut moment) = (0, 0);
        // SAFETY: as above.
        let fault = unsafe { raw::nd_next_timer(self.tasks.as_ptr(), self.tasks.len(), queue.0, &mut task, &mut moment) };
        (fault == codes::DONE).then_some((Task(task), Moment(moment)))
    }

    /// After how long a run the budget of a contending task is used up, by the sums of now. None where it does not contend.
    #[must_use]
    pub fn exhaustion(&self, task: Task) -> Option<u64> {
        let held = self.tasks.get(task.0 as usize).filter(|it| it.state == codes::CONTENDING)?;
        let RunqueueRecord { umax, uextra, running_bw, this_bw } = *self.queues.get(held.queue as usize)?;
        let bw = Params { runtime: held.runtime, period: held.period }.bw();
        exhaustion(held.budget, bw, Capacity { umax, uextra }, Reading { running_bw, this_bw }).ok()
    }

    pub fn tasks(&self) -> &[TaskRecord] {
        self.tasks
    }

    pub fn queues(&self) -> &[RunqueueRecord] {
        self.queues
    }

    /// The sums of a runqueue, where it is there.
    #[must_use]
    pub fn reading(&self, queue: Runqueue) -> Option<Reading> {
        let RunqueueRecord { running_bw, this_bw, .. } = *self.queues.get(queue.0 as usize)?;
        Some(Reading { running_bw, this_bw })
    }
}

/// Whether the memory is a book; a fault says why it is none.
pub fn audit(tasks: &[TaskRecord], queues: &[RunqueueRecord]) -> Result<(), Fault> {
    // SAFETY: both point to that many structs, which are only read.
    unless(unsafe { raw::nd_audit(tasks.as_ptr(), tasks.len(), queues.as_ptr(), queues.len()) })
}

/// A fault with the number of the task or runqueue that has it; that of 6, 7 and 8 is 0.
#[derive(Clone, Copy, Debug, PartialEq, Eq)]
pub struct FaultAt {
    pub fault: Fault,
    pub number: u32,
}

/// What a `Book::open` of this memory would answer, with the task or runqueue that has the fault.
pub fn open_fault(tasks: &[TaskRecord], queues: &[RunqueueRecord]) -> Result<(), FaultAt> {
    let mut number = 0;
    // SAFETY: both point to that many structs, which are only read, and the number is its own. So in the next call.
    let fault = unsafe { raw::nd_open_fault(tasks.as_ptr(), tasks.len(), queues.as_ptr(), queues.len(), &mut number) };
    unless(fault).map_err(|fault| FaultAt { fault, number })
}

/// What `audit` answers, with the task or runqueue that has the fault.
pub fn audit_fault(tasks: &[TaskRecord], queues: &[RunqueueRecord]) -> Result<(), FaultAt> {
    let mut number = 0;
    // SAFETY: as above.
    let fault = unsafe { raw::nd_audit_fault(tasks.as_ptr(), tasks.len(), queues.as_ptr(), queues.len(), &mut number) };
    unless(fault).map_err(|fault| FaultAt { fault, number })
}

impl Params {
    /// A fault, 1 to 3, where the numbers are no reservation.
    pub fn check(self) -> Result<(), Fault> {
        // SAFETY: the call takes numbers alone. So in the calls below that take no pointer.
        unless(unsafe { raw::nd_params_fault(self) })
    }

    /// The bandwidth, rounded down; 0 where the numbers are no reservation.
    #[must_use]
    pub fn bw(self) -> u32 {
        // SAFETY: as above.
        unsafe { raw::nd_bw(self) }
    }
}

impl Capacity {
    /// A fault, 4 or 5, where the numbers are no runqueue's.
    pub fn check(self) -> Result<(), Fault> {
        // SAFETY: as above.
        unless(unsafe { raw::nd_capacity_fault(self) })
    }
}

impl Server {
    /// The 0-lag time, which may be below 0.
    pub fn zero_lag(self, params: Params) -> Result<i64, Fault> {
        let mut z = 0;
        // SAFETY: it points to a number of its own. So in the calls below.
        unless(unsafe { raw::nd_zero_lag(self, params, &mut z) })?;
        Ok(z)
    }

    /// The server of a task that wakes at a moment.
    pub fn woken(self, params: Params, moment: Moment) -> Result<Server, Fault> {
        let mut woken = Server::default();
        // SAFETY: as above.
        unless(unsafe { raw::nd_woken(self, params, moment.0, &mut woken) })?;
        Ok(woken)
    }

    /// How often the budget is recharged where so much is taken from it, and the server afterwards.
    pub fn depleted(self, params: Params, charged: u64) -> Result<(u32, Server), Fault> {
        let (mut recharges, mut left) = (0, Server::default());
        // SAFETY: as above.
        unless(unsafe { raw::nd_deplete(self, params, charged, &mut left, &mut recharges) })?;
        Ok((recharges, left))
    }
}

/// What a run takes from the budget of a task of this bandwidth.
pub fn charge(run: u32, bw: u32, queue: Capacity, now: Reading) -> Result<u64, Fault> {
    let mut charged = 0;
    // SAFETY: as above.
    unless(unsafe { raw::nd_charge(run, bw, queue, now, &mut charged) })?;
    Ok(charged)
}

/// The least run of a task of this bandwidth whose charge is at least the budget. A fault of 3 where the bandwidth is 0.
pub fn exhaustion(budget: u32, bw: u32, queue: Capacity, now: Reading) -> Result<u64, Fault> {
    let mut run = 0;
    // SAFETY: as above.
    unless(unsafe { raw::nd_exhaustion(budget, bw, queue, now, &mut run) })?;
    Ok(run)
}

/// What a kernel charges by, beside a run and a task's bandwidth.
#[derive(Clone, Copy, Debug, Default, PartialEq, Eq)]
pub struct KernelSums {
    pub this_bw: u64,
    pub running_bw: u64,
    pub extra_bw: u64,
    pub max_bw: u64,
    pub bw_ratio: u64,
}

/// What a kernel of this version (0x060100 for 6.1) charges for a run of `dt` nanoseconds, in nanoseconds.
#[must_use]
pub fn kernel_charge(kernel: u32, dt: u64, bw: u64, sums: KernelSums) -> u64 {
    let KernelSums { this_bw, running_bw, extra_bw, max_bw, bw_ratio } = sums;
    // SAFETY: the call takes numbers alone.
    unsafe { raw::nd_kernel_charge(kernel, dt, bw, this_bw, running_bw, extra_bw, max_bw, bw_ratio) }
}

/// The version that the linked library has; this crate is made for [`codes::ABI`].
pub fn abi() -> u32 {
    // SAFETY: the call takes nothing.
    unsafe { raw::nd_abi() }
}

/// The version of the linked library; [`codes::VERSION`] is that of this crate.
pub fn version() -> u32 {
    // SAFETY: the call takes nothing.
    unsafe { raw::nd_version() }
}
