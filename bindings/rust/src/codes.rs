//! The numbers of states, ops, replies and faults, as `neddwyrol.h` has them.

/// The version of the structs, codes and arguments that this crate is made for.
pub const ABI: u32 = 1;

/// The version of this crate: major * 1000000 + minor * 1000 + patch.
pub const VERSION: u32 = 3000;

/// A bandwidth of one: a whole processor.
pub const UNIT: u32 = 1048576;
pub const QUEUES_MAX: usize = 65536;
pub const TASKS_MAX: usize = 1048576;

pub const AWAY: u32 = 0;
pub const CONTENDING: u32 = 1;
pub const NON_CONTENDING: u32 = 2;
pub const INACTIVE: u32 = 3;
pub const GONE_FOR_GOOD: u32 = 4;

pub const JOIN: u32 = 1;
pub const WAKE: u32 = 2;
pub const BLOCK: u32 = 3;
pub const LEAVE: u32 = 4;
pub const TIMER: u32 = 5;
pub const EXIT: u32 = 6;
pub const CHARGE: u32 = 7;
pub const RETUNE: u32 = 8;
pub const MOVE: u32 = 9;

pub const CALL: u32 = 1;
pub const READING: u32 = 2;
pub const REBASE: u32 = 3;

pub const DONE: u32 = 0;
pub const PERIOD_OUT_OF_RANGE: u32 = 1;
pub const RUNTIME_OUT_OF_RANGE: u32 = 2;
pub const TOO_SMALL: u32 = 3;
pub const UMAX_OUT_OF_RANGE: u32 = 4;
pub const UEXTRA_OUT_OF_RANGE: u32 = 5;
pub const TOO_MANY_QUEUES: u32 = 6;
pub const TOO_MANY_TASKS: u32 = 7;
pub const NO_QUEUE: u32 = 8;
pub const GONE: u32 = 9;
pub const NOT_ON: u32 = 10;
pub const ALREADY_ON: u32 = 11;
pub const ELSEWHERE: u32 = 12;
pub const ALREADY_CONTENDING: u32 = 13;
pub const NOT_CONTENDING: u32 = 14;
pub const STILL_CONTENDING: u32 = 15;
pub const STILL_ACTIVE: u32 = 16;
pub const WORN: u32 = 17;
pub const STALE: u32 = 18;
pub const EARLY: u32 = 19;
pub const FULL: u32 = 20;
pub const DEADLINE_OVERFLOW: u32 = 21;
pub const BUDGET_OUT_OF_RANGE: u32 = 60;
pub const MOMENT_OUT_OF_RANGE: u32 = 61;
pub const RUNNING_OUT_OF_RANGE: u32 = 62;
pub const COUNT_OUT_OF_RANGE: u32 = 63;
pub const QUEUE_OUT_OF_RANGE: u32 = 64;
pub const WRONG_RUNNING_BW: u32 = 65;
pub const WRONG_THIS_BW: u32 = 66;
pub const OVERFULL: u32 = 67;
pub const STATE_OUT_OF_RANGE: u32 = 68;
pub const NO_TASK: u32 = 70;
pub const NO_OP: u32 = 71;
pub const DAMAGED: u32 = 72;
pub const NOBODY: u32 = 73;
pub const TOO_FAR: u32 = 74;
pub const JOINED: u32 = 101;
pub const WOKEN: u32 = 102;
pub const WAITING: u32 = 103;
pub const ASLEEP: u32 = 104;
pub const LEFT: u32 = 105;
pub const RETIRED: u32 = 106;
pub const ENDED: u32 = 107;
pub const CHARGED: u32 = 108;
pub const RETUNED: u32 = 109;
pub const MOVED: u32 = 110;
pub const REBASED: u32 = 111;

/// The name of a fault or of a reply's kind; "UNKNOWN" where the number is none.
pub const fn name(kind: u32) -> &'static str {
    match kind {
        DONE => "DONE",
        PERIOD_OUT_OF_RANGE => "PERIOD_OUT_OF_RANGE",
        RUNTIME_OUT_OF_RANGE => "RUNTIME_OUT_OF_RANGE",
        TOO_SMALL => "TOO_SMALL",
        UMAX_OUT_OF_RANGE => "UMAX_OUT_OF_RANGE",
        UEXTRA_OUT_OF_RANGE => "UEXTRA_OUT_OF_RANGE",
        TOO_MANY_QUEUES => "TOO_MANY_QUEUES",
        TOO_MANY_TASKS => "TOO_MANY_TASKS",
        NO_QUEUE => "NO_QUEUE",
        GONE => "GONE",
        NOT_ON => "NOT_ON",
        ALREADY_ON => "ALREADY_ON",
        ELSEWHERE => "ELSEWHERE",
        ALREADY_CONTENDING => "ALREADY_CONTENDING",
        NOT_CONTENDING => "NOT_CONTENDING",
        STILL_CONTENDING => "STILL_CONTENDING",
        STILL_ACTIVE => "STILL_ACTIVE",
        WORN => "WORN",
        STALE => "STALE",
        EARLY => "EARLY",
        FULL => "FULL",
        DEADLINE_OVERFLOW => "DEADLINE_OVERFLOW",
        BUDGET_OUT_OF_RANGE => "BUDGET_OUT_OF_RANGE",
        MOMENT_OUT_OF_RANGE => "MOMENT_OUT_OF_RANGE",
        RUNNING_OUT_OF_RANGE => "RUNNING_OUT_OF_RANGE",
        COUNT_OUT_OF_RANGE => "COUNT_OUT_OF_RANGE",
        QUEUE_OUT_OF_RANGE => "QUEUE_OUT_OF_RANGE",
        WRONG_RUNNING_BW => "WRONG_RUNNING_BW",
        WRONG_THIS_BW => "WRONG_THIS_BW",
        OVERFULL => "OVERFULL",
        STATE_OUT_OF_RANGE => "STATE_OUT_OF_RANGE",
        NO_TASK => "NO_TASK",
        NO_OP => "NO_OP",
        DAMAGED => "DAMAGED",
        NOBODY => "NOBODY",
        TOO_FAR => "TOO_FAR",
        JOINED => "JOINED",
        WOKEN => "WOKEN",
        WAITING => "WAITING",
        ASLEEP => "ASLEEP",
        LEFT => "LEFT",
        RETIRED => "RETIRED",
        ENDED => "ENDED",
        CHARGED => "CHARGED",
        RETUNED => "RETUNED",
        MOVED => "MOVED",
        REBASED => "REBASED",
        // (of the shared table)
        23 => "NO_PASS",
        24 => "TOO_MANY_PASSES",
        25 => "NO_TABLE_MEMORY",
        26 => "MISSING",
        27 => "NO_PART",
        42 => "NO_MEMORY",
        50 => "BUSY",
        51 => "EMPTY",
        52 => "LOST",
        53 => "TWO_TABLES",
        100 => "HELD",
        _ => "UNKNOWN",
    }
}
