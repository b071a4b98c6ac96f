//! The calls of the shared table, as `neddwyrol_table.h` has them.
use neddwyrol::{Op, Reading, Reply, RunqueueRecord, TaskRecord};

/// A pass as C has it: nothing where it is null.
#[repr(C)]
pub struct Pass {
    pub at: *mut u8,
}

/// A claim as C has it: nothing where it is null.
#[repr(C)]
pub struct Claim {
    pub at: *mut u8,
}

/// Where a table lies.
#[repr(C)]
pub struct Table {
    pub at: *mut u8,
}

extern "C" {
    pub fn nd_table_open(tasks: *const TaskRecord, task_count: usize, queues: *const RunqueueRecord, queue_count: usize, passes: u32, all: *mut Pass) -> u32;
    pub fn nd_pass_part(pass: Pass, back: *mut Pass, part: *mut Pass) -> u32;
    pub fn nd_pass_apply(pass: Pass, task: u32, op: Op, tries: u8, back: *mut Pass) -> Reply;
    pub fn nd_pass_start(pass: Pass, task: u32, op: Op, back: *mut Pass, claim: *mut Claim) -> Reply;
    pub fn nd_claim_finish(claim: Claim, tries: u8, back: *mut Pass, claim_back: *mut Claim) -> Reply;
    pub fn nd_claim_record(claim: Claim, task: *mut TaskRecord, claim_back: *mut Claim) -> u32;
    pub fn nd_claim_cancel(claim: Claim, back: *mut Pass);
    pub fn nd_pass_read(pass: Pass, queue: u32, reading: *mut Reading, back: *mut Pass) -> u32;
    pub fn nd_pass_table(pass: Pass, table: *mut Table, back: *mut Pass) -> u32;
    pub fn nd_pass_meet(first: Pass, second: Pass, first_back: *mut Pass, second_back: *mut Pass);
    pub fn nd_pass_gather(first: Pass, second: Pass, first_back: *mut Pass, second_back: *mut Pass) -> u32;
    pub fn nd_table_close(pass: Pass, readings: *mut Reading, reading_count: usize, back: *mut Pass) -> u32;
    pub fn nd_pass_free(pass: Pass);
}
