//! The library's calls, as `neddwyrol.h` has them.
use crate::{Ask, Capacity, Event, Op, Params, Reading, Reply, RunqueueRecord, Server, TaskRecord};

extern "C" {
    pub fn nd_open(tasks: *mut TaskRecord, task_count: usize, queues: *mut RunqueueRecord, queue_count: usize) -> u32;
    pub fn nd_apply(tasks: *mut TaskRecord, task_count: usize, queues: *mut RunqueueRecord, queue_count: usize, task: u32, op: Op) -> Reply;
    pub fn nd_apply_all(
        tasks: *mut TaskRecord,
        task_count: usize,
        queues: *mut RunqueueRecord,
        queue_count: usize,
        asks: *const Ask,
        ask_count: usize,
        replies: *mut Reply,
        reply_count: usize,
    ) -> usize;
    pub fn nd_audit(tasks: *const TaskRecord, task_count: usize, queues: *const RunqueueRecord, queue_count: usize) -> u32;
    pub fn nd_open_fault(tasks: *const TaskRecord, task_count: usize, queues: *const RunqueueRecord, queue_count: usize, number: *mut u32) -> u32;
    pub fn nd_audit_fault(tasks: *const TaskRecord, task_count: usize, queues: *const RunqueueRecord, queue_count: usize, number: *mut u32) -> u32;
    pub fn nd_check(
        tasks: *mut TaskRecord,
        task_count: usize,
        queues: *mut RunqueueRecord,
        queue_count: usize,
        events: *const Event,
        event_count: usize,
    ) -> usize;
    pub fn nd_rebase(tasks: *mut TaskRecord, task_count: usize, queues: *mut RunqueueRecord, queue_count: usize, by: u32) -> Reply;
    pub fn nd_rebase_limit(tasks: *const TaskRecord, task_count: usize, queues: *const RunqueueRecord, queue_count: usize, by: *mut u32) -> u32;
    pub fn nd_params_fault(params: Params) -> u32;
    pub fn nd_capacity_fault(queue: Capacity) -> u32;
    pub fn nd_bw(params: Params) -> u32;
    pub fn nd_zero_lag(server: Server, params: Params, z: *mut i64) -> u32;
    pub fn nd_woken(server: Server, params: Params, moment: u32, woken: *mut Server) -> u32;
    pub fn nd_charge(run: u32, bw: u32, queue: Capacity, now: Reading, charged: *mut u64) -> u32;
    pub fn nd_exhaustion(budget: u32, bw: u32, queue: Capacity, now: Reading, run: *mut u64) -> u32;
    pub fn nd_deplete(server: Server, params: Params, charged: u64, left: *mut Server, recharges: *mut u32) -> u32;
    pub fn nd_kernel_charge(kernel: u32, dt: u64, bw: u64, this_bw: u64, running_bw: u64, extra_bw: u64, max_bw: u64, bw_ratio: u64) -> u64;
    pub fn nd_earliest(tasks: *const TaskRecord, task_count: usize, queue: u32, task: *mut u32, deadline: *mut u32) -> u32;
    pub fn nd_next_timer(tasks: *const TaskRecord, task_count: usize, queue: u32, task: *mut u32, moment: *mut u32) -> u32;
    pub fn nd_abi() -> u32;
    pub fn nd_version() -> u32;
}
