//! The numbers of faults and the limits of a table, as `neddwyrol_table.h` has them. The others are those of
//! `neddwyrol::codes`.

pub const PASSES_MAX: u32 = 64;
pub const TABLE_QUEUES_MAX: usize = 64;
pub const TABLE_TASKS_MAX: usize = 256;

pub const NO_PASS: u32 = 23;
pub const TOO_MANY_PASSES: u32 = 24;
pub const NO_TABLE_MEMORY: u32 = 25;
pub const MISSING: u32 = 26;
pub const NO_PART: u32 = 27;
pub const NO_MEMORY: u32 = 42;
pub const BUSY: u32 = 50;
pub const EMPTY: u32 = 51;
pub const LOST: u32 = 52;
pub const TWO_TABLES: u32 = 53;
pub const HELD: u32 = 100;
