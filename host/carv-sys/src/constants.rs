//! The constants of `include/carv.h`, by the header's names and in its order. Lengths and places of
//! answer words are `usize`, all else is `u64`, as the functions take and answer it.

#![allow(missing_docs, reason = "the header says what each is")]

pub const CARV_AREA_BYTES: usize = 68_144;
pub const CARV_ANSWER_WORDS: usize = 20;
pub const CARV_IMAGE_BYTES: usize = 512;
pub const CARV_MOST_OBJECTS: usize = 512;
pub const CARV_MOST_THREADS: usize = 128;
pub const CARV_MOST_EXITS: usize = 32;
pub const CARV_PERIOD_NS: u64 = 10_000_000;
pub const CARV_TICK_NS: u64 = 1_000_000;
pub const CARV_LAST_TICK: u64 = 18_446_744_073_709;
pub const CARV_ROOT: u64 = 1;
pub const CARV_FIRST_THREAD: u64 = 0;
pub const CARV_IDLE: u64 = u64::MAX;

pub const CARV_KIND_THREAD: u64 = 1;
pub const CARV_KIND_ADDRESS_SPACE: u64 = 2;
pub const CARV_KIND_FRAME: u64 = 3;
pub const CARV_KIND_ENDPOINT: u64 = 4;
pub const CARV_KIND_NOTIFICATION: u64 = 5;
pub const CARV_KIND_BUDGET: u64 = 6;
pub const CARV_KIND_REPLY: u64 = 7;
pub const CARV_KIND_IRQ: u64 = 8;
pub const CARV_KIND_IRQ_CONTROL: u64 = 9;

pub const CARV_BYTES_THREAD: u64 = 33_792;
pub const CARV_BYTES_ADDRESS_SPACE: u64 = 16_384;
pub const CARV_BYTES_FRAME: u64 = 4_096;
pub const CARV_BYTES_ENDPOINT: u64 = 128;
pub const CARV_BYTES_NOTIFICATION: u64 = 64;
pub const CARV_BYTES_BUDGET: u64 = 128;
pub const CARV_BYTES_REPLY: u64 = 64;
pub const CARV_BYTES_IRQ: u64 = 64;
pub const CARV_BYTES_IRQ_CONTROL: u64 = 64;

pub const CARV_STATE_INACTIVE: u64 = 1;
pub const CARV_STATE_READY: u64 = 2;
pub const CARV_STATE_RUNNING: u64 = 3;
pub const CARV_STATE_BLOCKED: u64 = 4;
pub const CARV_STATE_DEAD: u64 = 5;

pub const CARV_WAIT_NONE: u64 = 0;
pub const CARV_WAIT_SEND: u64 = 1;
pub const CARV_WAIT_RECV: u64 = 2;
pub const CARV_WAIT_REPLY: u64 = 3;
pub const CARV_WAIT_NOTIFICATION: u64 = 4;
pub const CARV_WAIT_SLEEP: u64 = 5;

pub const CARV_CAUSE_NONE: u64 = 0;
pub const CARV_CAUSE_DESTROYED: u64 = 1;
pub const CARV_CAUSE_FAULTED: u64 = 2;

pub const CARV_ACCEPTED: u64 = 0;
pub const CARV_REFUSED_UNSOUND: u64 = 1;
pub const CARV_REFUSED_SHARE: u64 = 2;
pub const CARV_REFUSED_TICK: u64 = 3;
pub const CARV_REFUSED_CODE: u64 = 4;
pub const CARV_REFUSED_ID: u64 = 5;
pub const CARV_REFUSED_FULL: u64 = 6;
pub const CARV_REFUSED_MISSING: u64 = 7;
pub const CARV_REFUSED_STATE: u64 = 8;
pub const CARV_REFUSED_ROOT: u64 = 9;
pub const CARV_REFUSED_PAYS: u64 = 10;
pub const CARV_REFUSED_CHARGE: u64 = 11;
pub const CARV_REFUSED_LIMIT: u64 = 12;
pub const CARV_REFUSED_KIND: u64 = 13;
pub const CARV_REFUSED_BACKING: u64 = 14;

pub const CARV_OUT_VALUE: usize = 0;

pub const CARV_ACCOUNT_CPU_ALLOWANCE: usize = 0;
pub const CARV_ACCOUNT_MEMORY_LIMIT: usize = 1;
pub const CARV_ACCOUNT_PERIOD_START: usize = 2;
pub const CARV_ACCOUNT_CPU_LEFT: usize = 3;
pub const CARV_ACCOUNT_CPU_RESERVED: usize = 4;
pub const CARV_ACCOUNT_MEMORY_USED: usize = 5;
pub const CARV_ACCOUNT_MEMORY_RESERVED: usize = 6;

pub const CARV_CHARGE_PAYER: usize = 0;
pub const CARV_CHARGE_BYTES: usize = 1;

pub const CARV_TOTALS_MEMORY_USED: usize = 0;
pub const CARV_TOTALS_MEMORY_FREE: usize = 1;
pub const CARV_TOTALS_CPU_LEFT: usize = 2;

pub const CARV_KILL_WAIT_KIND: usize = 0;
pub const CARV_KILL_WAIT_NUMBER: usize = 1;

pub const CARV_PLAN_SWITCH: usize = 0;
pub const CARV_PLAN_OLD: usize = 1;
pub const CARV_PLAN_NEW: usize = 2;
pub const CARV_PLAN_HAS_ROOT: usize = 3;
pub const CARV_PLAN_ROOT: usize = 4;

pub const CARV_THREAD_STATE: usize = 0;
pub const CARV_THREAD_WAIT_KIND: usize = 1;
pub const CARV_THREAD_WAIT_NUMBER: usize = 2;
pub const CARV_THREAD_HAS_BUDGET: usize = 3;
pub const CARV_THREAD_BUDGET: usize = 4;
pub const CARV_THREAD_HAS_SPACE: usize = 5;
pub const CARV_THREAD_SPACE: usize = 6;
pub const CARV_THREAD_CSPACE: usize = 7;
pub const CARV_THREAD_ROOT: usize = 8;
pub const CARV_THREAD_RIP: usize = 9;
pub const CARV_THREAD_RSP: usize = 10;
pub const CARV_THREAD_RFLAGS: usize = 11;
pub const CARV_THREAD_RDI: usize = 12;
pub const CARV_THREAD_RSI: usize = 13;
pub const CARV_THREAD_CS: usize = 14;
pub const CARV_THREAD_SS: usize = 15;
pub const CARV_THREAD_RESULT_0: usize = 16;
pub const CARV_THREAD_RESULT_1: usize = 17;
pub const CARV_THREAD_RESULT_2: usize = 18;
pub const CARV_THREAD_RUN_TICKS: usize = 19;
