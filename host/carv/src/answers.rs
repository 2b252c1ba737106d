//! What calls take and answer, beyond single numbers.

use crate::ffi::Words;
use crate::{Nanoseconds, ObjectId, PERIOD_NS, Refusal, State, ThreadId, Wait};
use carv_sys::*;

/// The limits of a budget.
#[derive(Clone, Copy, Debug, Default, PartialEq, Eq, Hash)]
pub struct Limits {
    /// Its share of CPU time in every period of 10 ms, in ns.
    pub cpu_ns: u64,
    /// Its memory, in bytes.
    pub memory_bytes: u64,
}

/// The account of a budget.
#[derive(Clone, Copy, Debug, Default, PartialEq, Eq, Hash)]
#[must_use]
#[non_exhaustive]
pub struct Account {
    /// What it may use.
    pub limits: Limits,
    /// When its period began, as of its last renewal.
    pub period_start: Nanoseconds,
    /// What is left of its CPU time, as of its last renewal.
    pub cpu_left_ns: u64,
    /// The CPU time of the budgets carved out of it.
    pub cpu_reserved_ns: u64,
    /// The charges that it pays.
    pub memory_used_bytes: u64,
    /// The memory of the budgets carved out of it.
    pub memory_reserved_bytes: u64,
}

impl From<&Words> for Account {
    /// The account in the answer words of `carv_account`.
    fn from(words: &Words) -> Self {
        Self {
            limits: Limits {
                cpu_ns: words[CARV_ACCOUNT_CPU_ALLOWANCE],
                memory_bytes: words[CARV_ACCOUNT_MEMORY_LIMIT],
            },
            period_start: Nanoseconds(words[CARV_ACCOUNT_PERIOD_START]),
            cpu_left_ns: words[CARV_ACCOUNT_CPU_LEFT],
            cpu_reserved_ns: words[CARV_ACCOUNT_CPU_RESERVED],
            memory_used_bytes: words[CARV_ACCOUNT_MEMORY_USED],
            memory_reserved_bytes: words[CARV_ACCOUNT_MEMORY_RESERVED],
        }
    }
}

impl Account {
    /// What a charge or a carve-out finds free.
    #[must_use]
    pub const fn memory_free_bytes(&self) -> u64 {
        let free = self
            .limits
            .memory_bytes
            .saturating_sub(self.memory_used_bytes);
        free.saturating_sub(self.memory_reserved_bytes)
    }

    /// What a call at this time finds left of the CPU time, in ns: all that isn't reserved if a
    /// renewal is due by then.
    #[must_use]
    pub const fn cpu_left_at(&self, now: Nanoseconds) -> u64 {
        if now.0.saturating_sub(self.period_start.0) >= PERIOD_NS {
            self.limits.cpu_ns.saturating_sub(self.cpu_reserved_ns)
        } else {
            self.cpu_left_ns
        }
    }
}

/// Figures of a budget and of all budgets below it, at any depth, each summed up.
#[derive(Clone, Copy, Debug, Default, PartialEq, Eq, Hash)]
#[must_use]
#[non_exhaustive]
pub struct Totals {
    /// The charges that they pay.
    pub memory_used_bytes: u64,
    /// What charges and carve-outs find free in them. Together with what is used it is the memory
    /// limit of the uppermost.
    pub memory_free_bytes: u64,
    /// What is left of their CPU time, of each as of its last renewal.
    pub cpu_left_ns: u64,
}

impl From<&Words> for Totals {
    /// The totals in the answer words of `carv_totals`.
    fn from(words: &Words) -> Self {
        Self {
            memory_used_bytes: words[CARV_TOTALS_MEMORY_USED],
            memory_free_bytes: words[CARV_TOTALS_MEMORY_FREE],
            cpu_left_ns: words[CARV_TOTALS_CPU_LEFT],
        }
    }
}

/// What an object is charged, and to whom.
#[derive(Clone, Copy, Debug, PartialEq, Eq, Hash)]
#[must_use]
#[non_exhaustive]
pub struct Charge {
    /// The budget that pays.
    pub payer: ObjectId,
    /// What it pays, in bytes.
    pub bytes: u64,
}

impl From<&Words> for Charge {
    /// The charge in the answer words of `carv_charge_of`.
    fn from(words: &Words) -> Self {
        Self {
            payer: ObjectId(words[CARV_CHARGE_PAYER]),
            bytes: words[CARV_CHARGE_BYTES],
        }
    }
}

/// Where a thread runs. The board keeps these numbers for the host.
#[derive(Clone, Copy, Debug, Default, PartialEq, Eq, Hash)]
pub struct Space {
    /// Its address space.
    pub space: u64,
    /// Its capability space.
    pub cspace: u64,
    /// The root of its page tables.
    pub root: u64,
}

/// The registers that a thread starts with. The board keeps these numbers for the host.
#[derive(Clone, Copy, Debug, PartialEq, Eq, Hash)]
pub struct Context {
    /// Instruction pointer.
    pub rip: u64,
    /// Stack pointer.
    pub rsp: u64,
    /// Flags.
    pub rflags: u64,
    /// First argument.
    pub rdi: u64,
    /// Second argument.
    pub rsi: u64,
    /// Code segment.
    pub cs: u64,
    /// Stack segment.
    pub ss: u64,
}

impl Default for Context {
    /// As a new thread has it: the flags 0x202, all else 0.
    fn default() -> Self {
        Self {
            rip: 0,
            rsp: 0,
            rflags: 0x202,
            rdi: 0,
            rsi: 0,
            cs: 0,
            ss: 0,
        }
    }
}

/// The record of a thread.
#[derive(Clone, Copy, Debug, PartialEq, Eq, Hash)]
#[must_use]
#[non_exhaustive]
pub struct ThreadRecord {
    /// Its state, with what it waits for.
    pub state: State,
    /// The budget that its ticks are booked to; thread 0 and idle have none.
    pub budget: Option<ObjectId>,
    /// Where it runs, from its start on.
    pub space: Option<Space>,
    /// The registers that it starts with.
    pub context: Context,
    /// What it was last woken with.
    pub results: [u64; 3],
    /// How many ticks were booked to it, modulo 2^64.
    pub run_ticks: u64,
}

impl TryFrom<&Words> for ThreadRecord {
    type Error = Refusal;

    /// The record in the answer words of `carv_read_thread`. A board that answers a state or a wait
    /// that is not listed isn't sound.
    fn try_from(words: &Words) -> Result<Self, Refusal> {
        let wait = Wait::decode(words[CARV_THREAD_WAIT_KIND], words[CARV_THREAD_WAIT_NUMBER])?;
        let budget = ObjectId(words[CARV_THREAD_BUDGET]);
        let space = Space {
            space: words[CARV_THREAD_SPACE],
            cspace: words[CARV_THREAD_CSPACE],
            root: words[CARV_THREAD_ROOT],
        };
        Ok(Self {
            state: State::decode(words[CARV_THREAD_STATE], wait)?,
            budget: is_yes(words[CARV_THREAD_HAS_BUDGET]).then_some(budget),
            space: is_yes(words[CARV_THREAD_HAS_SPACE]).then_some(space),
            context: Context {
                rip: words[CARV_THREAD_RIP],
                rsp: words[CARV_THREAD_RSP],
                rflags: words[CARV_THREAD_RFLAGS],
                rdi: words[CARV_THREAD_RDI],
                rsi: words[CARV_THREAD_RSI],
                cs: words[CARV_THREAD_CS],
                ss: words[CARV_THREAD_SS],
            },
            results: [
                words[CARV_THREAD_RESULT_0],
                words[CARV_THREAD_RESULT_1],
                words[CARV_THREAD_RESULT_2],
            ],
            run_ticks: words[CARV_THREAD_RUN_TICKS],
        })
    }
}

/// What a planning answers.
#[derive(Clone, Copy, Debug, PartialEq, Eq, Hash)]
#[must_use = "the host makes the switch, if there is one"]
#[non_exhaustive]
pub struct Planned {
    /// The switch that the host is to make; none if the same thread stays.
    pub switch: Option<Switch>,
}

impl From<&Words> for Planned {
    /// What stands in the answer words of `carv_plan`.
    fn from(words: &Words) -> Self {
        let root = words[CARV_PLAN_ROOT];
        let switch = Switch {
            old: ThreadId(words[CARV_PLAN_OLD]),
            new: ThreadId(words[CARV_PLAN_NEW]),
            root: is_yes(words[CARV_PLAN_HAS_ROOT]).then_some(root),
        };
        Self {
            switch: is_yes(words[CARV_PLAN_SWITCH]).then_some(switch),
        }
    }
}

/// A switch from one thread to another, which the host is to make.
#[derive(Clone, Copy, Debug, PartialEq, Eq, Hash)]
#[must_use]
#[non_exhaustive]
pub struct Switch {
    /// The thread that was current.
    pub old: ThreadId,
    /// The thread that runs.
    pub new: ThreadId,
    /// The root of its page tables, or none for the kernel's.
    pub root: Option<u64>,
}

/// Does this answer word say yes?
pub(crate) fn is_yes(word: u64) -> bool {
    word == 1
}
