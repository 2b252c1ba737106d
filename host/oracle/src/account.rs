//! Calls on one account alone, run on the Rust's own budget.
//!
//! The account is to be sound, as document 01's question 1 asks: on other figures the Rust's sums
//! may wrap. The period is always [`PERIOD`].

use crate::carv_budget::{Budget, BudgetError};

pub use carv_layout::area::Account;

/// The CPU period of every account, in nanoseconds.
pub const PERIOD: u64 = crate::objects::CPU_PERIOD_NS;

/// What a call answers, and the accounts as it leaves them.
#[derive(Clone, Copy, Debug, PartialEq, Eq)]
pub struct Outcome {
    /// 0 if accepted, else document 01's number: 2, 11, 12 or 15.
    pub number: u8,
    /// Whether [`refill`] renewed; false for every other call.
    pub renewed: bool,
    /// The account after the call; none where an opening was refused.
    pub account: Option<Account>,
    /// The child that was carved, or that was not taken back.
    pub child: Option<Account>,
}

impl Outcome {
    fn of(result: Result<(), BudgetError>, budget: &Budget) -> Self {
        Self {
            number: result.map_or_else(number, |()| 0),
            renewed: false,
            account: Some(budget.parts()),
            child: None,
        }
    }
}

/// Ids that tie a child to the account it is returned to.
const PARENT: u64 = 1;
const CHILD: u64 = 2;

/// Opens an account: refused with 2 if `cpu` is above the period.
pub fn open(cpu: u64, memory: u64, now: u64) -> Outcome {
    match Budget::new(cpu, PERIOD, memory, now) {
        Ok(budget) => Outcome::of(Ok(()), &budget),
        Err(why) => Outcome {
            number: number(why),
            renewed: false,
            account: None,
            child: None,
        },
    }
}

/// Renews the account if that is due at `now`.
pub fn refill(account: Account, now: u64) -> Outcome {
    let mut budget = parent(account);
    let renewed = budget.refill(now);
    Outcome {
        renewed,
        ..Outcome::of(Ok(()), &budget)
    }
}

/// Renews, then charges `ns` of CPU time: refused with 12 if less is left.
pub fn charge_cpu(account: Account, ns: u64, now: u64) -> Outcome {
    let mut budget = parent(account);
    let charged = budget.charge_cpu(ns, now);
    let result = charged.then_some(()).ok_or(BudgetError::CpuLimitExceeded);
    Outcome::of(result, &budget)
}

/// Charges memory: refused with 12 if less is free.
pub fn charge_memory(account: Account, bytes: u64) -> Outcome {
    let mut budget = parent(account);
    let result = budget.charge_memory(bytes);
    Outcome::of(result, &budget)
}

/// Gives memory back: refused with 11 if less is used.
pub fn release_memory(account: Account, bytes: u64) -> Outcome {
    let mut budget = parent(account);
    let result = budget.release_memory(bytes);
    Outcome::of(result, &budget)
}

/// Renews, then carves out a child: refused with 12 if less CPU time is left or less memory free.
pub fn carve_out(account: Account, cpu: u64, memory: u64, now: u64) -> Outcome {
    let mut budget = parent(account);
    let carved = budget.carve_out(cpu, memory, now);
    let child = carved.as_ref().ok().map(Budget::parts);
    Outcome {
        child,
        ..Outcome::of(carved.map(|_| ()), &budget)
    }
}

/// Takes back a child of this account: refused with 15 if the child has use or reservations, or
/// limits above what the account has reserved.
pub fn release_child(account: Account, child: Account) -> Outcome {
    release(account, child, Some(PARENT))
}

/// The same with a child that this account didn't carve: the Rust refuses it with 15.
pub fn release_foreign_child(account: Account, child: Account) -> Outcome {
    release(account, child, None)
}

fn release(account: Account, child: Account, parent_id: Option<u64>) -> Outcome {
    let mut budget = parent(account);
    let child = Budget::from_parts(CHILD, parent_id, PERIOD, child);
    match budget.release_child(child) {
        Ok(()) => Outcome::of(Ok(()), &budget),
        Err((why, child)) => Outcome {
            child: Some(child.parts()),
            ..Outcome::of(Err(why), &budget)
        },
    }
}

fn parent(account: Account) -> Budget {
    Budget::from_parts(PARENT, None, PERIOD, account)
}

/// Document 01's number for an error of the Rust's account.
fn number(why: BudgetError) -> u8 {
    match why {
        BudgetError::ZeroPeriod => unreachable!("the period is a constant above 0"),
        BudgetError::CpuBudgetExceedsPeriod => 2,
        BudgetError::MemoryUnderflow => 11,
        BudgetError::CpuLimitExceeded
        | BudgetError::MemoryLimitExceeded
        | BudgetError::MemoryLimitReached => 12,
        BudgetError::ReservationUnderflow => 15,
    }
}
