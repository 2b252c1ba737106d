//! Accounts.

use crate::account::Account;

include!(concat!(env!("OUT_DIR"), "/carv_budget.rs"));

impl Budget {
    /// A budget with the figures of `account`, sound or not.
    pub fn from_parts(id: u64, parent_id: Option<u64>, period: u64, account: Account) -> Self {
        Self {
            id,
            parent_id,
            limits: Limits {
                cpu_budget_ns: account.cpu_allowance,
                cpu_period_ns: period,
                memory_bytes: account.memory_limit,
            },
            period_start_ns: account.period_start,
            cpu_remaining_ns: account.cpu_left,
            child_cpu_reserved_ns: account.cpu_reserved,
            memory_used_bytes: account.memory_used,
            child_memory_reserved_bytes: account.memory_reserved,
        }
    }

    /// The budget's figures.
    pub fn parts(&self) -> Account {
        Account {
            cpu_allowance: self.limits.cpu_budget_ns,
            memory_limit: self.limits.memory_bytes,
            period_start: self.period_start_ns,
            cpu_left: self.cpu_remaining_ns,
            cpu_reserved: self.child_cpu_reserved_ns,
            memory_used: self.memory_used_bytes,
            memory_reserved: self.child_memory_reserved_bytes,
        }
    }
}
