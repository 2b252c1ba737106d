//! Calls on one account alone, as records of 34 words.

mod generate;

pub use generate::Records;

use crate::command::little_endian;
use carv_oracle::account::{self, Account, Outcome, PERIOD};

/// Words in a record.
pub const WORDS: usize = 34;
/// Bytes in a record.
pub const BYTES: usize = WORDS * 8;

/// Document 01's number for an account that isn't sound.
const UNSOUND: u64 = 1;

/// The calls, each with its number in word 0.
#[derive(Clone, Copy, Debug, PartialEq, Eq)]
pub enum Op {
    /// Open an account.
    Open = 1,
    /// Renew it if that is due.
    Refill = 2,
    /// Charge CPU time.
    ChargeCpu = 3,
    /// Charge memory.
    ChargeMemory = 4,
    /// Give memory back.
    ReleaseMemory = 5,
    /// Carve out a child.
    CarveOut = 6,
    /// Take a child back.
    ReleaseChild = 7,
}

impl Op {
    /// The calls that take an account.
    const ON_ACCOUNT: [Self; 6] = [
        Self::Refill,
        Self::ChargeCpu,
        Self::ChargeMemory,
        Self::ReleaseMemory,
        Self::CarveOut,
        Self::ReleaseChild,
    ];
}

/// One call and the answer that is expected.
#[derive(Clone, Copy, Debug, PartialEq, Eq)]
pub struct Record {
    /// The call: word 0.
    pub op: Op,
    /// The account before: words 1 to 7.
    pub account: Account,
    /// The child before, for [`Op::ReleaseChild`]: words 8 to 14.
    pub child: Account,
    /// An amount of CPU time or memory, a second one of memory, and the time: words 15 to 17.
    pub arguments: [u64; 3],
    /// The expected number, 0 if accepted: word 18.
    pub number: u64,
    /// Whether [`Op::Refill`] renewed, 1 or 0: word 19.
    pub value: u64,
    /// The account after: words 20 to 26.
    pub account_after: Account,
    /// The child carved or not taken back: words 27 to 33.
    pub child_after: Account,
}

impl Record {
    /// The call with the Rust's answer. The accounts are sound.
    fn answered(op: Op, account: Account, child: Account, arguments: [u64; 3]) -> Self {
        let [amount, memory, now] = arguments;
        let outcome = match op {
            Op::Open => account::open(amount, memory, now),
            Op::Refill => account::refill(account, now),
            Op::ChargeCpu => account::charge_cpu(account, amount, now),
            Op::ChargeMemory => account::charge_memory(account, amount),
            Op::ReleaseMemory => account::release_memory(account, amount),
            Op::CarveOut => account::carve_out(account, amount, memory, now),
            Op::ReleaseChild => account::release_child(account, child),
        };
        let Outcome {
            number,
            renewed,
            account: account_after,
            child: child_after,
        } = outcome;
        Self {
            op,
            account,
            child,
            arguments,
            number: number.into(),
            value: renewed.into(),
            account_after: account_after.unwrap_or_default(),
            child_after: child_after.unwrap_or_default(),
        }
    }

    /// The call refused because an account isn't sound. The Rust has no such question.
    fn unsound(op: Op, account: Account, child: Account, arguments: [u64; 3]) -> Self {
        Self {
            op,
            account,
            child,
            arguments,
            number: UNSOUND,
            value: 0,
            account_after: account,
            child_after: child,
        }
    }

    /// The record's words.
    pub fn words(&self) -> [u64; WORDS] {
        let mut words = [0; WORDS];
        words[0] = self.op as u64;
        words[1..8].copy_from_slice(&self.account.words());
        words[8..15].copy_from_slice(&self.child.words());
        words[15..18].copy_from_slice(&self.arguments);
        words[18] = self.number;
        words[19] = self.value;
        words[20..27].copy_from_slice(&self.account_after.words());
        words[27..34].copy_from_slice(&self.child_after.words());
        words
    }

    /// The words, little-endian.
    pub fn bytes(&self) -> [u8; BYTES] {
        little_endian(&self.words())
    }
}

/// Document 01's question 1 of an account alone, with true sums.
pub fn is_sound(account: &Account) -> bool {
    memory_fits(account) && cpu_fits(account) && account.cpu_allowance <= PERIOD
}

fn memory_fits(account: &Account) -> bool {
    fits(
        account.memory_used,
        account.memory_reserved,
        account.memory_limit,
    )
}

fn cpu_fits(account: &Account) -> bool {
    fits(
        account.cpu_left,
        account.cpu_reserved,
        account.cpu_allowance,
    )
}

fn fits(first: u64, second: u64, limit: u64) -> bool {
    u128::from(first) + u128::from(second) <= u128::from(limit)
}

#[cfg(test)]
mod tests {
    use super::*;

    #[test]
    fn words_and_bytes() {
        let of = |from| Account {
            cpu_allowance: from,
            memory_limit: from + 1,
            period_start: from + 2,
            cpu_left: from + 3,
            cpu_reserved: from + 4,
            memory_used: from + 5,
            memory_reserved: from + 6,
        };
        let record = Record {
            op: Op::ReleaseChild,
            account: of(1),
            child: of(8),
            arguments: [15, 16, 17],
            number: 18,
            value: 19,
            account_after: of(20),
            child_after: of(27),
        };
        let mut expected: [u64; WORDS] = std::array::from_fn(|word| word as u64);
        expected[0] = 7;
        assert_eq!(record.words(), expected);
        assert_eq!(record.bytes().len(), 272);
        assert_eq!(
            record.bytes()[..16],
            [7, 0, 0, 0, 0, 0, 0, 0, 1, 0, 0, 0, 0, 0, 0, 0]
        );
    }
}
