//! Calls on one registry, as records of 16 words.

mod generate;

pub use generate::Records;

use crate::board::call::{Call, Op};
use crate::board::make::*;
use crate::board::reference::Reference;
use crate::command::little_endian;
use carv_oracle::Snapshot;

/// Words in a record.
pub const WORDS: usize = 16;
/// Bytes in a record.
pub const BYTES: usize = WORDS * 8;
/// Words of an answer.
const VALUES: usize = 7;

/// The calls on a registry, in the order of their numbers in records, which count from 1.
pub const OPS: [Op; 13] = [
    Op::Open,
    Op::Create,
    Op::Insert,
    Op::CreateBudget,
    Op::ChargeMore,
    Op::Uncharge,
    Op::Remove,
    Op::Refill,
    Op::ChargeCpu,
    Op::PaysForAnything,
    Op::Account,
    Op::ChargeOf,
    Op::Totals,
];

/// The number of a call in records; 0 for one on threads.
fn code(op: Op) -> u64 {
    let place = OPS.iter().position(|listed| *listed == op);
    place.map_or(0, |place| place as u64 + 1)
}

/// One call and the answer that is expected.
#[derive(Clone, Copy, Debug, PartialEq, Eq)]
pub struct Record {
    /// The call, one of [`OPS`], whose place says its number: word 0.
    pub op: Op,
    /// Its arguments: words 1 to 4.
    pub arguments: [u64; 4],
    /// The expected number, 0 if accepted: word 5.
    pub number: u64,
    /// The expected values: words 6 to 12.
    pub values: [u64; VALUES],
}

impl Record {
    /// The record's words.
    pub fn words(&self) -> [u64; WORDS] {
        let mut words = [0; WORDS];
        words[0] = code(self.op);
        words[1..5].copy_from_slice(&self.arguments);
        words[5] = self.number;
        words[6..13].copy_from_slice(&self.values);
        words
    }

    /// The words, little-endian.
    pub fn bytes(&self) -> [u8; BYTES] {
        little_endian(&self.words())
    }
}

/// A registry of the Rust, with the port's added refusals in front. At first none is open.
#[derive(Default)]
pub struct Registry {
    board: Reference,
}

impl Registry {
    /// What can be read of the registry now.
    pub fn state(&self) -> &Snapshot {
        self.board.state()
    }

    /// Makes the call.
    ///
    /// # Panics
    /// If it is a call on threads.
    pub fn call(&mut self, op: Op, arguments: [u64; 4]) -> Record {
        let answer = self.board.call(call(op, arguments));
        let mut values = [0; VALUES];
        values.copy_from_slice(&answer.words[..VALUES]);
        Record {
            op,
            arguments,
            number: answer.number,
            values,
        }
    }
}

/// The call with these words as its arguments.
fn call(op: Op, [first, second, third, fourth]: [u64; 4]) -> Call {
    match op {
        Op::Open => open(first, second),
        Op::Create => create(first, second, third == 1),
        Op::Insert => insert(first, second, third),
        Op::CreateBudget => carve(first, second, third, fourth),
        Op::ChargeMore => charge_more(first, second),
        Op::Uncharge => uncharge(first, second),
        Op::Remove => remove(first, second),
        Op::Refill => refill(first, second),
        Op::ChargeCpu => spend(first, second, third),
        Op::PaysForAnything => pays(first),
        Op::Account => account(first),
        Op::ChargeOf => charge_of(first),
        Op::Totals => totals(first),
        _ => panic!("{} is no call on a registry", op.name()),
    }
}

#[cfg(test)]
mod tests {
    use super::*;
    use carv_oracle::account::PERIOD;

    #[test]
    fn words_and_bytes() {
        let record = Record {
            op: Op::ChargeOf,
            arguments: [1, 2, 3, 4],
            number: 5,
            values: [6, 7, 8, 9, 10, 11, 12],
        };
        let mut expected: [u64; WORDS] = std::array::from_fn(|word| word as u64);
        expected[0] = 12;
        expected[13..].fill(0);
        assert_eq!(record.words(), expected);
        assert_eq!(
            record.bytes()[..16],
            [12, 0, 0, 0, 0, 0, 0, 0, 1, 0, 0, 0, 0, 0, 0, 0]
        );
    }

    /// The first twelve numbers are also the board's.
    #[test]
    fn numbers_of_calls() {
        for (number, op) in (1..).zip(OPS) {
            assert_eq!(code(op), number);
            assert_eq!(op as u64 == number, number <= 12, "{op:?}");
        }
        assert_eq!((code(Op::Totals), code(Op::Plan)), (13, 0));
    }

    #[test]
    fn a_refused_opening_changes_nothing() {
        let mut registry = Registry::default();
        assert_eq!(registry.call(Op::Account, [1, 0, 0, 0]).number, 1);
        assert_eq!(registry.call(Op::Open, [PERIOD, 500, 0, 0]).number, 0);
        let before = registry.state().clone();
        assert_eq!(registry.call(Op::Open, [PERIOD + 1, 1, 0, 0]).number, 2);
        assert_eq!(*registry.state(), before);
    }
}
