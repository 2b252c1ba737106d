//! Which of document 01's numbers each call can answer.

use super::call::Op;

/// Numbers that calls answer: 0 for an accepted one, 1 to 14 for a refused one. Document 01's 15 is
/// only of an account called alone.
pub const NUMBERS: usize = 15;

/// The numbers that a call can answer on a sound board: 0, and those by which it refuses. On any
/// other board all answer 1, but for an opening.
pub const fn of(op: Op) -> &'static [u64] {
    match op {
        Op::Open => &[0, 2],
        Op::Create => &[0, 4, 6, 7, 12, 13, 14],
        Op::Insert => &[0, 4, 6, 7, 12],
        Op::CreateBudget => &[0, 6, 7, 12],
        Op::ChargeMore => &[0, 7, 12],
        Op::Uncharge => &[0, 7, 11],
        Op::Remove => &[0, 7, 9, 10],
        Op::Refill => &[0, 7],
        Op::ChargeCpu => &[0, 7, 12],
        Op::PaysForAnything => &[0],
        Op::Account | Op::ChargeOf | Op::Totals | Op::Thread => &[0, 7],
        Op::CreateUserThread => &[0, 5, 6, 14],
        Op::Start => &[0, 7, 8],
        Op::BlockCurrent => &[0, 4, 8],
        Op::Wake => &[0, 7, 8],
        Op::IsBlockedOn => &[0, 4],
        Op::Kill => &[0, 4, 5, 7],
        Op::Tick | Op::Plan => &[0, 3],
        Op::Current | Op::Switches | Op::ExitOf => &[0],
    }
}

/// Every call with every number that it can answer.
pub fn all() -> impl Iterator<Item = (Op, u64)> {
    let ops = Op::ALL.iter();
    ops.flat_map(|op| of(*op).iter().map(|number| (*op, *number)))
}
