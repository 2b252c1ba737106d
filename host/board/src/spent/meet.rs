//! The cases that a call meets, and those that a board's ledger has at its end.

use super::cases::Case;
use carv_ledger::history::Opened;
use carv_ledger::{ACCEPTED, Book, Call, Ledger, NOT_COVERED, PERIOD, TICK, period_of};
use std::collections::{BTreeMap, BTreeSet};

/// A budget that a call removes, with the period, if something was charged in it to the budget or
/// below it.
pub fn removed(before: &Opened, call: Call, number: u64) -> Option<(u128, u64)> {
    let (Call::Remove { id, time }, ACCEPTED) = (call, number) else {
        return None;
    };
    let period = period_of(time.into());
    let is_live = before.book.budgets.contains_key(&id);
    (is_live && before.ledger.spent(period, id) > 0).then_some((period, id))
}

/// The cases that a call meets, with what was told before it.
pub fn by_call(before: &Opened, call: Call, number: u64) -> Vec<Case> {
    let mut met = match number {
        ACCEPTED => by_accepted(before, call),
        NOT_COVERED => by_not_covered(&before.book, call).into_iter().collect(),
        _ => by_refused(before, call).into_iter().collect(),
    };
    if let Some((_, id)) = removed(before, call, number) {
        met.push(Case::RemovedCharged);
        let payer = before.book.objects.get(&id).map(|object| object.payer);
        let is_due = payer.is_some_and(|payer| is_due(&before.book, payer, call));
        met.extend(is_due.then_some(Case::RemovedChargedDue));
    }
    met
}

/// Whether a budget is due at the time of a call.
fn is_due(book: &Book, id: u64, call: Call) -> bool {
    let budget = book.budgets.get(&id);
    let is_due = budget.zip(call.clock());
    is_due.is_some_and(|(budget, time)| budget.is_due(time))
}

fn by_accepted(before: &Opened, call: Call) -> Vec<Case> {
    match call {
        Call::ChargeCpu { id, ns, time } => by_charge(&before.book, id, ns.into(), time.into()),
        Call::CreateBudget { parent, .. } => {
            let is_deep = before.ledger.way_up(parent).count() >= 3;
            is_deep
                .then_some(Case::FourthGeneration)
                .into_iter()
                .collect()
        }
        Call::Tick { n } => by_tick(&before.book, n),
        _ => Vec::new(),
    }
}

fn by_not_covered(book: &Book, call: Call) -> Option<Case> {
    match call {
        Call::ChargeCpu { id, .. } => is_due(book, id, call).then_some(Case::RefusedChargeDue),
        Call::CreateBudget { parent, .. } => {
            is_due(book, parent, call).then_some(Case::RefusedCarveDue)
        }
        _ => None,
    }
}

fn by_refused(before: &Opened, call: Call) -> Option<Case> {
    let value = call.clock()?;
    (value < before.clock.last()).then_some(Case::FallenRefused)
}

fn by_charge(book: &Book, id: u64, ns: u128, time: u128) -> Vec<Case> {
    let left = book.budgets.get(&id).map(|it| it.renewed(time).cpu_left());
    let cases = [
        (Case::AllLeft, left == Some(ns)),
        (Case::FirstNs, time.is_multiple_of(PERIOD)),
        (Case::LastNs, (time + 1).is_multiple_of(PERIOD)),
    ];
    let met = cases.into_iter().filter(|(_, is_met)| ns > 0 && *is_met);
    met.map(|(case, _)| case).collect()
}

fn by_tick(book: &Book, n: u64) -> Vec<Case> {
    let thread = book.threads.get(&book.current);
    let has_budget = thread.is_some_and(|thread| thread.budget.is_some());
    let charge = book.tick_charge(u128::from(n) * TICK);
    let mut met = Vec::new();
    match charge {
        Some((_, 0)) => met.push(Case::TickOfNothing),
        Some((_, TICK)) => met.push(Case::WholeTick),
        Some(_) => met.push(Case::TickBelow),
        None if has_budget => met.push(Case::TickOnRemoved),
        None => {}
    }
    if charge.is_some_and(|(_, ns)| ns > 0) && !book.runs {
        met.push(Case::TickOfStopped);
    }
    met
}

/// What a board's ledger has at its end; `removed` are budgets that went in a period in which they
/// or some below them were charged.
pub fn by_ledger(ledger: &Ledger, removed: &BTreeSet<(u128, u64)>) -> Vec<Case> {
    let allowances = ledger.budgets().map(|(id, carved)| (id, carved.allowance));
    let allowances: BTreeMap<u64, u128> = allowances.collect();
    let mut met = Vec::new();
    for period in ledger.periods() {
        met.push(Case::Period);
        let above = above_removed(ledger, removed, period);
        for (id, spent) in ledger.spent_in(period) {
            if allowances.get(&id) != Some(&spent) {
                continue;
            }
            met.push(Case::ToTheAllowance);
            if ledger.charged(period, id) < spent {
                met.push(Case::ToTheAllowanceBelow);
            }
            if above.contains(&id) {
                met.push(Case::ToTheAllowanceRemoved);
            }
        }
    }
    met
}

/// The budgets above those that were removed in a period.
fn above_removed(ledger: &Ledger, removed: &BTreeSet<(u128, u64)>, period: u128) -> BTreeSet<u64> {
    let gone = removed.range((period, 0)..=(period, u64::MAX));
    gone.flat_map(|(_, id)| ledger.way_up(*id).skip(1))
        .collect()
}

#[cfg(test)]
mod tests {
    use super::*;
    use carv_ledger::History;

    const MS: u64 = 1_000_000;

    /// Tells calls by their names and numbers, and answers what the last one met.
    fn met(calls: &[(&str, &[u64], u64)]) -> Vec<Case> {
        let mut history = History::default();
        let mut met = Vec::new();
        for (name, arguments, number) in calls {
            let call = Call::parse(name, arguments).expect("a call");
            if let Some(before) = history.opened() {
                met = by_call(before, call, *number);
            }
            history.note(0, call, *number);
        }
        met
    }

    #[test]
    fn calls() {
        let opened: [(&str, &[u64], u64); 3] = [
            ("open", &[10 * MS, 1_000_000], 0),
            ("create_budget", &[1, 4 * MS, 1_000, 0], 0),
            ("charge_cpu", &[2, MS, 10 * MS], 0),
        ];
        let after = |call: (&str, &[u64], u64)| {
            let calls: Vec<_> = opened.iter().copied().chain([call]).collect();
            met(&calls)
        };
        let at_end = 20 * MS - 1;
        assert_eq!(
            after(("charge_cpu", &[2, 3 * MS, at_end], 0)),
            [Case::AllLeft, Case::LastNs]
        );
        assert_eq!(after(("charge_cpu", &[2, 1, 20 * MS], 0)), [Case::FirstNs]);
        assert_eq!(after(("charge_cpu", &[2, 0, 20 * MS], 0)), []);
        let too_much: &[u64] = &[2, 5 * MS, 20 * MS];
        assert_eq!(
            after(("charge_cpu", too_much, 12)),
            [Case::RefusedChargeDue]
        );
        assert_eq!(after(("charge_cpu", &[2, 5 * MS, 10 * MS], 12)), []);
        assert_eq!(
            after(("create_budget", &[1, 7 * MS, 0, 10 * MS], 12)),
            [Case::RefusedCarveDue]
        );
        assert_eq!(after(("charge_cpu", &[9, 1, 5], 7)), [Case::FallenRefused]);
        assert_eq!(after(("charge_cpu", &[9, 1, 10 * MS], 7)), []);
        let charged = [Case::RemovedCharged, Case::RemovedChargedDue];
        assert_eq!(after(("remove", &[2, 11 * MS], 0)), charged);
        assert_eq!(
            after(("remove", &[2, 21 * MS], 0)),
            [],
            "in the next period"
        );
        assert_eq!(after(("remove", &[1, 11 * MS], 9)), []);
    }

    #[test]
    fn ticks() {
        let running: [(&str, &[u64], u64); 5] = [
            ("open", &[10 * MS, 1_000_000], 0),
            ("create_budget", &[1, 2_500_000, 0, 0], 0),
            ("create_user_thread", &[7, 2, 1], 0),
            ("start", &[7, 0, 0, 0, 0, 0, 0, 0, 0, 0, 0], 0),
            ("plan", &[0], 0),
        ];
        let tick: (&str, &[u64], u64) = ("tick", &[1], 0);
        let after =
            |calls: &[(&'static str, &'static [u64], u64)]| met(&[&running, calls].concat());
        assert_eq!(after(&[tick]), [Case::WholeTick]);
        assert_eq!(after(&[tick; 3]), [Case::TickBelow]);
        assert_eq!(after(&[tick; 4]), [Case::TickOfNothing]);
        let blocked = [("block_current", &[4, 1][..], 0), tick];
        assert_eq!(after(&blocked), [Case::WholeTick, Case::TickOfStopped]);
        let nothing = [&[tick; 3][..], &blocked].concat();
        assert_eq!(after(&nothing), [Case::TickOfNothing]);
        let removed = [("remove", &[2, 0][..], 0), tick];
        assert_eq!(after(&removed), [Case::TickOnRemoved]);
        assert_eq!(met(&[running[0], tick]), [], "thread 0 has no budget");
    }

    #[test]
    fn generations() {
        let carve = |parent: &'static [u64; 4]| ("create_budget", &parent[..], 0);
        let list = [
            ("open", &[10 * MS, 1_000_000][..], 0),
            carve(&[1, MS, 10_000, 0]),
            carve(&[2, MS, 1_000, 0]),
            carve(&[3, MS, 0, 0]),
        ];
        assert_eq!(met(&list[..3]), [], "the third");
        assert_eq!(met(&list), [Case::FourthGeneration]);
    }

    #[test]
    fn ledgers() {
        let mut ledger = Ledger::opening(10);
        ledger.note_budget(2, 1, 4);
        ledger.note_charge(2, 4, 5);
        ledger.note_charge(1, 6, 5);
        ledger.note_charge(1, 10, 10_000_000);
        let root = [Case::ToTheAllowance, Case::ToTheAllowanceBelow];
        let rest = [Case::ToTheAllowance, Case::Period, Case::ToTheAllowance];
        let none_removed = [&[Case::Period][..], &root, &rest].concat();
        assert_eq!(by_ledger(&ledger, &BTreeSet::new()), none_removed);
        let met = by_ledger(&ledger, &BTreeSet::from([(0, 2)]));
        let expected = [
            &[Case::Period][..],
            &root,
            &[Case::ToTheAllowanceRemoved],
            &rest,
        ]
        .concat();
        assert_eq!(met, expected);
    }
}
