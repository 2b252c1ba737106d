//! What is looked at after each call: the state beside the book, and the ledger.

use super::Terms;
use super::cases::Report;
use super::meet;
use carv_compare::board::call::{Call, Op};
use carv_ledger::{Book, Figures, History, Overspent, period_of};
use carv_oracle::Snapshot;
use carv_oracle::account::Account;
use std::collections::BTreeSet;

/// Book, ledger and clock beside a board.
pub struct Audit {
    /// What was met so far.
    pub report: Report,
    terms: Terms,
    history: History,
    /// Calls since the opening.
    place: u64,
    /// Budgets that were removed in a period in which they, or some below them, were charged.
    removed: BTreeSet<(u128, u64)>,
}

impl Audit {
    pub fn new(terms: Terms) -> Self {
        Self {
            report: Report::default(),
            terms,
            history: terms.history(),
            place: 0,
            removed: BTreeSet::new(),
        }
    }

    /// Notes a call that gave this number, and looks at the state that it left.
    ///
    /// # Errors
    /// What is wrong, in a sentence.
    pub fn note(&mut self, call: Call, number: u64, state: &Snapshot) -> Result<(), String> {
        let told = told(call);
        if let Some(before) = self.history.opened() {
            self.report.count_all(meet::by_call(before, told, number));
            self.removed.extend(meet::removed(before, told, number));
        }
        self.history.note(self.place, told, number);
        self.place += 1;
        self.report.calls += 1;
        let Some(opened) = self.history.opened() else {
            return Ok(());
        };
        if let (true, Some(fall)) = (self.terms.clocks_rise, opened.clock.fell()) {
            return Err(format!("the clock fell from {} to {}", fall.from, fall.to));
        }
        if self.terms.holds_book {
            same_as_by_the_book(&opened.book, state)?;
        }
        let now = period_of(opened.clock.last());
        none_overspent(opened.ledger.overspent_in(now))
    }

    /// Looks at all periods of the board, and counts what its ledger has.
    ///
    /// # Errors
    /// A budget that is overspent.
    pub fn end_board(&mut self) -> Result<(), String> {
        let Some(opened) = self.history.opened() else {
            return Ok(());
        };
        self.report.boards += 1;
        let met = meet::by_ledger(&opened.ledger, &self.removed);
        self.report.count_all(met);
        let found = opened.ledger.overspent();
        self.history = self.terms.history();
        self.place = 0;
        self.removed.clear();
        none_overspent(found)
    }
}

/// The call as the ledger reads it: compare has one name that isn't the header's.
fn told(call: Call) -> carv_ledger::Call {
    let name = match call.op() {
        Op::Thread => "read_thread",
        op => op.name(),
    };
    carv_ledger::Call::parse(name, &call.arguments()).expect("a call of the header")
}

fn none_overspent(found: Option<Overspent>) -> Result<(), String> {
    let Some(it) = found else {
        return Ok(());
    };
    Err(format!(
        "overspent: budget {} and all below it spent {} ns in period {}, its allowance is {} ns",
        it.budget, it.spent, it.period, it.allowance
    ))
}

/// Demand 3: the live budgets are those of the book, each with its four figures, and the current
/// thread is the book's.
fn same_as_by_the_book(book: &Book, state: &Snapshot) -> Result<(), String> {
    let entries = state.entries.iter();
    let found = entries.filter_map(|entry| Some((entry.id, figures(&entry.account?))));
    let mut found = found.fuse();
    let mut expected = book.figures();
    loop {
        match (found.next(), expected.next()) {
            (None, None) => break,
            (Some(found), Some(expected)) if found == expected => {}
            (Some((id, found)), Some((other, expected))) if id == other => {
                return Err(format!(
                    "budget {id} has {found:?}; by the book {expected:?}"
                ));
            }
            (found, expected) => {
                let [found, expected] = [found, expected].map(|it| it.map(|(id, _)| id));
                return Err(format!(
                    "the next live budget is {found:?}; by the book {expected:?}"
                ));
            }
        }
    }
    match state.current == book.current {
        true => Ok(()),
        false => Err(format!(
            "the current thread is {}; by the book {}",
            state.current, book.current
        )),
    }
}

fn figures(account: &Account) -> Figures {
    Figures {
        memory_used: account.memory_used.into(),
        memory_reserved: account.memory_reserved.into(),
        cpu_reserved: account.cpu_reserved.into(),
        cpu_left: account.cpu_left.into(),
    }
}

#[cfg(test)]
mod tests {
    use super::super::cases::Case;
    use super::*;
    use carv_compare::board::make::{carve, open, refill, spend};
    use carv_compare::board::reference::Reference;
    use carv_compare::board::walk::Walk;
    use carv_oracle::Entry;

    const MS: u64 = 1_000_000;

    /// Notes calls with their numbers, those of a board that is mistaken among them.
    fn noted(calls: &[(Call, u64)]) -> (Audit, Result<(), String>) {
        let mut audit = Audit::new(Terms {
            holds_book: false,
            ..Terms::P3
        });
        let state = Snapshot::default();
        let mut calls = calls.iter();
        let found = calls.try_for_each(|(call, number)| audit.note(*call, *number, &state));
        (audit, found)
    }

    /// Every budget is asked for, and told with its figures.
    #[test]
    fn what_is_overspent() {
        let opened = [(open(10 * MS, 1_000), 0), (carve(1, 4 * MS, 100, 0), 0)];
        let after = |calls: &[_]| noted(&[&opened, calls].concat()).1;
        let all = (spend(2, 4 * MS, 30 * MS), 0);
        assert_eq!(after(&[all]), Ok(()));
        let below = "overspent: budget 2 and all below it spent 4000001 ns in period 3, its allowance is 4000000 ns";
        assert_eq!(
            after(&[all, (spend(2, 1, 39 * MS), 0)]),
            Err(below.to_string())
        );
        let root = "overspent: budget 1 and all below it spent 10000001 ns in period 3, its allowance is 10000000 ns";
        let rest = (spend(1, 6 * MS + 1, 30 * MS), 0);
        assert_eq!(after(&[all, rest]), Err(root.to_string()));
    }

    /// A list whose clock falls is no list of P3's, unless the call is refused, not with 12.
    #[test]
    fn clocks_that_fall_are_told() {
        let list = |number| [(open(0, 0), 0), (refill(1, 9), 0), (refill(1, 8), number)];
        let why = "the clock fell from 9 to 8".to_string();
        assert_eq!(noted(&list(0)).1, Err(why));
        assert_eq!(noted(&list(7)).1, Ok(()));
    }

    /// The ledger of a board that ends is counted, and the next board has one of its own.
    #[test]
    fn boards_are_counted() {
        let (mut audit, found) = noted(&[(open(10, 0), 0), (spend(1, 10, 5), 0)]);
        assert_eq!((found, audit.report.boards), (Ok(()), 0));
        assert_eq!(audit.end_board(), Ok(()));
        assert_eq!((audit.report.boards, audit.report.calls), (1, 2));
        assert_eq!(audit.report.case(Case::ToTheAllowance), 1);
        assert_eq!(audit.end_board(), Ok(()), "nothing is opened");
        assert_eq!(audit.report.boards, 1);
    }

    /// Demand 3 on the Rust, on lists of all kinds: tables that fill up, clocks that fall.
    #[test]
    fn figures_are_the_book_s_whatever_the_clock() {
        let mut walk = Walk::new(5);
        let mut board = Reference::default();
        let mut history = History::default();
        for place in 0..100_000 {
            let call = walk.next_call(board.state());
            let number = board.call(call).number;
            history.note(place, told(call), number);
            if let Some(opened) = history.opened() {
                let same = same_as_by_the_book(&opened.book, board.state());
                assert_eq!(same, Ok(()), "call {place}, {call}");
                assert_eq!(opened.book.queue, board.state().ready, "{call}");
                assert_eq!(opened.book.next, board.state().next_id, "{call}");
            }
        }
    }

    /// Each figure, each live budget and the current thread are looked at.
    #[test]
    fn what_differs_from_the_book() {
        let mut board = Reference::default();
        let mut history = History::default();
        for call in [
            Call::Open {
                cpu: 10_000_000,
                memory: 1_000,
            },
            Call::CreateBudget {
                parent: 1,
                cpu: 5,
                memory: 100,
                time: 0,
            },
        ] {
            let number = board.call(call).number;
            history.note(0, told(call), number);
        }
        let book = &history.opened().expect("an opening").book;
        let spoilt = |spoil: fn(&mut Snapshot)| {
            let mut state = board.state().clone();
            spoil(&mut state);
            same_as_by_the_book(book, &state)
        };
        fn account(state: &mut Snapshot) -> &mut Account {
            let entry: &mut Entry = &mut state.entries[1];
            entry.account.as_mut().expect("a budget")
        }
        assert_eq!(spoilt(|_| ()), Ok(()));
        for spoil in [
            (|state| account(state).memory_used += 1) as fn(&mut Snapshot),
            |state| account(state).memory_reserved += 1,
            |state| account(state).cpu_reserved += 1,
            |state| account(state).cpu_left -= 1,
        ] {
            let why = spoilt(spoil).expect_err("a difference");
            assert!(why.starts_with("budget 2 has Figures "), "{why}");
        }
        let gone = spoilt(|state| state.entries.truncate(1));
        let why = "the next live budget is None; by the book Some(2)";
        assert_eq!(gone, Err(why.to_string()));
        let more = spoilt(|state| {
            let entry = Entry {
                id: 3,
                ..state.entries[1]
            };
            state.entries.push(entry);
        });
        let why = "the next live budget is Some(3); by the book None";
        assert_eq!(more, Err(why.to_string()));
        let why = "the current thread is 7; by the book 0";
        assert_eq!(spoilt(|state| state.current = 7), Err(why.to_string()));
    }
}
