//! The registry's calls.

use super::boards::{MEMORY, NOTIFICATION};
use super::case::{Case, turn};
use super::filled::Filled;
use super::{Ids, Line};
use carv_compare::board::call::Call;
use carv_compare::board::make::*;
use carv_compare::board::rust;
use carv_oracle::account::PERIOD;
use carv_oracle::{Board, Value};

/// Times every call on boards of so many objects that have no threads but the first two. `told`
/// gets each line as soon as it is measured.
pub fn registry(sizes: &[usize], mut told: impl FnMut(Line)) {
    for objects in sizes.iter().copied() {
        for ids in [Ids::Dense, Ids::Gaps] {
            let rows = Rows {
                board: format!("{objects} objects"),
                ids,
                filled: |free| Filled::new(objects - free, ids),
            };
            rows.tell(&mut told);
        }
    }
}

/// Measures the calls on boards of one size.
pub struct Rows<F: Fn(usize) -> Filled> {
    pub board: String,
    pub ids: Ids,
    /// Makes a board with so many places left for objects.
    pub filled: F,
}

impl<F: Fn(usize) -> Filled> Rows<F> {
    /// Times every call.
    pub fn tell(&self, told: &mut impl FnMut(Line)) {
        for line in [
            Self::is_sound,
            Self::open,
            Self::create_and_remove,
            Self::remove_oldest_and_create,
            Self::insert_and_remove,
            Self::create_budget_and_remove,
            Self::charge_more_and_uncharge,
            Self::refill,
            Self::charge_cpu,
            Self::pays_for_something,
            Self::pays_for_nothing,
            Self::account,
            Self::charge_of,
            Self::totals,
        ] {
            told(line(self));
        }
    }

    fn full(&self) -> Filled {
        (self.filled)(0)
    }

    /// A call, or two that undo each other; the time is that of one.
    fn case(&self, name: &'static str, calls: f64) -> Case {
        Case {
            board: self.board.clone(),
            ids: self.ids,
            name,
            parts: calls,
            questions: calls,
        }
    }

    fn is_sound(&self) -> Line {
        let port = self.full().boards.port;
        self.case("is_sound", 1.0).question(port)
    }

    /// An opening doesn't ask question 1.
    fn open(&self) -> Line {
        let case = Case {
            questions: 0.0,
            ..self.case("open", 1.0)
        };
        case.turns(self.full().boards, turn!(|_| open(PERIOD, MEMORY)))
    }

    fn create_and_remove(&self) -> Line {
        let filled = (self.filled)(1);
        let (payer, next) = (filled.newest, filled.next_id());
        self.case("create, remove", 2.0).turns(
            filled.boards,
            turn!(
                |turn| create(NOTIFICATION, payer, true),
                remove(next + turn, time(turn))
            ),
        )
    }

    fn remove_oldest_and_create(&self) -> Line {
        let filled = self.full();
        let next = filled.next_id();
        let plain = &filled.plain[..];
        let count = plain.len() as u64;
        let payer = |turn: u64| plain[(turn % count) as usize].1;
        let oldest = |turn: u64| match turn.checked_sub(count) {
            Some(created) => next + created,
            None => plain[turn as usize].0,
        };
        self.case("remove the oldest, create", 2.0).turns(
            filled.boards,
            turn!(
                |turn| remove(oldest(turn), time(turn)),
                create(NOTIFICATION, payer(turn), true)
            ),
        )
    }

    fn insert_and_remove(&self) -> Line {
        let filled = (self.filled)(1);
        let (payer, next) = (filled.newest, filled.next_id());
        self.case("insert, remove", 2.0).turns(
            filled.boards,
            turn!(
                |turn| insert(NOTIFICATION, payer, 100),
                remove(next + turn, time(turn))
            ),
        )
    }

    /// At a time at which the parent renews: only so is there always CPU time left. The removal then
    /// finds it renewed.
    fn create_budget_and_remove(&self) -> Line {
        let filled = (self.filled)(1);
        let (parent, next) = (filled.newest, filled.next_id());
        self.case("create_budget, remove", 2.0).turns(
            filled.boards,
            turn!(
                |turn| carve(parent, 1, 64, time(turn)),
                remove(next + turn, time(turn))
            ),
        )
    }

    fn charge_more_and_uncharge(&self) -> Line {
        let filled = self.full();
        let (id, _) = filled.middle();
        self.case("charge_more, uncharge", 2.0).turns(
            filled.boards,
            turn!(|_| charge_more(id, 100), uncharge(id, 100)),
        )
    }

    fn refill(&self) -> Line {
        let filled = self.full();
        let id = filled.newest;
        let turn = turn!(|turn| refill(id, time(turn)));
        self.case("refill", 1.0).turns(filled.boards, turn)
    }

    fn charge_cpu(&self) -> Line {
        let filled = self.full();
        let id = filled.newest;
        let turn = turn!(|turn| spend(id, 1, time(turn)));
        self.case("charge_cpu", 1.0).turns(filled.boards, turn)
    }

    fn pays_for_something(&self) -> Line {
        let filled = self.full();
        let (_, id) = filled.middle();
        let case = self.case("pays_for_anything: yes", 1.0);
        case.turns(filled.boards, turn!(|_| pays(id)))
    }

    fn pays_for_nothing(&self) -> Line {
        let filled = self.full();
        let (id, _) = filled.middle();
        let case = self.case("pays_for_anything: no", 1.0);
        case.turns(filled.boards, turn!(|_| pays(id)))
    }

    fn account(&self) -> Line {
        let filled = self.full();
        let id = filled.newest;
        let case = self.case("account", 1.0);
        case.turns(filled.boards, turn!(|_| account(id)))
    }

    fn charge_of(&self) -> Line {
        let filled = self.full();
        let (id, _) = filled.middle();
        let case = self.case("charge_of", 1.0);
        case.turns(filled.boards, turn!(|_| charge_of(id)))
    }

    /// The root's, over all budgets.
    fn totals(&self) -> Line {
        let port = self.full().boards.port;
        self.case("totals", 1.0).alone(port, totals(1))
    }
}

/// The call on the Rust, a removal as the Rust has it: [`Board::remove`] looks at the table before
/// it, to know whom to renew, and that isn't to be timed. No removal here finds a payer that is due
/// and is of a budget, so both leave the same.
#[inline(always)]
fn on_rust(call: Call, board: &mut Board) -> Result<Value, u8> {
    match call {
        Call::Remove { id, .. } => board.remove_unrenewed(id),
        _ => rust::on_rust(call, board),
    }
}

/// A time at which every budget is due, later at each turn.
fn time(turn: u64) -> u64 {
    (turn + 1) * PERIOD
}
