//! Ticks and plannings.

use super::boards::{Boards, MEMORY, thread_id};
use super::case::{Case, turn};
use super::{Ids, Line};
use carv_compare::board::make::{block, carve, kill, new_thread, plan, start, tick};
use carv_compare::board::rust::on_rust;
use carv_compare::board::{IDLE, SLEEP};
use carv_oracle::account::PERIOD;

/// What the threads of a board are about, each of which has a budget of its own. Thread 0 is gone.
#[derive(Clone, Copy, Debug, PartialEq, Eq)]
enum Threads {
    /// All ready, and every budget has time when its thread's turn comes.
    Filled,
    /// All ready, and only the last one's budget ever has time: a planning tests all of them.
    OneLeft,
    /// All but one asleep, for longer than anyone waits.
    OneAwake,
    /// All asleep: idle runs.
    Asleep,
}

impl Threads {
    const ALL: [Self; 4] = [Self::Filled, Self::OneLeft, Self::OneAwake, Self::Asleep];

    /// The names of the rows: a tick with the planning behind it, a tick, a planning.
    const fn names(self) -> [&'static str; 3] {
        match self {
            Self::Filled => [
                "tick, plan: all budgets filled",
                "tick: all budgets filled",
                "plan: all budgets filled",
            ],
            Self::OneLeft => [
                "tick, plan: one budget left",
                "tick: one budget left",
                "plan: one budget left",
            ],
            Self::OneAwake => [
                "tick, plan: all but one asleep",
                "tick: all but one asleep",
                "plan: all but one asleep",
            ],
            Self::Asleep => [
                "tick, plan: all asleep",
                "tick: all asleep",
                "plan: all asleep",
            ],
        }
    }

    /// How many sleep.
    const fn sleepers(self, threads: u64) -> u64 {
        match self {
            Self::Filled | Self::OneLeft => 0,
            Self::OneAwake => threads - 1,
            Self::Asleep => threads,
        }
    }

    /// The CPU time of a budget, by its place from the last.
    const fn share(self, threads: u64, from_last: u64) -> u64 {
        match self {
            Self::Filled => PERIOD / threads,
            Self::OneLeft if from_last == 0 => PERIOD,
            Self::OneLeft => 0,
            Self::OneAwake | Self::Asleep if from_last == 0 => PERIOD - threads,
            Self::OneAwake | Self::Asleep => 1,
        }
    }

    fn board(self, threads: u64, ids: Ids) -> Boards {
        let mut boards = Boards::open(MEMORY);
        boards.make(kill(0, 1));
        boards.make(plan(0));
        for place in 0..threads {
            boards.leave_gap(ids);
            let share = self.share(threads, threads - 1 - place);
            let budget = boards.make(carve(1, share, 0, 0));
            let id = thread_id(place, ids);
            boards.make(new_thread(id, budget));
            boards.make(start(id));
        }
        boards.make(plan(0));
        for _ in 0..self.sleepers(threads) {
            boards.make(block(SLEEP, u64::MAX));
            boards.make(plan(0));
        }
        let idle = boards.make(carv_compare::board::make::CURRENT) == IDLE;
        assert_eq!(idle, self == Self::Asleep, "{self:?}");
        boards
    }
}

/// Times ticks and plannings, one tick later at each turn. `told` gets each line as soon as it is
/// measured.
pub fn threads(mut told: impl FnMut(Line)) {
    for threads in [16, 127] {
        for kind in Threads::ALL {
            for ids in [Ids::Dense, Ids::Far] {
                told(tick_and_plan(kind, threads, ids));
            }
        }
    }
    for kind in Threads::ALL {
        let [_, tick_alone, plan_alone] = kind.names();
        let boards = || kind.board(127, Ids::Dense);
        let case = |name| case(127, Ids::Dense, name);
        told(case(tick_alone).turns(boards(), turn!(|turn| tick(turn))));
        told(case(plan_alone).turns(boards(), turn!(|turn| plan(turn))));
    }
}

fn case(threads: u64, ids: Ids, name: &'static str) -> Case {
    Case {
        board: format!("{threads} threads"),
        ids,
        name,
        parts: 1.0,
        questions: 1.0,
    }
}

/// The time is that of both.
fn tick_and_plan(kind: Threads, threads: u64, ids: Ids) -> Line {
    let [both, ..] = kind.names();
    let case = Case {
        questions: 2.0,
        ..case(threads, ids, both)
    };
    case.turns(
        kind.board(threads, ids),
        turn!(|turn| tick(turn), plan(turn)),
    )
}
