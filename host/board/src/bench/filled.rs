//! Boards that are filled with objects, and crowded with threads.

use super::Ids;
use super::boards::{Boards, MEMORY, NOTIFICATION, thread_id};
use super::case::BATCH;
use crate::area::{self, NEXT_ID};
use carv_compare::board::THREADS;
use carv_compare::board::make::{block, carve, create, kill, new_thread, plan, start};
use carv_oracle::account::PERIOD;

/// Budgets below the root, one below the other.
const DEPTH: u64 = 7;
/// Objects to each budget, itself included.
const TO_A_BUDGET: usize = 5;
/// Threads of a crowded board: idle has the last place.
pub const CROWD: u64 = THREADS as u64 - 1;

/// One budget to four other objects, up to eight levels deep.
pub struct Filled {
    pub boards: Boards,
    /// The newest budget.
    pub newest: u64,
    /// Objects that are no budgets, with their payers, oldest first.
    pub plain: Vec<(u64, u64)>,
    ids: Ids,
}

impl Filled {
    /// A board with so many objects.
    pub fn new(objects: usize, ids: Ids) -> Self {
        let mut filled = Self {
            boards: Boards::open(MEMORY),
            newest: 1,
            plain: Vec::new(),
            ids,
        };
        let mut level = 0;
        for place in 1..objects {
            filled.boards.leave_gap(ids);
            if place % TO_A_BUDGET == 0 {
                level = level % DEPTH + 1;
                filled.add_budget(level);
            } else {
                filled.add_object();
            }
        }
        filled
    }

    /// A budget of this level: below the root, or below the newest.
    fn add_budget(&mut self, level: u64) {
        let parent = if level == 1 { 1 } else { self.newest };
        let (cpu, memory) = ((PERIOD / 16) >> level, (MEMORY / 16) >> level);
        self.newest = self.boards.make(carve(parent, cpu, memory, 0));
    }

    fn add_object(&mut self) {
        let payer = self.newest;
        let id = self.boards.make(create(NOTIFICATION, payer, true));
        self.plain.push((id, payer));
    }

    /// An object in the middle that is no budget, and its payer.
    pub fn middle(&self) -> (u64, u64) {
        self.plain[self.plain.len() / 2]
    }

    /// The id that the next object gets.
    pub fn next_id(&self) -> u64 {
        area::word(&self.boards.port.area, NEXT_ID)
    }

    /// Adds threads until every place is taken, all on the root budget, which has time. Thread 0 is
    /// gone, the first thread is current, the others are Ready in the order of their ids.
    pub fn crowded(mut self) -> Self {
        self.boards.make(kill(0, 1));
        self.boards.make(plan(0));
        for id in (0..CROWD).map(|place| thread_id(place, self.ids)) {
            self.boards.make(new_thread(id, 1));
            self.boards.make(start(id));
        }
        self.boards.make(plan(0));
        self
    }

    /// All threads of a crowded board blocked, in their order, on this wait.
    pub fn blocked(mut self, kind: u64, number: u64) -> Self {
        for _ in 0..CROWD {
            self.boards.make(block(kind, number));
            self.boards.make(plan(0));
        }
        self
    }

    /// The id of a thread of a crowded board, for each place in a batch; never the first.
    pub fn in_batch(&self) -> impl Fn(u64) -> u64 + Copy + use<> {
        let ids = self.ids;
        let apart = CROWD / BATCH + 1;
        move |place| thread_id(place * apart + 2, ids)
    }
}
