//! Makes up calls that suit the state they meet, edges more often than chance gives them.

mod registry;
mod threads;

use super::call::{Call, Edit, Op, Step};
use super::{LAST_TICK, OBJECTS, THREADS, TICK};
use crate::draw::Draw;
use carv_oracle::Snapshot;
use carv_oracle::account::PERIOD;

/// Steps without end: one board after the other, on each a row of moods.
pub struct Walk {
    draw: Draw,
    /// Nanoseconds.
    clock: u64,
    mood: Mood,
    /// Calls before the next mood and before the next board.
    left_in_mood: u64,
    left_on_board: u64,
}

/// Which calls are frequent for a while.
#[derive(Clone, Copy, Debug, PartialEq, Eq)]
enum Mood {
    /// All calls.
    Mixed,
    /// Objects, until the table is full and beyond.
    Grow,
    /// Removals.
    Shrink,
    /// Budgets carved out of the newest budget.
    Deep,
    /// Threads, until the table is full and beyond.
    Crowd,
    /// Ticks and plannings, with threads that block and wake.
    Run,
    /// Kills.
    Reap,
}

impl Mood {
    const ALL: [Self; 7] = [
        Self::Mixed,
        Self::Grow,
        Self::Shrink,
        Self::Deep,
        Self::Crowd,
        Self::Run,
        Self::Reap,
    ];

    /// The calls that are frequent, and how much. All others have weight 2.
    const fn frequent(self) -> &'static [(Op, u64)] {
        match self {
            Self::Mixed => &[
                (Op::Create, 10),
                (Op::Insert, 10),
                (Op::CreateBudget, 12),
                (Op::ChargeMore, 8),
                (Op::Uncharge, 8),
                (Op::Remove, 16),
                (Op::Refill, 6),
                (Op::ChargeCpu, 10),
                (Op::CreateUserThread, 14),
                (Op::Start, 14),
                (Op::BlockCurrent, 12),
                (Op::Wake, 10),
                (Op::Kill, 8),
                (Op::Tick, 20),
                (Op::Plan, 24),
            ],
            Self::Grow => &[(Op::Create, 80), (Op::Insert, 160), (Op::CreateBudget, 50)],
            Self::Shrink => &[(Op::Remove, 200), (Op::Plan, 8), (Op::Tick, 8)],
            Self::Deep => &[(Op::CreateBudget, 100), (Op::Remove, 8)],
            Self::Crowd => &[(Op::CreateUserThread, 120), (Op::Start, 80)],
            Self::Run => &[
                (Op::Tick, 100),
                (Op::Plan, 120),
                (Op::BlockCurrent, 40),
                (Op::Wake, 20),
                (Op::Start, 10),
            ],
            Self::Reap => &[(Op::Kill, 100), (Op::Plan, 30), (Op::Tick, 10)],
        }
    }

    fn weight(self, op: Op) -> u64 {
        let listed = self.frequent().iter().find(|(listed, _)| *listed == op);
        match op {
            Op::Open => 0,
            _ => listed.map_or(2, |(_, weight)| *weight),
        }
    }

    /// Most calls in a row.
    const fn length(self) -> u64 {
        match self {
            Self::Grow => 2_000,
            Self::Shrink => 1_000,
            Self::Crowd => 500,
            Self::Mixed | Self::Run => 300,
            Self::Deep | Self::Reap => 100,
        }
    }
}

/// The opening of most boards in document 01.
const MEMORY: u64 = 1_000_000;

impl Walk {
    /// Steps that depend on the seed, and on the states that they meet, alone.
    pub fn new(seed: u64) -> Self {
        Self {
            draw: Draw::new(seed),
            clock: 0,
            mood: Mood::Mixed,
            left_in_mood: 0,
            left_on_board: 0,
        }
    }

    /// Where the figures come from.
    pub fn draw(&mut self) -> &mut Draw {
        &mut self.draw
    }

    /// The next step, for a board in this state. The first is an opening that is accepted.
    pub fn next_step(&mut self, state: &Snapshot) -> Step {
        let edit = self.left_in_mood == 0 && self.left_on_board > 0 && self.draw.random.one_in(16);
        if edit {
            self.new_mood();
            Step::Edit(self.edit(state))
        } else {
            Step::Call(self.next_call(state))
        }
    }

    /// The same without edits.
    pub fn next_call(&mut self, state: &Snapshot) -> Call {
        if self.left_on_board == 0 {
            return self.new_board();
        }
        self.left_on_board -= 1;
        if self.left_in_mood == 0 || self.has_reached(state) {
            self.new_mood();
        }
        self.left_in_mood -= 1;
        if self.draw.random.one_in(1_000) {
            return self.refused_opening();
        }
        let op = self.weighted();
        self.call(op, state)
    }

    /// A call of each kind but an opening.
    pub fn one_of_each(&mut self, state: &Snapshot) -> Vec<Call> {
        let ops = Op::ALL.iter().filter(|op| **op != Op::Open);
        ops.map(|op| self.call(*op, state)).collect()
    }

    fn new_board(&mut self) -> Call {
        self.left_on_board = self.draw.random.below(6_000) + 1;
        self.clock = match self.draw.random.below(8) {
            0 => u64::MAX - self.draw.within(100 * PERIOD),
            1 => self.draw.number(),
            _ => 0,
        };
        self.new_mood();
        let memory = match self.draw.random.below(6) {
            0 => self.draw.number(),
            1 => MEMORY,
            2 => u64::MAX - self.draw.within(1_000),
            3 => self.draw.within(MEMORY),
            _ => 1 << (16 + self.draw.random.below(48)),
        };
        let cpu = if self.draw.random.one_in(2) {
            PERIOD
        } else {
            self.draw.within(PERIOD)
        };
        Call::Open { cpu, memory }
    }

    fn refused_opening(&mut self) -> Call {
        let above = match self.draw.random.below(3) {
            0 => PERIOD + 1,
            1 => u64::MAX,
            _ => self.draw.number().max(PERIOD + 1),
        };
        Call::Open {
            cpu: above,
            memory: self.draw.number(),
        }
    }

    /// Whether the mood has reached what it can, some time ago.
    fn has_reached(&mut self, state: &Snapshot) -> bool {
        match self.mood {
            Mood::Shrink => state.entries.len() < 3 && self.draw.random.one_in(8),
            Mood::Grow => state.entries.len() == OBJECTS && self.draw.random.one_in(64),
            Mood::Crowd => state.threads.len() == THREADS && self.draw.random.one_in(64),
            Mood::Mixed | Mood::Deep | Mood::Run | Mood::Reap => false,
        }
    }

    fn new_mood(&mut self) {
        self.mood = self.draw.random.of(&Mood::ALL);
        self.left_in_mood = self.draw.random.below(self.mood.length()) + 1;
    }

    /// A gap in the ids, ids near the last that can be given, or a counter near its end.
    fn edit(&mut self, state: &Snapshot) -> Edit {
        let last = u64::MAX - self.draw.random.below(40);
        match self.draw.random.below(4) {
            0 => Edit::NextId(last),
            1 => Edit::NextId(state.next_id.saturating_add(self.draw.number() / 2)),
            2 => Edit::Switches(last),
            _ => Edit::RunTicks(u64::MAX - self.draw.random.below(3)),
        }
    }

    fn weighted(&mut self) -> Op {
        let mood = self.mood;
        let all = Op::ALL.iter().map(|op| mood.weight(*op)).sum();
        let mut drawn = self.draw.random.below(all);
        let mut ops = Op::ALL.iter();
        let found = ops.find(|op| match drawn.checked_sub(mood.weight(**op)) {
            Some(rest) => {
                drawn = rest;
                false
            }
            None => true,
        });
        *found.unwrap_or(&Op::Plan)
    }

    /// A call of this kind.
    pub fn call(&mut self, op: Op, state: &Snapshot) -> Call {
        match op {
            Op::Open => self.refused_opening(),
            Op::Create => self.create(state),
            Op::Insert => self.insert(state),
            Op::CreateBudget => self.create_budget(state),
            Op::ChargeMore => self.charge_more(state),
            Op::Uncharge => self.uncharge(state),
            Op::Remove => self.remove(state),
            Op::Refill => self.refill(state),
            Op::ChargeCpu => self.charge_cpu(state),
            Op::PaysForAnything => Call::PaysForAnything {
                id: self.object_or_budget(state),
            },
            Op::Account => Call::Account {
                id: self.object_or_budget(state),
            },
            Op::ChargeOf => Call::ChargeOf {
                id: self.object_or_budget(state),
            },
            Op::Totals => Call::Totals {
                id: self.object_or_budget(state),
            },
            Op::CreateUserThread => self.create_user_thread(state),
            Op::Start => self.start(state),
            Op::BlockCurrent => self.block_current(state),
            Op::Wake => self.wake(state),
            Op::IsBlockedOn => self.is_blocked_on(state),
            Op::Kill => self.kill(state),
            Op::Tick => Call::Tick { tick: self.tick() },
            Op::Plan => Call::Plan { tick: self.tick() },
            Op::Thread => Call::Thread {
                id: self.thread(state),
            },
            Op::Current => Call::Current {},
            Op::Switches => Call::Switches {},
            Op::ExitOf => self.exit_of(state),
        }
    }

    /// A time on a clock that mostly goes forward, or one around the periods that began at
    /// `start`.
    fn time(&mut self, start: u64) -> u64 {
        let whole_periods = self.draw.random.below(4) * PERIOD;
        match self.draw.random.below(32) {
            0 => self.clock.saturating_sub(self.draw.within(3 * PERIOD)),
            1 => 0,
            2 => start,
            3..8 => self.draw.beside(start.saturating_add(whole_periods)),
            8 if self.draw.random.one_in(20) => self.draw.number(),
            _ => self.later(PERIOD / 4),
        }
    }

    /// A tick on the same clock.
    fn tick(&mut self) -> u64 {
        let now = self.clock / TICK;
        match self.draw.random.below(64) {
            0 | 1 => now.saturating_sub(self.draw.within(30)),
            2 => 0,
            3 if self.draw.random.one_in(8) => self.draw.number(),
            4 if self.draw.random.one_in(2) => LAST_TICK + 1,
            5 if self.draw.random.one_in(16) => LAST_TICK,
            6..9 => self.later(3 * PERIOD) / TICK,
            9..24 => now,
            _ => self.later(2 * TICK) / TICK,
        }
    }

    /// The clock, moved on by at most `most`.
    fn later(&mut self, most: u64) -> u64 {
        self.clock = self.clock.saturating_add(self.draw.within(most));
        self.clock
    }
}
