//! Makes up calls that spend: with clock values that never fall, unless falls are wanted.

use carv_compare::board::call::{Call, Op};
use carv_compare::board::walk::Walk;
use carv_compare::board::{LAST_TICK, TICK};
use carv_compare::draw::Draw;
use carv_compare::state::{account_of, entry, is_budget, removable_budget, renewed};
use carv_oracle::account::PERIOD;
use carv_oracle::{Entry, Snapshot};

/// Calls without end: one board after the other.
pub struct SpendingWalk {
    /// Makes up the calls without a time.
    walk: Walk,
    /// The highest clock value of calls that were accepted or refused with 12.
    clock: u64,
    clocks_rise: bool,
    left_on_board: u64,
    /// Whether the last call opens a board.
    opens: bool,
    /// What comes next, the last first.
    planned: Vec<Next>,
}

/// Something that is planned ahead.
#[derive(Clone, Copy, Debug)]
enum Next {
    /// The clock goes on to the next period.
    Period,
    /// A budget is charged all that it has left.
    SpendAll(u64),
    Remove(u64),
    Tick,
    Plan,
}

/// What is drawn.
#[derive(Clone, Copy, Debug)]
enum Kind {
    Spend,
    Carve,
    RemoveBudget,
    RemoveObject,
    Refill,
    Tick,
    Plan,
    /// A call that is refused, not with 12, at any time.
    Refused,
    /// Calls that are planned ahead.
    Story,
    /// A call without a time.
    Other(Op),
}

/// How often each is drawn.
const WEIGHTS: [(Kind, u64); 21] = [
    (Kind::Spend, 22),
    (Kind::Carve, 14),
    (Kind::RemoveBudget, 7),
    (Kind::RemoveObject, 3),
    (Kind::Refill, 3),
    (Kind::Tick, 16),
    (Kind::Plan, 14),
    (Kind::Refused, 8),
    (Kind::Story, 4),
    (Kind::Other(Op::Create), 2),
    (Kind::Other(Op::Insert), 2),
    (Kind::Other(Op::ChargeMore), 1),
    (Kind::Other(Op::Uncharge), 1),
    (Kind::Other(Op::CreateUserThread), 5),
    (Kind::Other(Op::Start), 6),
    (Kind::Other(Op::BlockCurrent), 4),
    (Kind::Other(Op::Wake), 4),
    (Kind::Other(Op::Kill), 2),
    (Kind::Other(Op::Thread), 1),
    (Kind::Other(Op::Totals), 1),
    // Refused.
    (Kind::Other(Op::Open), 1),
];

/// Most budgets that a story spends all of.
const MOST_BELOW: usize = 12;

impl SpendingWalk {
    /// Calls that depend on the seed, and on the states that they meet, alone.
    pub fn new(seed: u64, clocks_rise: bool) -> Self {
        Self {
            walk: Walk::new(seed),
            clock: 0,
            clocks_rise,
            left_on_board: 0,
            opens: false,
            planned: Vec::new(),
        }
    }

    fn draw(&mut self) -> &mut Draw {
        self.walk.draw()
    }

    fn below(&mut self, count: u64) -> u64 {
        self.draw().random.below(count)
    }

    /// The next call, for a board in this state. The first is an opening that is accepted.
    pub fn next_call(&mut self, state: &Snapshot) -> Call {
        self.opens = self.left_on_board == 0;
        if self.opens {
            return self.open();
        }
        self.left_on_board -= 1;
        while let Some(next) = self.planned.pop() {
            if let Some(call) = self.planned_call(next, state) {
                return call;
            }
        }
        let kind = self.kind();
        self.call(kind, state)
    }

    /// Whether the last call opens a board. Other openings are refused.
    pub fn opens(&self) -> bool {
        self.opens
    }

    /// Goes on to the clock value of a call that gave this number.
    pub fn told(&mut self, call: Call, number: u64) {
        let time = match call {
            Call::CreateBudget { time, .. }
            | Call::Remove { time, .. }
            | Call::Refill { time, .. }
            | Call::ChargeCpu { time, .. } => time,
            Call::Tick { tick } | Call::Plan { tick } => tick.saturating_mul(TICK),
            _ => return,
        };
        if matches!(number, 0 | 12) {
            self.clock = self.clock.max(time);
        }
    }

    fn open(&mut self) -> Call {
        self.left_on_board = self.below(1_200) + 1;
        self.planned.clear();
        self.clock = match self.below(8) {
            0 => u64::MAX - self.draw().within(60 * PERIOD),
            1 => self.draw().number(),
            _ => 0,
        };
        let cpu = match self.below(3) {
            0 => self.draw().within(PERIOD),
            _ => PERIOD,
        };
        let memory = 1 << (16 + self.below(32));
        Call::Open { cpu, memory }
    }

    fn kind(&mut self) -> Kind {
        let all = WEIGHTS.iter().map(|(_, weight)| weight).sum();
        let mut drawn = self.below(all);
        for (kind, weight) in WEIGHTS {
            match drawn.checked_sub(weight) {
                Some(rest) => drawn = rest,
                None => return kind,
            }
        }
        Kind::Plan
    }

    fn call(&mut self, kind: Kind, state: &Snapshot) -> Call {
        match kind {
            Kind::Spend => self.spend(state),
            Kind::Carve => self.carve(state),
            Kind::RemoveBudget => self.remove_budget(state),
            Kind::RemoveObject => self.remove_object(state),
            Kind::Refill => Call::Refill {
                id: self.budget(state),
                time: self.time(),
            },
            Kind::Tick => Call::Tick { tick: self.tick() },
            Kind::Plan => Call::Plan { tick: self.tick() },
            Kind::Refused => self.refused(state),
            Kind::Story => self.story(state),
            Kind::Other(op) => self.walk.call(op, state),
        }
    }

    fn spend(&mut self, state: &Snapshot) -> Call {
        let (id, time) = (self.budget(state), self.time());
        let left = left(state, id, time);
        let ns = match self.below(8) {
            0..3 => left,
            3 => left.saturating_add(1),
            4 => self.draw().amount(left),
            5 => self.draw().within(left),
            _ => self.draw().random.through(left / 4),
        };
        Call::ChargeCpu { id, ns, time }
    }

    fn carve(&mut self, state: &Snapshot) -> Call {
        let (parent, time) = (self.budget(state), self.time());
        let left = left(state, parent, time);
        let free = account_of(state, parent).memory_free().saturating_sub(128);
        let cpu = match self.below(8) {
            0 => left,
            1 => left.saturating_add(1),
            2 => self.draw().amount(left),
            _ => self.draw().random.through(left),
        };
        let memory = match self.below(16) {
            0 => self.draw().amount(free),
            _ => self.draw().random.through(free / 2),
        };
        Call::CreateBudget {
            parent,
            cpu,
            memory,
            time,
        }
    }

    fn remove_budget(&mut self, state: &Snapshot) -> Call {
        match self.removable(state) {
            Some(id) => Call::Remove {
                id,
                time: self.time(),
            },
            None => self.carve(state),
        }
    }

    fn remove_object(&mut self, state: &Snapshot) -> Call {
        let others = state.entries.iter().filter(|entry| !is_budget(entry));
        let others: Vec<u64> = others.map(|entry| entry.id).collect();
        if others.is_empty() {
            return self.remove_budget(state);
        }
        Call::Remove {
            id: self.draw().random.of(&others),
            time: self.time(),
        }
    }

    /// A call that is refused, not with 12, whatever its time.
    fn refused(&mut self, state: &Snapshot) -> Call {
        let time = self.any_time();
        let (id, ns) = (self.no_budget(state), self.draw().number());
        match self.below(8) {
            0 => Call::Refill { id, time },
            1 | 2 => Call::ChargeCpu { id, ns, time },
            3 => Call::CreateBudget {
                parent: id,
                cpu: ns,
                memory: 0,
                time,
            },
            4 => Call::Remove { id: 1, time },
            5 => Call::Remove {
                id: self.payer(state),
                time,
            },
            6 => Call::Remove {
                id: state.next_id.saturating_add(self.below(3)),
                time,
            },
            _ => {
                let tick = LAST_TICK + 1 + self.draw().random.word() / 2;
                match self.below(2) {
                    0 => Call::Tick { tick },
                    _ => Call::Plan { tick },
                }
            }
        }
    }

    /// Plans calls ahead, and makes the first of them.
    fn story(&mut self, state: &Snapshot) -> Call {
        let mut story = match self.below(4) {
            0 | 1 => self.spent_and_removed(state),
            2 => self.current_removed(state),
            _ => self.all_below_spent(state),
        };
        story.reverse();
        self.planned = story;
        self.spend(state)
    }

    /// P2's: a budget spends all and goes, its payer and the one above it spend all.
    fn spent_and_removed(&mut self, state: &Snapshot) -> Vec<Next> {
        let Some(id) = self.removable(state) else {
            return Vec::new();
        };
        let payer = entry(state, id).map_or(1, |entry| entry.payer);
        let above = entry(state, payer).map_or(1, |entry| entry.payer);
        vec![
            Next::Period,
            Next::SpendAll(id),
            Next::Remove(id),
            Next::SpendAll(payer),
            Next::SpendAll(above),
        ]
    }

    /// The current thread's budget goes, and it is ticked on.
    fn current_removed(&self, state: &Snapshot) -> Vec<Next> {
        let threads = state.threads.iter();
        let mut current = threads.filter(|thread| thread.id == state.current);
        let budget = current.next().and_then(|thread| thread.budget);
        let Some(id) = budget.filter(|id| !pays(state, *id)) else {
            return vec![Next::Plan, Next::Tick];
        };
        vec![Next::Tick, Next::Remove(id), Next::Tick, Next::Plan]
    }

    /// A budget and all below it spend all in one period.
    fn all_below_spent(&mut self, state: &Snapshot) -> Vec<Next> {
        let mut within = vec![self.budget(state)];
        for entry in state.entries.iter().filter(|entry| is_budget(entry)) {
            if within.contains(&entry.payer) && !within.contains(&entry.id) {
                within.push(entry.id);
            }
        }
        within.truncate(MOST_BELOW);
        let spend = within.into_iter().map(Next::SpendAll);
        std::iter::once(Next::Period).chain(spend).collect()
    }

    fn planned_call(&mut self, next: Next, state: &Snapshot) -> Option<Call> {
        let time = self.soon();
        Some(match next {
            Next::Period => {
                self.clock = self.clock.max(self.next_period());
                return None;
            }
            Next::SpendAll(id) => Call::ChargeCpu {
                id,
                ns: left(state, id, time),
                time,
            },
            // Falls matter most here.
            Next::Remove(id) => Call::Remove {
                id,
                time: if self.clocks_rise { time } else { self.time() },
            },
            Next::Tick => Call::Tick { tick: self.tick() },
            Next::Plan => Call::Plan { tick: self.tick() },
        })
    }

    // Budgets.

    /// A live budget: any, the newest, or the root.
    fn budget(&mut self, state: &Snapshot) -> u64 {
        let budgets = state.entries.iter().filter(|entry| is_budget(entry));
        let budgets: Vec<u64> = budgets.map(|entry| entry.id).collect();
        match self.below(8) {
            0 => 1,
            1..4 => budgets.last().copied().unwrap_or(1),
            _ => self.draw().random.of(&budgets),
        }
    }

    /// A budget that pays for nothing.
    fn removable(&mut self, state: &Snapshot) -> Option<u64> {
        let from = self.below(state.entries.len() as u64) as usize;
        removable_budget(state, from)
    }

    /// A budget that pays for something: the root does so for itself.
    fn payer(&mut self, state: &Snapshot) -> u64 {
        let payers: Vec<u64> = state.entries.iter().map(|entry| entry.payer).collect();
        self.draw().random.of(&payers)
    }

    /// An id that no live budget has: of another object, of a removed one, or not given yet.
    fn no_budget(&mut self, state: &Snapshot) -> u64 {
        let id = self.draw().random.below(state.next_id);
        match entry(state, id).is_some_and(is_budget) {
            true => state.next_id.saturating_add(self.below(3)),
            false => id,
        }
    }

    // Times.

    /// A time on the clock, often the same, often around a period's end.
    fn time(&mut self) -> u64 {
        if !self.clocks_rise && self.below(4) == 0 {
            let back = self.draw().within(2 * PERIOD);
            return self.clock.saturating_sub(back);
        }
        match self.below(32) {
            0..16 => self.clock,
            16..24 => self
                .clock
                .saturating_add(self.draw().random.below(TICK / 2)),
            24 | 25 => self.clock.max(self.next_period() - 1),
            26 | 27 => self.next_period(),
            28 => self.next_period().saturating_add(1),
            29 => self.clock.saturating_add(self.draw().within(PERIOD)),
            30 => self.clock.saturating_add(self.below(4) * PERIOD),
            _ => self.clock.saturating_add(1),
        }
    }

    /// The same time, or a little later in the period.
    fn soon(&mut self) -> u64 {
        match self.below(4) {
            0 => (self.clock / PERIOD * PERIOD)
                .saturating_add(PERIOD - 1)
                .min(self.clock.saturating_add(self.draw().random.below(TICK))),
            _ => self.clock,
        }
    }

    /// The first tick that isn't before a time on the clock: half a ms behind a tick, the next.
    fn tick(&mut self) -> u64 {
        self.time().div_ceil(TICK)
    }

    /// The start of the next period; the last time there is, if that is beyond it.
    fn next_period(&self) -> u64 {
        (self.clock / PERIOD * PERIOD).saturating_add(PERIOD)
    }

    /// Any time at all, mostly an earlier one.
    fn any_time(&mut self) -> u64 {
        match self.below(4) {
            0 => 0,
            1 => self.draw().number(),
            _ => {
                let back = self.draw().within(3 * PERIOD);
                self.clock.saturating_sub(back)
            }
        }
    }
}

/// CPU time that a budget has left at this time, renewed if that is due.
fn left(state: &Snapshot, id: u64, time: u64) -> u64 {
    renewed(account_of(state, id), time).cpu_left
}

/// Whether a budget pays for another object.
fn pays(state: &Snapshot, id: u64) -> bool {
    let is_paid = |entry: &Entry| entry.payer == id && entry.id != id;
    state.entries.iter().any(is_paid)
}

#[cfg(test)]
mod tests {
    use super::*;

    /// Most boards begin at time 0, some so late that the last times there are come.
    #[test]
    fn where_clocks_begin() {
        let mut walk = SpendingWalk::new(1, true);
        let begins = (0..200).map(|_| {
            walk.left_on_board = 0;
            walk.next_call(&Snapshot::default());
            walk.clock
        });
        let begins: Vec<u64> = begins.collect();
        let late = begins.iter().filter(|it| **it >= u64::MAX - 60 * PERIOD);
        assert!(late.count() > 10);
        let early = begins.iter().filter(|it| **it == 0);
        assert!(early.count() > 100);
    }
}
