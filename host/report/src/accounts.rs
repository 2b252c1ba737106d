//! What the accounts of budgets show from call to call: renewals, memory and shares.

use carv::ObjectId;
use carv_layout::BUDGET;
use carv_layout::area::{OBJECTS, ObjectField, word};
use carv_watch::TICKS;

/// What was seen of a budget's account so far.
#[derive(Clone, Copy, Debug, PartialEq, Eq)]
pub struct Kept {
    /// The budget.
    pub budget: ObjectId,
    /// The budget that it was carved out of; the root's is the root.
    pub parent: ObjectId,
    /// Its CPU time in each period.
    pub cpu_ns: u64,
    /// Its memory.
    pub memory_limit: u64,
    /// How often its period start moved.
    pub renewals: u64,
    /// The most memory that it used.
    pub memory_most: u64,
    /// The most that it and all below it used at once.
    pub memory_most_below: u64,
    /// Its lowest and its highest share in a period, as seen at ticks.
    pub shares: Option<(u64, u64)>,
    cpu_reserved: u64,
    period_start: u64,
    memory_used: u64,
    memory_below: u64,
    /// The period of the last tick, and the highest share in it.
    share_now: Option<(u64, u64)>,
}

/// The accounts of all budgets that were ever live.
#[derive(Clone, Debug, Default)]
pub struct Accounts {
    /// By rising id, as in the board's table.
    live: Vec<Kept>,
    gone: Vec<Kept>,
}

impl Accounts {
    /// The accounts of a board of which nothing was seen before.
    pub fn begin(area: &[u8]) -> Self {
        let mut accounts = Self::default();
        accounts.look(area);
        accounts
    }

    /// Compares the board's accounts with those kept. One call moves the memory of one budget, so what
    /// is used at once is seen if this is asked after each call.
    pub fn look(&mut self, area: &[u8]) {
        let mut moved = Vec::new();
        let mut place = 0;
        for row in budgets(area) {
            while self
                .live
                .get(place)
                .is_some_and(|kept| kept.budget < row.budget)
            {
                // It paid for nothing, so that nobody above it uses less.
                self.gone.push(self.live.remove(place).closed());
            }
            match self.live.get_mut(place) {
                Some(kept) if kept.budget == row.budget => {
                    let before = kept.memory_used;
                    kept.update(&row);
                    if before != row.memory_used {
                        moved.push((row.budget, before, row.memory_used));
                    }
                }
                _ => {
                    moved.push((row.budget, 0, row.memory_used));
                    self.live.insert(place, row);
                }
            }
            place += 1;
        }
        let rest = self.live.drain(place..).map(Kept::closed);
        self.gone.extend(rest);
        for (budget, before, after) in moved {
            self.use_memory(budget, before, after);
        }
    }

    /// A budget uses other memory than before: so do all above it.
    fn use_memory(&mut self, budget: ObjectId, before: u64, after: u64) {
        let mut above = Some(budget);
        while let Some(kept) = above.and_then(|budget| self.find_mut(budget)) {
            kept.memory_below = kept.memory_below.saturating_sub(before);
            kept.memory_below = kept.memory_below.saturating_add(after);
            kept.memory_most_below = kept.memory_most_below.max(kept.memory_below);
            // A parent is carved before its child, so its id is lower; the root's is its own.
            above = (kept.parent < kept.budget).then_some(kept.parent);
        }
    }

    fn find_mut(&mut self, budget: ObjectId) -> Option<&mut Kept> {
        let place = self.live.binary_search_by_key(&budget, |kept| kept.budget);
        place.ok().map(|place| &mut self.live[place])
    }

    /// Notes the shares at an accepted tick.
    pub fn note_shares(&mut self, tick: u64) {
        for kept in &mut self.live {
            kept.note_share(tick / TICKS);
        }
    }

    /// Is this budget live?
    pub fn is_live(&self, budget: ObjectId) -> bool {
        self.live
            .binary_search_by_key(&budget, |kept| kept.budget)
            .is_ok()
    }

    /// All budgets that were ever live, by rising id.
    pub fn all(&self) -> Vec<Kept> {
        let live = self.live.iter().map(|kept| kept.closed());
        let mut all: Vec<Kept> = self.gone.iter().copied().chain(live).collect();
        all.sort_by_key(|kept| kept.budget);
        all
    }
}

impl Kept {
    /// Takes over what the board's row says now.
    fn update(&mut self, row: &Self) {
        self.renewals += u64::from(self.period_start != row.period_start);
        self.period_start = row.period_start;
        self.cpu_reserved = row.cpu_reserved;
        self.memory_used = row.memory_used;
        self.memory_most = self.memory_most.max(row.memory_used);
    }

    /// Of a period the highest share counts.
    fn note_share(&mut self, period: u64) {
        let share = self.cpu_ns.saturating_sub(self.cpu_reserved);
        self.share_now = match self.share_now {
            Some((now, highest)) if now == period => Some((now, highest.max(share))),
            _ => {
                *self = self.closed();
                Some((period, share))
            }
        };
    }

    /// With the share of the last period among the others.
    fn closed(self) -> Self {
        let Some((_, share)) = self.share_now else {
            return self;
        };
        let (low, high) = self.shares.unwrap_or((share, share));
        Self {
            shares: Some((low.min(share), high.max(share))),
            share_now: None,
            ..self
        }
    }
}

/// The live budgets, by rising id, each as if it was seen for the first time.
fn budgets(area: &[u8]) -> impl Iterator<Item = Kept> {
    let rows = 0..OBJECTS.length(area).unwrap_or(0);
    let field = |place, field: ObjectField| word(area, OBJECTS.row(place) + field as usize);
    let rows = rows.filter(move |place| field(*place, ObjectField::Kind) == BUDGET);
    rows.map(move |place| Kept {
        budget: ObjectId(field(place, ObjectField::Id)),
        parent: ObjectId(field(place, ObjectField::Payer)),
        cpu_ns: field(place, ObjectField::CpuAllowance),
        memory_limit: field(place, ObjectField::MemoryLimit),
        renewals: 0,
        memory_most: field(place, ObjectField::MemoryUsed),
        memory_most_below: 0,
        shares: None,
        cpu_reserved: field(place, ObjectField::CpuReserved),
        period_start: field(place, ObjectField::PeriodStart),
        memory_used: field(place, ObjectField::MemoryUsed),
        memory_below: 0,
        share_now: None,
    })
}
