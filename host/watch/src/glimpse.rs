//! What a tick shows of a board, read before the call and after it.

use crate::accounts::accounts;
use crate::doing::Doing;
use carv::{Account, Board, Nanoseconds, ObjectId, TICK_NS, ThreadId};
use carv_layout::area::{CURRENT, THREADS, ThreadField, word};
use carv_layout::state;

/// A budget in the ms that a tick ends.
#[derive(Clone, Copy, Debug)]
pub struct Seen {
    pub budget: ObjectId,
    pub doing: Doing,
    /// Its CPU allowance less what is reserved below it.
    pub share_ns: u64,
    pub has_thread: bool,
    /// What it has left after the tick, a renewal that is due then made; none if it isn't live.
    pub left_ns: Option<u64>,
}

/// A thread other than idle in the ms that a tick ends.
#[derive(Clone, Copy, Debug)]
pub struct SeenThread {
    pub thread: ThreadId,
    pub budget: Option<ObjectId>,
    pub doing: Doing,
}

/// What the ms that a tick ends shows of a board.
#[derive(Clone, Debug)]
pub struct Glimpse {
    pub(crate) tick: u64,
    /// The budgets that are live, or whose thread runs, by rising id.
    pub(crate) budgets: Vec<Seen>,
    /// All but idle, by rising id.
    pub(crate) threads: Vec<SeenThread>,
    /// Does thread 0 run?
    pub(crate) first_runs: bool,
    /// The budget of the thread that runs, and what it has left at the tick, if it is live.
    runs: Option<(ObjectId, u64)>,
    /// What the tick took from it.
    pub(crate) booked_ns: u64,
}

impl Glimpse {
    /// What a board before tick `n` shows of the ms that this tick is to end.
    pub(crate) fn before(n: u64, board: &Board) -> Self {
        let area = board.as_bytes();
        let accounts: Vec<(ObjectId, Account)> = accounts(area).collect();
        let mut glimpse = Self {
            tick: n,
            budgets: accounts.iter().map(asleep).collect(),
            threads: Vec::new(),
            first_runs: word(area, CURRENT) == ThreadId::FIRST.0,
            runs: None,
            booked_ns: 0,
        };
        for thread in threads(area) {
            glimpse.note(&thread, &accounts);
        }
        glimpse
    }

    fn note(&mut self, thread: &Record, accounts: &[(ObjectId, Account)]) {
        let account = thread.budget.and_then(|budget| {
            let at = accounts.binary_search_by_key(&budget, |(id, _)| *id).ok()?;
            Some(&accounts[at].1)
        });
        let begin = time(self.tick.saturating_sub(1));
        let doing = match (thread.budget, account) {
            _ if thread.is_current => Doing::Runs,
            _ if thread.state != state::READY => Doing::Sleeps,
            (None, _) => Doing::Waits,
            (Some(_), Some(account)) if account.cpu_left_at(begin) > 0 => Doing::Waits,
            (Some(_), _) => Doing::HeldBack,
        };
        if thread.id != ThreadId::IDLE {
            self.threads.push(SeenThread {
                thread: thread.id,
                budget: thread.budget,
                doing,
            });
        }
        let Some(budget) = thread.budget else {
            return;
        };
        if account.is_none() && !thread.is_current {
            return;
        }
        let place = self
            .budgets
            .binary_search_by_key(&budget, |seen| seen.budget);
        let place = place.unwrap_or_else(|place| {
            self.budgets.insert(place, not_live(budget));
            place
        });
        let seen = &mut self.budgets[place];
        seen.has_thread = true;
        seen.doing = seen.doing.max(doing);
        if let (true, Some(account)) = (thread.is_current, account) {
            let left_ns = account.cpu_left_at(time(self.tick));
            self.runs = Some((budget, left_ns));
        }
    }

    /// Adds what the board after the tick shows: what was booked, and what each budget has left.
    pub(crate) fn add_after(&mut self, board: &Board) {
        let now = time(self.tick);
        let mut after = accounts(board.as_bytes()).peekable();
        for seen in &mut self.budgets {
            while after.next_if(|(id, _)| *id < seen.budget).is_some() {}
            let account = after.next_if(|(id, _)| *id == seen.budget);
            seen.left_ns = account.map(|(_, account)| account.cpu_left_at(now));
            if let (Some((budget, left_ns)), Some((_, account))) = (self.runs, account)
                && budget == seen.budget
            {
                self.booked_ns = left_ns.saturating_sub(account.cpu_left_ns);
            }
        }
    }
}

/// The time of a tick; above the last tick, the latest time.
fn time(tick: u64) -> Nanoseconds {
    Nanoseconds(tick.saturating_mul(TICK_NS))
}

fn asleep((budget, account): &(ObjectId, Account)) -> Seen {
    let share_ns = account.limits.cpu_ns;
    Seen {
        budget: *budget,
        doing: Doing::Sleeps,
        share_ns: share_ns.saturating_sub(account.cpu_reserved_ns),
        has_thread: false,
        left_ns: None,
    }
}

fn not_live(budget: ObjectId) -> Seen {
    Seen {
        budget,
        doing: Doing::Off,
        share_ns: 0,
        has_thread: true,
        left_ns: None,
    }
}

/// What is read of a thread's record.
struct Record {
    id: ThreadId,
    state: u64,
    budget: Option<ObjectId>,
    is_current: bool,
}

fn threads(area: &[u8]) -> impl Iterator<Item = Record> {
    let field = |place, field: ThreadField| word(area, THREADS.row(place) + field as usize);
    let current = word(area, CURRENT);
    (0..THREADS.length(area).unwrap_or(0)).map(move |place| Record {
        id: ThreadId(field(place, ThreadField::Id)),
        state: field(place, ThreadField::State),
        budget: (field(place, ThreadField::HasBudget) == 1)
            .then_some(ObjectId(field(place, ThreadField::Budget))),
        is_current: field(place, ThreadField::Id) == current,
    })
}
