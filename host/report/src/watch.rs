//! A watch on the calls of a board: all that a report is worked from.

use crate::accounts::{Accounts, Kept};
use crate::refusals::Refused;
use carv::{Board, ObjectId, Refusal, ThreadId};
use carv_layout::area::{self, THREADS, ThreadField, Totals, word};
use carv_ledger::{ACCEPTED, Call, Clock, History, NOT_COVERED};
use carv_watch::Timeline;
use std::collections::BTreeMap;

/// Watches the calls of a board, from the last accepted opening on.
///
/// It keeps the timeline, 128 bytes for a period, 32 for each row in it and 32 for each thread; the
/// ledger, about 400 for a period with a charge on a small board; and 136 bytes for each budget and
/// about 40 for each thread that there ever was. The board is read where it stands, never copied.
#[derive(Debug, Default)]
pub struct Watch {
    names: BTreeMap<ObjectId, String>,
    history: History,
    has_begun: bool,
    seen: Seen,
}

/// What was seen since the last accepted opening.
#[derive(Debug, Default)]
pub(crate) struct Seen {
    pub timeline: Timeline,
    pub clock: Clock,
    pub accounts: Accounts,
    pub refused: Refused,
    pub accepted: u64,
    /// All threads that there ever were but idle, each with its budget.
    pub threads: BTreeMap<ThreadId, Option<ObjectId>>,
    /// The totals of the budgets that are live at the end; none if that wasn't shown.
    pub end: Option<BTreeMap<u64, Totals>>,
}

impl Watch {
    /// Nothing was seen so far.
    pub fn new() -> Self {
        let mut watch = Self::default();
        watch.name(ObjectId::ROOT, "root");
        watch
    }

    /// Names a budget, at any time. Budgets of one name are one service.
    pub fn name(&mut self, budget: ObjectId, name: &str) {
        self.names.insert(budget, name.to_string());
        self.seen.timeline.name(budget, name);
    }

    /// Makes a call that is watched: `place` is where it stands, as the list counts, `name` and
    /// `arguments` are those of `include/carv.h` without `carv_`, pointers and lengths.
    ///
    /// # Panics
    /// If there is no such call, or it takes another number of arguments.
    pub fn call<T>(
        &mut self,
        place: u64,
        name: &str,
        arguments: &[u64],
        board: &mut Board,
        make: impl FnOnce(&mut Board) -> Result<T, Refusal>,
    ) -> Result<T, Refusal> {
        let call = match Call::parse(name, arguments) {
            Ok(call) => call,
            Err(why) => panic!("{why}"),
        };
        if !self.has_begun {
            self.begin(board);
        }
        let before = match call {
            Call::Tick { n } => Some(self.seen.timeline.before(n, board)),
            _ => None,
        };
        let made = make(board);
        let refusal = made.as_ref().err().copied();
        let number = refusal.map_or(ACCEPTED, Refusal::number);
        self.history.note(place, call, number);
        if let (Call::Open { .. }, None) = (call, refusal) {
            self.begin(board);
        }
        if let (Some(before), None) = (before, refusal) {
            self.seen.timeline.tick(before, board);
        }
        self.seen.note(place, call, number, board);
        match refusal {
            Some(refusal) => self.seen.refuse(refusal, (name, arguments), board),
            None => self.seen.accepted += 1,
        }
        made
    }

    /// Begins anew with this board.
    fn begin(&mut self, board: &Board) {
        self.has_begun = true;
        self.seen = Seen::begin(board.as_bytes());
        self.begin_timeline();
    }

    /// Leaves out what was seen tick by tick so far: a set-up, in which nobody works yet. All other
    /// figures go on.
    pub fn begin_timeline(&mut self) {
        self.seen.timeline = Timeline::new();
        for (budget, name) in &self.names {
            self.seen.timeline.name(*budget, name);
        }
    }

    /// The board after the last call.
    pub fn end(&mut self, board: &Board) {
        if !self.has_begun {
            self.begin(board);
        }
        self.seen.timeline.end(board);
        let table = area::read(board.as_bytes()).unwrap_or_default();
        self.seen.end = Some(area::totals(&table.objects));
    }

    /// Something that happened at tick `n`, 0 before the first, for picture and page.
    pub fn event(&mut self, n: u64, text: String) {
        self.seen.timeline.event(n, text);
    }

    /// What was seen tick by tick.
    pub fn timeline(&self) -> &Timeline {
        &self.seen.timeline
    }

    /// What the calls and their refusals alone say: book, ledger and clock.
    pub fn history(&self) -> &History {
        &self.history
    }

    /// The name that a budget was given.
    pub fn name_of(&self, budget: ObjectId) -> Option<&str> {
        self.names.get(&budget).map(String::as_str)
    }

    pub(crate) fn seen(&self) -> &Seen {
        &self.seen
    }
}

impl Seen {
    /// Nothing but this board was seen.
    fn begin(area: &[u8]) -> Self {
        let field = |place, field: ThreadField| word(area, THREADS.row(place) + field as usize);
        let threads = (0..THREADS.length(area).unwrap_or(0)).map(|place| {
            let has_budget = field(place, ThreadField::HasBudget) == 1;
            let budget = has_budget.then_some(ObjectId(field(place, ThreadField::Budget)));
            (ThreadId(field(place, ThreadField::Id)), budget)
        });
        Self {
            accounts: Accounts::begin(area),
            threads: threads.filter(|(id, _)| *id != ThreadId::IDLE).collect(),
            ..Self::default()
        }
    }

    /// Notes what a call left: refused with another number than 12 it leaves nothing.
    fn note(&mut self, place: u64, call: Call, number: u64, board: &Board) {
        if let Some(value) = call.clock() {
            self.clock.note(place, value, number);
        }
        if matches!(number, ACCEPTED | NOT_COVERED) && moves_accounts(call) {
            self.accounts.look(board.as_bytes());
        }
        match call {
            Call::Tick { n } if number == ACCEPTED => self.accounts.note_shares(n),
            Call::CreateUserThread { id, budget } if number == ACCEPTED => {
                self.threads.insert(ThreadId(id), Some(ObjectId(budget)));
            }
            _ => {}
        }
    }

    fn refuse(&mut self, refusal: Refusal, call: (&str, &[u64]), board: &Board) {
        let area = board.as_bytes();
        self.refused.note(refusal, call, area, &self.accounts);
    }

    /// All budgets that were ever live, by rising id.
    pub fn budgets(&self) -> Vec<Kept> {
        self.accounts.all()
    }
}

/// May a call move figures of an account, or bring or remove one?
fn moves_accounts(call: Call) -> bool {
    match call {
        Call::Create { .. }
        | Call::Insert { .. }
        | Call::CreateBudget { .. }
        | Call::ChargeMore { .. }
        | Call::Uncharge { .. }
        | Call::Remove { .. }
        | Call::Refill { .. }
        | Call::ChargeCpu { .. }
        | Call::Tick { .. }
        | Call::Plan { .. } => true,
        Call::Open { .. }
        | Call::CreateUserThread { .. }
        | Call::Start { .. }
        | Call::BlockCurrent { .. }
        | Call::Wake { .. }
        | Call::Kill { .. }
        | Call::Reading => false,
    }
}
