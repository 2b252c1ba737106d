//! What was seen of the day.

use crate::plan::Plan;
use crate::refused::Refused;
use carv::Board;
use carv_ledger::{History, Ledger, Most};
use carv_report::Watch;
use carv_watch::Timeline;
use std::collections::BTreeMap;

/// What the board noted of a service, beside what the timeline has.
#[derive(Clone, Debug, Default)]
pub struct Noted {
    /// Was it ever on?
    pub was_on: bool,
    /// When it was last refused to be switched on, and how.
    pub refused: Option<(u64, Refused)>,
    /// The run ticks of its threads.
    pub run_ticks: u64,
    /// The most memory that it used, with all that is carved out of it, in bytes.
    pub memory: u64,
}

/// A line of the day's diary.
#[derive(Debug)]
pub struct Entry {
    /// When it was.
    pub tick: u64,
    /// What it was.
    pub text: String,
}

/// What the day was like.
#[derive(Debug)]
pub struct Day {
    /// What was planned.
    pub plan: Plan,
    /// Who ran when, from the first tick of the day on.
    pub timeline: Timeline,
    /// What the board noted of each service, in the plan's order.
    pub noted: Vec<Noted>,
    /// What happened.
    pub diary: Vec<Entry>,
    /// Ticks after which the account of the service that ran didn't say what it was seen to run.
    pub misbooked: u64,
    /// The most memory that all used, in bytes.
    pub memory: u64,
    /// Plannings after which the memory used and free of all was not the board's memory.
    pub memory_lost: u64,
    /// The most CPU time of every period that services had at once, in ns.
    pub given_ns: u64,
    /// How many carve-outs were refused.
    pub refused: u64,
    /// How many of them left nothing but a renewal of the root that was due.
    pub refused_with_renewal: u64,
    /// After how many of them some other byte was not as before.
    pub refused_uncleanly: u64,
    /// How many switchings-on were refused behind their carve-out.
    pub undone: u64,
    /// After how many of them the root had reserved or paid something else than before.
    pub undone_in_part: u64,
    /// How many switches there were.
    pub switches: u64,
    /// The run ticks that the board noted for idle.
    pub idle_run_ticks: u64,
    /// The run ticks that the board noted for thread 0, from the first tick of the day on.
    pub first_run_ticks: u64,
    /// Is the board sound at the end, also if it is restored from its bytes?
    pub sound: bool,
    /// The board at the end.
    pub board: Box<Board>,
    /// The calls that were made, as lines for `carv replay`.
    pub calls: Vec<String>,
    /// What the report is worked from, set-up included.
    pub watch: Watch,
    /// What was spent in each period, by the calls and their refusals alone.
    pub ledger: Ledger,
    /// Did the clock values of the calls never fall? Without that nothing is promised of the ledger.
    pub clock_rose: bool,
    /// The names of budgets: the root's, those of services and of who asked for one.
    pub names: BTreeMap<u64, String>,
}

impl Day {
    /// A day of which nothing was seen so far.
    pub(crate) fn new(plan: &Plan) -> Self {
        Self {
            plan: plan.clone(),
            timeline: Timeline::new(),
            noted: vec![Noted::default(); plan.services.len()],
            diary: Vec::new(),
            misbooked: 0,
            memory: 0,
            memory_lost: 0,
            given_ns: 0,
            refused: 0,
            refused_with_renewal: 0,
            refused_uncleanly: 0,
            undone: 0,
            undone_in_part: 0,
            switches: 0,
            idle_run_ticks: 0,
            first_run_ticks: 0,
            sound: false,
            board: Box::new(Board::unopened()),
            calls: Vec::new(),
            watch: Watch::new(),
            ledger: Ledger::default(),
            clock_rose: false,
            names: BTreeMap::from([(carv_ledger::ROOT, "root".to_string())]),
        }
    }
}

/// What a budget and all below it spent at most.
#[derive(Clone, Copy, Debug, PartialEq, Eq)]
pub struct Spent<'a> {
    /// The budget's name.
    pub name: &'a str,
    /// Its share of every period, in ns.
    pub allowance: u128,
    /// The most that it spent in any period; none if it never spent anything.
    pub most: Option<Most>,
}

impl Day {
    /// Notes what the calls of the day say, refused ones included.
    pub fn note(&mut self, history: &History) {
        if let Some(opened) = history.opened() {
            self.ledger = opened.ledger.clone();
            self.clock_rose = opened.clock.fell_in_any_call().is_none();
        }
    }

    /// What each budget that was ever live spent at most, in the order in which they were carved out.
    pub fn spent(&self) -> Vec<Spent<'_>> {
        let most = self.ledger.most();
        let budgets = self.ledger.budgets();
        let spent = budgets.map(|(id, carved)| Spent {
            name: self.names.get(&id).map_or("no name", String::as_str),
            allowance: carved.allowance,
            most: most.get(&id).copied(),
        });
        spent.collect()
    }
}
