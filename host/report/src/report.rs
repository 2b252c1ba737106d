//! A report, worked from what was watched.

use crate::accounts::Kept;
use crate::rows::{BoardRow, BudgetRow, Figures, Memory, MissedAt, ServiceRow, Spent, ThreadRow};
use crate::short::Short;
use crate::watch::{Seen, Watch};
use carv::{ObjectId, ThreadId};
use carv_ledger::history::Opened;
use carv_ledger::{Most, PERIOD};
use carv_watch::{Kind, MissedPeriod, Part, Rows, TICKS, Threads, Timeline, Total};
use std::collections::BTreeMap;

/// What became of each service, budget and thread of a board, from its last opening on.
#[derive(Clone, Debug)]
pub struct Report {
    /// The board as a whole.
    pub board: BoardRow,
    /// The services, by the lowest id of their budgets.
    pub services: Vec<ServiceRow>,
    /// Every budget that was ever live, by rising id.
    pub budgets: Vec<BudgetRow>,
    /// Every thread that there ever was but idle, by rising id.
    pub threads: Vec<ThreadRow>,
}

impl Report {
    /// Works a report from what was watched.
    pub fn new(watch: &Watch) -> Self {
        let rows = Rows::new(watch.timeline());
        let budgets = budgets(watch, &rows);
        Self {
            board: board(watch, &rows),
            services: services(watch, &rows, &budgets),
            threads: threads(watch),
            budgets,
        }
    }

    /// Its short form: the answers alone.
    pub fn short(&self) -> Short {
        let services = self.services.iter();
        Short::of(services.map(|service| (service.name.clone(), service.figures)))
    }

    /// What a budget is called: its name, or its number.
    pub fn label(&self, budget: ObjectId) -> String {
        let place = self.budgets.binary_search_by_key(&budget, |row| row.id);
        let name = place.ok().and_then(|at| self.budgets[at].name.clone());
        name.unwrap_or_else(|| format!("budget {}", budget.0))
    }
}

/// What ticks show of each service, by its name, in the order of the rows.
pub(crate) fn figures_of_services(rows: &Rows<'_>) -> Vec<(String, Figures)> {
    let all = rows.rows().iter().enumerate();
    let budgets = all.filter(|(_, row)| row.kind == Kind::Budget);
    let figures = budgets.map(|(at, row)| (row.name.clone(), of_row(rows, at)));
    figures.collect()
}

fn of_row(rows: &Rows<'_>, at: usize) -> Figures {
    let total = rows.rows()[at].total;
    figures(total, |number| rows.in_period(number).remove(&at))
}

/// Figures with the periods that were missed, which `part` reads.
fn figures(total: Total, part: impl Fn(u64) -> Option<Part>) -> Figures {
    let at = |missed: MissedPeriod| MissedAt {
        start_ms: missed.number * TICKS,
        share_ns: part(missed.number).map_or(0, |part| part.share_ns),
        got_ns: missed.got_ns,
        missed_ns: missed.missed_ns,
    };
    Figures {
        total,
        first_missed: total.missed.map(|missed| at(missed.first)),
        worst_missed: total.missed.map(|missed| at(missed.worst)),
    }
}

fn budgets(watch: &Watch, rows: &Rows<'_>) -> Vec<BudgetRow> {
    let seen = watch.seen();
    let figures = figures_of_budgets(watch.timeline(), seen, rows);
    let opened = watch.history().opened();
    let most = opened.map(|opened| opened.ledger.most());
    let budgets = seen.budgets().into_iter().map(|kept| {
        let figures = figures.get(&kept.budget).copied();
        let shares = figures.and_then(|figures| figures.total.shares_ns);
        BudgetRow {
            id: kept.budget,
            name: watch.name_of(kept.budget).map(str::to_string),
            parent: kept.parent,
            is_live: seen.accounts.is_live(kept.budget),
            cpu_ns: kept.cpu_ns,
            shares_ns: shares.or(kept.shares),
            figures,
            spent: most
                .as_ref()
                .map(|most| spent(most.get(&kept.budget.0).copied())),
            memory: Memory {
                limit: kept.memory_limit,
                most: kept.memory_most,
                most_below: kept.memory_most_below,
            },
            totals: totals(seen, &kept),
            renewals: kept.renewals,
            refusals: seen
                .refused
                .budgets
                .get(&kept.budget)
                .cloned()
                .unwrap_or_default(),
        }
    });
    budgets.collect()
}

/// What ticks show of each budget that had a thread. Where no two have one name, the services' rows
/// say so already.
fn figures_of_budgets(
    timeline: &Timeline,
    seen: &Seen,
    rows: &Rows<'_>,
) -> BTreeMap<ObjectId, Figures> {
    let all = seen.budgets();
    let shown = || all.iter().filter(|kept| rows.row_of(kept.budget).is_some());
    let services = rows.rows().iter().filter(|row| row.kind == Kind::Budget);
    let each;
    let rows = match shown().count() == services.count() {
        true => rows,
        false => {
            each = Rows::of_each_budget(timeline);
            &each
        }
    };
    let budgets = rows.rows().iter().enumerate();
    let budgets = budgets.filter(|(_, row)| row.kind == Kind::Budget);
    let places: BTreeMap<&str, usize> = budgets.map(|(at, row)| (row.name.as_str(), at)).collect();
    let figures = shown().filter_map(|kept| {
        let row = rows.row_of(kept.budget)?;
        Some((kept.budget, of_row(rows, *places.get(row.name.as_str())?)))
    });
    figures.collect()
}

fn spent(most: Option<Most>) -> Spent {
    Spent {
        most_ns: most.map_or(0, |most| most.spent),
        start_ns: most.map(|most| most.period * PERIOD),
    }
}

fn totals(seen: &Seen, kept: &Kept) -> Option<carv_layout::area::Totals> {
    seen.end.as_ref()?.get(&kept.budget.0).copied()
}

fn services(watch: &Watch, rows: &Rows<'_>, budgets: &[BudgetRow]) -> Vec<ServiceRow> {
    let mut named: BTreeMap<String, Vec<&BudgetRow>> = BTreeMap::new();
    for budget in budgets {
        let label = watch.timeline().label(budget.id);
        named.entry(label).or_default().push(budget);
    }
    let services = figures_of_services(rows).into_iter();
    let services = services.map(|(name, figures)| {
        let budgets = named.remove(&name).unwrap_or_default();
        service(name, figures, &budgets)
    });
    services.collect()
}

fn service(name: String, figures: Figures, budgets: &[&BudgetRow]) -> ServiceRow {
    let highest = |of: fn(&Memory) -> u64| {
        let figures = budgets.iter().map(|budget| of(&budget.memory));
        figures.max().unwrap_or(0)
    };
    let mut row = ServiceRow {
        name,
        budgets: budgets.iter().map(|budget| budget.id).collect(),
        figures,
        spent: None,
        memory: Memory {
            limit: highest(|memory| memory.limit),
            most: highest(|memory| memory.most),
            most_below: highest(|memory| memory.most_below),
        },
        renewals: budgets.iter().map(|budget| budget.renewals).sum(),
        refusals: Default::default(),
    };
    for budget in budgets {
        row.refusals.add(&budget.refusals);
        // The first of those that spent most.
        if budget.spent.map(|spent| spent.most_ns) > row.spent.map(|spent| spent.most_ns) {
            row.spent = budget.spent;
        }
    }
    row
}

fn threads(watch: &Watch) -> Vec<ThreadRow> {
    let seen = watch.seen();
    let threads = Threads::new(watch.timeline());
    let mut summed = threads.threads().iter().peekable();
    let rows = seen.threads.iter().map(|(id, budget)| {
        while summed.next_if(|thread| thread.id < *id).is_some() {}
        let thread = summed.next_if(|thread| thread.id == *id);
        let part = |number| {
            let parts = threads.in_period(number).into_iter();
            let mut parts = parts.filter(|(of, ..)| of == id);
            parts.next().map(|(.., part)| part)
        };
        ThreadRow {
            id: *id,
            budget: *budget,
            budget_name: budget.map(|budget| watch.timeline().label(budget)),
            figures: thread.map(|thread| figures(thread.total, part)),
            refusals: refusals_of(seen, *id),
        }
    });
    rows.collect()
}

fn refusals_of(seen: &Seen, thread: ThreadId) -> crate::Refusals {
    let found = seen.refused.threads.get(&thread);
    found.cloned().unwrap_or_default()
}

fn board(watch: &Watch, rows: &Rows<'_>) -> BoardRow {
    let (seen, timeline) = (watch.seen(), watch.timeline());
    let idle = rows.idle().map(|row| row.total).unwrap_or_default();
    let ticks = timeline.ticks();
    let between = ticks
        .as_ref()
        .map_or(0, |ticks| ticks.end() - ticks.start() + 1);
    let opened = watch.history().opened();
    BoardRow {
        opened: opened.map(|opened| opened.place),
        openings: watch.history().openings(),
        accepted: seen.accepted,
        // Idle runs or sleeps in every ms that was seen.
        ticks_seen: idle.ms_on,
        ticks_missing: between - idle.ms_on,
        gaps: if between > idle.ms_on {
            gaps(rows, timeline)
        } else {
            0
        },
        ticks,
        ticks_repeated: timeline.repeats(),
        periods: idle.periods_on,
        periods_partial: idle.periods_partial,
        idle,
        clock_fell: seen.clock.fell(),
        any_clock_fell: seen.clock.fell_in_any_call(),
        knows_spent: opened.is_some(),
        overspent: opened.and_then(|opened: &Opened| opened.ledger.overspent()),
        refusals: seen.refused.all.clone(),
        refusals_of_nobody: seen.refused.nobody.clone(),
    }
}

/// In how many places ticks are missing.
fn gaps(rows: &Rows<'_>, timeline: &Timeline) -> u64 {
    let places =
        |number: u64| (0..TICKS).filter_map(move |place| (number * TICKS).checked_add(place));
    let is_seen = |tick: &u64| timeline.doing(ObjectId::ROOT, *tick).is_some();
    let seen: Vec<u64> = rows.periods().flat_map(places).filter(is_seen).collect();
    let gaps = seen.windows(2).filter(|pair| pair[1] - pair[0] > 1);
    gaps.count() as u64
}
