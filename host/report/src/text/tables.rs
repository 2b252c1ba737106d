//! The tables of a report's text.

use super::board::{by_number, in_ms};
use crate::answer::range;
use crate::report::Report;
use crate::rows::{BudgetRow, Figures, MissedAt, ServiceRow, Spent, ThreadRow};
use crate::short::plain;
use carv::TICK_NS;
use carv_text::figures::{cut, cut_inside, grouped, ms};
use carv_text::table::Align::{Left, Right};
use carv_text::table::{Align, Table};
use carv_watch::Total;

/// Most characters of an id and of a name.
const ID_WIDTH: usize = 7;
const NAME_WIDTH: usize = 16;
/// What stands where there is no figure.
const NONE: &str = "-";

/// Whose figures a line of a table has.
struct Whose<'a> {
    id: String,
    name: String,
    shares: Option<(u64, u64)>,
    figures: Option<&'a Figures>,
}

/// The tables of the budgets, and of services that had several.
pub(super) fn of_budgets(report: &Report) -> String {
    if report.budgets.is_empty() {
        return "\nNo board was opened, so there are no budgets.\n".to_string();
    }
    let budgets = report.budgets.iter().map(BudgetRow::whose);
    let services = several(report).map(ServiceRow::whose);
    let whose: Vec<Whose<'_>> = budgets.chain(services).collect();
    let mut text = times("Budgets", "budget", &whose);
    text += &memory(report);
    text += &spent(report);
    if several(report).next().is_some() {
        text += ALL;
    }
    text
}

/// What the lines of services with several budgets are.
const ALL: &str = "
  \"all\" are the budgets of one name together, as of a service that was switched off and on. Spent
  and memory are the highest of one of them.
";

/// Services with several budgets, which have a line beside those of their budgets.
fn several(report: &Report) -> impl Iterator<Item = &ServiceRow> {
    let services = report.services.iter();
    services.filter(|service| service.budgets.len() > 1)
}

/// The tables of the threads.
pub(super) fn of_threads(report: &Report) -> String {
    let whose: Vec<Whose<'_>> = report.threads.iter().map(ThreadRow::whose).collect();
    let mut text = times("Threads", "of", &whose);
    let refused = report.threads.iter().filter(|it| it.refusals.total() > 0);
    let refused: Vec<[String; 3]> = refused
        .map(|row| {
            let whose = row.whose();
            [whose.id, whose.name, by_number(&row.refusals)]
        })
        .collect();
    text += &titled(
        "Threads: refused calls that name them",
        &[("id", Right), ("of", Left), ("refused", Left)],
        refused,
    );
    text
}

impl BudgetRow {
    fn whose(&self) -> Whose<'_> {
        Whose {
            id: cut_inside(&self.id.0.to_string(), ID_WIDTH),
            name: named(self.name.as_deref()),
            shares: self.shares_ns,
            figures: self.figures.as_ref(),
        }
    }
}

impl ServiceRow {
    fn whose(&self) -> Whose<'_> {
        Whose {
            id: all(self),
            name: named(Some(&self.name)),
            shares: self.figures.total.shares_ns,
            figures: Some(&self.figures),
        }
    }
}

impl ThreadRow {
    fn whose(&self) -> Whose<'_> {
        let total = self.figures.map(|figures| figures.total);
        Whose {
            id: cut_inside(&self.id.0.to_string(), ID_WIDTH),
            name: match &self.budget_name {
                Some(name) => named(Some(name)),
                None => "no budget".to_string(),
            },
            // Without a budget there is none.
            shares: self.budget.and(total).and_then(|total| total.shares_ns),
            figures: self.figures.as_ref(),
        }
    }
}

fn named(name: Option<&str>) -> String {
    name.map_or_else(none, |name| cut(&plain(name), NAME_WIDTH))
}

fn all(service: &ServiceRow) -> String {
    format!("all {}", grouped(service.budgets.len() as u64))
}

/// A table with a title; nothing if it has no rows.
fn titled<const COUNT: usize>(
    title: &str,
    columns: &[(&str, Align); COUNT],
    rows: Vec<[String; COUNT]>,
) -> String {
    if rows.is_empty() {
        return String::new();
    }
    let mut table = Table::new(columns);
    for row in rows {
        table.row(row);
    }
    format!("\n{title}\n\n{table}")
}

/// What was wanted and got, how periods went, which were missed, and the longest waits.
fn times(whom: &str, of: &str, whose: &[Whose<'_>]) -> String {
    let seen = whose.iter().filter_map(|it| Some((it, it.figures?)));
    let seen: Vec<(&Whose<'_>, &Figures)> = seen.collect();
    let mut text = shares(whom, of, whose);
    text += &periods(whom, of, &seen);
    text += &missed(whom, of, &seen);
    text + &waits(whom, of, &seen)
}

fn shares(whom: &str, of: &str, whose: &[Whose<'_>]) -> String {
    let rows = whose.iter().map(|it| {
        let share = it.shares.map(|(low, high)| range(low, high));
        let figures = it.figures.map(|figures| in_ms_of_a_period(&figures.total));
        let [wanted, least, average, most, wanted_all, got_all] =
            figures.unwrap_or_else(|| std::array::from_fn(|_| none()));
        [
            it.id.clone(),
            it.name.clone(),
            share.unwrap_or_else(none),
            wanted,
            least,
            average,
            most,
            wanted_all,
            got_all,
        ]
    });
    titled(
        &format!("{whom}: CPU time in ms of a period of 10 ms, and in ms in all"),
        &[
            ("id", Right),
            (of, Left),
            ("share", Right),
            ("wanted", Right),
            ("got least", Right),
            ("average", Right),
            ("most", Right),
            ("wanted in all", Right),
            ("got in all", Right),
        ],
        rows.collect(),
    )
}

/// What was wanted on average, got least, on average and most, wanted in all and got in all.
fn in_ms_of_a_period(total: &Total) -> [String; 6] {
    let wanted = total.wanted_ns as f64 / TICK_NS as f64 / total.periods_judged as f64;
    let judged = |figure: String| match total.periods_judged {
        0 => none(),
        _ => figure,
    };
    [
        judged(format!("{wanted:.2}")),
        total.least_ns.map_or_else(none, ms),
        format!("{:.2}", total.average_ms()),
        ms(total.most_ns),
        judged(ms(total.wanted_ns)),
        ms(total.got_ns),
    ]
}

fn periods(whom: &str, of: &str, seen: &[(&Whose<'_>, &Figures)]) -> String {
    let rows = seen.iter().map(|(it, Figures { total, .. })| {
        [
            it.id.clone(),
            it.name.clone(),
            grouped(total.periods_on),
            grouped(total.periods_partial),
            grouped(total.periods_judged),
            grouped(total.periods_missed()),
            grouped(total.periods_used_up),
            grouped(total.periods_wanted_no_more),
            grouped(total.periods_held_back),
        ]
    });
    titled(
        &format!("{whom}: how many periods, and how those went that could be judged"),
        &[
            ("id", Right),
            (of, Left),
            ("on", Right),
            ("partial", Right),
            ("judged", Right),
            ("missed", Right),
            ("used up", Right),
            ("wanted no more", Right),
            ("held back", Right),
        ],
        rows.collect(),
    )
}

fn missed(whom: &str, of: &str, seen: &[(&Whose<'_>, &Figures)]) -> String {
    let rows = seen.iter().filter_map(|(it, figures)| {
        let (first, worst) = (figures.first_missed?, figures.worst_missed?);
        Some([
            it.id.clone(),
            it.name.clone(),
            ms(figures.total.missed?.ns),
            grouped(first.start_ms),
            of_share(&first, it),
            ms(first.missed_ns),
            grouped(worst.start_ms),
            of_share(&worst, it),
            ms(worst.missed_ns),
        ])
    });
    titled(
        &format!("{whom}: MISSED periods, in ms"),
        &[
            ("id", Right),
            (of, Left),
            ("missed in all", Right),
            ("first from", Right),
            ("got", Right),
            ("missed", Right),
            ("worst from", Right),
            ("got", Right),
            ("missed", Right),
        ],
        rows.collect(),
    )
}

fn of_share(missed: &MissedAt, whose: &Whose<'_>) -> String {
    match whose.shares {
        Some(_) => format!("{} of {}", ms(missed.got_ns), ms(missed.share_ns)),
        None => ms(missed.got_ns),
    }
}

fn waits(whom: &str, of: &str, seen: &[(&Whose<'_>, &Figures)]) -> String {
    let rows = seen.iter().filter_map(|(it, figures)| {
        let wait = figures.total.longest_wait?;
        Some([
            it.id.clone(),
            it.name.clone(),
            grouped(wait.ms),
            grouped(wait.from_ms),
            grouped(wait.held_back_ms),
            if wait.ran { "yes" } else { "no" }.to_string(),
        ])
    });
    titled(
        &format!("{whom}: longest wait from ready to run, in ms"),
        &[
            ("id", Right),
            (of, Left),
            ("waited", Right),
            ("from", Right),
            ("of it held back", Right),
            ("ran in the end", Left),
        ],
        rows.collect(),
    )
}

fn memory(report: &Report) -> String {
    let budgets = report.budgets.iter();
    let budgets = budgets.map(|row| (row.whose(), &row.memory, row.totals));
    let services = several(report).map(|row| (row.whose(), &row.memory, None));
    let rows = budgets.chain(services).map(|(whose, memory, end)| {
        [
            whose.id,
            whose.name,
            grouped(memory.limit),
            grouped(memory.most),
            grouped(memory.most_below),
            end.map_or_else(none, |end| grouped(end.memory_used)),
            end.map_or_else(none, |end| grouped(end.memory_free)),
            end.map_or_else(none, |end| ms(end.cpu_left)),
        ]
    });
    titled(
        "Budgets: memory in bytes; what is there at the end, with all below, of those that are live",
        &[
            ("id", Right),
            ("budget", Left),
            ("limit", Right),
            ("most", Right),
            ("with all below", Right),
            ("end: used", Right),
            ("free", Right),
            ("ms left", Right),
        ],
        rows.collect(),
    )
}

fn spent(report: &Report) -> String {
    let budgets = report.budgets.iter().map(|row| {
        let parent = match row.parent == row.id {
            true => none(),
            false => named(Some(&report.label(row.parent))),
        };
        let spent = [parent, most(row.spent), ms(row.cpu_ns)];
        let start = row.spent.and_then(|spent| spent.start_ns);
        (row.whose(), spent, start, row.renewals, &row.refusals)
    });
    let services = several(report).map(|row| {
        let spent = [none(), most(row.spent), none()];
        let start = row.spent.and_then(|spent| spent.start_ns);
        (row.whose(), spent, start, row.renewals, &row.refusals)
    });
    let rows = budgets.chain(services);
    let rows = rows.map(|(whose, [parent, spent, of], start, renewals, refusals)| {
        [
            whose.id,
            whose.name,
            parent,
            spent,
            of,
            start.map_or_else(none, in_ms),
            grouped(renewals),
            by_number(refusals),
        ]
    });
    titled(
        "Budgets: the most spent in a period, with all below; renewals; refused calls that name them",
        &[
            ("id", Right),
            ("budget", Left),
            ("carved out of", Left),
            ("spent", Right),
            ("of ms", Right),
            ("from", Right),
            ("renewals", Right),
            ("refused", Left),
        ],
        rows.collect(),
    )
}

fn most(spent: Option<Spent>) -> String {
    spent.map_or_else(none, |spent| in_ms(spent.most_ns))
}

fn none() -> String {
    NONE.to_string()
}
