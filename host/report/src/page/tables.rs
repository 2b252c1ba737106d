//! The tables of a page.

use crate::answer::range;
use crate::report::Report;
use crate::rows::{BudgetRow, Figures, MissedAt, Spent, ThreadRow};
use carv_page::{Column, Table};
use carv_text::figures::{counted, grouped, ms};
use carv_watch::{Total, Wait};

/// Most rows of a table.
const MOST_ROWS: usize = 150;
/// What stands where there is no figure.
const NONE: &str = "–";

impl Report {
    /// The tables, those without rows left out.
    pub(super) fn tables(&self) -> Vec<Table> {
        let tables = [
            self.times(),
            self.periods(),
            self.missed(),
            self.of_budgets(),
            self.of_threads(),
        ];
        let tables = tables.into_iter().filter(|table| !table.rows.is_empty());
        tables.map(cut).collect()
    }

    fn times(&self) -> Table {
        let services = self.services.iter().map(|service| {
            let total = &service.figures.total;
            let share = total.shares_ns.map(|(low, high)| range(low, high));
            times_of(&service.name, share, total)
        });
        let idle = self.board.ticks.as_ref().map(|_| {
            let mut cells = times_of("idle", None, &self.board.idle);
            cells[2] = none();
            cells
        });
        Table {
            heading: "CPU time in every 10 ms".to_string(),
            columns: vec![
                Column::words("service"),
                Column::figures("share", "ms"),
                Column::figures("wanted on average", "ms"),
                Column::figures("got at least", "ms"),
                Column::figures("got on average", "ms"),
                Column::figures("got at most", "ms"),
                Column::figures("longest wait", "ms"),
                Column::figures("of it held back", "ms"),
            ],
            rows: services.chain(idle).collect(),
            notes: sentences(&[
                "Share: what a service may run in every 10 ms. Wanted: what it would have run, had nothing stood in its way.",
                "The average that it got is over the periods in which it was switched on, the least over those that were seen as a whole.",
                "A wait is from ready to run. Held back: it had work, and no CPU time left until the next period.",
            ]),
        }
    }

    fn periods(&self) -> Table {
        let rows = self.services.iter().map(|service| {
            let total = &service.figures.total;
            let mut cells = vec![service.name.clone()];
            cells.extend(
                [
                    total.periods_on,
                    total.periods_partial,
                    total.periods_judged,
                    total.periods_missed(),
                    total.periods_used_up,
                    total.periods_wanted_no_more,
                    total.periods_held_back,
                ]
                .map(grouped),
            );
            cells
        });
        Table {
            heading: "How the periods of 10 ms went".to_string(),
            columns: columns(
                "service",
                &[
                    "switched on",
                    "in part",
                    "judged",
                    "missed",
                    "used up",
                    "wanted no more",
                    "held back",
                ],
            ),
            rows: rows.collect(),
            notes: sentences(&[
                "Missed: it wanted more than it got although it had time. Used up: it got its whole share, or was held back. Each judged period is one of missed, used up and wanted no more.",
                "A period is judged if it was seen as a whole, and the service was switched on at its end.",
            ]),
        }
    }

    fn missed(&self) -> Table {
        let rows = self.services.iter().filter_map(|service| {
            let Figures {
                total,
                first_missed,
                worst_missed,
            } = &service.figures;
            let mut cells = vec![service.name.clone(), ms(total.missed?.ns)];
            for missed in [(*first_missed)?, (*worst_missed)?] {
                cells.extend(of_missed(&missed));
            }
            Some(cells)
        });
        Table {
            heading: "Missed periods".to_string(),
            columns: vec![
                Column::words("service"),
                Column::figures("missed in all", "ms"),
                Column::figures("first, from", "ms"),
                Column::figures("it got", "ms"),
                Column::figures("it missed", "ms"),
                Column::figures("worst, from", "ms"),
                Column::figures("it got", "ms"),
                Column::figures("it missed", "ms"),
            ],
            rows: rows.collect(),
            notes: Vec::new(),
        }
    }

    fn of_budgets(&self) -> Table {
        Table {
            heading: "Budgets".to_string(),
            columns: vec![
                Column::words("budget"),
                Column::words("carved out of"),
                Column::figures("share with all below it", "ms"),
                Column::figures("most spent with all below it", "ms"),
                Column::figures("in the period from", "ms"),
                Column::figures("memory limit", "bytes"),
                Column::figures("most used", "bytes"),
                Column::figures("most used with all below it", "bytes"),
                Column::figures("refused calls", ""),
            ],
            rows: self.budgets.iter().map(|row| self.of_budget(row)).collect(),
            notes: sentences(&[
                "Spent is by the ledger of CPU charges, with all below and those removed meanwhile, in periods counted from 0 ms.",
                "A service that is switched on again has a new budget.",
            ]),
        }
    }

    fn of_budget(&self, row: &BudgetRow) -> Vec<String> {
        let name = match &row.name {
            Some(name) => format!("{name} ({})", row.id.0),
            None => self.label(row.id),
        };
        let parent = match row.parent == row.id {
            true => none(),
            false => self.label(row.parent),
        };
        let [spent, start] = row.spent.map_or([none(), none()], of_spent);
        vec![
            name,
            parent,
            ms(row.cpu_ns),
            spent,
            start,
            grouped(row.memory.limit),
            grouped(row.memory.most),
            grouped(row.memory.most_below),
            grouped(row.refusals.total()),
        ]
    }

    fn of_threads(&self) -> Table {
        Table {
            heading: "Threads".to_string(),
            columns: vec![
                Column::words("thread"),
                Column::words("of"),
                Column::figures("got at least", "ms"),
                Column::figures("got on average", "ms"),
                Column::figures("got at most", "ms"),
                Column::figures("periods missed", ""),
                Column::figures("of judged", ""),
                Column::figures("longest wait", "ms"),
            ],
            rows: self.threads.iter().map(of_thread).collect(),
            notes: sentences(&[
                "What a thread got is of every 10 ms. Thread 0 has no budget and so no share: nothing holds it back, and every ms that it waits is missed.",
            ]),
        }
    }
}

fn times_of(name: &str, share: Option<String>, total: &Total) -> Vec<String> {
    let wanted = total.wanted_ns as f64 / 1e6 / total.periods_judged as f64;
    let wait = |figure: fn(Wait) -> u64| total.longest_wait.map(figure).map_or_else(none, grouped);
    vec![
        name.to_string(),
        share.unwrap_or_else(none),
        match total.periods_judged {
            0 => none(),
            _ => format!("{wanted:.2}"),
        },
        total.least_ns.map_or_else(none, ms),
        format!("{:.2}", total.average_ms()),
        ms(total.most_ns),
        wait(|wait| wait.ms),
        wait(|wait| wait.held_back_ms),
    ]
}

fn of_missed(missed: &MissedAt) -> [String; 3] {
    let got = format!("{} of {}", ms(missed.got_ns), ms(missed.share_ns));
    [grouped(missed.start_ms), got, ms(missed.missed_ns)]
}

fn of_spent(spent: Spent) -> [String; 2] {
    let in_ms = |ns: u128| u64::try_from(ns).map_or_else(|_| format!("{ns} ns"), ms);
    let start = spent.start_ns.map_or_else(none, in_ms);
    [in_ms(spent.most_ns), start]
}

fn of_thread(row: &ThreadRow) -> Vec<String> {
    let of = row.budget_name.clone();
    let mut cells = vec![
        row.id.0.to_string(),
        of.unwrap_or_else(|| "no budget".to_string()),
    ];
    match row.figures.map(|figures| figures.total) {
        None => cells.extend(std::iter::repeat_with(none).take(6)),
        Some(total) => cells.extend([
            total.least_ns.map_or_else(none, ms),
            format!("{:.2}", total.average_ms()),
            ms(total.most_ns),
            grouped(total.periods_missed()),
            grouped(total.periods_judged),
            total
                .longest_wait
                .map_or_else(none, |wait| grouped(wait.ms)),
        ]),
    }
    cells
}

/// A column of words, and columns of counts.
fn columns(first: &str, counts: &[&str]) -> Vec<Column> {
    let counts = counts.iter().map(|name| Column::figures(name, ""));
    [Column::words(first)].into_iter().chain(counts).collect()
}

/// A table of at most [`MOST_ROWS`]; a note says how many more there are.
fn cut(mut table: Table) -> Table {
    let more = table.rows.len().saturating_sub(MOST_ROWS);
    table.rows.truncate(MOST_ROWS);
    if more > 0 {
        let more = counted(more as u64, "row");
        table
            .notes
            .push(format!("And {more} more, which `carv report` prints."));
    }
    table
}

fn sentences(notes: &[&str]) -> Vec<String> {
    notes.iter().map(|note| note.to_string()).collect()
}

fn none() -> String {
    NONE.to_string()
}
