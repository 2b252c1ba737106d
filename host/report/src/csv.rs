//! A report as CSV (RFC 4180): one header line, a row each, lines that end with CR and LF.

use crate::fields::{Field, REFUSALS};
use crate::refusals::Refusals;
use crate::report::Report;
use carv::Refusal;
use carv_text::json::Json;

/// The columns before those of refusals by number. A row that has no such figure leaves it empty.
pub const COLUMNS: [&str; 48] = [
    "row",
    "id",
    "name",
    "budgets",
    "parent",
    "budget",
    "live",
    "answer",
    "cpu_ns",
    "share_lowest_ns",
    "share_highest_ns",
    "wanted_ns",
    "wanted_average_ns",
    "got_ns",
    "got_least_ns",
    "got_average_ns",
    "got_most_ns",
    "periods_on",
    "periods_partial",
    "periods_judged",
    "periods_used_up",
    "periods_missed",
    "periods_wanted_no_more",
    "periods_held_back",
    "missed_ns",
    "first_missed_period_start_ns",
    "first_missed_share_ns",
    "first_missed_got_ns",
    "first_missed_ns",
    "worst_missed_period_start_ns",
    "worst_missed_share_ns",
    "worst_missed_got_ns",
    "worst_missed_ns",
    "longest_wait_ms",
    "longest_wait_from_ms",
    "longest_wait_held_back_ms",
    "longest_wait_ran",
    "spent_most_ns",
    "spent_most_period_start_ns",
    "memory_bytes",
    "memory_most_bytes",
    "memory_most_below_bytes",
    "totals_cpu_left_ns",
    "totals_memory_used_bytes",
    "totals_memory_free_bytes",
    "renewals",
    "accepted",
    "refused",
];

impl Report {
    /// As CSV: a row for each service, budget and thread, for the board, for idle, and for refusals
    /// that name nobody live. The column `row` says which.
    pub fn csv(&self) -> String {
        let mut text = header();
        for row in &self.services {
            text += &line("service", row.fields(), &row.refusals);
        }
        for row in &self.budgets {
            text += &line("budget", row.fields(), &row.refusals);
        }
        for row in &self.threads {
            text += &line("thread", row.fields(), &row.refusals);
        }
        let board = &self.board;
        let seen = vec![
            ("periods_on", board.periods.into()),
            ("periods_partial", board.periods_partial.into()),
            ("accepted", board.accepted.into()),
        ];
        text += &line("board", seen, &board.refusals);
        let idle = vec![("got_ns", board.idle.got_ns.into())];
        text += &line("idle", idle, &Refusals::default());
        text + &line("nobody", Vec::new(), &board.refusals_of_nobody)
    }
}

fn header() -> String {
    let names = COLUMNS.iter().map(|name| name.to_string());
    let refused = Refusal::LISTED.map(|refusal| format!("refused_{}", refusal.number()));
    joined(names.chain(refused))
}

fn line(row: &str, fields: Vec<Field>, refusals: &Refusals) -> String {
    let own = [("row", row.into()), ("refused", refusals.total().into())];
    let fields: Vec<Field> = own.into_iter().chain(fields).collect();
    debug_assert!(
        fields
            .iter()
            .all(|(name, _)| *name == REFUSALS || COLUMNS.contains(name)),
        "every field has a column"
    );
    let cells = COLUMNS.iter().map(|column| {
        let found = fields.iter().find(|(name, _)| name == column);
        found.map(|(_, value)| cell(value)).unwrap_or_default()
    });
    let refused = Refusal::LISTED.map(|refusal| refusals.with(refusal.number()).to_string());
    joined(cells.chain(refused))
}

fn joined(cells: impl Iterator<Item = String>) -> String {
    let cells: Vec<String> = cells.map(|cell| quoted(&cell)).collect();
    cells.join(",") + "\r\n"
}

/// A value as it stands in a cell: of a list its values, a blank between them.
fn cell(value: &Json) -> String {
    match value {
        Json::Null => String::new(),
        Json::Text(text) => text.clone(),
        Json::List(values) => {
            let values: Vec<String> = values.iter().map(cell).collect();
            values.join(" ")
        }
        other => other.to_string(),
    }
}

/// In quotes if it has a comma, a quote or the end of a line in it; quotes are then doubled.
fn quoted(cell: &str) -> String {
    match cell.contains([',', '"', '\r', '\n']) {
        true => format!("\"{}\"", cell.replace('"', "\"\"")),
        false => cell.to_string(),
    }
}
