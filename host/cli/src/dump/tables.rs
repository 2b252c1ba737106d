//! Objects, threads, ready queue and exit log.

use crate::codes::{CAUSES, KINDS, word_or_number};
use crate::figures::{bytes, grouped};
use crate::names::Names;
use crate::table::{Align, Table as Columns};
use crate::text::{space, state, thread_id};
use carv_layout::BUDGET;
use carv_layout::area::{Table, ThreadRow};

/// The objects that are no budgets.
pub(super) fn objects(table: &Table, names: &Names) -> String {
    let others = table.objects.iter().filter(|row| row.kind != BUDGET);
    let mut shown = Columns::new(&[
        ("object", Align::Right),
        ("kind", Align::Left),
        ("payer", Align::Left),
        ("charge", Align::Right),
    ]);
    let mut count = 0;
    for row in others {
        count += 1;
        shown.row([
            row.id.to_string(),
            word_or_number(KINDS, row.kind),
            names.id(row.payer),
            bytes(row.charge),
        ]);
    }
    listed("Other objects", count, &shown)
}

fn listed(heading: &str, count: usize, shown: &Columns) -> String {
    match count {
        0 => format!("{heading}: none\n"),
        _ => format!("{heading}:\n{shown}"),
    }
}

pub(super) fn threads(table: &Table, names: &Names) -> String {
    let mut shown = Columns::new(&[
        ("thread", Align::Left),
        ("state", Align::Left),
        ("queue", Align::Left),
        ("budget", Align::Left),
        ("run ticks", Align::Right),
        ("space", Align::Left),
    ]);
    for row in &table.threads {
        shown.row([
            short_id(row.id),
            state(row),
            place(table, row),
            budget(table, row, names),
            grouped(row.run_ticks),
            space(row),
        ]);
    }
    listed("Threads", table.threads.len(), &shown)
}

fn short_id(id: u64) -> String {
    thread_id(id).replace("thread ", "")
}

/// Where a thread stands: current, or its place in the queue, counted from 1.
fn place(table: &Table, row: &ThreadRow) -> String {
    let place = table.queue.iter().position(|id| *id == row.id);
    match place {
        _ if row.id == table.current => "current".to_string(),
        Some(place) => format!("{} of {}", place + 1, table.queue.len()),
        None => "-".to_string(),
    }
}

fn budget(table: &Table, row: &ThreadRow, names: &Names) -> String {
    let [has_budget, id] = row.budget;
    let is_live = |id| {
        let mut objects = table.objects.iter();
        objects.any(|row| row.id == id && row.kind == BUDGET)
    };
    match has_budget {
        0 => "none".to_string(),
        _ if is_live(id) => names.id(id),
        _ => format!("{}, not live", names.id(id)),
    }
}

/// The ready queue, in lines of ten.
pub(super) fn queue(table: &Table) -> String {
    if table.queue.is_empty() {
        return "Ready queue: empty\n".to_string();
    }
    let lines = table.queue.chunks(10).map(|ids| {
        let ids: Vec<String> = ids.iter().copied().map(short_id).collect();
        format!("  {}\n", ids.join(", "))
    });
    let lines: String = lines.collect();
    format!("Ready queue, threads from front to back:\n{lines}")
}

pub(super) fn exits(table: &Table) -> String {
    let mut shown = Columns::new(&[("thread", Align::Right), ("cause", Align::Left)]);
    for exit in &table.exits {
        shown.row([short_id(exit.thread), word_or_number(CAUSES, exit.cause)]);
    }
    listed("Exit log, oldest first", table.exits.len(), &shown)
}
