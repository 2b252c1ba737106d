//! A list with something of everything: its report in each form, to the letter.

use crate::run::Run;
use carv_page::{Column, Page};
use carv_report::About;

const CALLS: &str = include_str!("../expected/all.calls");

/// What a page says was asked, and its tables: a line for each fact, heading, row and note.
fn tables(page: &Page) -> String {
    let column = |column: &Column| match column.unit.as_str() {
        "" => column.name.clone(),
        unit => format!("{} in {unit}", column.name),
    };
    let facts = page.asked.iter();
    let facts = facts.map(|fact| format!("{}: {}", fact.name, fact.text));
    let mut lines: Vec<String> = facts.collect();
    for table in &page.tables {
        lines.push(format!("{}:", table.heading));
        let columns: Vec<String> = table.columns.iter().map(column).collect();
        lines.push(columns.join(" | "));
        lines.extend(table.rows.iter().map(|row| row.join(" | ")));
        lines.extend(table.notes.iter().map(|note| format!("- {note}")));
    }
    lines.join("\n") + "\n"
}

/// The figures of the four forms are the same ones; a figure that moves is seen in each.
#[test]
fn in_each_form() {
    let lines: Vec<&str> = CALLS.lines().collect();
    let mut run = Run::of(&lines);
    let report = run.report();
    assert_eq!(report.text(), include_str!("../expected/all.txt"));
    let json = format!("{}\n", report.json());
    assert_eq!(json, include_str!("../expected/all.json"));
    let csv = report.csv().replace("\r\n", "\n");
    assert_eq!(csv, include_str!("../expected/all.csv"));
    let page = report.page(run.watch.timeline(), About::default());
    assert_eq!(tables(&page), include_str!("../expected/all.tables"));
}
