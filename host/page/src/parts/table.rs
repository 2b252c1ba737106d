//! Tables.

use crate::html::Html;
use crate::page::{Align, Column, Table};

/// The most rows of a table that stays on one sheet of paper.
const ROWS_OF_A_SHEET: usize = 16;

/// A table below its own heading.
pub fn headed(html: &mut Html, place: usize, table: &Table) {
    let id = format!("table-{place}");
    let class = match table.rows.len() {
        0..=ROWS_OF_A_SHEET => "whole",
        _ => "long",
    };
    html.element("div", &[("class", class)], |html| {
        html.leaf("h3", &[("id", &id)], &table.heading);
        write(html, &id, table);
    });
}

/// A table below the heading with this id, and its notes.
pub fn write(html: &mut Html, heading: &str, table: &Table) {
    html.element("table", &[("aria-labelledby", heading)], |html| {
        html.element("thead", &[], |html| {
            html.element("tr", &[], |html| {
                table.columns.iter().for_each(|column| head(html, column));
            });
        });
        html.element("tbody", &[], |html| {
            for cells in &table.rows {
                html.element("tr", &[], |html| row(html, &table.columns, cells));
            }
        });
    });
    if table.rows.is_empty() {
        html.leaf("p", &[], "There are none.");
    }
    if !table.notes.is_empty() {
        html.element("ul", &[("class", "notes")], |html| {
            table
                .notes
                .iter()
                .for_each(|note| html.leaf("li", &[], note));
        });
    }
}

fn head(html: &mut Html, column: &Column) {
    html.element("th", &[("scope", "col"), class(column)], |html| {
        html.text(&column.name);
        if !column.unit.is_empty() {
            html.text(" ");
            html.leaf("span", &[("class", "unit")], &column.unit);
        }
    });
}

/// A row. On a narrow screen each cell has a line of its own, with the name of its column in front.
fn row(html: &mut Html, columns: &[Column], cells: &[String]) {
    for (place, (column, cell)) in columns.iter().zip(cells).enumerate() {
        let label = label(column);
        match place {
            0 => {
                let attributes = [("scope", "row"), class(column), ("data-label", &label)];
                html.leaf("th", &attributes, cell);
            }
            _ => html.leaf("td", &[class(column), ("data-label", &label)], cell),
        }
    }
}

fn label(column: &Column) -> String {
    match column.unit.as_str() {
        "" => column.name.clone(),
        unit => format!("{}, {unit}", column.name),
    }
}

fn class(column: &Column) -> (&'static str, &'static str) {
    let class = match column.align {
        Align::Left => "word",
        Align::Right => "figure",
    };
    ("class", class)
}
