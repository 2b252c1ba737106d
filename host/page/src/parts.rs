//! The parts of a page, one behind the other.

mod answers;
mod picture;
mod stamp;
mod table;

use crate::html::Html;
use crate::page::{Column, Events, Fact, Page, Refusal, Table};
use carv_text::figures::{counted, grouped};

const STYLE: &str = include_str!("style.css");

/// The most events that are listed.
const MOST_EVENTS: usize = 100;
/// When an event was that has no time.
const BEFORE: &str = "before the first tick";

/// The page as HTML.
pub fn html(page: &Page) -> String {
    let mut html = Html::default();
    html.raw("<!DOCTYPE html>\n");
    html.element("html", &[("lang", "en")], |html| {
        html.element("head", &[], |html| head(html, page));
        html.element("body", &[], |html| body(html, page));
    });
    html.finish()
}

fn head(html: &mut Html, page: &Page) {
    html.raw("\n");
    html.void("meta", &[("charset", "utf-8")]);
    let width = ("content", "width=device-width, initial-scale=1");
    html.void("meta", &[("name", "viewport"), width]);
    html.leaf("title", &[], &page.title);
    html.element("style", &[], |html| html.raw(STYLE));
}

fn body(html: &mut Html, page: &Page) {
    html.element("header", &[], |html| html.leaf("h1", &[], &page.title));
    html.element("main", &[], |html| {
        for (place, question) in page.questions.iter().enumerate() {
            answers::write(html, place, question);
        }
        stamp::short(html, page);
        section(html, "asked", "What was asked", |html| {
            facts(html, &page.asked)
        });
        section(html, "figures", "What each got", |html| {
            if page.tables.is_empty() {
                html.leaf("p", &[], "There are no figures.");
            }
            for (place, table) in page.tables.iter().enumerate() {
                table::headed(html, place, table);
            }
        });
        section(html, "picture", "Who ran when", |html| {
            picture::write(html, &page.picture)
        });
        section(html, "refusals", "Refused calls", |html| {
            refusals(html, &page.refusals)
        });
        section(html, "events", "What happened when", |html| {
            events(html, &page.events)
        });
        section(html, "stamp", "What this rests on", |html| {
            stamp::write(html, page)
        });
    });
}

/// A part with a heading, by which it is known.
fn section(html: &mut Html, id: &str, heading: &str, inside: impl FnOnce(&mut Html)) {
    let heading_id = format!("{id}-heading");
    html.element("section", &[("aria-labelledby", &heading_id)], |html| {
        html.leaf("h2", &[("id", &heading_id)], heading);
        inside(html);
    });
}

/// Facts, each with its name in front.
fn facts(html: &mut Html, facts: &[Fact]) {
    if facts.is_empty() {
        return html.leaf("p", &[], "Nothing is known of it.");
    }
    html.element("dl", &[], |html| {
        for fact in facts {
            html.leaf("dt", &[], &fact.name);
            html.element("dd", &[], |html| match fact.is_code {
                true => html.leaf("code", &[], &fact.text),
                false => html.text(&fact.text),
            });
        }
    });
}

fn refusals(html: &mut Html, refusals: &[Refusal]) {
    if refusals.is_empty() {
        return html.leaf("p", &[], "No call was refused.");
    }
    let rows = refusals.iter().map(|refusal| {
        vec![
            refusal.number.to_string(),
            refusal.meaning.clone(),
            refusal.advice.clone(),
            grouped(refusal.times),
            refusal.first.clone(),
        ]
    });
    let table = Table {
        columns: vec![
            Column::figures("refused with", ""),
            Column::words("what it means"),
            Column::words("what to do"),
            Column::figures("times", ""),
            Column::words("first came"),
        ],
        rows: rows.collect(),
        notes: vec![
            "A refused call changes nothing on the board, save that a carve-out or CPU charge refused after a renewal leaves that renewal.".to_string(),
        ],
        ..Table::default()
    };
    table::write(html, "refusals-heading", &table);
}

fn events(html: &mut Html, events: &Events) {
    if events.events.is_empty() {
        return html.leaf("p", &[], "No event was noted.");
    }
    let shown = &events.events[..events.events.len().min(MOST_EVENTS)];
    let rows = shown.iter();
    let at = |ms: Option<u64>| ms.map_or_else(|| BEFORE.to_string(), grouped);
    let rows = rows.map(|event| vec![at(event.ms), event.text.clone()]);
    let more = events.left_out + (events.events.len() - shown.len()) as u64;
    let note = format!("And {} more, later.", counted(more, "event"));
    let table = Table {
        columns: vec![Column::figures("at", "ms"), Column::words("what")],
        rows: rows.collect(),
        notes: (more > 0).then_some(note).into_iter().collect(),
        ..Table::default()
    };
    table::write(html, "events-heading", &table);
}
