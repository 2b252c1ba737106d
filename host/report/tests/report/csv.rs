//! CSV as a reader of RFC 4180 reads it, held against JSON.

use crate::run::{OPEN, Run};
use carv::ObjectId;
use carv_report::{COLUMNS, Report};
use carv_text::json::Json;

/// The records of a CSV text. Panics where RFC 4180 is not kept.
fn records(text: &str) -> Vec<Vec<String>> {
    let mut records = Vec::new();
    let mut rest = text;
    while !rest.is_empty() {
        let mut record = Vec::new();
        loop {
            let (cell, behind) = cell(rest);
            record.push(cell);
            if let Some(behind) = behind.strip_prefix(',') {
                rest = behind;
            } else {
                rest = behind.strip_prefix("\r\n").expect("the end of a line");
                break;
            }
        }
        records.push(record);
    }
    records
}

/// The first cell, and what stands behind it.
fn cell(text: &str) -> (String, &str) {
    let Some(mut rest) = text.strip_prefix('"') else {
        let end = text.find([',', '\r']).expect("an end");
        assert!(!text[..end].contains(['"', '\n']), "a cell without quotes");
        return (text[..end].to_string(), &text[end..]);
    };
    let mut cell = String::new();
    loop {
        let quote = rest.find('"').expect("the closing quote");
        cell += &rest[..quote];
        rest = &rest[quote + 1..];
        match rest.strip_prefix('"') {
            Some(behind) => {
                cell.push('"');
                rest = behind;
            }
            None => return (cell, rest),
        }
    }
}

const NAME: &str = "a, \"b\"\r\nc, 号";

fn report() -> Report {
    let mut run = Run::of(&[
        OPEN,
        "create_budget root 4_000_000 0 0",
        "create_user_thread 9 2 1",
        "start 9",
        "plan 0",
        "remove 9 0",
    ]);
    run.watch.name(ObjectId(2), NAME);
    run.ticks(1..=39);
    run.report()
}

#[test]
fn names_are_quoted() {
    let records = records(&report().csv());
    let header = &records[0];
    assert_eq!(header[..COLUMNS.len()], COLUMNS);
    assert_eq!(header.last().map(String::as_str), Some("refused_14"));
    assert!(records.iter().all(|record| record.len() == header.len()));
    let rows: Vec<&str> = records[1..].iter().map(|it| it[0].as_str()).collect();
    let expected = [
        "service", "budget", "budget", "thread", "thread", "board", "idle", "nobody",
    ];
    assert_eq!(rows, expected);
    assert_eq!(records[1][2], NAME);
    assert_eq!(records[3][2], NAME);
    assert!(records[1][7].starts_with(NAME), "the answer");
}

/// Each figure of JSON stands in its column.
#[test]
fn figures_are_those_of_json() {
    let report = report();
    let records = records(&report.csv());
    let Json::Object(fields) = report.json() else {
        panic!("an object");
    };
    let Json::Object(fields) = &fields[0].1 else {
        panic!("a report");
    };
    let mut checked = 0;
    for (list, row) in [
        ("services", "service"),
        ("budgets", "budget"),
        ("threads", "thread"),
    ] {
        let found = fields.iter().find(|(name, _)| name == list);
        let Some((_, Json::List(objects))) = found else {
            panic!("a list of {list}");
        };
        let records = records.iter().filter(|record| record[0] == row);
        for (object, record) in objects.iter().zip(records) {
            let Json::Object(fields) = object else {
                panic!("an object");
            };
            for (name, value) in fields.iter().filter(|(name, _)| name != "refusals") {
                let column = COLUMNS.iter().position(|column| column == name);
                let cell = &record[column.unwrap_or_else(|| panic!("a column {name}"))];
                let expected = match value {
                    Json::Null => String::new(),
                    Json::Text(text) => text.clone(),
                    Json::List(values) => {
                        let values: Vec<String> = values.iter().map(Json::to_string).collect();
                        values.join(" ")
                    }
                    other => other.to_string(),
                };
                assert_eq!(*cell, expected, "{row} {name}");
                checked += 1;
            }
        }
    }
    assert!(checked > 150, "{checked} figures");
}
