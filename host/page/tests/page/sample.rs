//! A page with something in each part, whose texts are odd.

use carv_page::{
    Answer, Column, Event, Events, Fact, Mark, Page, Picture, Question, Refusal, Stamp, Table,
};

/// A text that no markup may take as it stands.
pub const ODD: &str = "<b>&\"'</b>";
/// The sum of the library that the stamp is of.
pub const SUM: &str = "b8334fa435c9ee23";

pub const STAMP: &str = "\
commit: 6a45a130304ba2bee46a8d8718abb46e30d55a74, with changes in crates/
library: libcarv.a, 30,638 bytes
sha256: 80a012d2c8b923c7b3cf57cd21eedb0fa8a73907f152e315508ca719460487a8
fnv1a: b8334fa435c9ee23
verdict: logic=proved
crates: 8
functions: 322
axioms: 0
prover: rattle-kit <5>
made: 2026-11-18 02:50 UTC
";

const SVG: &str = r#"<?xml version="1.0" encoding="UTF-8"?>
<svg xmlns="http://www.w3.org/2000/svg" width="100" height="50" viewBox="0 0 100 50" role="img">
<title>a picture</title>
<rect width="100%" height="100%" fill="white"/>
</svg>
"#;

fn answer(mark: Mark, text: &str) -> Answer {
    Answer {
        mark,
        text: format!("{text} {ODD}"),
    }
}

/// A page with something in each part.
pub fn page() -> Page {
    Page {
        title: format!("title {ODD}"),
        questions: vec![
            Question {
                text: format!("question 1 {ODD}"),
                answers: vec![
                    answer(Mark::Bad, "counting missed"),
                    answer(Mark::Good, "display got"),
                    answer(Mark::Unknown, "upload wasn't seen"),
                ],
                note: format!("how to read {ODD}"),
            },
            Question {
                text: "question 2".to_string(),
                answers: vec![answer(Mark::Good, "never overspent")],
                note: String::new(),
            },
        ],
        asked: vec![
            Fact::new("list", format!("list {ODD}")),
            Fact::code("command", format!("command {ODD}")),
        ],
        tables: vec![Table {
            heading: format!("heading {ODD}"),
            columns: vec![
                Column::words(&format!("service {ODD}")),
                Column::figures("share", "ms"),
                Column::words("outcome"),
            ],
            rows: vec![
                vec![format!("row {ODD}"), "4".to_string(), format!("cell {ODD}")],
                vec!["display".to_string(), "1".to_string(), "fine".to_string()],
            ],
            notes: vec![format!("note {ODD}")],
        }],
        picture: Picture::Drawn {
            svg: SVG.to_string(),
            caption: format!("caption {ODD}"),
            alternative: format!("alternative {ODD}"),
        },
        refusals: vec![Refusal {
            number: 12,
            meaning: format!("meaning {ODD}"),
            advice: format!("advice {ODD}"),
            times: 12_345,
            first: format!("line 7 {ODD}"),
        }],
        events: Events {
            events: vec![Event {
                ms: Some(1_203),
                text: format!("event {ODD}"),
            }],
            left_out: 0,
        },
        stamp: Stamp::of(Ok(STAMP), Some(SUM)),
        tool: format!("tool {ODD}"),
        made: "2026-11-18 03:00 UTC".to_string(),
    }
}
