//! The stamp: what was proved, of which library, and who made the report.

use super::facts;
use crate::html::Html;
use crate::page::{Fact, Page};
use crate::stamp::Stamp;

/// What is proved, and what isn't.
const PROVED: &str = "Proved is the code of the board that made the calls, for every list of calls; document 01 and docs/PROMISES.md say what. The answers, tables and picture were worked by the program that made this report, which is tested and not proved, from what the board answered.";
const NOT_PROVED: &str = "Nothing is claimed to be proved of the board that made the calls.";
/// How to see whether a stamp is right.
const CHECK: &str = "The stamp is a record, not a signature. To check it, run .ci/run at this commit, which proves everything from nothing and builds the library, and compare with what tools/stamp prints then.";

/// In a line, for the page's begin.
pub fn short(html: &mut Html, page: &Page) {
    html.element("p", &[("class", "rests")], |html| {
        html.text("The board's code: ");
        html.leaf("strong", &[], &page.stamp.sentence());
        html.text(".");
    });
}

/// All of it.
pub fn write(html: &mut Html, page: &Page) {
    html.leaf(
        "p",
        &[("class", "verdict")],
        &format!("{}.", page.stamp.sentence()),
    );
    let text = if page.stamp.is_proved() {
        PROVED
    } else {
        NOT_PROVED
    };
    html.leaf("p", &[], text);
    let made = [("report made", &page.made), ("made by", &page.tool)];
    let made = made.into_iter().filter(|(_, text)| !text.is_empty());
    let made = made.map(|(name, text)| Fact::new(name, text));
    let stamped = lines(&page.stamp).iter();
    let stamped = stamped.map(|(word, text)| Fact::code(meaning(word), text));
    let all: Vec<Fact> = made.chain(stamped).collect();
    facts(html, &all);
    if matches!(page.stamp, Stamp::Stamped(_)) {
        html.leaf("p", &[], CHECK);
    }
}

fn lines(stamp: &Stamp) -> &[(String, String)] {
    match stamp {
        Stamp::Stamped(stamped) => stamped.lines(),
        Stamp::Missing(_) => &[],
    }
}

/// The words of a stamp as a reader knows them.
fn meaning(word: &str) -> &str {
    match word {
        "commit" => "the library's commit",
        "sha256" => "its SHA-256 sum",
        "fnv1a" => "its FNV-1a sum",
        "verdict" => "the prover's verdict",
        "crates" => "crates proved",
        "functions" => "functions proved",
        "axioms" => "axioms assumed",
        "made" => "library made",
        other => other,
    }
}
