//! Document 01's question 1, written out from its text: slow, and with true sums. Each rule says
//! where it is broken.

mod queue;
mod registry;
#[cfg(test)]
mod tests;
mod threads;

use crate::area::{self, BYTES, PARTS, Part, Table, word};
use std::ops::ControlFlow;

/// A place where an area breaks a rule.
#[derive(Clone, Debug, PartialEq, Eq)]
pub struct Fault {
    /// The rule.
    pub rule: &'static str,
    /// The word of the area; [`area::name`] names it.
    pub word: usize,
    /// A sentence with the figures.
    pub says: String,
    /// How many faults of the rule are not listed; 0 but for the last that is listed of a rule.
    pub more: usize,
}

impl Fault {
    /// The word's offset in the area, in bytes.
    pub const fn offset(&self) -> usize {
        self.word * 8
    }
}

/// How many faults of a rule are listed.
const LISTED: usize = 3;

/// Takes the faults that a rule finds, one by one: the word, and how to say it. It breaks off if it
/// wants no more.
type Take<'a> = &'a mut dyn FnMut(usize, &dyn Fn() -> String) -> Search;

/// Whether the search for faults goes on.
type Search = ControlFlow<()>;

/// How a rule of the tables is tested: all faults are handed on.
type Test = fn(&Table, Take<'_>) -> Search;

/// A rule of the tables.
struct Rule {
    says: &'static str,
    /// The tables without which it can't be tested.
    tables: &'static [Part],
    test: Test,
}

const fn rule_of(tables: &'static [Part], says: &'static str, test: Test) -> Rule {
    Rule { says, tables, test }
}

/// Rules of the bytes, before there is a table: of the length, of each table's number of rows, and
/// of what stands past the last row.
const LENGTH: &str = "the area has its length";
const AT_MOST: [&str; 4] = [
    "there are at most 512 objects",
    "there are at most 128 threads",
    "there are at most 127 in the queue",
    "there are at most 32 exits",
];
const REST: [&str; 4] = [
    "all is 0 past the last object",
    "all is 0 past the last thread",
    "all is 0 past the queue",
    "all is 0 past the last exit",
];

/// All rules, in the order in which they are tested.
pub fn rules() -> impl Iterator<Item = &'static str> {
    let of_the_bytes = [LENGTH].into_iter().chain(AT_MOST).chain(REST);
    of_the_bytes.chain(rules_of_the_tables().map(|rule| rule.says))
}

fn rules_of_the_tables() -> impl Iterator<Item = &'static Rule> {
    registry::RULES.iter().chain(rules_of_threads())
}

fn rules_of_threads() -> impl Iterator<Item = &'static Rule> {
    let rules = threads::OF_ROWS.iter().chain(&queue::QUEUE_RULES);
    let rules = rules.chain(&threads::OF_CURRENT_AND_IDLE);
    rules.chain(&queue::EXIT_RULES)
}

/// Whether the area is of its length and the board in it sound.
pub fn is_sound(area: &[u8]) -> bool {
    broken_rule(area).is_none()
}

/// The first rule that the area breaks, none if it is sound.
pub fn broken_rule(area: &[u8]) -> Option<&'static str> {
    if area.len() != BYTES {
        return Some(LENGTH);
    }
    for (part, rule) in PARTS.iter().zip(AT_MOST) {
        if part.length(area).is_none() {
            return Some(rule);
        }
    }
    for (part, rule) in PARTS.iter().zip(REST) {
        let rows = part.length(area).unwrap_or(0);
        if !part.ends_with_zeros(area, rows) {
            return Some(rule);
        }
    }
    let table = area::read(area)?;
    let mut rules = rules_of_the_tables();
    let is_broken = |rule: &&Rule| (rule.test)(&table, &mut |_, _| Search::Break(())).is_break();
    rules.find(is_broken).map(|rule| rule.says)
}

/// The faults of all rules that can be tested on what is readable, in the order of the rules: of
/// each rule the first three, with the number of the others. Of an area of another length only that
/// is a fault; a table that tells of more rows than there are places isn't read.
pub fn faults(area: &[u8]) -> Vec<Fault> {
    let mut found = Vec::new();
    // Lists take all faults, so no search breaks off.
    let _: Search = search(area, &mut found);
    found
}

fn search(area: &[u8], found: &mut Vec<Fault>) -> Search {
    let Some(table) = area::read_what_fits(area) else {
        let says = || format!("there are {} bytes, an area has {BYTES}", area.len());
        return list(LENGTH, found)(area.len() / 8, &says);
    };
    for (part, rule) in PARTS.iter().zip(AT_MOST) {
        too_many(part, area, &mut list(rule, found))?;
    }
    for (part, rule) in PARTS.iter().zip(REST) {
        past_the_last(part, area, &mut list(rule, found))?;
    }
    let readable = |part: &Part| part.length(area).is_some();
    for rule in rules_of_the_tables() {
        if rule.tables.iter().all(readable) {
            (rule.test)(&table, &mut list(rule.says, found))?;
        }
    }
    Search::Continue(())
}

/// Lists the first faults of a rule, and counts the others.
fn list(
    rule: &'static str,
    found: &mut Vec<Fault>,
) -> impl FnMut(usize, &dyn Fn() -> String) -> Search {
    let before = found.len();
    move |word, says| {
        if found.len() - before < LISTED {
            found.push(Fault {
                rule,
                word,
                says: says(),
                more: 0,
            });
        } else if let Some(last) = found.last_mut() {
            last.more += 1;
        }
        Search::Continue(())
    }
}

fn too_many(part: &Part, area: &[u8], take: Take<'_>) -> Search {
    let Part { count, places, .. } = *part;
    if part.length(area).is_some() {
        return Search::Continue(());
    }
    let rows = word(area, count);
    take(count, &|| {
        format!("there are said to be {rows}, there are {places} places")
    })
}

/// The words past the last row that are not 0.
fn past_the_last(part: &Part, area: &[u8], take: Take<'_>) -> Search {
    let rows = part.length(area).unwrap_or(part.places);
    for place in part.row(rows)..part.end() {
        let found = word(area, place);
        if found != 0 {
            take(place, &|| {
                format!("the word is {found}, with {rows} rows in use")
            })?;
        }
    }
    Search::Continue(())
}

/// Where a row of a table misses a test: at this field.
fn misses<Row>(
    part: &Part,
    rows: &[Row],
    field: usize,
    fits: impl Fn(&Row) -> bool,
    says: impl Fn(&Row) -> String,
    take: Take<'_>,
) -> Search {
    for (place, row) in rows.iter().enumerate() {
        if !fits(row) {
            take(part.row(place) + field, &|| says(row))?;
        }
    }
    Search::Continue(())
}

/// Where ids, the first words of the rows, don't rise.
fn falling<Row>(part: &Part, rows: &[Row], id: fn(&Row) -> u64, take: Take<'_>) -> Search {
    for (place, two) in rows.windows(2).enumerate() {
        let [before, behind] = [id(&two[0]), id(&two[1])];
        if before >= behind {
            take(part.row(place + 1), &|| {
                format!("id {behind} stands behind id {before}")
            })?;
        }
    }
    Search::Continue(())
}
