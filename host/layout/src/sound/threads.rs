//! The rules of the threads.

use super::{Rule, Search, Take, Test, falling, misses, rule_of};
use crate::IDLE;
use crate::area::{CURRENT, THREADS, Table, ThreadField as Field, ThreadRow};
use crate::state::{BLOCKED, DEAD, INACTIVE, READY, RUNNING};

pub(super) const OF_ROWS: [Rule; 6] = [
    rule("thread ids rise", |t, take| {
        falling(&THREADS, &t.threads, |row| row.id, take)
    }),
    rule("every state is listed", |t, take| {
        let is_listed = |row: &ThreadRow| (INACTIVE..=DEAD).contains(&row.state);
        let says = |row: &ThreadRow| {
            let (name, state) = (name(row.id), row.state);
            format!("state of {name} is {state}, listed are 1 to 5")
        };
        rows(t, Field::State, is_listed, says, take)
    }),
    rule("the wait of a Blocked thread is listed", |t, take| {
        let is_listed = |row: &ThreadRow| row.state != BLOCKED || (1..=5).contains(&row.wait[0]);
        let says = |row: &ThreadRow| {
            let (name, kind) = (name(row.id), row.wait[0]);
            format!("{name} is Blocked on a wait of kind {kind}, listed are 1 to 5")
        };
        rows(t, Field::WaitKind, is_listed, says, take)
    }),
    rule("what isn't Blocked has no wait", |t, take| {
        let fits = |row: &ThreadRow| row.state == BLOCKED || row.wait == [0; 2];
        words(
            t,
            fits,
            Field::WaitKind,
            |row| &row.wait,
            take,
            |row, field, found| {
                let (text, name) = (field.text(), name(row.id));
                (found != 0).then(|| format!("{text} of {name}, which is not Blocked, is {found}"))
            },
        )
    }),
    rule("a budget is there or 0", |t, take| {
        flagged(t, "budget", Field::HasBudget, |row| &row.budget, take)
    }),
    rule("a space is there or 0", |t, take| {
        flagged(t, "space", Field::HasSpace, |row| &row.space, take)
    }),
];

pub(super) const OF_CURRENT_AND_IDLE: [Rule; 8] = [
    rule("only the current thread is Dead", |t, take| {
        let fits = |row: &ThreadRow| row.state != DEAD || row.id == t.current;
        let says =
            |row: &ThreadRow| format!("{} is Dead, current is {}", name(row.id), name(t.current));
        rows(t, Field::State, fits, says, take)
    }),
    rule("only the current thread or idle is Running", |t, take| {
        let may_run = |id| id == t.current || id == IDLE;
        let fits = |row: &ThreadRow| row.state != RUNNING || may_run(row.id);
        let says = |row: &ThreadRow| {
            format!(
                "{} is Running, current is {}",
                name(row.id),
                name(t.current)
            )
        };
        rows(t, Field::State, fits, says, take)
    }),
    rule("the current thread is there", |t, take| {
        if thread(t, t.current).is_some() {
            return Search::Continue(());
        }
        let says = || format!("current is {}, which has no record", name(t.current));
        take(CURRENT, &says)
    }),
    rule("the current thread is not Inactive", |t, take| {
        let fits = |row: &ThreadRow| row.id != t.current || row.state != INACTIVE;
        let says = |row: &ThreadRow| format!("{} is current and Inactive", name(row.id));
        rows(t, Field::State, fits, says, take)
    }),
    rule("idle is there", |t, take| {
        if thread(t, IDLE).is_some() {
            return Search::Continue(());
        }
        let last = t.threads.len().saturating_sub(1);
        let says = || format!("no thread has idle's id, {IDLE}");
        take(THREADS.row(last), &says)
    }),
    rule("idle is Ready or Running", |t, take| {
        let fits = |row: &ThreadRow| row.id != IDLE || [READY, RUNNING].contains(&row.state);
        let says =
            |row: &ThreadRow| format!("state of idle is {}, not {READY} or {RUNNING}", row.state);
        rows(t, Field::State, fits, says, take)
    }),
    rule("idle is Running if current", |t, take| {
        let is_current = |row: &ThreadRow| row.id == IDLE && t.current == IDLE;
        let fits = |row: &ThreadRow| !is_current(row) || row.state == RUNNING;
        let says = |row: &ThreadRow| {
            let state = row.state;
            format!("idle is current and its state is {state}, not {RUNNING}")
        };
        rows(t, Field::State, fits, says, take)
    }),
    rule(
        "thread 0 and idle, and no others, have no budget",
        |t, take| {
            let fits = |row: &ThreadRow| (row.budget[0] == 0) == [0, IDLE].contains(&row.id);
            let says = |row: &ThreadRow| {
                let has = if row.budget[0] == 0 { "no" } else { "a" };
                format!("{} has {has} budget", name(row.id))
            };
            rows(t, Field::HasBudget, fits, says, take)
        },
    ),
];

const fn rule(says: &'static str, test: Test) -> Rule {
    rule_of(&[THREADS], says, test)
}

/// A thread as a sentence names it.
pub(super) fn name(id: u64) -> String {
    match id {
        IDLE => "idle".to_string(),
        id => format!("thread {id}"),
    }
}

/// Where a row misses a test: at this field.
pub(super) fn rows(
    table: &Table,
    field: Field,
    fits: impl Fn(&ThreadRow) -> bool,
    says: impl Fn(&ThreadRow) -> String,
    take: Take<'_>,
) -> Search {
    misses(&THREADS, &table.threads, field as usize, fits, says, take)
}

/// The thread with this id. Ids may stand in any order.
pub(super) fn thread(table: &Table, id: u64) -> Option<&ThreadRow> {
    table.threads.iter().find(|row| row.id == id)
}

/// Where the word that says whether something is there is neither 0 nor 1, or is 0 with something
/// behind it. `of` are this word and those behind it.
fn flagged(
    table: &Table,
    what: &str,
    flag: Field,
    of: fn(&ThreadRow) -> &[u64],
    take: Take<'_>,
) -> Search {
    let fits = |row: &ThreadRow| of(row)[0] == 1 || of(row).iter().all(|word| *word == 0);
    words(table, fits, flag, of, take, |row, field, found| {
        let (name, text) = (name(row.id), field.text());
        match of(row)[0] {
            0 if found != 0 => Some(format!("{name} has no {what}, and its {text} is {found}")),
            2.. if field == flag => Some(format!(
                "whether {name} has a {what} is {found}, neither 0 nor 1"
            )),
            _ => None,
        }
    })
}

/// In each row that misses a test, the words of which there is something to say: `of` are words of
/// the row from field `first` on.
fn words(
    table: &Table,
    fits: impl Fn(&ThreadRow) -> bool,
    first: Field,
    of: fn(&ThreadRow) -> &[u64],
    take: Take<'_>,
    says: impl Fn(&ThreadRow, Field, u64) -> Option<String>,
) -> Search {
    for (place, row) in table.threads.iter().enumerate() {
        if fits(row) {
            continue;
        }
        let fields = Field::ALL[first as usize..].iter().zip(of(row));
        for (field, found) in fields {
            if let Some(says) = says(row, *field, *found) {
                take(THREADS.row(place) + *field as usize, &|| says.clone())?;
            }
        }
    }
    Search::Continue(())
}
