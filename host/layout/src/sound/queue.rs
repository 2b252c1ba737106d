//! The rules of ready queue and exit log.

use super::threads::{name, rows, thread};
use super::{Rule, Search, misses, rule_of};
use crate::IDLE;
use crate::area::{EXITS, Exit, QUEUE, THREADS, ThreadField as Field, ThreadRow};
use crate::state::READY;

pub(super) const QUEUE_RULES: [Rule; 3] = [
    rule_of(&[QUEUE], "queue ids are distinct", |t, take| {
        let mut ids = t.queue.clone();
        ids.sort_unstable();
        if ids.windows(2).all(|two| two[0] != two[1]) {
            return Search::Continue(());
        }
        for (place, id) in t.queue.iter().enumerate() {
            if let Some(first) = t.queue[..place].iter().position(|other| other == id) {
                take(QUEUE.row(place), &|| {
                    let name = name(*id);
                    format!("{name} is in the queue at places {first} and {place}")
                })?;
            }
        }
        Search::Continue(())
    }),
    rule_of(
        &[QUEUE, THREADS],
        "queue ids are Ready threads other than idle",
        |t, take| {
            let is_ready = |id| thread(t, id).is_some_and(|row| row.state == READY);
            let fits = |id: &u64| *id != IDLE && is_ready(*id);
            let says = |id: &u64| {
                let why = match thread(t, *id) {
                    _ if *id == IDLE => "may not be there".to_string(),
                    None => "has no record".to_string(),
                    Some(row) => format!("has state {}, not {READY}", row.state),
                };
                format!("{} in the queue {why}", name(*id))
            };
            misses(&QUEUE, &t.queue, 0, fits, says, take)
        },
    ),
    rule_of(
        &[QUEUE, THREADS],
        "Ready threads other than idle are in the queue",
        |t, take| {
            let queued = |row: &ThreadRow| row.id == IDLE || t.queue.contains(&row.id);
            let fits = |row: &ThreadRow| row.state != READY || queued(row);
            let says = |row: &ThreadRow| format!("{} is Ready and not in the queue", name(row.id));
            rows(t, Field::State, fits, says, take)
        },
    ),
];

pub(super) const EXIT_RULES: [Rule; 1] = [rule_of(&[EXITS], "every cause is listed", |t, take| {
    let is_listed = |exit: &Exit| (1..=2).contains(&exit.cause);
    let says = |exit: &Exit| {
        let (name, cause) = (name(exit.thread), exit.cause);
        format!("cause of the end of {name} is {cause}, listed are 1 and 2")
    };
    misses(&EXITS, &t.exits, 1, is_listed, says, take)
})];
