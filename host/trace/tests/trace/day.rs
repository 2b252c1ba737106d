//! The sorter's day: the trace says what the board says.

use crate::trace::Slice;
use crate::{Traced, traced};
use carv::{ObjectId, TICK_NS, ThreadId};
use carv_text::figures;
use carv_watch::Doing;
use sorter::record::Day;

fn day() -> (Day, Traced) {
    let day = sorter::day::run(&sorter::dayfile::sorter()).expect("the day runs");
    let traced = traced(&day.calls);
    assert_eq!(traced.board, *day.board);
    (day, traced)
}

/// The number of a thread's track.
fn tid(thread: ThreadId) -> u64 {
    match thread {
        ThreadId::FIRST => 1,
        ThreadId::IDLE => 2_147_483_647,
        ThreadId(id) => id,
    }
}

#[test]
fn running_time_is_run_ticks() {
    let (_, traced) = day();
    assert!(traced.ticks.len() >= 8, "all services, thread 0 and idle");
    for (thread, ticks) in &traced.ticks {
        let slices = traced.trace.slices.iter();
        let runs = slices.filter(|it| it.tid == tid(*thread) && it.name == "Running");
        let ns: u64 = runs.map(|slice| slice.dur_ns).sum();
        assert_eq!(ns, ticks * TICK_NS, "{thread}");
        if let Ok(record) = traced.board.read_thread(*thread) {
            assert_eq!(record.run_ticks, *ticks, "{thread}");
        }
    }
    // At each moment one thread runs.
    let runs = traced.trace.slices.iter().filter(|it| it.name == "Running");
    let mut runs: Vec<&Slice> = runs.collect();
    runs.sort_by_key(|slice| slice.from_ns);
    assert_eq!(runs[0].from_ns, 0);
    assert!(runs.windows(2).all(|two| two[0].to_ns() == two[1].from_ns));
}

#[test]
fn counters_end_with_the_accounts() {
    let (day, traced) = day();
    let mut live = 0;
    for id in day.ledger.budgets().map(|(id, _)| id) {
        let name = format!("{} (budget {id})", day.names[&id]);
        let last = |counter: &str| {
            let samples = &traced.trace.counters[&format!("{counter}: {name}")];
            samples.last().expect("a sample").clone()
        };
        let account = traced.board.account(ObjectId(id));
        live += u64::from(account.is_ok());
        let (cpu, memory) = account.map_or((0, 0), |it| (it.cpu_left_ns, it.memory_used_bytes));
        let (left, used) = (last("CPU left"), last("memory used"));
        assert_eq!((left.unit.as_str(), used.unit.as_str()), ("ms", "bytes"));
        assert_eq!(left.figure.scaled(6), cpu, "{name}");
        assert_eq!(used.figure.whole(), memory, "{name}");
    }
    assert_eq!(live, 6);
    assert_eq!(traced.trace.counters.len(), 14, "one budget was removed");
}

/// What a slice's name is in the picture's words.
fn doing(name: &str) -> Doing {
    match name {
        "Running" => Doing::Runs,
        "Ready" => Doing::Waits,
        "held back" => Doing::HeldBack,
        _ => Doing::Sleeps,
    }
}

/// In each ms each service does what the picture shows: both read the same board, each for itself.
#[test]
fn tracks_are_the_picture() {
    let (day, traced) = day();
    let ticks = day.timeline.ticks().expect("ticks");
    let mut compared = [0; 3];
    for (id, thread) in [(2, 4), (16, 18), (22, 24), (32, 34), (50, 52)] {
        let name = format!("{}: thread {thread}", day.names[&id]);
        for slice in traced.trace.track(&name) {
            let (from, to) = (slice.from_ns / TICK_NS, slice.to_ns() / TICK_NS);
            for n in (from + 1..=to).filter(|n| ticks.contains(n)) {
                let shown = day.timeline.doing(ObjectId(id), n);
                assert_eq!(shown, Some(doing(&slice.name)), "{name}, tick {n}");
                let kinds = [Doing::Runs, Doing::Waits, Doing::HeldBack];
                for (count, kind) in compared.iter_mut().zip(kinds) {
                    *count += u64::from(shown == Some(kind));
                }
            }
        }
    }
    assert!(compared.iter().all(|count| *count > 50), "{compared:?}");
}

#[test]
fn what_happened() {
    let (_, traced) = day();
    let trace = &traced.trace;
    assert_eq!((traced.refused, trace.refusals().len()), (1, 1));
    let refusal = trace.refusals()[0];
    assert_eq!(
        (refusal.at_ns, &*refusal.name),
        (500 * TICK_NS, "refused with 12")
    );
    let arg = |name| refusal.args.get(name).expect("it is there");
    assert_eq!(arg("line").whole(), 1187);
    assert!(
        arg("call")
            .text()
            .starts_with("create_budget root 2000000 ")
    );
    assert!(arg("meaning").text().starts_with("the payer can't cover"));
    for (name, count) in [
        ("board opened", 1),
        ("thread 24 killed", 1),
        ("bag printer (budget 22) removed", 1),
    ] {
        let happened = trace.happened();
        let found = happened.iter().filter(|it| **it == name).count();
        assert_eq!(found, count, "{name}");
    }
    let carved = trace
        .happened()
        .iter()
        .filter(|it| it.ends_with("carved out"))
        .count();
    assert_eq!(carved, 6);
    assert_eq!(trace.about["calls"].whole(), 6_910);
    assert_eq!(trace.about["refused"].whole(), 1);
}

#[test]
fn tracks_stand_in_order() {
    let (_, traced) = day();
    let trace = &traced.trace;
    let mut tracks: Vec<(u64, &str)> = Vec::new();
    for (tid, place) in &trace.places {
        tracks.push((*place, &trace.threads[tid]));
    }
    tracks.sort();
    let names: Vec<&str> = tracks.into_iter().map(|(_, name)| name).collect();
    assert_eq!(
        names[..4],
        [
            "events",
            "thread 0",
            "counting: thread 4",
            "reject gate: thread 18"
        ]
    );
    assert_eq!(names.last(), Some(&"idle"));
    assert_eq!(
        names
            .iter()
            .filter(|it| it.starts_with("bag printer: "))
            .count(),
        2
    );
}

/// A tick costs about 180 bytes.
#[test]
fn size() {
    let (_, traced) = day();
    let ticks: u64 = traced.ticks.values().sum();
    let bytes = traced.bytes as u64 / ticks;
    println!(
        "{} bytes, {bytes} a tick",
        figures::grouped(traced.bytes as u64)
    );
    assert!(bytes < 200, "{bytes}");
}
