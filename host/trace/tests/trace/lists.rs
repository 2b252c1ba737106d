//! Small lists: states, counters, names and instants.

use crate::trace::Trace;
use crate::{Run, traced, traced_from};
use carv::{Board, Limits, ThreadId};

/// Two services: budgets 2 and 3, threads 7 and 8, both Ready; thread 0 waits.
const SERVICES: [&str; 9] = [
    "open 10_000_000 1_000_000",
    "create_budget root 4_000_000 65_536 0",
    "create_budget root 2_000_000 40_000 0",
    "name 2 counting",
    "create_user_thread 7 2 1",
    "create_user_thread 8 3 1",
    "start 7",
    "start 8",
    "block_current notification 1",
];

fn services(rest: &[&str]) -> Trace {
    traced(&[&SERVICES[..], rest].concat()).trace
}

#[test]
fn states_of_threads() {
    let trace = services(&[
        "plan 0",
        "tick 1",
        "plan 1",
        "tick 2",
        "plan 2",
        "tick 3",
        "plan 3",
        "tick 4",
        "plan 4",
        "block_current sleep 9",
        "plan 4",
        "tick 5",
        "tick 10",
        "plan 10",
        "kill 7 faulted",
        "tick 11",
        "plan 11",
        "tick 12",
    ]);
    assert_eq!(trace.told("thread 0"), ["Blocked: notification 0-12"]);
    assert_eq!(
        trace.told("counting: thread 7"),
        [
            "Running 0-1",
            "Ready 1-2",
            "Running 2-3",
            "Ready 3-4",
            "Blocked: sleep 4-10"
        ]
    );
    assert_eq!(
        trace.told("budget 3: thread 8"),
        [
            "Ready 0-1",
            "Running 1-2",
            "Ready 2-3",
            "Running 3-4",
            "held back 4-10",
            "Running 10-12"
        ]
    );
    assert_eq!(trace.told("idle"), ["Running 4-10"]);
    let sleep = &trace.track("counting: thread 7")[4];
    let until = sleep.args.as_ref().and_then(|args| args.get("until_tick"));
    assert_eq!(until.map(|it| it.whole()), Some(9));
    let waits = &trace.track("thread 0")[0];
    let number = waits.args.as_ref().and_then(|args| args.get("number"));
    assert_eq!(number.map(|it| it.whole()), Some(1));
}

/// A thread has the processor until a planning, whatever became of it.
#[test]
fn still_current() {
    let trace = services(&[
        "tick 1",
        "plan 1",
        "block_current recv 3",
        "tick 2",
        "wake 7 0 0 0",
        "tick 3",
        "plan 3",
        "kill 8 destroyed",
        "tick 4",
        "plan 4",
        "tick 5",
        "create_user_thread 9 77 1",
        "tick 6",
        "start 9",
        "tick 7",
    ]);
    assert_eq!(
        trace.told("thread 0"),
        [
            "Blocked: notification, still current 0-1",
            "Blocked: notification 1-7"
        ]
    );
    assert_eq!(
        trace.told("counting: thread 7"),
        [
            "Ready 0-1",
            "Blocked: recv, still current 1-2",
            "Ready, still current 2-3",
            "Ready 3-4",
            "Running 4-7"
        ]
    );
    assert_eq!(
        trace.told("budget 3: thread 8"),
        ["Ready 0-3", "Dead, still current 3-4"]
    );
    assert_eq!(
        trace.told("budget 77: thread 9"),
        ["Inactive 5-6", "held back: its budget is gone 6-7"]
    );
}

#[test]
fn counters() {
    let trace = services(&[
        "plan 0",
        "tick 1",
        "create frame 2 1",
        "plan 1",
        "tick 2",
        "tick 3",
        "kill 8 faulted",
        "remove 3 3_500_001",
        "tick 10",
    ]);
    assert_eq!(
        trace.samples("CPU left: counting (budget 2)"),
        ["4 at 0", "3 at 1"]
    );
    assert_eq!(
        trace.samples("memory used: counting (budget 2)"),
        ["0 at 0", "4096 at 1"]
    );
    assert_eq!(
        trace.samples("CPU left: budget 3"),
        ["2 at 0", "1 at 2", "0 at 3"]
    );
    assert_eq!(trace.samples("memory used: budget 3"), ["0 at 0"]);
    assert_eq!(
        trace.samples("memory used: root (budget 1)"),
        ["256 at 0", "128 at 3.500001"]
    );
    let removed = trace
        .instants
        .iter()
        .find(|it| it.name == "budget 3 removed");
    assert_eq!(removed.map(|it| it.at_ns), Some(3_500_001));
}

/// What the program tells stands at the clock's time, as the list has it.
#[test]
fn what_is_told() {
    let mut file = Vec::new();
    let mut run = Run::new(&mut file, Board::unopened());
    for line in ["open 10_000_000 1_000", "tick 3"] {
        run.line(line);
    }
    let told = run.tracer.tell(3, "the rush \"begins\"");
    told.expect("memory takes it");
    run.line("tick 4");
    run.finish();
    let trace = Trace::read(str::from_utf8(&file).expect("UTF-8"));
    assert_eq!(trace.happened(), ["board opened", "the rush \"begins\""]);
    let told = trace.instants.last().expect("what was told");
    assert_eq!(told.at_ns, 3_000_000);
    assert_eq!(told.args.get("line").map(|line| line.whole()), Some(3));
}

/// A CPU charge that is refused with 12 may renew, and its time counts; another refusal's doesn't.
#[test]
fn refused_calls() {
    let run = traced(&[
        "account 1",
        "open 10_000_000 1_000",
        "tick 18446744073710",
        "charge_cpu root 4_000_000 1_000_000",
        "remove 9 5_000_000",
        "charge_cpu root 90_000_000 20_000_000",
        "tick 21",
    ]);
    let trace = run.trace;
    assert_eq!((run.refused, trace.refusals().len()), (4, 4));
    let told: Vec<_> = trace
        .refusals()
        .iter()
        .map(|it| {
            (
                &*it.name,
                it.at_ns,
                it.args.get("line").map(|it| it.whole()),
            )
        })
        .collect();
    assert_eq!(
        told,
        [
            ("refused with 1", 0, Some(1)),
            ("refused with 3", 0, Some(3)),
            ("refused with 7", 1_000_000, Some(5)),
            ("refused with 12", 20_000_000, Some(6)),
        ]
    );
    assert_eq!(
        trace.samples("CPU left: root (budget 1)"),
        ["10 at 0", "6 at 1", "10 at 20"]
    );
}

/// Names are told as they are, whatever they hold; the threads have the last one.
#[test]
fn names() {
    let name = "Zähl\"werk\" \\ 硬币 😀 <&>";
    let trace = services(&["name 3 printer", &format!("name 3 {name}"), "tick 1"]);
    assert_eq!(trace.told(&format!("{name}: thread 8")), ["Ready 0-1"]);
    assert_eq!(
        trace.samples(&format!("CPU left: {name} (budget 3)")),
        ["2 at 0"]
    );
}

/// A name that comes after the first sample: the counters go on under it.
#[test]
fn late_names() {
    let trace = services(&[
        "plan 0",
        "tick 1",
        "tick 2",
        "name 3 printer",
        "tick 3",
        "tick 4",
    ]);
    assert_eq!(trace.told("printer: thread 8"), ["Ready 0-4"]);
    assert_eq!(trace.samples("CPU left: budget 3"), ["2 at 0", "0 at 2"]);
    assert_eq!(trace.samples("CPU left: printer (budget 3)"), ["2 at 2"]);
    let again = services(&["tick 1", "name 2 counting", "tick 2"]);
    assert_eq!(again.samples("CPU left: counting (budget 2)"), ["4 at 0"]);
}

/// An id that is given again, on another budget and on the same one.
#[test]
fn thread_ids_come_again() {
    let trace = services(&[
        "tick 1",
        "kill 8 destroyed",
        "create_user_thread 8 2 1",
        "tick 2",
        "kill 8 destroyed",
        "tick 3",
        "create_user_thread 8 3 1",
        "tick 4",
    ]);
    assert_eq!(
        trace.told("budget 3: thread 8"),
        ["Ready 0-1", "Inactive 3-4"]
    );
    assert_eq!(trace.told("counting: thread 8"), ["Inactive 1-2"]);
    assert_eq!(trace.tid("budget 3: thread 8"), 8);
}

/// What lasts no time is not drawn, but told.
#[test]
fn nothing_lasts_no_time() {
    let trace = services(&["create_user_thread 5 2 1", "kill 5 faulted", "tick 1"]);
    assert_eq!(trace.told("counting: thread 7"), ["Ready 0-1"]);
    let happened = trace.happened();
    assert!(happened.ends_with(&["thread 5 created", "thread 5 killed"]));
    let mut calls = trace
        .instants
        .iter()
        .map(|it| it.args.get("call").expect("a call").text());
    assert_eq!(calls.next_back(), Some("kill 5 faulted"));
}

/// Threads and budgets that come and go at one time have no slices and no samples.
#[test]
fn many_come_and_go_at_one_time() {
    let mut list = SERVICES.map(str::to_string).to_vec();
    for id in 10..510 {
        list.push(format!("create_user_thread {id} 2 1"));
        list.push(format!("kill {id} destroyed"));
        let budget = id - 6;
        list.push("create_budget root 1 1 0".to_string());
        list.push(format!("remove {budget} 0"));
    }
    list.push("tick 1".to_string());
    let run = traced(&list);
    assert_eq!(run.refused, 0);
    assert_eq!(run.trace.told("counting: thread 7"), ["Ready 0-1"]);
    assert_eq!(run.trace.slices.len(), 3);
    assert_eq!(run.trace.counters.len(), 6);
}

/// A board that was kept: what it is like, from the latest period of its budgets on.
#[test]
fn a_kept_board() {
    let kept = traced(&[&SERVICES[..], &["tick 1", "plan 1", "tick 20", "tick 21"]].concat());
    let trace = traced_from(kept.board, &["name 2 counting", "tick 22", "plan 22"]).trace;
    assert_eq!(trace.told("counting: thread 7"), ["Running 20-22"]);
    assert_eq!(
        trace.samples("CPU left: counting (budget 2)"),
        ["2 at 20", "1 at 22"]
    );
}

/// A trace that is left before its end, and one in which nothing was.
#[test]
fn a_run_that_ends_early() {
    let mut file = Vec::new();
    let mut run = Run::new(&mut file, Board::unopened());
    for text in [&SERVICES[..], &["plan 0", "tick 1", "tick 2"]].concat() {
        run.line(text);
    }
    drop(run);
    let trace = Trace::read(str::from_utf8(&file).expect("UTF-8"));
    assert_eq!(trace.told("counting: thread 7"), ["Running 0-2"]);
    let nothing = traced(&[""]).trace;
    assert!(nothing.slices.is_empty() && nothing.counters.is_empty());
}

/// A writer that fails: the tracer says so.
#[test]
fn a_full_disk() {
    struct Full;
    impl std::io::Write for Full {
        fn write(&mut self, _: &[u8]) -> std::io::Result<usize> {
            Err(std::io::ErrorKind::StorageFull.into())
        }
        fn flush(&mut self) -> std::io::Result<()> {
            Ok(())
        }
    }
    let limits = Limits {
        cpu_ns: 10_000_000,
        memory_bytes: 1,
    };
    let board = Board::open(limits).expect("a whole period");
    let tracer = carv_trace::Tracer::new(Full, &board).expect("it is buffered");
    let why = tracer.finish().expect_err("nothing was written");
    assert_eq!(why.kind(), std::io::ErrorKind::StorageFull);
    assert_eq!(board.current(), Ok(ThreadId::FIRST));
}
