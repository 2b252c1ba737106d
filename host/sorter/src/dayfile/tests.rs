//! Every kind of line, good and bad.

use super::form::{FORMS, MOST_EVENTS, MOST_PHASES, MOST_SERVICES};
use super::*;
use crate::help::EXAMPLE;
use crate::plan::{Event, Expected, Jobs, Phase, Work};
use carv::{Limits, PERIOD_NS};

fn plan(text: &str) -> Plan {
    parse(text).unwrap_or_else(|mistakes| panic!("{text}\n{mistakes}"))
}

fn mistakes(text: &str) -> Mistakes {
    parse(text).expect_err(text)
}

fn limits(cpu_ns: u64, memory_bytes: u64) -> Limits {
    Limits {
        cpu_ns,
        memory_bytes,
    }
}

/// Two services for the other lines to name.
const TWO: &str = "service counting: 4 ms, 96 KiB\nservice bag printer: 1 ms, 80 KiB\n";

#[test]
fn an_empty_file_is_a_day() {
    for text in ["", "\n\n", "# nothing\n   # at all", "\u{feff}", "\r\n"] {
        let plan = plan(text);
        assert_eq!(plan.board, limits(PERIOD_NS, 512 * 1_024));
        assert_eq!((plan.periods, plan.show), (300, 10));
        assert_eq!((plan.title, plan.watched), (None, None));
        assert!(plan.services.is_empty() && plan.events.is_empty());
        assert!(!plan.first_thread_runs && plan.expected.is_empty());
    }
}

#[test]
fn the_days_that_are_kept() {
    for (name, text) in DAYS {
        let plan = plan(text);
        assert_eq!(plan.services[0].name, "counting", "{name}");
        assert_eq!(plan.watched, Some(0), "{name}");
    }
    plan(EXAMPLE);
}

#[test]
fn single_lines() {
    let text = "board 9.5 ms of every 10 ms, 1 MiB\r\nperiods 20 # few\nshow from 100 ms
        title A day: with a colon\nthread 0 never sleeps\nwatch  bag \t printer\n";
    let plan = plan(&[TWO, text].concat());
    assert_eq!(plan.board, limits(9_500_000, 1_048_576));
    assert_eq!((plan.periods, plan.show), (20, 100));
    assert_eq!(plan.title.as_deref(), Some("A day: with a colon"));
    assert!(plan.first_thread_runs);
    assert_eq!(plan.watched, Some(1));
}

/// Figures come in any order, a `:` may follow the first word.
#[test]
fn services() {
    let text =
        "service counting: 4 ms, 96 KiB, 10 frames\nservice: gate 2:off,1_000 bytes, 2.5ms\n";
    let plan = plan(text);
    let counting = &plan.services[0];
    assert_eq!(counting.name, "counting");
    assert_eq!(counting.limits, limits(4_000_000, 98_304));
    assert_eq!((counting.frames, counting.begins_on), (10, true));
    let gate = &plan.services[1];
    assert_eq!(gate.name, "gate 2");
    assert_eq!(gate.limits, limits(2_500_000, 1_000));
    assert_eq!((gate.frames, gate.begins_on), (0, false));
    assert_eq!(plan.watched, Some(0));
}

#[test]
fn work_of_the_service_above() {
    let text = "service one: 1 ms, 1 KiB
          work from 70 ms: none
          work: every 5 ms, 0 to 2 ms
          work from 30 ms: every 20 ms, 1 ms
          work from 50 ms: always
        service two: 1 ms, 1 KiB";
    let plan = plan(text);
    let jobs = |every, least, most| Work::Jobs(Jobs { every, least, most });
    let phase = |(from, work)| Phase { from, work };
    let expected = [
        (0, jobs(5, 0, 2)),
        (30, jobs(20, 1, 1)),
        (50, Work::Always),
        (70, Work::None),
    ];
    assert_eq!(plan.services[0].work, expected.map(phase));
    assert!(plan.services[1].work.is_empty());
}

/// Events are sorted by their times, those of one time stay as they stand.
#[test]
fn events() {
    let text = "at 900 ms: note a note: with a colon, and a comma
        at 500 ms: off bag printer
        at 500 ms: on counting
        at 20 ms: ask the camera: 2 ms, 64 KiB
        expect counting: never held back
        expect bag printer:  never missed\n";
    let plan = plan(&[text, TWO].concat());
    let note = "a note: with a colon, and a comma".to_string();
    let expected = [
        (
            20,
            Event::Ask("the camera".to_string(), limits(2_000_000, 65_536)),
        ),
        (500, Event::Off(1)),
        (500, Event::On(0)),
        (900, Event::Note(note)),
    ];
    assert_eq!(plan.events, expected);
    assert_eq!(plan.events_at(500).len(), 2);
    assert!(plan.events_at(501).is_empty());
    let expected = [(0, Expected::NeverHeldBack), (1, Expected::NeverMissed)];
    assert_eq!(plan.expected, expected);
}

/// Each bad line is the third of its file, and is told with the form that it should have.
#[test]
fn bad_lines() {
    for (line, form, why) in [
        ("board", "board", "is nothing"),
        ("board 10 ms", "board", "needs memory"),
        ("board 512 KiB", "board", "needs a share"),
        ("board 10.000001 ms, 1 KiB", "board", "at most 10 ms"),
        ("board 10 ms, 1 KiB, 2 frames", "board", "and nothing else"),
        ("board 10 ms, 1 KiB, off", "board", "and nothing else"),
        ("board 10 ms, 9 ms, 1 KiB", "board", "said twice"),
        ("periods", "periods", "missing"),
        ("periods many", "periods", "no whole number"),
        ("periods 0", "periods", "1 to 10,000"),
        ("periods 10001", "periods", "1 to 10,000"),
        ("periods -1", "periods", "no whole number"),
        ("periods 99999999999999999999", "periods", "too large"),
        ("show 100 ms", "show", "`from` is missing"),
        ("show from 100", "show", "no time in ms"),
        ("show from 9 ms", "show", "10 to"),
        ("show from 2920 ms", "show", "at most 2,919"),
        ("title", "title", "missing"),
        ("thread 0 sleeps", "thread", "nothing that is known"),
        ("thread 1 never sleeps", "thread", "nothing that is known"),
        ("watch", "watch", "missing"),
        ("watch the gate", "watch", "no service the gate"),
        ("watch countin", "watch", "did you mean `counting`?"),
        ("expect counting", "expect", "`:` is missing"),
        (
            "expect counting: fast",
            "expect",
            "`fast` can't be expected",
        ),
        ("expect gate: never held back", "expect", "no service gate"),
        ("service gate", "service", "`:` is missing"),
        ("service gate 4 ms, 96 KiB", "service", "`:` is missing"),
        ("service : 4 ms, 96 KiB", "service", "name is missing"),
        ("service a, b: 4 ms, 96 KiB", "service", "a comma"),
        (
            "service idle: 4 ms, 96 KiB",
            "service",
            "can't be called idle",
        ),
        ("service counting: 4 ms, 96 KiB", "service", "already"),
        ("service gate: 4 ms", "service", "needs memory"),
        ("service gate: 96 KiB", "service", "needs a share"),
        ("service gate: 4 ms, 96", "service", "has no unit"),
        (
            "service gate: 4 ms, 96 KB",
            "service",
            "did you mean `KiB`?",
        ),
        ("service gate: 4 ms, 96 KiB,", "service", "is nothing"),
        (
            "service gate: 4 ms, 96 KiB, 1001 frames",
            "service",
            "0 to 1,000",
        ),
        (
            "service gate: 4 ms, 96 KiB, off, off",
            "service",
            "said twice",
        ),
        ("service gate: -4 ms, 96 KiB", "service", "is no share"),
        ("work", "work", "`:` is missing"),
        ("work every 5 ms, 1 ms", "work", "`:` is missing"),
        ("work form 5 ms: always", "work", "no `from TIME ms`"),
        ("work from 5: always", "work", "no time in ms"),
        ("work from 1000001 ms: always", "work", "0 to 1,000,000"),
        ("work: alwas", "work", "did you mean `always`?"),
        ("work: evry 5 ms, 1 ms", "work", "did you mean `every`?"),
        ("work: every 5 ms", "work", "ms of a job are missing"),
        ("work: every 0 ms, 1 ms", "work", "1 to 1,000,000"),
        (
            "work: every 5 ms, 2 to 1 ms",
            "work",
            "smaller number comes first",
        ),
        (
            "work: every 5 ms, 0 to 1000001 ms",
            "work",
            "0 to 1,000,000",
        ),
        ("work: every 5 ms, 0.5 ms", "work", "no whole number"),
        ("at 500 ms", "at", "`:` is missing"),
        ("at noon: on counting", "at", "no time in ms"),
        ("at 9 ms: on counting", "at", "10 to"),
        (
            "at 3010 ms: on counting",
            "at",
            "behind the end of the day, which is at 3,009 ms",
        ),
        ("at 500 ms: of counting", "at", "did you mean `on`?"),
        ("at 500 ms: burn counting", "at", "nothing that happens"),
        ("at 500 ms:", "at", "nothing that happens"),
        ("at 500 ms: on", "at", "name is missing"),
        ("at 500 ms: off gate", "at", "no service gate"),
        (
            "at 500 ms: off bag printr",
            "at",
            "did you mean `bag printer`?",
        ),
        ("at 500 ms: ask camera 2 ms, 1 KiB", "at", "`:` is missing"),
        ("at 500 ms: ask camera: 2 ms", "at", "needs memory"),
        (
            "at 500 ms: ask camera: 2 ms, 1 KiB, 1 frame",
            "at",
            "and nothing else",
        ),
        ("at 500 ms: note", "at", "missing"),
    ] {
        let Mistakes { lines, count } = mistakes(&[TWO, line, "\n"].concat());
        assert_eq!((lines.len(), count), (1, 1), "{line}");
        let (number, bad) = &lines[0];
        assert_eq!(*number, 3, "{line}");
        assert!(bad.why.contains(why), "{line}: {}", bad.why);
        let form = FORMS.iter().find(|known| known.word == form);
        let form = form.map(|form| form.form);
        assert_eq!(bad.form.as_deref(), form, "{line}");
    }
}

#[test]
fn lines_of_no_known_word() {
    for (line, why) in [
        (
            "servce gate: 4 ms, 96 KiB",
            "did you mean `service NAME: SHARE ms, ",
        ),
        ("Periods 3", "did you mean `periods NUMBER`?"),
        (
            "counting 5 ms",
            "the first word is one of service, work, at, board, ",
        ),
        (": 3", "the first word is one of"),
        ("periods 3\u{1b}[2J", "control character"),
    ] {
        let mistakes = mistakes(line);
        assert_eq!(mistakes.count, 1);
        let why_not = mistakes.lines[0].1.to_string();
        assert!(why_not.contains(why), "{line}: {why_not}");
    }
}

#[test]
fn lines_that_stand_once() {
    for line in [
        "board 1 ms, 1 KiB",
        "periods 20",
        "show from 10 ms",
        "title a",
        "thread 0 never sleeps",
        "watch counting",
    ] {
        let mistakes = mistakes(&format!("{line}\n{TWO}{line}\n{line}\n"));
        let numbers: Vec<usize> = mistakes.lines.iter().map(|(number, _)| *number).collect();
        assert_eq!(numbers, [4, 5], "{line}");
        assert!(mistakes.lines[1].1.why.starts_with("line 1 begins with"));
    }
}

#[test]
fn work_without_a_service_or_twice() {
    let alone = mistakes("work: always\n");
    assert!(alone.lines[0].1.why.contains("no `service` line"));
    let twice = mistakes("service a: 1 ms, 1 KiB\nwork: always\nwork from 0 ms: none\n");
    assert_eq!(twice.lines[0].0, 3);
    assert!(twice.lines[0].1.why.contains("other work from 0 ms on"));
}

/// A service whose line is bad is known to the others: each mistake is told once.
#[test]
fn a_bad_service_is_known() {
    let text = "service gate: 4 sm, 96 KiB\n  work: always\nat 500 ms: off gate\nwatch gate\n";
    assert_eq!(mistakes(text).count, 1);
    assert_eq!(mistakes("service gate\n  work: always\n").count, 1);
}

/// Work belongs to the service right above it: that of a bad one is not the work of the one before.
#[test]
fn work_of_a_bad_service() {
    let good = "service counting: 4 ms, 96 KiB\n  work: always\n";
    for bad in [
        "service idle: 1 ms, 1 KiB",
        "service gate: 4 sm, 96 KiB",
        "service counting: 1 ms, 1 KiB",
    ] {
        let told = mistakes(&format!("{good}{bad}\n  work: always\n"));
        assert_eq!(told.count, 1, "{told}");
        assert_eq!(told.lines[0].0, 3, "{told}");
    }
}

/// All bad lines are told at once, by rising number, the first ten in full.
#[test]
fn many_bad_lines() {
    let text = ["at 500 ms: off nobody\n", "nonsense\n", "board\n"].concat();
    let told = mistakes(&text).to_string();
    let first = told.find("  line 1: there is no service nobody\n      the form is `at ");
    let second = told.find("  line 2: no line begins with `nonsense`");
    assert!(
        first < second && first.is_some() && told.contains("  line 3: "),
        "{told}"
    );
    let told = mistakes(&"nonsense\n".repeat(11)).to_string();
    assert!(told.contains("line 10: ") && told.ends_with("  and one line more\n"));
    let many = mistakes(&"x\n".repeat(100_000));
    assert!(many.to_string().ends_with("  and 99990 lines more\n"));
    assert!(many.lines.len() < 10_000);
}

#[test]
fn so_many_and_no_more() {
    let service = |number: usize| format!("service s{number}: 1 ms, 1 KiB\n");
    let services = |number: usize| (0..number).map(service).collect::<String>();
    assert_eq!(plan(&services(MOST_SERVICES)).services.len(), MOST_SERVICES);
    let why = mistakes(&services(MOST_SERVICES + 1)).lines[0]
        .1
        .to_string();
    assert!(why.contains("at most 200 services"), "{why}");

    let events = |number: usize| "at 10 ms: note a\n".repeat(number);
    assert_eq!(plan(&events(MOST_EVENTS)).events.len(), MOST_EVENTS);
    assert_eq!(mistakes(&events(MOST_EVENTS + 1)).count, 1);

    let phase = |number: usize| format!("work from {number} ms: none\n");
    let phases = |number: usize| service(0) + &(0..number).map(phase).collect::<String>();
    assert_eq!(
        plan(&phases(MOST_PHASES)).services[0].work.len(),
        MOST_PHASES
    );
    assert_eq!(mistakes(&phases(MOST_PHASES + 1)).count, 1);

    for (width, bad) in [(40, 0), (41, 1)] {
        let named = format!("service {}: 1 ms, 1 KiB\n", "ü".repeat(width));
        assert_eq!(parse(&named).map_or_else(|it| it.count, |_| 0), bad);
    }
    for (width, bad) in [(200, 0), (201, 1)] {
        let noted = format!("at 10 ms: note {}\n", "ü".repeat(width));
        assert_eq!(parse(&noted).map_or_else(|it| it.count, |_| 0), bad);
    }
}

/// Whatever a text is, it has a plan or bad lines.
#[test]
fn random_texts() {
    const PIECES: [&str; 41] = [
        "service",
        "work",
        "at",
        "board",
        "periods",
        "show from",
        "title",
        "thread 0",
        "watch",
        "expect",
        "never sleeps",
        "never held back",
        "never missed",
        "every",
        "always",
        "none",
        "from",
        " to ",
        "on",
        "off",
        "ask",
        "note",
        ":",
        ",",
        " ",
        " ",
        "\n",
        "\n",
        "#",
        "ms",
        "KiB",
        "frames",
        "of every 10 ms",
        "0",
        "5",
        "18446744073709551615",
        "18446744073709551616",
        "2.5",
        "_",
        "counting",
        "ü\u{1}\u{2028}İ",
    ];
    let mut random = 1_u64;
    let (mut plans, mut refused) = (0, 0);
    for _ in 0..100_000 {
        let mut text = String::new();
        let mut next = |below: u64| {
            random = random.wrapping_mul(6_364_136_223_846_793_005);
            random = random.wrapping_add(1_442_695_040_888_963_407);
            (random >> 33) % below
        };
        for _ in 0..next(20) {
            text.push_str(PIECES[next(PIECES.len() as u64) as usize]);
            text.push_str(&" ".repeat(next(2) as usize));
        }
        match parse(&text) {
            Ok(_) => plans += 1,
            Err(mistakes) => {
                assert!(mistakes.count > 0 && !mistakes.to_string().is_empty());
                refused += 1;
            }
        }
    }
    assert!(plans > 1_000 && refused > 1_000, "{plans} and {refused}");
}
