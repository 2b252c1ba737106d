//! Other days: what is refused stays off, and the checks hold of any day.

use carv::{Board, ObjectId, Refusal, TICK_NS};
use carv_cli::list::{Line, parse};
use carv_watch::{Doing, Kind, Rows};
use sorter::plan::{FIRST, PERIOD};
use sorter::record::Day;
use sorter::report::{About, checks, closing, report};
use sorter::{day, dayfile, help, page, picture};

/// Runs the day that this text plans. Whatever it is, what is said of the board holds, the calls leave
/// the same board, and a picture can be drawn.
fn run(text: &str) -> Day {
    let plan = dayfile::parse(text).unwrap_or_else(|mistakes| panic!("{text}\n{mistakes}"));
    let day = day::run(&plan).unwrap_or_else(|refusal| panic!("{text}\n{refusal}"));
    for check in checks(&day) {
        assert!(
            check.holds || check.about == About::Plan,
            "{text}\n{}",
            check.claim
        );
    }
    assert!(replayed(&day) == *day.board, "{text}");
    assert!(picture::draw(&day, plan.show).ends_with("</svg>\n"));
    assert!(report(&day).ends_with(&closing(&day)));
    day
}

/// The board that the day's list of calls leaves.
fn replayed(day: &Day) -> Board {
    let mut board = Board::unopened();
    for line in &day.calls {
        if let Line::Call(call) = parse(line.as_bytes()).expect("a line of a list") {
            let _ = call.make(&mut board);
        }
    }
    board
}

/// What a service got in each period, in ms.
fn got(day: &Day, name: &str) -> Vec<u64> {
    let rows = Rows::new(&day.timeline);
    let row = rows.rows().iter().position(|row| row.name == name);
    let row = row.expect("it has a row");
    let part = |period| {
        rows.in_period(period)
            .get(&row)
            .map_or(0, |part| part.got_ns)
    };
    rows.periods()
        .map(|period| part(period) / TICK_NS)
        .collect()
}

/// The text of the diary at this tick.
fn diary(day: &Day, tick: u64) -> String {
    let entries = day.diary.iter().filter(|entry| entry.tick == tick);
    let texts: Vec<&str> = entries.map(|entry| entry.text.as_str()).collect();
    texts.join("\n")
}

fn refusal(day: &Day, index: usize) -> Option<Refusal> {
    let refused = day.noted[index].refused.as_ref();
    refused.map(|(_, refused)| refused.refusal)
}

/// The root has nothing carved out and pays for nothing.
fn is_bare(day: &Day) -> bool {
    let root = day.board.account(ObjectId::ROOT).expect("it is there");
    root.cpu_reserved_ns == 0
        && root.memory_used_bytes == 0
        && root.memory_reserved_bytes == 0
        && !day
            .board
            .pays_for_anything(ObjectId::ROOT)
            .expect("it is there")
}

/// Counting has 4 ms, and gets 2 or 3 of them in each period, though it always wants more and is never
/// held back.
#[test]
fn starving() {
    let day = run(dayfile::DAYS[1].1);
    let counting = got(&day, "counting");
    assert_eq!(counting.len(), 30);
    assert!(
        counting.iter().all(|ms| [2, 3].contains(ms)),
        "{counting:?}"
    );
    assert_eq!(day.plan.services[0].limits.cpu_ns, 4 * TICK_NS);
    let rows = Rows::new(&day.timeline);
    let total = rows.budget("counting").expect("it has a row").total;
    assert_eq!(total.periods_held_back, 0);
    let first = rows.rows().iter().find(|row| row.kind == Kind::NoBudget);
    assert_eq!(first.expect("thread 0 has a row").total.ms_ran, 75);
    assert_eq!(day.first_run_ticks, 75);
    assert_eq!(day.idle_run_ticks, 0);
    let report = report(&day);
    assert!(
        report.starts_with("Counting starves\nA day in small: 30 periods"),
        "{report}"
    );
    assert!(
        report.contains("\n  thread 0       none      2.50       3\n"),
        "{report}"
    );
}

/// The table tells apart what was missed, used up and no more wanted, with the first and the worst
/// missed period.
#[test]
fn the_table_of_missed_periods() {
    let day = run(dayfile::DAYS[1].1);
    let report = report(&day);
    let (_, table) = report.split_once("wait, ms\n").expect("the table");
    let rows: Vec<Vec<&str>> = table
        .lines()
        .take(3)
        .map(|row| row.split_whitespace().collect())
        .collect();
    assert_eq!(
        rows,
        [
            ["counting", "30", "0", "0", "30", "10", "20", "2", "3"],
            ["display", "15", "15", "0", "30", "20", "20", "1", "3"],
            ["upload", "15", "15", "0", "30", "10", "10", "1", "3"],
        ]
    );
}

/// What a planner tries first: 5 ms for counting fit, 6 ms don't.
#[test]
fn counting_gets_more() {
    let own = dayfile::DAYS[0].1;
    let with = |ms: &str| {
        own.replace(
            "service counting: 4 ms",
            &format!("service counting: {ms} ms"),
        )
    };
    let day = run(&with("5"));
    assert!(day.noted.iter().all(|noted| noted.refused.is_none()));
    assert!(diary(&day, 0).ends_with("; 0 ms of every 10 ms stays with the root"));
    assert!(report(&day).contains("\n  counting          5      2.55 "));

    let day = run(&with("6"));
    let upload = 4;
    assert_eq!(refusal(&day, upload), Some(Refusal::Limit));
    assert!(!day.noted[upload].was_on);
    let diary = diary(&day, 0);
    assert!(diary.starts_with("set-up: four services carved out, one refused; 1 ms of "));
    for text in [
        "upload stays off: its budget is refused with 12: the payer can't cover",
        "Its share is 2 ms, and of every 10 ms the root has 1 ms left.",
    ] {
        assert!(diary.contains(text), "{diary}");
    }
    let report = report(&day);
    for text in [
        "\n  upload            2    off, refused with 12 at 0 ms                     81,920\n",
        "\n  At 0 ms upload stayed off: its budget was refused with 12: the payer can't cover",
        "yes  Each refused carve-out left every byte of the board.",
    ] {
        assert!(report.contains(text), "{report}");
    }
}

/// An expectation that fails is told, and is none of the board.
#[test]
fn counting_gets_less() {
    let day = run(&dayfile::DAYS[0]
        .1
        .replace("counting: 4 ms", "counting: 2 ms"));
    let failed: Vec<_> = checks(&day)
        .into_iter()
        .filter(|check| !check.holds)
        .collect();
    assert_eq!(failed.len(), 1);
    assert_eq!(failed[0].claim, "Counting was never held back.");
    assert_eq!(failed[0].about, About::Plan);
    assert!(report(&day).contains("  NO   Counting was never held back.\n"));
    assert!(
        closing(&day).starts_with("Counting: got what it wanted of its 2 ms in all 300 periods")
    );
}

#[test]
fn no_service() {
    let day = run("periods 20\n");
    assert_eq!(
        diary(&day, 0),
        "set-up: no service carved out; 10 ms of every 10 ms stays with the root"
    );
    assert_eq!(day.idle_run_ticks, 200);
    assert!(is_bare(&day));
    assert_eq!(
        closing(&day),
        "No service was planned, so there is none to tell about."
    );
    let day = run("periods 1\nthread 0 never sleeps\n");
    assert_eq!((day.idle_run_ticks, day.first_run_ticks), (0, 10));
}

/// A ms is booked when it ends: in one period all ten are, and as its share is used up at the last of
/// them, the ms that ends in the next period is idle's.
#[test]
fn one_service_with_everything() {
    let day = run("periods 20\nservice one: 10 ms, 64 KiB\nwork: always\n");
    assert_eq!(got(&day, "one"), [10, 9].repeat(10));
    assert_eq!(day.idle_run_ticks, 10);
    let report = report(&day);
    assert!(
        report.contains("\n  idle              0      0.50       1\n"),
        "{report}"
    );
}

/// Shares of more than 10 ms in all: who comes first is served.
#[test]
fn shares_above_a_period() {
    let text =
        "periods 20\nservice a: 12 ms, 64 KiB\nservice b: 7 ms, 64 KiB\nservice c: 4 ms, 64 KiB
        service d: 3 ms, 64 KiB\n";
    let day = run(text);
    let on: Vec<bool> = day.noted.iter().map(|noted| noted.was_on).collect();
    assert_eq!(on, [false, true, false, true]);
    assert!(diary(&day, 0).starts_with("set-up: two services carved out, two refused; 0 ms"));
    assert!(
        diary(&day, 0).contains("Its share is 12 ms, and of every 10 ms the root has 10 ms left.")
    );
    assert_eq!(closing(&day), "A was never on.");
}

#[test]
fn work_of_nothing() {
    for work in ["every 5 ms, 0 ms", "every 1 ms, 0 to 0 ms", "none"] {
        let text =
            format!("periods 20\nservice one: 4 ms, 64 KiB\nwork: {work}\nat 100 ms: off one\n");
        let day = run(&text);
        // It looks around once after its start.
        assert_eq!(got(&day, "one").iter().sum::<u64>(), 1, "{work}");
        assert!(
            diary(&day, 100).contains("asleep, with no work to come"),
            "{work}"
        );
        assert!(is_bare(&day));
    }
}

/// A share of nothing is carved out, and never runs.
#[test]
fn a_share_of_nothing() {
    let day =
        run("periods 20\nservice one: 0 ms, 64 KiB\nwork: always\nexpect one: never held back\n");
    assert_eq!(got(&day, "one"), [0; 20]);
    assert_eq!(
        closing(&day),
        "One: used up its 0 ms in all 20 periods, missed none."
    );
    assert!(report(&day).contains("NO   One was never held back."));
}

/// Its last ms of a period is run in full and booked in part.
#[test]
fn a_share_of_part_of_a_ms() {
    let day = run("periods 20\nservice one: 2.5 ms, 64 KiB\nwork: always\n");
    let rows = Rows::new(&day.timeline);
    let total = rows.budget("one").expect("it has a row").total;
    assert_eq!((total.ms_ran, total.got_ns), (60, 50_000_000));
    assert_eq!(total.most_ns, 2_500_000);
    let report = report(&day);
    assert!(
        report.contains("\n  one             2.5      2.50     2.5 "),
        "{report}"
    );
    assert!(report.contains("A service runs whole ms: "), "{report}");
    assert!(
        report.contains("what it was seen to run, or its share."),
        "{report}"
    );
}

/// Work that begins to be without end, and ends again.
#[test]
fn always_for_a_while() {
    let text =
        "periods 30\nservice one: 4 ms, 64 KiB\nwork from 100 ms: always\nwork from 200 ms: none\n";
    let got = got(&run(text), "one");
    assert_eq!(got[0], 1);
    assert!(got[1..9].iter().all(|ms| *ms == 0), "{got:?}");
    // Its first ms begins at 100 ms and is booked at 101 ms.
    assert!(got[9..19].iter().all(|ms| *ms == 4), "{got:?}");
    assert!(got[20..].iter().all(|ms| *ms == 0), "{got:?}");
}

/// 100 services, each with its part; a board has threads for 126.
#[test]
fn many_services() {
    let services = |number: usize| -> String {
        let service =
            |index| format!("service number {index}: 0.05 ms, 64 KiB\nwork: every 7 ms, 1 ms\n");
        (0..number).map(service).collect()
    };
    let day = run(&format!(
        "periods 30\nboard 10 ms, 16 MiB\n{}",
        services(100)
    ));
    assert!(
        day.noted
            .iter()
            .all(|noted| noted.was_on && noted.refused.is_none())
    );
    assert!(diary(&day, 0).starts_with("set-up: 100 services carved out; 5 ms of"));

    let day = run(&format!(
        "periods 5\nboard 10 ms, 16 MiB\n{}",
        services(128)
    ));
    assert_eq!(day.noted.iter().filter(|noted| noted.was_on).count(), 126);
    let (_, refused) = day.noted[127]
        .refused
        .as_ref()
        .expect("there is no thread left");
    assert_eq!(refused.refusal, Refusal::Full);
    let text = refused.text("number 127");
    assert!(
        text.starts_with("number 127 stays off: its thread is refused with 6: the table has no"),
        "{text}"
    );
    assert!(text.contains("A board has 128 threads"), "{text}");
    assert!(
        text.ends_with("Its budget and 3 objects are removed again."),
        "{text}"
    );
    assert_eq!(day.undone, 2);
}

/// Frames above the memory limit, and above the board's objects.
#[test]
fn too_many_frames() {
    let day = run("periods 5\nservice one: 4 ms, 96 KiB, 12 frames\nservice two: 4 ms, 96 KiB\n");
    assert_eq!(refusal(&day, 0), Some(Refusal::Limit));
    assert!(day.noted[1].was_on);
    let text = diary(&day, 0);
    for part in [
        "one stays off: its frame 12 is refused with 12: ",
        "Its memory limit is 98,304 bytes, and its thread, address space, endpoint and frames take 99,456.",
        "Its budget and 14 objects are removed again.",
    ] {
        assert!(text.contains(part), "{text}");
    }
    let whole = "yes  Whatever a refused switching-on had carved out and created was given back.";
    assert!(report(&day).contains(whole));

    let day = run("periods 5\nboard 10 ms, 16 MiB\nservice one: 4 ms, 4 MiB, 600 frames\n");
    assert_eq!(refusal(&day, 0), Some(Refusal::Full));
    assert!(diary(&day, 0).contains("A board has 512 objects, and one takes 604 of them."));
    assert!(is_bare(&day));
}

/// Memory above the board's, of the service and for the budget itself.
#[test]
fn too_much_memory() {
    let day = run(
        "periods 5\nservice one: 10 ms, 512 KiB\nservice two: 4 ms, 18446744073709551615 bytes\n",
    );
    assert!(is_bare(&day));
    assert_eq!(
        [0, 1].map(|index| refusal(&day, index)),
        [Some(Refusal::Limit); 2]
    );
    let text = diary(&day, 0);
    assert!(
        text.contains("Its memory limit is 524,288 bytes, and the root has 524,160 left, "),
        "{text}"
    );
    assert!(!text.contains("Its share is"), "{text}");

    let day = run("periods 5\nboard 5 ms, 100 bytes\nservice one: 4 ms, 0 bytes\n");
    assert!(
        diary(&day, 0)
            .contains("Its memory limit is 0 bytes, and the root has 0 left, beside the 128")
    );
}

/// Shares and limits that no board has, in every place.
#[test]
fn the_largest_figures() {
    let text = "periods 3
        board 0 ms, 18446744073709551615 bytes
        service one: 18446744073709.551615 ms, 18446744073709551615 bytes, 1000 frames
          work: every 1000000 ms, 0 to 1000000 ms
        service two: 0 ms, 18446744073709551000 bytes
          work: every 1 ms, 1000000 ms
        at 20 ms: ask camera: 18446744073709.551615 ms, 18446744073709551615 bytes\n";
    let day = run(text);
    assert_eq!(refusal(&day, 0), Some(Refusal::Limit));
    assert!(day.noted[1].was_on);
    assert!(
        diary(&day, 20)
            .contains("asks for 18,446,744,073,709.551615 ms of every 10 ms: refused with 12")
    );
}

/// Off twice, on while on, and several things at one ms, in the order of the file.
#[test]
fn events_that_change_nothing() {
    let text = "periods 30\nservice one: 2 ms, 64 KiB\n
        at 100 ms: on one
        at 110 ms: off one
        at 110 ms: off one
        at 110 ms: note noted\n
        at 120 ms: on one\n";
    let day = run(text);
    assert_eq!(diary(&day, 100), "one is on already");
    let text = diary(&day, 110);
    assert!(text.starts_with("one off: thread killed, asleep"), "{text}");
    assert!(text.ends_with("one is off already\nnoted"), "{text}");
    assert_eq!(diary(&day, 120), "one on again, under new ids");
}

/// Off and on at one ms: the share isn't there twice in a period, but for what the root has left.
#[test]
fn off_and_on_at_once() {
    let events = "at 103 ms: off one\nat 103 ms: on one\nat 110 ms: on one\n";
    let day = run(&format!(
        "periods 20\nservice one: 6 ms, 64 KiB\nwork: always\n{events}"
    ));
    let text = diary(&day, 103);
    for part in [
        "one stays off: its budget is refused with 12",
        "Its share is 6 ms, and in this period the root has 4 ms left",
        "Switch it on at 110 ms.",
    ] {
        assert!(text.contains(part), "{text}");
    }
    assert_eq!(diary(&day, 110), "one on again, under new ids");
    let refused = "\n  At 103 ms one stayed off: its budget was refused with 12";
    assert!(report(&day).contains(refused));

    let day = run(&format!(
        "periods 20\nservice one: 2 ms, 64 KiB\nwork: always\n{events}"
    ));
    assert!(diary(&day, 103).ends_with("one on again, under new ids"));
    // Its two budgets have a share each.
    assert_eq!(got(&day, "one")[9], 4);
    let claim = "yes  No service got more than its share in any period; with several budgets in one, than their shares.";
    assert!(report(&day).contains(claim), "{}", report(&day));
}

/// A refused carve-out renews the root if that is due, and the check says so.
#[test]
fn a_refusal_that_renews() {
    let day = run("periods 20\nservice one: 11 ms, 64 KiB, off\nat 100 ms: on one\n");
    assert_eq!((day.refused, day.refused_with_renewal), (1, 1));
    let claim =
        "yes  The refused carve-out left every byte of the board, but for a renewal that was due.";
    assert!(report(&day).contains(claim), "{}", report(&day));
}

/// The checks that only some days have see what they are for.
#[test]
fn checks_fail() {
    let refused = "periods 5\nservice one: 11 ms, 64 KiB\n";
    let undone = "periods 5\nservice one: 1 ms, 1 KiB\n";
    let starving = dayfile::DAYS[1].1;
    let two = "periods 20\nservice one: 2 ms, 64 KiB\nwork: always\nat 103 ms: off one\nat 103 ms: on one\n";
    type Spoiler<'a> = (&'a str, &'a str, fn(&mut Day));
    let spoilers: [Spoiler<'_>; 5] = [
        (refused, "The refused carve-out", |day| {
            day.refused_uncleanly = 1
        }),
        (undone, "Whatever a refused switching-on", |day| {
            day.undone_in_part = 1
        }),
        (starving, "The board's run ticks", |day| {
            day.first_run_ticks += 1
        }),
        (starving, "The board's run ticks", |day| {
            day.noted[1].run_ticks -= 1
        }),
        (two, "After every tick", |day| day.misbooked = 1),
    ];
    for (text, claim, spoil) in spoilers {
        let mut day = run(text);
        spoil(&mut day);
        let failed: Vec<_> = checks(&day)
            .into_iter()
            .filter(|check| !check.holds)
            .collect();
        assert_eq!(failed.len(), 1, "{claim}");
        assert!(failed[0].claim.starts_with(claim) && failed[0].about == About::Board);
    }
}

/// What is expected of a service that was never on doesn't hold; table, closing line and page say why.
#[test]
fn expected_of_a_service_that_stays_off() {
    for expected in ["never missed", "never held back"] {
        let text = format!(
            "periods 20\nservice big: 10 ms, 64 KiB\nservice one: 1 ms, 64 KiB\nwork: always\n\
             watch one\nexpect big: {expected}\nexpect one: {expected}\n"
        );
        let day = run(&text);
        let of_plan = checks(&day)
            .into_iter()
            .filter(|it| it.about == About::Plan);
        let holds: Vec<bool> = of_plan.map(|check| check.holds).collect();
        assert_eq!(holds, [true, false], "{expected}");
        assert_eq!(closing(&day), "One was never on.");
        let page = page::html(&day, day.plan.show);
        let (_, planned) = page
            .split_once("Did the day go as the file expects?")
            .expect("a question");
        let off = "NO</strong><span>one stayed off at 0 ms: its budget was refused with 12: ";
        assert!(planned.contains(off), "{planned}");
        assert!(planned.contains("for 2 of 3"), "{planned}");
    }
}

/// It begins off, and its row says so until it is on.
#[test]
fn a_service_that_begins_off() {
    let off = "periods 20\nservice one: 2 ms, 64 KiB, off\nwork: always\n";
    let day = run(off);
    assert!(is_bare(&day));
    assert!(diary(&day, 0).starts_with("set-up: no service carved out, one off so far; 10 ms"));
    assert!(report(&day).contains("\n  one               2    off      "));
    let day = run(&format!("{off}at 100 ms: on one\n"));
    assert_eq!(diary(&day, 100), "one on");
    let rows = Rows::new(&day.timeline);
    let row = rows.budget("one").expect("it has a row");
    assert_eq!(row.total.periods_on, 11);
    for tick in FIRST..=100 {
        assert_eq!(day.timeline.doing(ObjectId(2), tick), Some(Doing::Off));
    }
}

/// Who asks for a budget keeps it, so that others find less.
#[test]
fn asked_for_and_kept() {
    let text = "periods 20\nservice one: 8 ms, 64 KiB, off\nat 50 ms: ask camera: 3 ms, 64 KiB\nat 60 ms: on one\n";
    let day = run(text);
    assert_eq!(
        diary(&day, 50),
        "camera asks for 3 ms of every 10 ms and gets it"
    );
    assert!(diary(&day, 60).contains("of every 10 ms the root has 7 ms left"));
    assert!(report(&day).contains("\n  camera            3         0\n"));
    assert!(day.calls.iter().any(|line| line == "name 2 camera"));
}

/// Names as long as they may be have their column.
#[test]
fn long_names() {
    let long = "ü".repeat(40);
    let day = run(&format!(
        "periods 5\nservice {long}: 2 ms, 64 KiB\nservice b: 1 ms, 64 KiB\n"
    ));
    let report = report(&day);
    assert!(report.contains(&format!("\n  {long}       2 ")), "{report}");
    assert!(
        report.contains(&format!("\n  {:<41}      1 ", "b")),
        "{report}"
    );
    assert!(closing(&day).starts_with("Üüüü"));
}

/// Random days: services that fit or don't, switched on and off at random.
#[test]
fn random_days() {
    let mut random = 7_u64;
    let mut next = |below: u64| {
        random = random.wrapping_mul(6_364_136_223_846_793_005);
        random = random.wrapping_add(1_442_695_040_888_963_407);
        (random >> 33) % below
    };
    let (mut refused, mut undone, mut failed) = (0, 0, 0);
    for _ in 0..60 {
        let periods = 1 + next(30);
        let mut text = format!(
            "periods {periods}\nboard {} ms, {} KiB\n",
            5 + next(6),
            200 + next(400)
        );
        if next(3) == 0 {
            text.push_str("thread 0 never sleeps\n");
        }
        let services = 1 + next(6);
        for index in 0..services {
            let (ms, tenths) = (next(5), next(2) * next(10));
            let (kib, frames) = (50 + next(100), next(20));
            let off = if next(4) == 0 { ", off" } else { "" };
            text.push_str(&format!(
                "service s{index}: {ms}.{tenths} ms, {kib} KiB, {frames} frames{off}\n"
            ));
            for phase in 0..next(3) {
                let (from, every, least) = (phase * (1 + next(150)), 1 + next(30), next(3));
                let most = least + next(3);
                let work = match next(4) {
                    0 => "always".to_string(),
                    1 => "none".to_string(),
                    _ => format!("every {every} ms, {least} to {most} ms"),
                };
                text.push_str(&format!("work from {} ms: {work}\n", phase * 1_000 + from));
            }
        }
        for _ in 0..next(20) {
            let tick = FIRST + next(periods * PERIOD);
            let index = next(services);
            text.push_str(&match next(5) {
                0 => format!("at {tick} ms: ask camera: 1 ms, 10 KiB\n"),
                1 | 2 => format!("at {tick} ms: off s{index}\n"),
                _ => format!("at {tick} ms: on s{index}\n"),
            });
        }
        text.push_str("expect s0: never held back\n");
        let day = run(&text);
        refused += day.refused;
        undone += day.undone;
        failed += u64::from(checks(&day).iter().any(|check| !check.holds));
    }
    assert!(
        refused > 20 && undone > 20 && failed > 5,
        "{refused}, {undone}, {failed}"
    );
}

/// The README has the forms and the example of the help, which goes as planned.
#[test]
fn the_readme_tells() {
    let day = run(help::EXAMPLE);
    assert!(checks(&day).iter().all(|check| check.holds));
    assert!(
        day.noted
            .iter()
            .all(|noted| noted.was_on && noted.refused.is_none())
    );
    let readme = include_str!("../README.md");
    let plain = readme.replace("\\|", "|");
    for form in dayfile::form::FORMS {
        assert!(
            plain.contains(&format!("\n| `{}` | ", form.form)),
            "{}",
            form.form
        );
    }
    for line in help::EXAMPLE.lines() {
        assert!(readme.contains(&format!("\n    {line}\n")), "{line}");
    }
}
