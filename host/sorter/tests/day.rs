//! The day: its checks hold, and see what they are for.

use carv::{
    Backing, Board, Context, Kind, Limits, Nanoseconds, ObjectId, Refusal, Space, TICK_NS,
    ThreadId, Tick, Wait,
};
use carv_ledger::{Call, History};
use carv_picture::SHOWN;
use carv_watch::{Doing, Part, Rows, Timeline};
use sorter::picture::{self, begins};
use sorter::plan::{FIRST, PERIOD, Service};
use sorter::record::Day;
use sorter::report::{checks, report};
use sorter::{day, dayfile};

const COUNTING: usize = 0;
const PRINTER: usize = 2;
const UPLOAD: usize = 4;

/// The sorter's own day has 300 periods, and the picture begins at this tick.
const PERIODS: u64 = 300;
const LAST: u64 = FIRST + PERIODS * PERIOD - 1;
const WINDOW: u64 = 2_060;

fn run() -> Day {
    day::run(&dayfile::sorter()).expect("only the carve-out that is noted is refused")
}

fn services() -> Vec<Service> {
    dayfile::sorter().services
}

fn names() -> Vec<String> {
    let services = services().into_iter();
    services.map(|service| service.name).collect()
}

/// What a service did in each period of the day.
fn course(day: &Day, index: usize) -> Vec<Part> {
    let rows = Rows::new(&day.timeline);
    let name = &day.plan.services[index].name;
    let row = rows.rows().iter().position(|row| row.name == *name);
    let row = row.expect("each service has a row");
    let part = |period| rows.in_period(period).get(&row).copied();
    let periods = FIRST / PERIOD..FIRST / PERIOD + PERIODS;
    periods
        .map(|period| part(period).unwrap_or_default())
        .collect()
}

#[test]
fn every_check_holds() {
    for check in checks(&run()) {
        assert!(check.holds, "{}", check.claim);
    }
}

/// Shares once more, ms by ms: at most one service runs in each, and none above its share.
#[test]
fn shares() {
    let day = run();
    let services = services();
    let courses: Vec<_> = (0..services.len())
        .map(|index| course(&day, index))
        .collect();
    for period in 0..PERIODS as usize {
        for place in 0..PERIOD as usize {
            let doing = courses.iter().map(|course| course[period].doing[place]);
            let running = doing.filter(|doing| *doing == Some(Doing::Runs));
            assert!(running.count() <= 1, "period {period}, ms {place}");
        }
        for (course, service) in courses.iter().zip(&services) {
            let part = course[period];
            let (name, share) = (&service.name, service.limits.cpu_ns / TICK_NS);
            assert!(part.ms(Doing::Runs) <= share, "{name} in {period}");
            assert_eq!(
                part.got_ns,
                part.ms(Doing::Runs) * TICK_NS,
                "{name} in {period}"
            );
        }
    }
}

/// It keeps one row, though it comes back under another id.
#[test]
fn the_printer_is_off_for_a_while() {
    let day = run();
    let printer = course(&day, PRINTER);
    let doing = printer.iter().flat_map(|part| part.doing);
    for (tick, doing) in (FIRST..=LAST).zip(doing) {
        let off = doing.is_none_or(|doing| doing == Doing::Off);
        assert_eq!(off, (1_204..=1_803).contains(&tick), "tick {tick}");
    }
    let rows = Rows::new(&day.timeline);
    let seen: Vec<String> = rows.rows().iter().map(|row| row.name.clone()).collect();
    let services = names().into_iter();
    let expected: Vec<String> = services.chain(["idle".to_string()]).collect();
    assert_eq!(seen, expected);
}

/// While it overruns, upload gets the whole of its share in each period, and is held back in each.
#[test]
fn upload_overruns() {
    let upload = course(&run(), UPLOAD);
    for part in &upload[(2_100 - FIRST) as usize / 10..(2_400 - FIRST) as usize / 10] {
        assert_eq!(part.got_ns, services()[UPLOAD].limits.cpu_ns);
        assert!(part.held_back);
    }
}

#[test]
fn the_report_tells() {
    let report = report(&run());
    for name in names() {
        assert!(report.contains(&format!("\n  {name}")), "{name}");
    }
    for text in [
        "refused with 12: the payer can't cover",
        "bag printer off: thread killed",
        "bag printer on again",
        "upload overruns",
        "\n  idle ",
        "\n  all                                                         403,712    524,288\n",
        "yes  No service got more than its share in any period.",
        "yes  No period was overspent, by any budget with all below it, and the clock never fell.",
        "\n  root             10         9   from 120 ms\n",
        "\n  bag printer       1         1   from 10 ms\n",
        "\n  bag printer       1         1   from 1,800 ms\n",
        "\n  Periods are of 10 ms, counted from 0 ms.\n",
    ] {
        assert!(report.contains(text), "{text}");
    }
    assert!(!report.contains("NO"));
}

/// Shows the timeline a tick of another board, on which a budget of this share, under the name of a
/// service, has a thread that wants to run.
fn show_another(timeline: &mut Timeline, index: usize, share_ns: u64, tick: u64) {
    let (mut board, budget) = another(share_ns).expect("all is there");
    let blocked = board.block_current(Wait::Notification(0));
    blocked
        .and_then(|()| board.plan(Tick(0)).map(drop))
        .expect("thread 0 sleeps");
    show(timeline, index, (&board, budget), tick);
}

/// As [`show_another`], but thread 0 runs.
fn show_waiting(timeline: &mut Timeline, index: usize, share_ns: u64, tick: u64) {
    let (board, budget) = another(share_ns).expect("all is there");
    show(timeline, index, (&board, budget), tick);
}

fn show(timeline: &mut Timeline, index: usize, (board, budget): (&Board, ObjectId), tick: u64) {
    let mut after = board.clone();
    after.tick(Tick(tick)).expect("it is a tick");
    timeline.name(budget, &names()[index]);
    timeline.tick(timeline.before(tick, board), &after);
}

/// A board with such a budget, under an id that the day doesn't have, on which thread 0 runs.
fn another(cpu_ns: u64) -> Result<(Board, ObjectId), Refusal> {
    let mut board = Board::open(dayfile::sorter().board)?;
    for _ in 0..1_000 {
        let object = board.create(Kind::Endpoint, ObjectId::ROOT, Backing::There)?;
        board.remove(object, Nanoseconds(0))?;
    }
    let limits = Limits {
        cpu_ns,
        memory_bytes: 0,
    };
    let budget = board.create_budget(ObjectId::ROOT, limits, Nanoseconds(0))?;
    let thread = ThreadId::of(budget);
    let _image = board.create_user_thread(thread, budget, Backing::There)?;
    board.start(thread, Space::default(), Context::default())?;
    Ok((board, budget))
}

/// Each check sees a day on which what it claims doesn't hold.
#[test]
fn checks_fail() {
    let spoilers: [fn(&mut Day); 10] = [
        |day| {
            let ticks = FIRST..FIRST + PERIOD;
            ticks.for_each(|tick| show_another(&mut day.timeline, UPLOAD, TICK_NS, tick));
        },
        |day| {
            day.ledger
                .note_charge(ObjectId::ROOT.0, 1_000_001, 120_000_000)
        },
        |day| day.misbooked = 1,
        |day| day.idle_run_ticks += 1,
        |day| day.noted[PRINTER].memory = services()[PRINTER].limits.memory_bytes + 1,
        |day| day.memory_lost = 1,
        |day| {
            let ticks = FIRST..=FIRST + PERIOD;
            ticks.for_each(|tick| show_waiting(&mut day.timeline, COUNTING, TICK_NS, tick));
        },
        |day| show_another(&mut day.timeline, COUNTING, 0, FIRST + 1),
        |day| day.refused_uncleanly = 1,
        |day| day.sound = false,
    ];
    for (index, spoil) in spoilers.into_iter().enumerate() {
        let mut day = run();
        spoil(&mut day);
        let check = &checks(&day)[index];
        assert!(!check.holds, "{}", check.claim);
        assert!(report(&day).contains(&format!("NO   {}", check.claim)));
    }
}

/// The guarantee is for clocks that never fall, of refused calls too.
#[test]
fn a_clock_that_fell_is_told() {
    let mut day = run();
    let mut history = History::default();
    for (name, arguments, number, rose) in [
        ("open", &[10_000_000, 1_000][..], 0, true),
        ("refill", &[1, 10_000_000], 0, true),
        ("refill", &[9, 9_999_999], 7, false),
    ] {
        let call = Call::parse(name, arguments).expect("a call");
        history.note(1, call, number);
        day.note(&history);
        assert_eq!(day.clock_rose, rose, "{name}");
        let no = "NO   No period was overspent";
        assert_eq!(report(&day).contains(no), !rose, "{name}");
    }
}

/// Every budget is asked, in every period: here counting, by 1 ns in the last.
#[test]
fn a_service_that_overspent_is_told() {
    let mut day = run();
    let last = u128::from(LAST * TICK_NS);
    let budgets = day.ledger.budgets().collect::<Vec<_>>();
    let (id, counting) = budgets[1 + COUNTING];
    let period = last / u128::from(PERIOD * TICK_NS);
    let spent = day.ledger.spent(period, id);
    day.ledger.note_charge(id, counting.allowance - spent, last);
    assert!(report(&day).contains("yes  No period was overspent"));
    day.ledger.note_charge(id, 1, last);
    assert!(report(&day).contains("NO   No period was overspent"));
}

/// A budget that spent nothing has its row.
#[test]
fn a_budget_that_spent_nothing() {
    let mut day = run();
    day.ledger.note_budget(99, 1, 3_000_000);
    let row = "\n  no name           3         0\n";
    assert!(report(&day).contains(row), "{}", report(&day));
}

/// Each budget that was ever live, the printer's two among them, spent no more than its share; what
/// it spent at most is what it was seen to run.
#[test]
fn what_was_spent() {
    let day = run();
    let spent = day.spent();
    let budgets: Vec<String> = spent.iter().map(|spent| spent.name.to_string()).collect();
    let mut expected = vec!["root".to_string()];
    expected.extend(names());
    expected.push("bag printer".to_string());
    assert_eq!(budgets, expected);
    let rows = Rows::new(&day.timeline);
    for budget in &spent[1..] {
        let row = rows.budget(budget.name).expect("each service has a row");
        let most = budget.most.expect("each spent something");
        assert!(most.spent <= budget.allowance, "{budget:?}");
        assert_eq!(most.spent, row.total.most_ns.into(), "{budget:?}");
    }
    // The root's threads spend nothing; in its busiest period the services ran for 9 ms.
    let root = spent[0].most.expect("services spent something");
    assert_eq!((root.spent, root.period), (9_000_000, 12));
    assert_eq!(day.ledger.charged(root.period, ObjectId::ROOT.0), 0);
    assert_eq!(spent[0].allowance, day.plan.board.cpu_ns.into());
}

#[test]
fn every_day_is_the_same() {
    let (first, second) = (run(), run());
    assert_eq!(report(&first), report(&second));
    assert_eq!(first.calls, second.calls);
    let drawn = picture::draw(&first, WINDOW);
    assert_eq!(drawn, picture::draw(&second, WINDOW));
}

#[test]
fn the_picture() {
    let svg = picture::draw(&run(), WINDOW);
    assert!(svg.starts_with("<?xml") && svg.ends_with("</svg>\n"));
    for name in names() {
        let name = format!(">{name}</text>");
        assert_eq!(svg.matches(&name).count(), 2, "{name}");
    }
    assert!(svg.contains("ticks 2,060 to 2,159"));
    for event in ["camera asks", "bag printer off", "upload overruns"] {
        assert!(svg.contains(event), "{event}");
    }
    assert!(!svg.contains("set-up"));
}

/// Ten periods follow each tick that the picture may begin with, and fewer the next.
#[test]
fn what_can_be_shown() {
    let all = begins(PERIODS);
    assert_eq!(all, FIRST..=LAST - 90);
    let shown = SHOWN * PERIOD - 1;
    let begin = all.end() - all.end() % PERIOD;
    assert_eq!(begin + shown, LAST);
    // A day with no more periods than these has one place to begin.
    for periods in 1..=SHOWN {
        assert_eq!(begins(periods), FIRST..=FIRST + PERIOD - 1);
    }
}
