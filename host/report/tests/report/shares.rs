//! What was wanted and got, against run ticks and accounts that the board answers.

use crate::run::{MS, OPEN, Run, budget, service, thread};
use carv::{ObjectId, ThreadId};
use carv_cli::answer::Answer;
use std::collections::BTreeMap;

const STARVING: &str = include_str!("../../../cli/examples/starving.calls");
const COUNTING: u64 = 2;

/// What each thread ran in each period: who is current before a tick runs in the ms that it ends.
type Ran = BTreeMap<u64, BTreeMap<u64, u64>>;

/// Makes the calls of the example, and notes who ran by what the board answers alone.
fn starving() -> (Run, Ran) {
    let mut run = Run::new();
    let mut ran = Ran::new();
    for line in STARVING.lines() {
        if let Some(n) = line.strip_prefix("tick ") {
            let period = n.parse::<u64>().expect("a tick") / 10;
            let current = run.board.current().expect("it is open").0;
            *ran.entry(current).or_default().entry(period).or_default() += 1;
        }
        assert_eq!(run.line(line), 0, "{line}");
    }
    (run, ran)
}

#[test]
fn counting_starves() {
    let (mut run, ran) = starving();
    let report = run.report();
    let counting = service(&report, "counting");
    let total = &counting.figures.total;
    assert_eq!((total.periods_judged, total.periods_missed()), (10, 10));
    let of_counting = &ran[&102];
    let whole: Vec<(u64, u64)> = (1..=10).map(|it| (it, of_counting[&it])).collect();
    let got = |pick: fn(u64, u64) -> u64| whole.iter().map(|(_, ms)| *ms).reduce(pick);
    assert_eq!(total.least_ns.map(|ns| ns / MS), got(u64::min));
    assert_eq!(Some(total.most_ns / MS), got(u64::max));
    assert_eq!(total.got_ns / MS, of_counting.values().sum::<u64>());
    // It always has work, so it misses what its 4 ms have more than it ran.
    let missed = whole.iter().map(|(period, ms)| (period * 10, 4 - ms));
    let missed: Vec<(u64, u64)> = missed.filter(|(_, ms)| *ms > 0).collect();
    let worst = missed.iter().map(|(_, ms)| *ms).max().expect("it missed");
    let first_worst = missed.iter().find(|(_, ms)| *ms == worst);
    let (first, most) = (
        counting.figures.first_missed.expect("the first"),
        counting.figures.worst_missed.expect("the worst"),
    );
    assert_eq!((first.start_ms, first.missed_ns / MS), missed[0]);
    assert_eq!(Some(&(most.start_ms, most.missed_ns / MS)), first_worst);
    assert_eq!((first.share_ns, most.share_ns), (4 * MS, 4 * MS));
    assert_eq!(first.got_ns + first.missed_ns, 4 * MS);
    assert_eq!(
        counting.answer(),
        "counting: MISSED 10 of 10 periods; first and worst from 10 ms (2 of 4 ms); longest wait 3 ms"
    );
}

/// Run ticks, accounts and the ledger say the same as the rows.
#[test]
fn rows_are_what_the_board_answers() {
    let (mut run, ran) = starving();
    let report = run.report();
    for (id, periods) in &ran {
        let record = run.board.read_thread(ThreadId(*id)).expect("it is there");
        let total = thread(&report, *id).figures.expect("it was seen").total;
        assert_eq!(total.ms_ran, record.run_ticks, "thread {id}");
        assert_eq!(total.ms_ran, periods.values().sum::<u64>(), "thread {id}");
    }
    for id in 2..=4 {
        let row = budget(&report, id);
        let account = run.board.account(ObjectId(id)).expect("it is live");
        let last = ran[&(100 + id)][&10] * MS;
        assert_eq!(row.cpu_ns - last, account.cpu_left_ns, "budget {id}");
        let most = ran[&(100 + id)].values().max().expect("it ran");
        let spent = row.spent.expect("it is known");
        assert_eq!(spent.most_ns, u128::from(most * MS), "budget {id}");
        let totals = run.board.totals(ObjectId(id)).expect("it is live");
        let end = row.totals.expect("it is live");
        assert_eq!(end.cpu_left, totals.cpu_left_ns);
        assert_eq!(end.memory_free, totals.memory_free_bytes);
        assert_eq!(row.shares_ns, Some((row.cpu_ns, row.cpu_ns)));
    }
    let idle = run.board.read_thread(ThreadId::IDLE).expect("it is there");
    assert_eq!(report.board.idle.ms_ran, idle.run_ticks);
    let all: u64 = report
        .threads
        .iter()
        .map(|it| it.figures.expect("seen").total.ms_ran)
        .sum();
    assert_eq!(all + report.board.idle.ms_ran, 109);
    assert_eq!(
        (report.board.periods, report.board.periods_partial),
        (11, 1)
    );
}

/// The root has no thread, so no wanted and got, but all else: 10 ms of which all are reserved.
#[test]
fn the_root_has_the_other_figures() {
    let (mut run, ran) = starving();
    let report = run.report();
    let root = budget(&report, 1);
    assert!(root.figures.is_none() && root.is_live);
    assert_eq!((root.cpu_ns, root.shares_ns), (10 * MS, Some((0, 0))));
    let spent = |period: &u64| {
        let of = |id: u64| ran[&id].get(period).copied().unwrap_or(0);
        u128::from((of(102) + of(103) + of(104)) * MS)
    };
    let most = (0..=10).map(|period| spent(&period)).max();
    assert_eq!(root.spent.map(|spent| spent.most_ns), most);
    assert_eq!(report.services.len(), 3, "the root is no service");
}

/// Shares that change: from the second period on a budget below it has 1 ms of counting's 4.
#[test]
fn shares_from_lowest_to_highest() {
    let mut run = Run::of(&[
        "open 10_000_000 1_000_000",
        "create_budget root 4_000_000 10_000 0",
        "name 2 counting",
        "create_user_thread 9 2 1",
        "start 9",
        "plan 0",
    ]);
    run.ticks(1..=19);
    assert_eq!(run.line("create_budget 2 1_000_000 0 20_000_000"), 0);
    assert_eq!(run.line("create_budget root 1_000_000 0 20_000_000"), 0);
    run.ticks(20..=39);
    let report = run.report();
    let shares = |id| budget(&report, id).shares_ns;
    assert_eq!(shares(COUNTING), Some((3 * MS, 4 * MS)));
    // Those of the root are seen in its account: it has no thread.
    assert_eq!(shares(1), Some((5 * MS, 6 * MS)));
    assert_eq!(shares(3), Some((MS, MS)));
    assert!(report.text().contains("3 to 4"), "{}", report.text());
}

/// An account that is read is not moved by it.
#[test]
fn readings_leave_all() {
    let (mut run, _) = starving();
    let before = format!("{:?}", run.report());
    for line in ["account 2", "totals root", "current", "read_thread 102"] {
        assert!(
            !matches!(run.answer(line), Ok(Answer::Done) | Err(_)),
            "{line}"
        );
    }
    let after = format!("{:?}", run.report());
    assert_eq!(after, before.replace("accepted: 231", "accepted: 235"));
}

/// Of a budget without a thread too the highest share in a period counts, and over all periods the
/// lowest and the highest of these.
#[test]
fn of_a_budget_without_a_thread() {
    let mut lines = vec![
        OPEN,
        "tick 1",
        "create_budget root 4_000_000 0 1_000_000",
        "tick 2",
    ];
    let root = |lines: &[&str]| budget(&Run::of(lines).report(), 1).shares_ns;
    assert_eq!(root(&lines), Some((10 * MS, 10 * MS)));
    lines.extend(["tick 10", "remove 2 10_000_000", "tick 11"]);
    assert_eq!(root(&lines), Some((10 * MS, 10 * MS)));
    lines.extend(["create_budget root 3_000_000 0 20_000_000", "tick 20"]);
    assert_eq!(root(&lines), Some((7 * MS, 10 * MS)));
}
