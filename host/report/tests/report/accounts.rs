//! Renewals and memory, against accounts and totals that the board answers after every call.

use crate::run::{MS, OPEN, Run, budget};
use carv::ObjectId;
use std::collections::BTreeMap;

/// What the board answers of a budget over all calls.
#[derive(Debug, Default)]
struct Noted {
    start_ns: Option<u64>,
    renewals: u64,
    memory: u64,
    memory_below: u64,
}

/// Makes calls, asks for every account and all totals after each, and compares in the end.
fn compare(lines: &[String]) -> BTreeMap<u64, (u64, u64, u64)> {
    let mut run = Run::new();
    let mut noted: BTreeMap<u64, Noted> = BTreeMap::new();
    for line in lines {
        run.line(line);
        for id in 1..=lines.len() as u64 {
            let Ok(account) = run.board.account(ObjectId(id)) else {
                continue;
            };
            let totals = run.board.totals(ObjectId(id)).expect("it is live");
            let noted = noted.entry(id).or_default();
            let moved = noted
                .start_ns
                .is_some_and(|it| it != account.period_start.0);
            noted.renewals += u64::from(moved);
            noted.start_ns = Some(account.period_start.0);
            noted.memory = noted.memory.max(account.memory_used_bytes);
            noted.memory_below = noted.memory_below.max(totals.memory_used_bytes);
        }
    }
    let report = run.report();
    assert_eq!(report.budgets.len(), noted.len());
    for (id, noted) in &noted {
        let row = budget(&report, *id);
        assert_eq!(row.renewals, noted.renewals, "renewals of {id}");
        assert_eq!(row.memory.most, noted.memory, "memory of {id}");
        assert_eq!(row.memory.most_below, noted.memory_below, "below {id}");
        assert_eq!(
            row.is_live,
            run.board.account(ObjectId(*id)).is_ok(),
            "{id} is live"
        );
        assert_eq!(row.totals.is_some(), row.is_live, "totals of {id}");
    }
    let rows = report.budgets.iter();
    let rows = rows.map(|row| {
        let memory = &row.memory;
        (row.id.0, (row.renewals, memory.most, memory.most_below))
    });
    rows.collect()
}

/// Two levels of budgets; each kind of call that renews, and those that charge and credit memory.
#[test]
fn each_call_that_moves_an_account() {
    let lines = [
        OPEN,
        "create_budget root 5_000_000 100_000 0",
        "create_budget 2 2_000_000 50_000 0",
        "insert irq 3 1_000",
        "charge_more 4 500",
        "insert irq 2 700",
        "uncharge 4 1_200",
        "create frame 3 1",
        "refill 3 10_000_000",
        "refill 3 10_000_001",
        "charge_cpu 2 1_000 20_000_000",
        // Refused with 12, and yet its parent is renewed.
        "create_budget 2 5_000_000 0 30_000_000",
        "create_budget 2 1_000_000 128 40_000_000",
        "create_user_thread 70 3 1",
        "start 70",
        "plan 41",
        "block_current notification 1",
        "plan 51",
        "tick 62",
        "remove 6 70_000_000",
        "remove 4 70_000_000",
        // The removed budget's payer is renewed.
        "remove 7 80_000_000",
        "kill 70 destroyed",
        "remove 3 90_000_000",
        "insert irq root 900_000",
    ];
    let found = compare(&lines.map(str::to_string));
    // Those that stand in the comments above, counted by hand.
    assert_eq!(found[&2].0, 5, "at 20, 30, 40, 80 and 90 ms");
    assert_eq!(found[&3].1, 1_000 + 500 - 1_200 + 4_096);
    assert!(found.len() >= 4, "{found:?}");
}

/// Each renewal counts, also where only calls of one kind follow each other.
#[test]
fn renewals_in_a_row() {
    let begin = [
        OPEN,
        "create_budget root 5_000_000 100_000 0",
        "create_user_thread 70 2 1",
        "start 70",
        "plan 0",
    ];
    for (call, is_in_ms, of, renewals) in [
        ("refill 2 N", false, 2, 6),
        ("charge_cpu 2 1 N", false, 2, 6),
        ("charge_cpu 2 6_000_000 N", false, 2, 6),
        ("create_budget root 6_000_000 0 N", false, 1, 6),
        ("remove 3 N", false, 1, 6),
        ("tick N", true, 2, 6),
        // Every other one plans thread 0, which has no budget.
        ("plan N", true, 2, 3),
    ] {
        let mut lines: Vec<String> = begin.map(str::to_string).into();
        if call.starts_with("remove") {
            lines.extend((0..6).map(|_| "create_budget root 1 0 0".to_string()));
        }
        for period in 1..=6 {
            let ms = period * 10;
            let time = if is_in_ms { ms } else { ms * MS };
            let call = call.replace("remove 3", &format!("remove {}", 2 + period));
            lines.push(call.replace('N', &time.to_string()));
        }
        assert_eq!(compare(&lines)[&of].0, renewals, "{call}");
    }
}

/// A list of calls that no one wrote, with budgets that come and go.
#[test]
fn random_calls() {
    let mut state = 0x2545_f491_4f6c_dd1d_u64;
    let mut random = |below: u64| {
        state ^= state << 13;
        state ^= state >> 7;
        state ^= state << 17;
        state % below
    };
    let mut lines = vec![OPEN.to_string()];
    for step in 1..600 {
        let (id, time) = (1 + random(12), step * MS);
        lines.push(match random(10) {
            0 | 1 => format!(
                "create_budget {id} {} {} {time}",
                random(2 * MS),
                random(20_000)
            ),
            2 | 3 => format!("insert irq {id} {}", random(3_000)),
            4 => format!("charge_more {id} {}", random(900)),
            5 => format!("uncharge {id} {}", random(900)),
            6 => format!("remove {} {time}", 1 + random(step)),
            7 => format!("charge_cpu {id} {} {time}", random(MS)),
            8 => format!("refill {id} {time}"),
            _ => format!("create endpoint {id} 1"),
        });
    }
    let found = compare(&lines);
    assert!(found.len() > 3, "{found:?}");
    assert!(found.values().any(|(renewals, ..)| *renewals > 5));
}
