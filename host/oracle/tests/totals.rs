//! Document 02's request P1, totals for a service and all below it, from the Rust's own accounts.

use carv_oracle::account::PERIOD;
use carv_oracle::{Board, Value};

const ROOT: u64 = 1;
const FRAME: u64 = 3;

fn id(answer: Result<Value, u8>) -> u64 {
    match answer {
        Ok(Value::Id(id)) => id,
        other => panic!("no id: {other:?}"),
    }
}

fn totals(board: &Board, id: u64) -> [u64; 3] {
    match board.totals(id) {
        Ok(Value::Totals {
            memory_used,
            memory_free,
            cpu_left,
        }) => [memory_used, memory_free, cpu_left],
        other => panic!("totals of {id}: {other:?}"),
    }
}

/// The root, a service of 6 ms with a child of 2 ms with a child of 1 ms, another service beside.
fn tree() -> (Board, [u64; 4]) {
    let mut board = Board::open(PERIOD, 1_000_000);
    let service = id(board.create_budget(ROOT, 6_000_000, 100_000, 0));
    let child = id(board.create_budget(service, 2_000_000, 50_000, 0));
    let other = id(board.create_budget(ROOT, 0, 9_000, 0));
    let leaf = id(board.create_budget(child, 1_000_000, 10_000, 0));
    id(board.create(FRAME, leaf, true));
    id(board.create(FRAME, other, true));
    assert_eq!(board.charge_cpu(child, 300_000, 0), Ok(Value::Done));
    (board, [service, child, leaf, other])
}

#[test]
fn sums_over_all_below() {
    let (board, [service, child, leaf, other]) = tree();
    assert_eq!(totals(&board, leaf), [4_096, 5_904, 1_000_000]);
    assert_eq!(totals(&board, child), [4_224, 45_776, 1_700_000]);
    assert_eq!(totals(&board, service), [4_352, 95_648, 5_700_000]);
    assert_eq!(totals(&board, other), [4_096, 4_904, 0]);
    assert_eq!(totals(&board, ROOT), [8_704, 991_296, 9_700_000]);
}

#[test]
fn nothing_is_renewed_and_removed_budgets_are_gone() {
    let (mut board, [service, child, leaf, _]) = tree();
    let before = board.snapshot();
    totals(&board, service);
    assert_eq!(board.snapshot(), before);
    assert_eq!(board.remove(leaf + 1, 0), Ok(Value::Done));
    assert_eq!(board.remove(leaf, 0), Ok(Value::Done));
    assert_eq!(totals(&board, child), [0, 50_000, 700_000]);
    assert_eq!(board.refill(child, PERIOD), Ok(Value::Yes(true)));
    assert_eq!(totals(&board, service), [128, 99_872, 6_000_000]);
    assert_eq!(board.totals(leaf), Err(7));
}

#[test]
fn other_ids_have_none() {
    let (board, [.., leaf, _]) = tree();
    for id in [0, leaf + 1, 99, u64::MAX] {
        assert_eq!(board.totals(id), Err(7), "{id}");
    }
}
