//! Totals of a budget and all budgets below it.

use crate::{ROOT, open, refused};
use carv::{Backing, Board, Kind, Limits, Nanoseconds, ObjectId, PERIOD_NS, Refusal};

const NOBODY: ObjectId = ObjectId(77);

fn carve(board: &mut Board, parent: ObjectId, cpu_ns: u64, memory_bytes: u64) -> ObjectId {
    let limits = Limits {
        cpu_ns,
        memory_bytes,
    };
    let carved = board.create_budget(parent, limits, Nanoseconds(0));
    carved.expect("the parent covers it")
}

fn create(board: &mut Board, kind: Kind, payer: ObjectId) -> ObjectId {
    let created = board.create(kind, payer, Backing::There);
    created.expect("the payer covers it")
}

/// Memory used, memory free, CPU left.
fn totals(board: &Board, id: ObjectId) -> [u64; 3] {
    let totals = board.totals(id).expect("a budget");
    [
        totals.memory_used_bytes,
        totals.memory_free_bytes,
        totals.cpu_left_ns,
    ]
}

/// Used and free of each budget and all below it are its memory limit, and the root's totals are
/// the sums over all live budgets.
fn fit(board: &Board, live: &[ObjectId]) {
    let mut sums = [0; 3];
    for id in live {
        let account = board.account(*id).expect("a budget");
        let [used, free, left] = totals(board, *id);
        assert_eq!(used + free, account.limits.memory_bytes, "{id}");
        assert!(left <= account.limits.cpu_ns, "{id}");
        sums[0] += account.memory_used_bytes;
        sums[1] += account.memory_free_bytes();
        sums[2] += account.cpu_left_ns;
    }
    assert_eq!(totals(board, ObjectId::ROOT), sums);
}

/// A service with a budget below it and one below that, and another service beside it. Objects are
/// charged on every level.
struct Tree {
    board: Board,
    service: ObjectId,
    inner: ObjectId,
    leaf: ObjectId,
    other: ObjectId,
}

impl Tree {
    fn new() -> Self {
        let mut board = open();
        let service = carve(&mut board, ObjectId::ROOT, 5_000_000, 100_000);
        let other = carve(&mut board, ObjectId::ROOT, 1_000_000, 20_000);
        let inner = carve(&mut board, service, 2_000_000, 50_000);
        let leaf = carve(&mut board, inner, 500_000, 10_000);
        create(&mut board, Kind::Endpoint, ObjectId::ROOT);
        create(&mut board, Kind::Frame, service);
        create(&mut board, Kind::AddressSpace, inner);
        create(&mut board, Kind::Reply, leaf);
        create(&mut board, Kind::Frame, other);
        board
            .charge_cpu(leaf, 100_000, Nanoseconds(0))
            .expect("it is left");
        Self {
            board,
            service,
            inner,
            leaf,
            other,
        }
    }

    fn budgets(&self) -> [ObjectId; 5] {
        [
            ObjectId::ROOT,
            self.service,
            self.inner,
            self.leaf,
            self.other,
        ]
    }
}

#[test]
fn three_levels() {
    let tree = Tree::new();
    let used_by_leaf = 64;
    let used_by_inner = used_by_leaf + 128 + 16_384;
    let used_by_service = used_by_inner + 128 + 4_096;
    for (id, expected) in [
        (tree.leaf, [used_by_leaf, 10_000 - used_by_leaf, 400_000]),
        (
            tree.inner,
            [used_by_inner, 50_000 - used_by_inner, 1_900_000],
        ),
        (
            tree.service,
            [used_by_service, 100_000 - used_by_service, 4_900_000],
        ),
        (tree.other, [4_096, 20_000 - 4_096, 1_000_000]),
    ] {
        assert_eq!(totals(&tree.board, id), expected, "{id}");
    }
    let used = used_by_service + 4_096 + 2 * 128 + 128;
    let root = [used, ROOT.memory_bytes - used, PERIOD_NS - 100_000];
    assert_eq!(totals(&tree.board, ObjectId::ROOT), root);
    fit(&tree.board, &tree.budgets());
}

#[test]
fn an_opened_board() {
    let root = [0, ROOT.memory_bytes, PERIOD_NS];
    assert_eq!(totals(&open(), ObjectId::ROOT), root);
}

/// A removed budget is in no total any more, and what the payer doesn't get back until its next
/// renewal is in none either.
#[test]
fn removed_budgets_are_not_counted() {
    let mut tree = Tree::new();
    let [used, free, left] = totals(&tree.board, tree.service);
    let reply = ObjectId(tree.leaf.0 + 4);
    for id in [reply, tree.leaf] {
        tree.board
            .remove(id, Nanoseconds(0))
            .expect("it pays for nothing");
    }
    let expected = [used - 64 - 128, free + 64 + 128, left - 400_000];
    assert_eq!(totals(&tree.board, tree.service), expected);
    let [root, service, inner, leaf, other] = tree.budgets();
    fit(&tree.board, &[root, service, inner, other]);
    refused(&mut tree.board, Refusal::Missing, |board| {
        board.totals(leaf)
    });
}

/// CPU left is as the accounts have it, however long ago they were renewed.
#[test]
fn nothing_is_renewed() {
    let mut tree = Tree::new();
    tree.board
        .refill(tree.other, Nanoseconds(3 * PERIOD_NS))
        .expect("a budget");
    let before = tree.board.clone();
    let [.., left] = totals(&tree.board, tree.service);
    assert_eq!(left, 4_900_000);
    assert_eq!(tree.board, before);
    tree.board
        .refill(tree.leaf, Nanoseconds(3 * PERIOD_NS))
        .expect("due");
    let [.., left] = totals(&tree.board, tree.service);
    assert_eq!(left, 5_000_000);
}

#[test]
fn only_live_budgets_have_totals() {
    let mut tree = Tree::new();
    let frame = create(&mut tree.board, Kind::Frame, tree.other);
    for id in [frame, NOBODY, ObjectId(0), ObjectId(u64::MAX)] {
        refused(&mut tree.board, Refusal::Missing, |board| board.totals(id));
    }
    refused(&mut Board::unopened(), Refusal::Unsound, |board| {
        board.totals(ObjectId::ROOT)
    });
}

/// The largest limit: the sums don't wrap.
#[test]
fn as_much_as_there_is() {
    let limits = Limits {
        cpu_ns: PERIOD_NS,
        memory_bytes: u64::MAX,
    };
    let mut board = Board::open(limits).expect("a share of one period");
    let child = carve(&mut board, ObjectId::ROOT, PERIOD_NS, u64::MAX - 128);
    let inserted = board.insert(Kind::Irq, child, u64::MAX - 128);
    inserted.expect("just what is free");
    assert_eq!(totals(&board, ObjectId::ROOT), [u64::MAX, 0, PERIOD_NS]);
    assert_eq!(totals(&board, child), [u64::MAX - 128, 0, PERIOD_NS]);
}
