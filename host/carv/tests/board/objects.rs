//! Objects and budgets.

use crate::{ROOT, open, refused};
use carv::{Backing, Kind, Limits, MOST_OBJECTS, Nanoseconds, ObjectId, PERIOD_NS, Refusal};

const START: Nanoseconds = Nanoseconds(0);

const NOBODY: ObjectId = ObjectId(77);

#[test]
fn create() {
    let mut board = open();
    for (kind, id) in [
        (Kind::AddressSpace, 2),
        (Kind::Frame, 3),
        (Kind::Endpoint, 4),
        (Kind::Notification, 5),
        (Kind::Reply, 6),
    ] {
        let object = board.create(kind, ObjectId::ROOT, Backing::There);
        assert_eq!(object, Ok(ObjectId(id)));
        let charge = board.charge_of(ObjectId(id)).expect("an object");
        assert_eq!((charge.payer, charge.bytes), (ObjectId::ROOT, kind.bytes()));
    }
    for kind in [Kind::Thread, Kind::Budget, Kind::Irq, Kind::IrqControl] {
        refused(&mut board, Refusal::Kind, |board| {
            board.create(kind, ObjectId::ROOT, Backing::There)
        });
    }
    for (why, kind, payer, backing) in [
        (
            Refusal::Backing,
            Kind::Frame,
            ObjectId::ROOT,
            Backing::Missing,
        ),
        (Refusal::Missing, Kind::Frame, NOBODY, Backing::There),
        (Refusal::Missing, Kind::Frame, ObjectId(2), Backing::There),
    ] {
        refused(&mut board, why, |board| board.create(kind, payer, backing));
    }
}

#[test]
fn insert_until_full() {
    let mut board = open();
    refused(&mut board, Refusal::Code, |board| {
        board.insert(Kind::Budget, ObjectId::ROOT, 0)
    });
    refused(&mut board, Refusal::Missing, |board| {
        board.insert(Kind::Irq, NOBODY, 0)
    });
    refused(&mut board, Refusal::Limit, |board| {
        board.insert(Kind::Irq, ObjectId::ROOT, ROOT.memory_bytes + 1)
    });
    for id in 2..=MOST_OBJECTS as u64 {
        let object = board.insert(Kind::Irq, ObjectId::ROOT, 1);
        assert_eq!(object, Ok(ObjectId(id)));
    }
    refused(&mut board, Refusal::Full, |board| {
        board.insert(Kind::Irq, ObjectId::ROOT, 0)
    });
}

/// Document 01's marked cases on a carve-out.
#[test]
fn budgets() {
    let mut board = open();
    board
        .create(Kind::Frame, ObjectId::ROOT, Backing::There)
        .expect("a frame");
    let limits = Limits {
        cpu_ns: 4_000_000,
        memory_bytes: 8_192,
    };
    let budget = board
        .create_budget(ObjectId::ROOT, limits, START)
        .expect("a budget");
    assert_eq!(budget, ObjectId(3));
    let root = board.account(ObjectId::ROOT).expect("the root");
    assert_eq!((root.limits, root.period_start), (ROOT, START));
    assert_eq!(
        (root.cpu_left_ns, root.cpu_reserved_ns),
        (6_000_000, 4_000_000)
    );
    assert_eq!(
        (root.memory_used_bytes, root.memory_reserved_bytes),
        (4_224, 8_192)
    );
    assert_eq!(root.memory_free_bytes(), 1_000_000 - 4_224 - 8_192);
    assert_eq!(root.cpu_left_at(Nanoseconds(PERIOD_NS - 1)), 6_000_000);
    let mut used = board.clone();
    used.charge_cpu(ObjectId::ROOT, 6_000_000, START)
        .expect("all that is left");
    let used = used.account(ObjectId::ROOT).expect("the root");
    let times = [PERIOD_NS - 1, PERIOD_NS].map(Nanoseconds);
    assert_eq!(times.map(|time| used.cpu_left_at(time)), [0, 6_000_000]);
    refused(&mut board, Refusal::Limit, |board| {
        let above = Limits {
            cpu_ns: 6_000_001,
            memory_bytes: 0,
        };
        board.create_budget(ObjectId::ROOT, above, START)
    });
    refused(&mut board, Refusal::Missing, |board| {
        board.create_budget(ObjectId(2), limits, START)
    });

    let frames = [(); 2].map(|()| {
        board
            .create(Kind::Frame, budget, Backing::There)
            .expect("a frame")
    });
    refused(&mut board, Refusal::Limit, |board| {
        board.create(Kind::Endpoint, budget, Backing::There)
    });
    assert_eq!(board.pays_for_anything(budget), Ok(true));
    refused(&mut board, Refusal::Pays, |board| {
        board.remove(budget, START)
    });
    for frame in frames {
        board.remove(frame, START).expect("a frame goes");
    }
    assert_eq!(board.pays_for_anything(budget), Ok(false));
    board.remove(budget, START).expect("nothing is paid for");
    let root = board.account(ObjectId::ROOT).expect("the root");
    assert_eq!((root.cpu_left_ns, root.cpu_reserved_ns), (6_000_000, 0));
    assert_eq!(root.cpu_left_at(Nanoseconds(PERIOD_NS)), PERIOD_NS);
}

#[test]
fn charges() {
    let mut board = open();
    let frame = board
        .create(Kind::Frame, ObjectId::ROOT, Backing::There)
        .expect("a frame");
    board.charge_more(frame, 904).expect("there is room");
    assert_eq!(board.charge_of(frame).map(|charge| charge.bytes), Ok(5_000));
    board.uncharge(frame, 4_000).expect("it was charged");
    assert_eq!(board.charge_of(frame).map(|charge| charge.bytes), Ok(1_000));
    refused(&mut board, Refusal::Charge, |board| {
        board.uncharge(frame, 1_001)
    });
    refused(&mut board, Refusal::Limit, |board| {
        board.charge_more(frame, 999_001)
    });
    refused(&mut board, Refusal::Missing, |board| {
        board.charge_more(NOBODY, 0)
    });
    refused(&mut board, Refusal::Missing, |board| {
        board.uncharge(NOBODY, 0)
    });
    refused(&mut board, Refusal::Missing, |board| {
        board.charge_of(NOBODY)
    });
}

#[test]
fn cpu_time() {
    let mut board = open();
    board
        .charge_cpu(ObjectId::ROOT, 9_000_000, START)
        .expect("it is left");
    refused(&mut board, Refusal::Limit, |board| {
        board.charge_cpu(ObjectId::ROOT, 1_000_001, Nanoseconds(9_999_999))
    });
    assert_eq!(
        board.refill(ObjectId::ROOT, Nanoseconds(9_999_999)),
        Ok(false)
    );
    assert_eq!(
        board.refill(ObjectId::ROOT, Nanoseconds(25_000_000)),
        Ok(true)
    );
    let root = board.account(ObjectId::ROOT).expect("the root");
    assert_eq!(
        (root.period_start, root.cpu_left_ns),
        (Nanoseconds(20_000_000), PERIOD_NS)
    );
    refused(&mut board, Refusal::Missing, |board| {
        board.refill(NOBODY, START)
    });
    refused(&mut board, Refusal::Missing, |board| {
        board.charge_cpu(NOBODY, 0, START)
    });
    refused(&mut board, Refusal::Missing, |board| board.account(NOBODY));
}

/// A refused charge of CPU time, and a refused carve-out, keep the renewal that was due.
#[test]
fn refused_with_a_renewal() {
    let mut board = open();
    board
        .charge_cpu(ObjectId::ROOT, PERIOD_NS, START)
        .expect("it is left");
    let above = Limits {
        cpu_ns: PERIOD_NS + 1,
        memory_bytes: 0,
    };
    let carved = board.create_budget(ObjectId::ROOT, above, Nanoseconds(10_000_000));
    assert_eq!(carved, Err(Refusal::Limit));
    let root = board.account(ObjectId::ROOT).expect("the root");
    assert_eq!(
        (root.period_start, root.cpu_left_ns),
        (Nanoseconds(10_000_000), PERIOD_NS)
    );

    let charged = board.charge_cpu(ObjectId::ROOT, PERIOD_NS + 1, Nanoseconds(20_000_000));
    assert_eq!(charged, Err(Refusal::Limit));
    let root = board.account(ObjectId::ROOT).expect("the root");
    assert_eq!(root.period_start, Nanoseconds(20_000_000));
}
