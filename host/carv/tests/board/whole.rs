//! A board as a whole: opened, kept, restored, damaged, not opened.

use crate::{ROOT, open, refused};
use carv::{
    AREA_BYTES, Backing, Board, Cause, Context, Kind, Limits, Nanoseconds, ObjectId, PERIOD_NS,
    Refusal, Space, ThreadId, Tick, Wait,
};

#[test]
fn opened() {
    let mut board = open();
    assert!(board.is_sound());
    assert_eq!(board.current(), Ok(ThreadId::FIRST));
    assert_eq!(board.switches(), Ok(0));
    board.tick(Tick(1)).expect("tick 1");
    refused(&mut board, Refusal::Share, |board| {
        board.reopen(Limits {
            cpu_ns: PERIOD_NS + 1,
            ..ROOT
        })
    });
    board.reopen(ROOT).expect("a share of one period");
    assert_eq!(board, open());
}

#[test]
fn kept_and_restored() {
    let mut board = open();
    board
        .create(Kind::Frame, ObjectId::ROOT, Backing::There)
        .expect("a frame");
    let restored = Board::from_bytes(board.as_bytes()).expect("it is sound");
    assert_eq!(restored, board);
    assert_ne!(restored, open());

    let mut damaged = *board.as_bytes();
    damaged[AREA_BYTES - 1] = 1;
    assert_eq!(Board::from_bytes(&damaged), Err(Refusal::Unsound));
    assert_eq!(Board::from_bytes(&damaged[..9]), Err(Refusal::Unsound));
    assert_eq!(Board::from_bytes(&[]), Err(Refusal::Unsound));
}

/// In memory of the caller's own, whatever it held.
#[test]
fn opened_and_restored_in_place() {
    let above = Limits {
        cpu_ns: PERIOD_NS + 1,
        ..ROOT
    };
    for held in [0x00, 0xff] {
        let mut memory = [held; AREA_BYTES];
        assert_eq!(Board::restore_in(&mut memory), Err(Refusal::Unsound));
        assert_eq!(Board::open_in(&mut memory, above), Err(Refusal::Share));
        assert_eq!(memory, [held; AREA_BYTES]);

        let board = Board::open_in(&mut memory, ROOT).expect("a share of one period");
        assert_eq!(*board, open());
        board.tick(Tick(1)).expect("tick 1");
        let kept = board.clone();
        assert_eq!(Board::from_ref(&memory), &kept);
        assert_eq!(Board::from_mut(&mut memory), &kept);
        assert_eq!(Board::restore_in(&mut memory), Ok(&mut kept.clone()));
        assert_eq!(memory, *kept.as_bytes());
    }
}

/// A copy of another board's bytes; what is no sound board of the right length leaves it.
#[test]
fn restored_from_other_bytes() {
    let mut board = open();
    board.tick(Tick(1)).expect("tick 1");
    let other = open();
    let mut damaged = other.as_bytes().to_vec();
    damaged[AREA_BYTES - 1] = 1;
    let longer = [other.as_bytes(), &[0][..]].concat();
    for bytes in [&damaged[..], &longer, &longer[1..], &[]] {
        refused(&mut board, Refusal::Unsound, |board| board.restore(bytes));
    }
    assert_eq!(board.restore(&longer[..AREA_BYTES]), Ok(()));
    assert_eq!(board, other);
    let mut copy = Board::unopened();
    assert_eq!(copy.restore(other.as_ref()), Ok(()));
    copy.tick(Tick(1)).expect("tick 1");
    board.clone_from(&copy);
    assert_eq!(board, copy);
}

/// A board is its bytes and nothing else.
#[test]
fn its_bytes_alone() {
    assert_eq!(size_of::<Board>(), AREA_BYTES);
    assert_eq!(align_of::<Board>(), 1);
    let mut memory = *open().as_bytes();
    let before = memory;
    assert_eq!(<&Board>::from(&memory).as_bytes(), &before);
    let board = <&mut Board>::from(&mut memory);
    board.tick(Tick(1)).expect("tick 1");
    assert_ne!(memory, before);
}

#[test]
fn shown() {
    let shown = format!("{:?}", open());
    assert_eq!(
        shown,
        "Board { current: Ok(ThreadId(0)), switches: Ok(0), .. }"
    );
    assert_eq!(ThreadId::IDLE.to_string(), "idle");
    assert_eq!(ThreadId::of(ObjectId(7)).to_string(), "thread 7");
    assert_eq!(ObjectId::ROOT.to_string(), "object 1");
}

/// Every call on a board that was never opened.
#[test]
fn unopened() {
    const OBJECT: ObjectId = ObjectId::ROOT;
    const THREAD: ThreadId = ThreadId::FIRST;
    const NOW: Nanoseconds = Nanoseconds(0);
    type Call = fn(&mut Board) -> Result<(), Refusal>;
    let calls: [Call; 24] = [
        |board| board.create(Kind::Frame, OBJECT, Backing::There).map(drop),
        |board| board.insert(Kind::Frame, OBJECT, 0).map(drop),
        |board| board.create_budget(OBJECT, ROOT, NOW).map(drop),
        |board| board.charge_more(OBJECT, 0),
        |board| board.uncharge(OBJECT, 0),
        |board| board.remove(OBJECT, NOW),
        |board| board.refill(OBJECT, NOW).map(drop),
        |board| board.charge_cpu(OBJECT, 0, NOW),
        |board| board.pays_for_anything(OBJECT).map(drop),
        |board| board.account(OBJECT).map(drop),
        |board| board.charge_of(OBJECT).map(drop),
        |board| board.totals(OBJECT).map(drop),
        |board| {
            let image = board.create_user_thread(ThreadId(2), OBJECT, Backing::There);
            image.map(drop)
        },
        |board| board.start(THREAD, Space::default(), Context::default()),
        |board| board.block_current(Wait::Send(0)),
        |board| board.wake(THREAD, [0; 3]),
        |board| board.is_blocked_on(THREAD, Wait::Send(0)).map(drop),
        |board| board.kill(THREAD, Cause::Faulted).map(drop),
        |board| board.tick(Tick(0)),
        |board| board.plan(Tick(0)).map(drop),
        |board| board.read_thread(THREAD).map(drop),
        |board| board.current().map(drop),
        |board| board.switches().map(drop),
        |board| board.exit_of(THREAD).map(drop),
    ];
    let mut board = Board::unopened();
    assert!(!board.is_sound());
    for call in calls {
        refused(&mut board, Refusal::Unsound, call);
    }
}
