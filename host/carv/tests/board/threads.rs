//! Threads, ticks and plannings.

use crate::{open, refused};
use carv::{
    Backing, Board, Cause, Context, IMAGE_BYTES, Image, Limits, MOST_EXITS, MOST_THREADS,
    Nanoseconds, ObjectId, Planned, Refusal, Space, State, ThreadId, Tick, Wait,
};

const NOBODY: ThreadId = ThreadId(77);

const SPACE: Space = Space {
    space: 11,
    cspace: 12,
    root: 13,
};

const CONTEXT: Context = Context {
    rip: 21,
    rsp: 22,
    rflags: 23,
    rdi: 24,
    rsi: 25,
    cs: 26,
    ss: 27,
};

/// A thread on this budget, started.
fn start(board: &mut Board, id: ThreadId, budget: ObjectId) {
    let image = board.create_user_thread(id, budget, Backing::There);
    let _image = image.expect("the id is free");
    board.start(id, SPACE, CONTEXT).expect("it is Inactive");
}

/// Document 01's register image, over whatever the bytes held; those of another length stay.
#[test]
fn images() {
    let mut expected = [0; IMAGE_BYTES];
    for (place, byte) in [
        (0, 0x7f),
        (1, 0x03),
        (24, 0x80),
        (25, 0x1f),
        (28, 0xbf),
        (29, 0xff),
    ] {
        expected[place] = byte;
    }
    let image = Image::new().expect("its length is right");
    assert_eq!(image.as_bytes(), &expected);

    let mut lent = [0xa5; IMAGE_BYTES];
    assert_eq!(carv::c::carv_image(&mut lent), 0);
    assert_eq!(lent, expected);
    let mut longer = [0xa5; IMAGE_BYTES + 8];
    assert_eq!(carv::c::carv_image(&mut longer), 1);
    assert_eq!(carv::c::carv_image(&mut longer[..IMAGE_BYTES - 8]), 1);
    assert_eq!(longer, [0xa5; IMAGE_BYTES + 8]);
}

#[test]
fn create_and_start() {
    let mut board = open();
    let thread = ThreadId(5);
    let image = board.create_user_thread(thread, ObjectId::ROOT, Backing::There);
    assert_eq!(image, Image::new());
    let mut record = board.read_thread(thread).expect("it is created");
    assert_eq!(record.state, State::Inactive);
    assert_eq!(record.budget, Some(ObjectId::ROOT));
    assert_eq!((record.space, record.context), (None, Context::default()));
    assert_eq!((record.results, record.run_ticks), ([0; 3], 0));
    board.start(thread, SPACE, CONTEXT).expect("it is Inactive");
    record.state = State::Ready;
    record.space = Some(SPACE);
    record.context = CONTEXT;
    assert_eq!(board.read_thread(thread), Ok(record));

    refused(&mut board, Refusal::State, |board| {
        board.start(thread, SPACE, CONTEXT)
    });
    refused(&mut board, Refusal::Missing, |board| {
        board.start(NOBODY, SPACE, CONTEXT)
    });
    refused(&mut board, Refusal::Missing, |board| {
        board.read_thread(NOBODY)
    });
    for id in [thread, ThreadId::FIRST, ThreadId::IDLE] {
        refused(&mut board, Refusal::Id, |board| {
            board.create_user_thread(id, ObjectId::ROOT, Backing::There)
        });
    }
    refused(&mut board, Refusal::Backing, |board| {
        board.create_user_thread(NOBODY, ObjectId::ROOT, Backing::Missing)
    });
}

#[test]
fn create_until_full() {
    let mut board = open();
    for id in 1..=MOST_THREADS as u64 - 2 {
        let image = board.create_user_thread(ThreadId(id), ObjectId::ROOT, Backing::There);
        let _image = image.expect("there is a place");
    }
    refused(&mut board, Refusal::Full, |board| {
        board.create_user_thread(ThreadId(1_000), ObjectId::ROOT, Backing::There)
    });
}

#[test]
fn block_and_wake() {
    let waits = [
        Wait::Send(1),
        Wait::Recv(2),
        Wait::Reply(3),
        Wait::Notification(4),
        Wait::Sleep(Tick(5)),
    ];
    let mut board = open();
    for wait in waits {
        board.block_current(wait).expect("thread 0 runs");
        for other in waits {
            let blocked = board.is_blocked_on(ThreadId::FIRST, other);
            assert_eq!(blocked, Ok(other == wait));
        }
        let record = board.read_thread(ThreadId::FIRST).expect("thread 0");
        assert_eq!(record.state, State::Blocked(wait));
        refused(&mut board, Refusal::State, |board| {
            board.block_current(wait)
        });
        let _planned = board.plan(Tick(0)).expect("tick 0");
        refused(&mut board, Refusal::State, |board| {
            board.block_current(wait)
        });
        board
            .wake(ThreadId::FIRST, [7, 8, 9])
            .expect("it is Blocked");
        refused(&mut board, Refusal::State, |board| {
            board.wake(ThreadId::FIRST, [0; 3])
        });
        let record = board.read_thread(ThreadId::FIRST).expect("thread 0");
        assert_eq!((record.state, record.results), (State::Ready, [7, 8, 9]));
        let _planned = board.plan(Tick(0)).expect("tick 0");
    }
    refused(&mut board, Refusal::Missing, |board| {
        board.wake(NOBODY, [0; 3])
    });
    assert_eq!(board.is_blocked_on(NOBODY, Wait::Send(1)), Ok(false));
}

#[test]
fn tick_and_plan() {
    let mut board = open();
    let limits = Limits {
        cpu_ns: 1_300_000,
        memory_bytes: 0,
    };
    let budget = board
        .create_budget(ObjectId::ROOT, limits, Nanoseconds(0))
        .expect("a budget");
    let thread = ThreadId(5);
    start(&mut board, thread, budget);
    board
        .block_current(Wait::Sleep(Tick(12)))
        .expect("thread 0 runs");

    let to_thread = (ThreadId::FIRST, thread, Some(SPACE.root));
    assert_eq!(planned(&mut board, 0), Some(to_thread));
    assert_eq!(board.current(), Ok(thread));
    board.tick(Tick(1)).expect("tick 1");
    assert_eq!(
        board.account(budget).map(|account| account.cpu_left_ns),
        Ok(300_000)
    );
    assert_eq!(planned(&mut board, 1), None);
    board.tick(Tick(2)).expect("tick 2");
    assert_eq!(
        board.account(budget).map(|account| account.cpu_left_ns),
        Ok(0)
    );
    assert_eq!(planned(&mut board, 2), Some((thread, ThreadId::IDLE, None)));
    assert_eq!(
        board.read_thread(thread).map(|record| record.run_ticks),
        Ok(2)
    );

    // The budget is renewed, then thread 0 wakes.
    let to_thread = (ThreadId::IDLE, thread, Some(SPACE.root));
    assert_eq!(planned(&mut board, 10), Some(to_thread));
    board.tick(Tick(12)).expect("tick 12");
    assert_eq!(
        planned(&mut board, 12),
        Some((thread, ThreadId::FIRST, None))
    );
    assert_eq!(board.switches(), Ok(4));

    let above = Tick(Tick::LAST.0 + 1);
    refused(&mut board, Refusal::Tick, |board| board.tick(above));
    refused(&mut board, Refusal::Tick, |board| board.plan(above));
    assert_eq!(board.tick(Tick::LAST), Ok(()));
    assert!(planned(&mut board, Tick::LAST.0).is_some());
}

/// The old thread, the new one, and its root.
type Switched = (ThreadId, ThreadId, Option<u64>);

fn planned(board: &mut Board, n: u64) -> Option<Switched> {
    let Planned { switch, .. } = board.plan(Tick(n)).expect("a tick");
    switch.map(|switch| (switch.old, switch.new, switch.root))
}

#[test]
fn kill() {
    let mut board = open();
    let thread = ThreadId(5);
    start(&mut board, thread, ObjectId::ROOT);
    assert_eq!(board.exit_of(thread), Ok(None));
    assert_eq!(board.kill(thread, Cause::Destroyed), Ok(None));
    assert_eq!(board.exit_of(thread), Ok(Some(Cause::Destroyed)));
    refused(&mut board, Refusal::Missing, |board| {
        board.kill(thread, Cause::Destroyed)
    });
    refused(&mut board, Refusal::Id, |board| {
        board.kill(ThreadId::IDLE, Cause::Destroyed)
    });

    // A thread that waits, and the current one, which stays until a planning leaves it.
    board.block_current(Wait::Recv(3)).expect("thread 0 runs");
    assert_eq!(
        board.kill(ThreadId::FIRST, Cause::Faulted),
        Ok(Some(Wait::Recv(3)))
    );
    let record = board.read_thread(ThreadId::FIRST).expect("it is current");
    assert_eq!(record.state, State::Dead);
    let _planned = board.plan(Tick(0)).expect("tick 0");
    assert_eq!(board.read_thread(ThreadId::FIRST), Err(Refusal::Missing));
}

#[test]
fn the_log_forgets() {
    let mut board = open();
    for id in 1..=MOST_EXITS as u64 + 1 {
        start(&mut board, ThreadId(id), ObjectId::ROOT);
        board
            .kill(ThreadId(id), Cause::Faulted)
            .expect("it is there");
    }
    assert_eq!(board.exit_of(ThreadId(1)), Ok(None));
    assert_eq!(board.exit_of(ThreadId(2)), Ok(Some(Cause::Faulted)));
}
