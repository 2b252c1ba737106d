//! Each call on a full board: 512 objects; idle and 127 threads, which run on the root budget.

use super::boards::thread_id;
use super::case::{Case, Turn, accepted, accepted_by_rust, turn};
use super::filled::{CROWD, Filled};
use super::registry::Rows;
use super::{Ids, Line};
use crate::port::Port;
use carv_compare::board::make::*;
use carv_compare::board::rust::on_rust;
use carv_compare::board::{EXITS, OBJECTS, THREADS};
use carv_oracle::Board;

/// A wait that no tick ends.
const WAIT: (u64, u64) = (2, 9);

/// Times every call. `told` gets each line as soon as it is measured.
pub fn calls(mut told: impl FnMut(Line)) {
    let rows = Rows {
        board: board(),
        ids: Ids::Dense,
        filled: |free| crowded(OBJECTS - free),
    };
    rows.tell(&mut told);
    for line in [
        create_user_thread,
        start_thread,
        block_wake_plan,
        wake_thread,
        is_blocked_on,
        kill_thread,
        tick_alone,
        plan_alone,
        read_thread,
        current,
        switches,
        exit,
        image,
    ] {
        told(line());
    }
}

pub fn board() -> String {
    format!("{OBJECTS} objects, {THREADS} threads")
}

fn crowded(objects: usize) -> Filled {
    Filled::new(objects, Ids::Dense).crowded()
}

fn full() -> Filled {
    crowded(OBJECTS)
}

/// One call.
fn case(name: &'static str) -> Case {
    Case {
        board: board(),
        ids: Ids::Dense,
        name,
        parts: 1.0,
        questions: 1.0,
    }
}

/// Into a table that has places for a batch, between the threads that are there.
fn create_user_thread() -> Line {
    let mut filled = full();
    let id = filled.in_batch();
    for place in 0..super::case::BATCH {
        filled.boards.make(kill(id(place), 1));
    }
    case("create_user_thread").batches(
        filled.boards,
        turn!(|place| new_thread(id(place), 1)),
        turn!(|place| kill(id(place), 1)),
    )
}

fn start_thread() -> Line {
    let mut filled = full();
    let id = filled.in_batch();
    for place in 0..super::case::BATCH {
        filled.boards.make(kill(id(place), 1));
        filled.boards.make(new_thread(id(place), 1));
    }
    case("start").batches(
        filled.boards,
        turn!(|place| start(id(place))),
        turn!(|place| kill(id(place), 1), new_thread(id(place), 1)),
    )
}

/// Only a planning makes another thread current, which can block next: the time is that of all
/// three. The threads take turns in the order of the queue.
fn block_wake_plan() -> Line {
    let case = Case {
        questions: 3.0,
        ..case("block_current, wake, plan")
    };
    let current = |turn| thread_id(turn % CROWD, Ids::Dense);
    case.turns(
        full().boards,
        turn!(|turn| block(WAIT.0, WAIT.1), wake(current(turn)), plan(0)),
    )
}

/// All threads are blocked; those that were woken run and block again.
fn wake_thread() -> Line {
    let filled = full().blocked(WAIT.0, WAIT.1);
    let id = filled.in_batch();
    case("wake").batches(
        filled.boards,
        turn!(|place| wake(id(place))),
        turn!(|_| plan(0), block(WAIT.0, WAIT.1)),
    )
}

fn is_blocked_on() -> Line {
    let boards = full().blocked(WAIT.0, WAIT.1).boards;
    let id = thread_id(CROWD / 2, Ids::Dense);
    case("is_blocked_on").turns(boards, turn!(|_| blocked_on(id, WAIT.0, WAIT.1)))
}

/// Ready threads, so that each goes out of the queue as well.
fn kill_thread() -> Line {
    let filled = full();
    let id = filled.in_batch();
    case("kill").batches(
        filled.boards,
        turn!(|place| kill(id(place), 1)),
        turn!(|place| new_thread(id(place), 1), start(id(place))),
    )
}

fn tick_alone() -> Line {
    case("tick").turns(full().boards, turn!(|turn| tick(turn)))
}

fn plan_alone() -> Line {
    case("plan").turns(full().boards, turn!(|turn| plan(turn)))
}

fn read_thread() -> Line {
    let id = thread_id(CROWD / 2, Ids::Dense);
    case("read_thread").turns(full().boards, turn!(|_| thread(id)))
}

fn current() -> Line {
    case("current").turns(full().boards, turn!(|_| CURRENT))
}

fn switches() -> Line {
    case("switches").turns(full().boards, turn!(|_| SWITCHES))
}

/// The newest of a full log.
fn exit() -> Line {
    let mut boards = full().boards;
    let ids = (0..EXITS as u64).map(|place| thread_id(CROWD - 1 - place, Ids::Dense));
    ids.clone().for_each(|id| {
        boards.make(kill(id, 1));
    });
    for id in ids {
        boards.make(new_thread(id, 1));
    }
    let newest = thread_id(CROWD - EXITS as u64, Ids::Dense);
    case("exit_of").turns(boards, turn!(|_| exit_of(newest)))
}

/// The register image of a new thread, which has nothing to do with the board.
fn image() -> Line {
    let case = Case {
        questions: 0.0,
        ..case("image")
    };
    let turn = Turn {
        port: |port: &mut Port, _| accepted(port.fill_image()),
        rust: |_: &mut Board, _| accepted_by_rust(&Ok(Board::new_image())),
    };
    case.turns(full().boards, turn)
}
