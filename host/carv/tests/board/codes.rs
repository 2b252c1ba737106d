//! Calls with a kind, wait or cause by its number: listed ones as the typed calls, others refused.

use crate::{open, refused};
use carv::{Backing, Board, Cause, Kind, ObjectId, Refusal, ThreadId, Wait};

/// Numbers that no list of kinds, waits or causes has.
const UNLISTED: [u64; 3] = [0, 10, u64::MAX];

fn each_call(board: &mut Board, code: u64, why: Refusal) {
    let root = ObjectId::ROOT;
    refused(board, why, |board| {
        board.create_by_code(code, root, Backing::There)
    });
    refused(board, why, |board| board.insert_by_code(code, root, 1));
    refused(board, why, |board| board.block_current_by_code((code, 1)));
    refused(board, why, |board| {
        board.is_blocked_on_by_code(ThreadId::FIRST, (code, 1))
    });
    refused(board, why, |board| {
        board.kill_by_code(ThreadId::FIRST, code)
    });
}

#[test]
fn unlisted_numbers_are_refused_by_the_board() {
    for code in UNLISTED {
        each_call(&mut open(), code, Refusal::Code);
        each_call(&mut Board::unopened(), code, Refusal::Unsound);
    }
    let mut board = open();
    refused(&mut board, Refusal::Code, |board| {
        board.kill_by_code(ThreadId::IDLE, 3)
    });
    refused(&mut board, Refusal::Code, |board| {
        board.insert_by_code(Kind::Budget.code(), ObjectId(99), 1)
    });
}

#[test]
fn listed_numbers_are_as_the_typed_calls() {
    let (mut typed, mut coded) = (open(), open());
    let (kind, root) = (Kind::Endpoint, ObjectId::ROOT);
    let made = typed.create(kind, root, Backing::There);
    assert_eq!(
        coded.create_by_code(kind.code(), root, Backing::There),
        made
    );
    let made = typed.insert(kind, root, 7);
    assert_eq!(coded.insert_by_code(kind.code(), root, 7), made);
    let wait = Wait::Recv(5);
    assert_eq!(typed.block_current(wait), Ok(()));
    assert_eq!(coded.block_current_by_code(wait.codes()), Ok(()));
    let first = ThreadId::FIRST;
    assert_eq!(coded.is_blocked_on_by_code(first, wait.codes()), Ok(true));
    let ended = typed.kill(first, Cause::Faulted);
    assert_eq!(ended, Ok(Some(wait)));
    assert_eq!(coded.kill_by_code(first, Cause::Faulted.code()), ended);
    assert!(typed == coded);
}
