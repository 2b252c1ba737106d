//! The wrapper over the port's library: each method accepted and refused, each refusal, and the
//! declarations against `include/carv.h`.

mod codes;
mod conversions;
mod header;
mod library;
mod objects;
mod refusals;
mod removals;
mod threads;
mod totals;
mod whole;

use carv::{Board, Limits, PERIOD_NS, Refusal};

/// The root's limits, if not said otherwise.
const ROOT: Limits = Limits {
    cpu_ns: PERIOD_NS,
    memory_bytes: 1_000_000,
};

fn open() -> Board {
    Board::open(ROOT).expect("a share of one period")
}

/// Makes a call that must be refused with `why` and leave every byte of the board.
fn refused<T>(
    board: &mut Board,
    why: Refusal,
    call: impl FnOnce(&mut Board) -> Result<T, Refusal>,
) {
    let before = board.clone();
    assert_eq!(call(board).err(), Some(why));
    assert!(*board == before, "a refused call changed the board");
}
