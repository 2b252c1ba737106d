//! Bytes seen as a board, where they lie.

use super::Area;
use crate::Board;

/// These bytes as a board.
pub const fn board(area: &Area) -> &Board {
    // SAFETY: a board is these bytes and nothing else, `repr(transparent)`, and any bytes may be
    // in it: whether they are sound is for each call to ask. The reference has the same lifetime.
    unsafe { &*core::ptr::from_ref(area).cast::<Board>() }
}

/// These bytes as a board.
pub const fn board_mut(area: &mut Area) -> &mut Board {
    // SAFETY: as above, and the reference stays the only one.
    unsafe { &mut *core::ptr::from_mut(area).cast::<Board>() }
}
