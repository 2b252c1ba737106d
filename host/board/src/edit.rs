//! Edits of the port's area, which no call makes.

use crate::area::{self, NEXT_ID, SWITCHES, THREADS, ThreadField};
use carv_compare::board::call::Edit;

/// Makes the edit in a sound area. A next id that is not raised is passed over.
///
/// # Panics
/// If the area is not sound.
pub fn apply(edit: Edit, area: &mut [u8]) {
    match edit {
        Edit::NextId(id) => {
            let id = id.max(area::word(area, NEXT_ID));
            area::set_word(area, NEXT_ID, id);
        }
        Edit::Switches(count) => area::set_word(area, SWITCHES, count),
        Edit::RunTicks(ticks) => {
            let table = area::read(area).expect("a sound area");
            let is_current = |thread: &area::ThreadRow| thread.id == table.current;
            let place = table.threads.iter().position(is_current);
            let row = THREADS.row(place.expect("the current thread is there"));
            area::set_word(area, row + ThreadField::RunTicks as usize, ticks);
        }
    }
}
