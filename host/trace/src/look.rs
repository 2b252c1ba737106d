//! What is read of a board's bytes after a call: a few words of each thread.

use crate::doing::Thread;
use carv::ThreadId;
use carv_layout::area::{CURRENT, NEXT_ID, THREADS, ThreadField, word};

/// The threads, by rising id.
pub fn threads(area: &[u8]) -> impl Iterator<Item = Thread> {
    let field = |place, field: ThreadField| word(area, THREADS.row(place) + field as usize);
    (0..THREADS.length(area).unwrap_or(0)).map(move |place| Thread {
        id: ThreadId(field(place, ThreadField::Id)),
        state: field(place, ThreadField::State),
        wait: (
            field(place, ThreadField::WaitKind),
            field(place, ThreadField::WaitNumber),
        ),
        budget: (field(place, ThreadField::HasBudget) == 1)
            .then_some(field(place, ThreadField::Budget)),
    })
}

/// The current thread.
pub fn current(area: &[u8]) -> ThreadId {
    ThreadId(word(area, CURRENT))
}

/// The object that came last.
pub fn newest(area: &[u8]) -> u64 {
    word(area, NEXT_ID).wrapping_sub(1)
}
