//! The oracle's state as an area, and back.

use crate::area::{self, CURRENT, EXITS, NEXT_ID, OBJECTS, QUEUE, SWITCHES, THREADS, set_word};
use carv_layout::BUDGET;
use carv_oracle::{Entry, Exit, Snapshot, Thread, Wait};

/// Writes the oracle's state into an area of the right length.
///
/// # Panics
/// If there is more of anything than there are places.
pub fn write(state: &Snapshot, area: &mut [u8]) {
    set_word(area, NEXT_ID, state.next_id);
    OBJECTS.write(state.entries.iter().map(object), area);
    set_word(area, CURRENT, state.current);
    set_word(area, SWITCHES, state.switches);
    let threads = state.threads.iter().map(|thread| {
        let mut words = [thread.id; THREADS.width];
        words[1..].copy_from_slice(&thread.words());
        words
    });
    THREADS.write(threads, area);
    QUEUE.write(state.ready.iter().map(|id| [*id]), area);
    let exits = state.exits.iter().map(|exit| [exit.thread, exit.cause]);
    EXITS.write(exits, area);
}

/// The words of an object's row.
fn object(entry: &Entry) -> [u64; OBJECTS.width] {
    let mut words = [0; OBJECTS.width];
    words[..4].copy_from_slice(&[entry.id, entry.kind, entry.payer, entry.charge]);
    words[4..].copy_from_slice(&entry.account.unwrap_or_default().words());
    words
}

/// The state that an area holds; none if it has not its length or a table tells of more rows than
/// there are. Whether it is sound is not asked.
pub fn read(area: &[u8]) -> Option<Snapshot> {
    let table = area::read(area)?;
    Some(Snapshot {
        next_id: table.next_id,
        entries: table.objects.iter().map(entry).collect(),
        threads: table.threads.iter().map(thread).collect(),
        ready: table.queue,
        current: table.current,
        switches: table.switches,
        exits: table.exits.iter().map(exit).collect(),
    })
}

fn entry(row: &area::ObjectRow) -> Entry {
    Entry {
        id: row.id,
        kind: row.kind,
        payer: row.payer,
        charge: row.charge,
        account: (row.kind == BUDGET).then_some(row.account),
    }
}

fn thread(row: &area::ThreadRow) -> Thread {
    let [kind, number] = row.wait;
    let [has_budget, budget] = row.budget;
    let [has_space, space, cspace, root] = row.space;
    let of_space = |word| (has_space == 1).then_some(word);
    Thread {
        id: row.id,
        state: row.state,
        wait: (kind > 0).then_some(Wait { kind, number }),
        budget: (has_budget == 1).then_some(budget),
        space: of_space(space),
        cspace: of_space(cspace),
        root: of_space(root),
        context: row.context,
        result: row.results,
        run_ticks: row.run_ticks,
    }
}

fn exit(exit: &area::Exit) -> Exit {
    Exit {
        thread: exit.thread,
        cause: exit.cause,
    }
}

#[cfg(test)]
mod tests {
    use super::*;
    use carv_compare::board::reference::Reference;
    use carv_compare::board::walk::Walk;

    /// On random boards, without the port.
    #[test]
    fn written_and_read_back() {
        let mut walk = Walk::new(3);
        let mut board = Reference::default();
        let mut bytes = vec![0; area::BYTES];
        for _ in 0..5_000 {
            let call = walk.next_call(board.state());
            board.call(call);
            write(board.state(), &mut bytes);
            assert_eq!(read(&bytes).as_ref(), Some(board.state()), "{call}");
        }
        assert_eq!(read(&bytes[1..]), None);
    }
}
