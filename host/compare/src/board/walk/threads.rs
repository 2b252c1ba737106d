//! Calls on threads, ready queue and exit log.

use super::Walk;
use crate::board::call::Call;
use crate::board::state::{BLOCKED, INACTIVE};
use crate::board::{IDLE, SLEEP, TICK};
use crate::state;
use carv_oracle::{Entry, Snapshot, Thread, Wait};

/// `UserContext::new(0, 0)` has these flags.
const FLAGS: u64 = 0x202;

impl Walk {
    pub(super) fn create_user_thread(&mut self, state: &Snapshot) -> Call {
        Call::CreateUserThread {
            id: self.new_thread(state),
            budget: self.budget_of_thread(state),
            stack: !self.draw.random.one_in(16),
        }
    }

    pub(super) fn start(&mut self, state: &Snapshot) -> Call {
        let words: [u64; 10] = match self.draw.random.below(4) {
            0 => [0, 0, 0, 0, 0, FLAGS, 0, 0, 0, 0],
            _ => std::array::from_fn(|_| self.draw.number()),
        };
        let [space, cspace, root, context @ ..] = words;
        Call::Start {
            id: self.thread_in(state, INACTIVE),
            space,
            cspace,
            root,
            context,
        }
    }

    pub(super) fn block_current(&mut self, state: &Snapshot) -> Call {
        let Wait { kind, number } = self.wait(state);
        Call::BlockCurrent { kind, number }
    }

    pub(super) fn wake(&mut self, state: &Snapshot) -> Call {
        let results = match self.draw.random.below(4) {
            0 => [0; 3],
            _ => std::array::from_fn(|_| self.draw.number()),
        };
        let id = self.thread_in(state, BLOCKED);
        Call::Wake { id, results }
    }

    /// The wait of the thread, or one that is a little different.
    pub(super) fn is_blocked_on(&mut self, state: &Snapshot) -> Call {
        let id = self.thread_in(state, BLOCKED);
        let wait = state::thread(state, id).and_then(|thread| thread.wait);
        let mut wait = wait.unwrap_or_else(|| self.wait(state));
        match self.draw.random.below(6) {
            0 => wait.kind = self.wait_kind(),
            1 => wait.number = self.draw.beside(wait.number),
            2 => wait = self.wait(state),
            _ => {}
        }
        let Wait { kind, number } = wait;
        Call::IsBlockedOn { id, kind, number }
    }

    pub(super) fn kill(&mut self, state: &Snapshot) -> Call {
        let cause = match self.draw.random.below(32) {
            0 => self.draw.random.of(&[0, 3, 1 << 32, u64::MAX]),
            _ => self.draw.random.below(2) + 1,
        };
        let id = self.thread(state);
        Call::Kill { id, cause }
    }

    pub(super) fn exit_of(&mut self, state: &Snapshot) -> Call {
        let exits = &state.exits;
        let id = match self.draw.random.below(4) {
            0 => self.thread(state),
            _ if exits.is_empty() => self.draw.number(),
            _ => exits[self.draw.random.below(exits.len() as u64) as usize].thread,
        };
        Call::ExitOf { id }
    }

    /// A wait, often a sleep of a few ticks.
    fn wait(&mut self, state: &Snapshot) -> Wait {
        let kind = self.wait_kind();
        let now = self.clock / TICK;
        let number = match self.draw.random.below(16) {
            0 => self.draw.number(),
            1 => now.saturating_sub(self.draw.within(4)),
            _ if kind == SLEEP => now.saturating_add(self.draw.within(12)),
            2..8 => self.thread(state),
            _ => self.object(state),
        };
        Wait { kind, number }
    }

    fn wait_kind(&mut self) -> u64 {
        match self.draw.random.below(32) {
            0 => self.draw.random.of(&[0, 6, 1 << 32, u64::MAX]),
            1..16 => self.draw.random.below(5) + 1,
            _ => SLEEP,
        }
    }

    /// An id, mostly of a live thread.
    pub(super) fn thread(&mut self, state: &Snapshot) -> u64 {
        let threads = &state.threads;
        match self.draw.random.below(32) {
            0 => self.draw.random.of(&[0, 1, IDLE - 1, IDLE, 1 << 63]),
            1 => self.draw.number(),
            2 => self.draw.beside(state.current),
            3..6 => state.current,
            6..9 => state.ready.first().copied().unwrap_or(0),
            _ => threads[self.draw.random.below(threads.len() as u64) as usize].id,
        }
    }

    /// An id, mostly of a thread in this state.
    fn thread_in(&mut self, state: &Snapshot, wanted: u64) -> u64 {
        if self.draw.random.one_in(12) {
            return self.thread(state);
        }
        let from = self.draw.random.below(state.threads.len() as u64) as usize;
        let (before, after) = state.threads.split_at(from);
        let is_wanted = |thread: &&Thread| thread.state == wanted;
        let found = after.iter().chain(before).find(is_wanted);
        found.map_or_else(|| self.thread(state), |thread| thread.id)
    }

    /// An id, mostly of no thread yet: behind another, that of an object, or anywhere.
    fn new_thread(&mut self, state: &Snapshot) -> u64 {
        match self.draw.random.below(32) {
            0 => self.draw.random.of(&[0, IDLE]),
            1 => self.thread(state),
            2 => self.draw.random.of(&[1, IDLE - 1]),
            3..6 => self.object(state),
            6..16 => self.draw.random.word(),
            _ => {
                let other = self.thread(state);
                let mut behind = (1..).map(|step| other.wrapping_add(step));
                let is_free = |id: &u64| state::thread(state, *id).is_none();
                behind.find(is_free).unwrap_or(other)
            }
        }
    }

    /// A budget for a thread, mostly one that has CPU time in each period.
    fn budget_of_thread(&mut self, state: &Snapshot) -> u64 {
        let from = self.draw.random.below(state.entries.len() as u64) as usize;
        let (before, after) = state.entries.split_at(from);
        let is_fed = |entry: &&Entry| {
            let account = entry.account.unwrap_or_default();
            account.cpu_allowance > account.cpu_reserved
        };
        match self.draw.random.below(16) {
            0 => self.draw.number(),
            1 => self.object(state),
            2..6 => self.budget(state),
            _ => {
                let found = after.iter().chain(before).find(is_fed);
                found.map_or(1, |entry| entry.id)
            }
        }
    }
}
