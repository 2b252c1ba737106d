//! Damage to threads, ready queue and exit log.

use super::Victim;
use crate::area::{CURRENT, EXITS, Exit, QUEUE, SWITCHES, THREADS, ThreadField as T, ThreadRow};
use carv_compare::board::IDLE;
use carv_compare::board::state::{BLOCKED, DEAD, INACTIVE, READY, RUNNING};
use carv_compare::draw::Draw;

impl Victim {
    fn any_thread(&self, draw: &mut Draw) -> usize {
        draw.random.below(self.table.threads.len() as u64) as usize
    }

    /// The first row from a random one on that is as asked, else the last of all, which is idle.
    fn thread_where(&self, draw: &mut Draw, fits: impl Fn(&ThreadRow) -> bool) -> usize {
        let from = self.any_thread(draw);
        let count = self.table.threads.len();
        let mut rows = (from..count).chain(0..from);
        let found = rows.find(|row| fits(&self.table.threads[*row]));
        found.unwrap_or(count - 1)
    }

    fn in_state(&self, draw: &mut Draw, state: u64) -> usize {
        self.thread_where(draw, |thread| thread.state == state && thread.id != IDLE)
    }

    fn current_row(&self) -> usize {
        let current = self.table.current;
        let place = self.table.threads.iter().position(|t| t.id == current);
        place.expect("the current thread is there in a sound board")
    }

    /// The id of some thread, or of none.
    fn thread_id(&self, draw: &mut Draw) -> u64 {
        let thread = self.any_thread(draw);
        let id = self.table.threads[thread].id;
        let ids = [id, id, id.wrapping_add(1), 0, IDLE, IDLE - 1, draw.number()];
        draw.random.of(&ids)
    }

    pub(super) fn thread_off_by_one(&mut self, draw: &mut Draw) {
        let row = self.any_thread(draw);
        let field = draw.random.of(&T::ALL);
        let amount = draw.random.of(&[1, u64::MAX]);
        let value = self.thread_word(field, row).wrapping_add(amount);
        self.set_thread_word(field, row, value);
    }

    pub(super) fn swap_thread_ids(&mut self, draw: &mut Draw) {
        let (one, other) = (self.any_thread(draw), self.any_thread(draw));
        let ids = [one, other].map(|row| self.thread_word(T::Id, row));
        self.set_thread_word(T::Id, one, ids[1]);
        self.set_thread_word(T::Id, other, ids[0]);
    }

    pub(super) fn repeat_thread_id(&mut self, draw: &mut Draw) {
        let row = self.any_thread(draw);
        let id = self.thread_word(T::Id, row.saturating_sub(1));
        self.set_thread_word(T::Id, row, id);
    }

    pub(super) fn wrong_state(&mut self, draw: &mut Draw) {
        let row = self.any_thread(draw);
        let state = self.thread_word(T::State, row);
        let states = [0, 1, 2, 3, 4, 5, 6, state + 256, state + (1 << 32)];
        self.set_thread_word(T::State, row, draw.random.of(&states));
    }

    pub(super) fn wrong_wait(&mut self, draw: &mut Draw) {
        let row = self.in_state(draw, BLOCKED);
        let kind = self.thread_word(T::WaitKind, row);
        let kinds = [0, 1, 5, 6, kind + 256, kind + (1 << 32), u64::MAX];
        self.set_thread_word(T::WaitKind, row, draw.random.of(&kinds));
    }

    pub(super) fn wait_without_being_blocked(&mut self, draw: &mut Draw) {
        let row = self.thread_where(draw, |thread| thread.state != BLOCKED);
        let field = draw.random.of(&[T::WaitKind, T::WaitNumber]);
        let value = draw.random.below(6);
        self.set_thread_word(field, row, value);
    }

    pub(super) fn wrong_budget(&mut self, draw: &mut Draw) {
        let row = match draw.random.below(3) {
            0 => self.table.threads.len() - 1,
            1 => 0,
            _ => self.any_thread(draw),
        };
        let budgets = [[0, 0], [0, 1], [1, 0], [1, 1], [2, 1], [1 << 32, 1]];
        let [flag, id] = draw.random.of(&budgets);
        self.set_thread_word(T::HasBudget, row, flag);
        self.set_thread_word(T::Budget, row, id);
    }

    pub(super) fn wrong_space(&mut self, draw: &mut Draw) {
        let row = self.any_thread(draw);
        if draw.random.one_in(2) {
            let flags = [0, 1, 2, 1 << 32, u64::MAX];
            self.set_thread_word(T::HasSpace, row, draw.random.of(&flags));
        }
        if draw.random.one_in(2) {
            let field = draw.random.of(&[T::Space, T::Cspace, T::Root]);
            let value = draw.random.below(3);
            self.set_thread_word(field, row, value);
        }
    }

    /// Sound if it is neither current nor idle nor in the queue.
    pub(super) fn take_thread_out(&mut self, draw: &mut Draw) {
        let row = match draw.random.below(4) {
            0 => self.current_row(),
            1 => self.in_state(draw, INACTIVE),
            2 => self.table.threads.len() - 1,
            _ => self.any_thread(draw),
        };
        self.table.threads.remove(row);
        self.write_table();
    }

    /// Sound if there is a place, the id is a new one and the state fits.
    pub(super) fn put_thread_in(&mut self, draw: &mut Draw) {
        if self.table.threads.len() == THREADS.places {
            return;
        }
        let id = self.thread_id(draw);
        let place = self.table.threads.partition_point(|row| row.id < id);
        let thread = ThreadRow {
            id,
            state: draw.random.of(&[INACTIVE, READY, RUNNING, BLOCKED, DEAD]),
            wait: draw.random.of(&[[0, 0], [5, 7]]),
            budget: draw.random.of(&[[0, 0], [1, 1]]),
            ..ThreadRow::default()
        };
        self.table.threads.insert(place, thread);
        self.write_table();
    }

    pub(super) fn wrong_current(&mut self, draw: &mut Draw) {
        let id = self.thread_id(draw);
        self.set_word(CURRENT, id);
        // So that only the new current thread can be at fault.
        let row = self.current_row();
        let left = self.table.threads[row];
        if left.state == RUNNING && left.id != IDLE {
            self.set_thread_word(T::State, row, INACTIVE);
        }
    }

    pub(super) fn wrong_current_state(&mut self, draw: &mut Draw) {
        let row = self.current_row();
        let states = [0, INACTIVE, READY, RUNNING, BLOCKED, DEAD, 6];
        let state = draw.random.of(&states);
        self.set_thread_word(T::State, row, state);
        let wait = if state == BLOCKED { [3, 9] } else { [0, 0] };
        self.set_thread_word(T::WaitKind, row, wait[0]);
        self.set_thread_word(T::WaitNumber, row, wait[1]);
    }

    pub(super) fn second_of_a_kind(&mut self, draw: &mut Draw) {
        let state = draw.random.of(&[INACTIVE, BLOCKED]);
        let row = self.in_state(draw, state);
        let state = draw.random.of(&[DEAD, RUNNING]);
        for (field, value) in [(T::State, state), (T::WaitKind, 0), (T::WaitNumber, 0)] {
            self.set_thread_word(field, row, value);
        }
    }

    pub(super) fn change_idle(&mut self, draw: &mut Draw) {
        let row = self.table.threads.len() - 1;
        match draw.random.below(4) {
            0 => self.set_thread_word(T::Id, row, IDLE - 1),
            1 => self.set_thread_word(T::HasBudget, row, 1),
            _ => {
                let states = [INACTIVE, READY, RUNNING, BLOCKED, DEAD];
                self.set_thread_word(T::State, row, draw.random.of(&states));
            }
        }
    }

    /// A Ready thread that is in no queue: one made Ready, or one taken out of the queue.
    pub(super) fn ready_out_of_queue(&mut self, draw: &mut Draw) {
        if self.table.queue.is_empty() || draw.random.one_in(2) {
            let row = self.in_state(draw, INACTIVE);
            self.set_thread_word(T::State, row, READY);
        } else {
            let place = draw.random.below(self.table.queue.len() as u64) as usize;
            self.table.queue.remove(place);
            self.write_table();
        }
    }

    /// Sound: an Inactive thread made Ready, or a Ready one Inactive.
    pub(super) fn move_state_and_queue(&mut self, draw: &mut Draw) {
        let to_ready = draw.random.one_in(2);
        let row = self.in_state(draw, if to_ready { INACTIVE } else { READY });
        let thread = &mut self.table.threads[row];
        match thread.state {
            INACTIVE => {
                thread.state = READY;
                self.table.queue.push(thread.id);
            }
            READY if thread.id != IDLE => {
                thread.state = INACTIVE;
                let id = thread.id;
                self.table.queue.retain(|queued| *queued != id);
            }
            _ => {}
        }
        self.write_table();
    }

    /// Sound: counters, results, context, the number of a wait, the budget of a thread that has
    /// one, the space of one that has one.
    pub(super) fn change_free_words(&mut self, draw: &mut Draw) {
        let value = draw.number();
        let row = self.thread_where(draw, |thread| thread.id != 0 && thread.id != IDLE);
        let thread = self.table.threads[row];
        match draw.random.below(6) {
            0 => self.set_word(SWITCHES, value),
            1 if thread.state == BLOCKED => self.set_thread_word(T::WaitNumber, row, value),
            2 if thread.budget[0] == 1 => self.set_thread_word(T::Budget, row, value),
            3 if thread.space[0] == 1 => {
                let field = draw.random.of(&[T::Space, T::Cspace, T::Root]);
                self.set_thread_word(field, row, value);
            }
            _ => {
                let field = draw.random.of(&T::ALL[T::Rip as usize..]);
                self.set_thread_word(field, row, value);
            }
        }
    }

    fn queue_place(&self, draw: &mut Draw) -> Option<usize> {
        let length = self.table.queue.len() as u64;
        (length > 0).then(|| QUEUE.row(draw.random.below(length) as usize))
    }

    pub(super) fn replace_entry(&mut self, draw: &mut Draw) {
        let id = self.thread_id(draw);
        if let Some(place) = self.queue_place(draw) {
            self.set_word(place, id);
        }
    }

    /// In place of another entry, whose thread is then no longer Ready, or behind the last.
    pub(super) fn repeat_entry(&mut self, draw: &mut Draw) {
        let (Some(one), Some(other)) = (self.queue_place(draw), self.queue_place(draw)) else {
            return;
        };
        let id = self.word(one);
        if draw.random.one_in(2) && self.table.queue.len() < QUEUE.places {
            self.table.queue.push(id);
            self.write_table();
            return;
        }
        let replaced = self.word(other);
        self.set_word(other, id);
        let row = self.thread_where(draw, |thread| thread.id == replaced);
        if one != other {
            self.set_thread_word(T::State, row, INACTIVE);
        }
    }

    pub(super) fn add_entry(&mut self, draw: &mut Draw) {
        let id = self.thread_id(draw);
        if self.table.queue.len() < QUEUE.places {
            let place = draw.random.through(self.table.queue.len() as u64) as usize;
            self.table.queue.insert(place, id);
            self.write_table();
        }
    }

    /// Sound.
    pub(super) fn swap_entries(&mut self, draw: &mut Draw) {
        if let (Some(one), Some(other)) = (self.queue_place(draw), self.queue_place(draw)) {
            let ids = [one, other].map(|place| self.word(place));
            self.set_word(one, ids[1]);
            self.set_word(other, ids[0]);
        }
    }

    pub(super) fn change_exit(&mut self, draw: &mut Draw) {
        let count = self.table.exits.len() as u64;
        if count > 0 {
            let place = EXITS.row(draw.random.below(count) as usize);
            let word = draw.random.below(2) as usize;
            let value = draw.random.of(&[0, 1, 2, 3, 1 << 32, u64::MAX]);
            self.set_word(place + word, value);
        }
    }

    /// Sound if there is a place and the cause is listed.
    pub(super) fn add_exit(&mut self, draw: &mut Draw) {
        if self.table.exits.len() < EXITS.places {
            let thread = self.thread_id(draw);
            let cause = draw.random.below(4);
            self.table.exits.push(Exit { thread, cause });
            self.write_table();
        }
    }
}
