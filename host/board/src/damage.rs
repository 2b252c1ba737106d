//! Ways to damage the area of a sound board. Some leave it sound: [`crate::sound`] decides.

mod registry;
mod threads;

use crate::area::{
    self, BYTES, EXITS, OBJECTS, ObjectField, PARTS, Part, QUEUE, THREADS, Table, ThreadField,
    WORDS,
};
use carv_compare::draw::Draw;

/// A sound area with what it says, to be damaged.
pub struct Victim {
    /// The area.
    pub area: Vec<u8>,
    table: Table,
}

/// One way to damage an area.
pub struct Damage {
    /// What it does.
    pub name: &'static str,
    /// Does it.
    pub apply: fn(&mut Victim, &mut Draw),
}

macro_rules! damages {
    ($($name:literal => $apply:path,)*) => {
        &[$(Damage { name: $name, apply: $apply }),*]
    };
}

/// All ways to damage an area.
pub const ALL: &[Damage] = damages![
    "a bit flipped" => Victim::flip_bit,
    "a byte changed" => Victim::change_byte,
    "a word replaced" => Victim::replace_word,
    "a wrong length" => Victim::wrong_length,
    "a wrong number of rows" => Victim::wrong_count,
    "something past the last row" => Victim::fill_past_rows,
    "noise" => Victim::noise,
    "objects: a figure off by one" => Victim::off_by_one,
    "objects: two ids swapped" => Victim::swap_ids,
    "objects: two rows swapped" => Victim::swap_rows,
    "objects: an id given twice" => Victim::repeat_id,
    "objects: a wrong kind" => Victim::wrong_kind,
    "objects: a wrong payer" => Victim::wrong_payer,
    "objects: two charges that wrap" => Victim::wrapping_charges,
    "objects: two limits that wrap" => Victim::wrapping_limits,
    "objects: use and reservation that wrap" => Victim::wrapping_use,
    "objects: CPU left and reserved that wrap" => Victim::wrapping_cpu,
    "objects: an account without a budget" => Victim::account_without_budget,
    "objects: a next id too low" => Victim::low_next_id,
    "objects: charge and use moved together" => Victim::move_charge_and_use,
    "objects: limit and reservation moved" => Victim::move_limit_and_reservation,
    "objects: an allowance around the period" => Victim::allowance_around_period,
    "objects: a limit around what is used" => Victim::limit_around_use,
    "objects: the root changed" => Victim::change_root,
    "objects: a row taken out" => Victim::take_object_out,
    "objects: figures that may change" => Victim::change_free_figures,
    "threads: a word off by one" => Victim::thread_off_by_one,
    "threads: two ids swapped" => Victim::swap_thread_ids,
    "threads: an id given twice" => Victim::repeat_thread_id,
    "threads: a wrong state" => Victim::wrong_state,
    "threads: a wrong wait" => Victim::wrong_wait,
    "threads: a wait without being Blocked" => Victim::wait_without_being_blocked,
    "threads: a wrong budget" => Victim::wrong_budget,
    "threads: a wrong space" => Victim::wrong_space,
    "threads: a row taken out" => Victim::take_thread_out,
    "threads: a row put in" => Victim::put_thread_in,
    "threads: another current thread" => Victim::wrong_current,
    "threads: the current thread's state" => Victim::wrong_current_state,
    "threads: a second one Dead or Running" => Victim::second_of_a_kind,
    "threads: idle changed" => Victim::change_idle,
    "threads: Ready, out of the queue" => Victim::ready_out_of_queue,
    "threads: state and queue moved together" => Victim::move_state_and_queue,
    "threads: words that may change" => Victim::change_free_words,
    "queue: an entry replaced" => Victim::replace_entry,
    "queue: an entry given twice" => Victim::repeat_entry,
    "queue: an entry added" => Victim::add_entry,
    "queue: two entries swapped" => Victim::swap_entries,
    "exits: an exit changed" => Victim::change_exit,
    "exits: an exit added" => Victim::add_exit,
];

impl Victim {
    /// A sound area.
    ///
    /// # Panics
    /// If it can't be read.
    pub fn new(area: Vec<u8>) -> Self {
        let table = area::read(&area).expect("a sound area");
        Self { area, table }
    }

    fn rows(&self, part: &Part) -> usize {
        part.length(&self.area).expect("a sound area")
    }

    fn word(&self, place: usize) -> u64 {
        area::word(&self.area, place)
    }

    fn set_word(&mut self, place: usize, value: u64) {
        area::set_word(&mut self.area, place, value);
    }

    fn add(&mut self, field: ObjectField, row: usize, amount: u64) {
        let value = self.get(field, row).wrapping_add(amount);
        self.set(field, row, value);
    }

    fn get(&self, field: ObjectField, row: usize) -> u64 {
        self.word(OBJECTS.row(row) + field as usize)
    }

    fn set(&mut self, field: ObjectField, row: usize, value: u64) {
        self.set_word(OBJECTS.row(row) + field as usize, value);
    }

    fn thread_word(&self, field: ThreadField, row: usize) -> u64 {
        self.word(THREADS.row(row) + field as usize)
    }

    fn set_thread_word(&mut self, field: ThreadField, row: usize, value: u64) {
        self.set_word(THREADS.row(row) + field as usize, value);
    }

    /// Writes the table that was changed.
    fn write_table(&mut self) {
        area::write(&self.table, &mut self.area);
    }

    /// A word that the state is written in.
    fn used_word(&self, draw: &mut Draw) -> usize {
        let part = draw.random.of(&PARTS);
        // The two words in front of the threads belong to no table.
        let first = part.count - if part.count == THREADS.count { 2 } else { 1 };
        let used = part.row(self.rows(&part)) - first;
        first + draw.random.below(used as u64) as usize
    }

    fn flip_bit(&mut self, draw: &mut Draw) {
        let byte = self.used_word(draw) * 8 + draw.random.below(8) as usize;
        self.area[byte] ^= 1 << draw.random.below(8);
    }

    fn change_byte(&mut self, draw: &mut Draw) {
        let byte = draw.random.below(BYTES as u64) as usize;
        self.area[byte] = draw.random.word() as u8;
    }

    fn replace_word(&mut self, draw: &mut Draw) {
        let place = self.used_word(draw);
        let value = draw.number();
        self.set_word(place, value);
    }

    fn wrong_length(&mut self, draw: &mut Draw) {
        let any = draw.random.below(2 * BYTES as u64) as usize;
        let lengths = [
            0,
            1,
            8,
            16,
            OBJECTS.end() * 8,
            THREADS.end() * 8,
            QUEUE.end() * 8,
            EXITS.row(self.rows(&EXITS)) * 8,
            BYTES - 8,
            BYTES - 1,
            BYTES + 1,
            BYTES + 8,
            BYTES + 168,
            any,
        ];
        self.area.resize(draw.random.of(&lengths), 0);
    }

    fn wrong_count(&mut self, draw: &mut Draw) {
        let part = draw.random.of(&PARTS);
        let count = self.rows(&part) as u64;
        let places = part.places as u64;
        let counts = [
            0,
            count.saturating_sub(1),
            count + 1,
            places - 1,
            places,
            places + 1,
            count + (1 << 32),
            count + (1 << 61),
            u64::MAX,
        ];
        self.set_word(part.count, draw.random.of(&counts));
    }

    fn fill_past_rows(&mut self, draw: &mut Draw) {
        let part = draw.random.of(&PARTS);
        let used = part.row(self.rows(&part)) * 8;
        let end = part.end() * 8;
        let places = [used, used + part.width * 8, end - 1];
        let place = match draw.random.below(4) {
            0 => used + draw.random.through((end - used) as u64) as usize,
            _ => draw.random.of(&places),
        };
        // There is no such place behind a full table.
        if (used..end).contains(&place) {
            self.area[place] = draw.random.below(255) as u8 + 1;
        }
    }

    fn noise(&mut self, draw: &mut Draw) {
        match draw.random.below(5) {
            0 => self.area.fill(0),
            1 => self.area.fill(0xff),
            2 => self.area.fill_with(|| draw.random.word() as u8),
            3 => {
                for place in 0..WORDS {
                    self.set_word(place, draw.number());
                }
            }
            _ => {
                let part = draw.random.of(&PARTS);
                for place in part.row(0)..part.row(self.rows(&part)) {
                    self.set_word(place, draw.number());
                }
            }
        }
    }
}
