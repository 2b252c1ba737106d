//! The layout of the port's area: 64-bit little-endian words.
//!
//! The next id; the objects; the current thread and the switch count; the threads, the ready
//! queue and the exit log. Each of the four tables is a [`Part`].

mod names;
mod rows;
mod totals;

pub use names::name;
pub use rows::{Account, Exit, ObjectField, ObjectRow, ThreadField, ThreadRow};
pub use totals::{Totals, totals};

use std::fmt;

/// A table in the area: a word with the number of its rows, and the rows. All is 0 past the last.
#[derive(Clone, Copy, Debug)]
pub struct Part {
    /// What a row is.
    pub name: &'static str,
    /// The word of the number of rows.
    pub count: usize,
    /// Words in a row.
    pub width: usize,
    /// Most rows.
    pub places: usize,
}

/// The word of the next id.
pub const NEXT_ID: usize = 0;
/// The objects, by rising id.
pub const OBJECTS: Part = Part {
    name: "object",
    count: NEXT_ID + 1,
    width: ObjectField::ALL.len(),
    places: 512,
};
/// The word of the current thread's id.
pub const CURRENT: usize = OBJECTS.end();
/// The word of the switch count.
pub const SWITCHES: usize = CURRENT + 1;
/// The threads, by rising id.
pub const THREADS: Part = Part {
    name: "thread",
    count: SWITCHES + 1,
    width: ThreadField::ALL.len(),
    places: 128,
};
/// The ready queue, from its front: ids.
pub const QUEUE: Part = Part {
    name: "queue",
    count: THREADS.end(),
    width: 1,
    places: THREADS.places - 1,
};
/// The exit log, from the oldest: thread id and cause.
pub const EXITS: Part = Part {
    name: "exit",
    count: QUEUE.end(),
    width: 2,
    places: 32,
};
/// All tables.
pub const PARTS: [Part; 4] = [OBJECTS, THREADS, QUEUE, EXITS];
/// Words in the area.
pub const WORDS: usize = EXITS.end();
/// Bytes in the area.
pub const BYTES: usize = WORDS * 8;

impl Part {
    /// The first word of a row.
    pub const fn row(&self, place: usize) -> usize {
        self.count + 1 + place * self.width
    }

    /// The word behind the last place.
    pub const fn end(&self) -> usize {
        self.row(self.places)
    }

    /// The number of rows; none if there are more than places.
    pub fn length(&self, area: &[u8]) -> Option<usize> {
        let length = usize::try_from(word(area, self.count)).ok()?;
        (length <= self.places).then_some(length)
    }

    /// Whether all is 0 past so many rows.
    pub fn ends_with_zeros(&self, area: &[u8], rows: usize) -> bool {
        let rest = &area[self.row(rows) * 8..self.end() * 8];
        rest.iter().fold(0, |all, byte| all | byte) == 0
    }

    /// The rows; none at all if there are more than places.
    fn read<const WIDTH: usize, T>(
        &self,
        area: &[u8],
        row_of: impl Fn([u64; WIDTH]) -> T,
    ) -> Vec<T> {
        let row = |place| std::array::from_fn(|field| word(area, self.row(place) + field));
        let length = self.length(area).unwrap_or(0);
        (0..length).map(|place| row_of(row(place))).collect()
    }

    /// Writes these rows, and zeros behind them.
    ///
    /// # Panics
    /// If there are more rows than places.
    pub fn write<const WIDTH: usize>(
        &self,
        rows: impl Iterator<Item = [u64; WIDTH]>,
        area: &mut [u8],
    ) {
        let mut length = 0;
        for row in rows {
            for (place, value) in (self.row(length)..).zip(row) {
                set_word(area, place, value);
            }
            length += 1;
        }
        area[self.row(length) * 8..self.end() * 8].fill(0);
        set_word(area, self.count, length as u64);
    }
}

/// What an area says.
#[derive(Clone, Debug, Default, PartialEq, Eq)]
pub struct Table {
    /// The id that the next object gets.
    pub next_id: u64,
    /// The objects.
    pub objects: Vec<ObjectRow>,
    /// The current thread.
    pub current: u64,
    /// Switches so far.
    pub switches: u64,
    /// The threads.
    pub threads: Vec<ThreadRow>,
    /// The ready queue.
    pub queue: Vec<u64>,
    /// The exit log.
    pub exits: Vec<Exit>,
}

/// A word of an area.
#[inline]
pub fn word(area: &[u8], place: usize) -> u64 {
    let bytes = area[place * 8..][..8].try_into();
    u64::from_le_bytes(bytes.expect("8 bytes"))
}

/// Sets a word of an area.
pub fn set_word(area: &mut [u8], place: usize, value: u64) {
    area[place * 8..][..8].copy_from_slice(&value.to_le_bytes());
}

/// What the area says; none if it has not its length or a table tells of more rows than there are.
pub fn read(area: &[u8]) -> Option<Table> {
    let table = read_what_fits(area)?;
    let fits = |part: &Part| part.length(area).is_some();
    PARTS.iter().all(fits).then_some(table)
}

/// What the area says, without the rows of a table that tells of more than there are; none if the
/// area has not its length.
pub fn read_what_fits(area: &[u8]) -> Option<Table> {
    (area.len() == BYTES).then(|| Table {
        next_id: word(area, NEXT_ID),
        objects: OBJECTS.read(area, ObjectRow::from_words),
        current: word(area, CURRENT),
        switches: word(area, SWITCHES),
        threads: THREADS.read(area, ThreadRow::from_words),
        queue: QUEUE.read(area, |[id]| id),
        exits: EXITS.read(area, |[thread, cause]| Exit { thread, cause }),
    })
}

/// Writes this into an area of the right length, which gets its one form.
///
/// # Panics
/// If a table has more rows than places.
pub fn write(table: &Table, area: &mut [u8]) {
    set_word(area, NEXT_ID, table.next_id);
    OBJECTS.write(table.objects.iter().map(ObjectRow::words), area);
    THREADS.write(table.threads.iter().map(ThreadRow::words), area);
    set_word(area, CURRENT, table.current);
    set_word(area, SWITCHES, table.switches);
    QUEUE.write(table.queue.iter().map(|id| [*id]), area);
    let exits = table.exits.iter().map(|exit| [exit.thread, exit.cause]);
    EXITS.write(exits, area);
}

/// Where two areas of the right length differ: at most three words, and how many there are.
pub struct Difference<'a> {
    /// The area as it is.
    pub found: &'a [u8],
    /// The area as it should be.
    pub expected: &'a [u8],
}

impl fmt::Display for Difference<'_> {
    fn fmt(&self, f: &mut fmt::Formatter<'_>) -> fmt::Result {
        let differs = |place: &usize| word(self.found, *place) != word(self.expected, *place);
        let places: Vec<usize> = (0..WORDS).filter(differs).collect();
        write!(f, "the area differs in {} words", places.len())?;
        for place in places.into_iter().take(3) {
            let (found, expected) = (word(self.found, place), word(self.expected, place));
            let name = name(self.found, place);
            write!(f, "; {name} is {found}, not {expected}")?;
        }
        Ok(())
    }
}

#[cfg(test)]
mod tests {
    use super::*;

    #[test]
    fn layout() {
        assert_eq!(BYTES, 68_144);
        assert_eq!(OBJECTS.row(0) * 8, 16);
        assert_eq!(CURRENT * 8, 45_072);
        assert_eq!(SWITCHES * 8, 45_080);
        assert_eq!(THREADS.count * 8, 45_088);
        assert_eq!(THREADS.row(1) * 8, 45_096 + 168);
        assert_eq!(QUEUE.count * 8, 66_600);
        assert_eq!(QUEUE.row(0) * 8, 66_608);
        assert_eq!(EXITS.count * 8, 67_624);
        assert_eq!(EXITS.row(1) * 8, 67_632 + 16);
    }

    #[test]
    fn written_and_read_back() {
        let mut area = vec![0xff; BYTES];
        for (part, rows) in PARTS.iter().zip([2, 3, 2, 1]) {
            set_word(&mut area, part.count, rows);
            for place in part.row(0)..part.row(rows as usize) {
                set_word(&mut area, place, place as u64);
            }
            area[part.row(rows as usize) * 8..part.end() * 8].fill(0);
        }
        let table = read(&area).expect("so many rows");
        assert_eq!(table.threads[1].id, THREADS.row(1) as u64);
        let mut again = vec![0xaa; BYTES];
        write(&table, &mut again);
        assert_eq!(again, area);
        set_word(&mut area, QUEUE.count, 128);
        assert_eq!(read(&area), None);
        let queue = Vec::new();
        assert_eq!(read_what_fits(&area), Some(Table { queue, ..table }));
        assert_eq!(read_what_fits(&area[1..]), None);
    }
}
