//! The names of an area's words.

use super::{
    CURRENT, EXITS, NEXT_ID, OBJECTS, ObjectField, PARTS, Part, QUEUE, SWITCHES, THREADS,
    ThreadField, WORDS, word,
};
use crate::IDLE;

/// A word's name in an area of the right length: what it is, and the place and id of its row.
pub fn name(area: &[u8], place: usize) -> String {
    match place {
        NEXT_ID => return "next id".to_string(),
        CURRENT => return "current thread".to_string(),
        SWITCHES => return "switch count".to_string(),
        WORDS.. => return format!("word {place}, behind the area"),
        _ => {}
    }
    let behind = PARTS.iter().rev().find(|part| place >= part.count);
    let part = behind.unwrap_or(&OBJECTS);
    match place.checked_sub(part.row(0)) {
        None => format!("number of rows ({})", part.name),
        Some(words) => in_row(area, part, words / part.width, words % part.width),
    }
}

fn in_row(area: &[u8], part: &Part, row: usize, field: usize) -> String {
    let field = match part.count {
        count if count == OBJECTS.count => ObjectField::ALL[field].text(),
        count if count == THREADS.count => ThreadField::ALL[field].text(),
        count if count == QUEUE.count => "thread",
        _ => ["thread", "cause"][field],
    };
    let id = word(area, part.row(row));
    let has_row = part.length(area).is_some_and(|rows| row < rows);
    match part.count {
        _ if !has_row => format!("{field} in {} place {row}, past the last", part.name),
        count if count == QUEUE.count || count == EXITS.count => {
            format!("{field} in {} place {row}", part.name)
        }
        count if count == THREADS.count && id == IDLE => format!("{field} of idle, place {row}"),
        _ => format!("{field} of {} {id}, place {row}", part.name),
    }
}

#[cfg(test)]
mod tests {
    use super::*;
    use crate::area::{BYTES, set_word};

    #[test]
    fn each_word_has_a_name() {
        let mut area = vec![0; BYTES];
        for (part, rows) in PARTS.iter().zip([2, 3, 2, 1]) {
            set_word(&mut area, part.count, rows);
        }
        set_word(&mut area, OBJECTS.row(1), 9);
        set_word(&mut area, THREADS.row(2), IDLE);
        for (place, expected) in [
            (NEXT_ID, "next id"),
            (CURRENT, "current thread"),
            (SWITCHES, "switch count"),
            (THREADS.count, "number of rows (thread)"),
            (OBJECTS.row(1), "id of object 9, place 1"),
            (OBJECTS.row(1) + 9, "memory used of object 9, place 1"),
            (OBJECTS.row(2) + 1, "kind in object place 2, past the last"),
            (THREADS.row(3) - 1, "run ticks of idle, place 2"),
            (QUEUE.row(1), "thread in queue place 1"),
            (EXITS.row(0) + 1, "cause in exit place 0"),
            (EXITS.row(3) + 1, "cause in exit place 3, past the last"),
            (WORDS, "word 8518, behind the area"),
        ] {
            assert_eq!(name(&area, place), expected);
        }
    }
}
