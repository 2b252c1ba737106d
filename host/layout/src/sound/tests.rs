//! Each rule is asked, and names the right word.

mod board;
mod objects;

use super::*;
use crate::area::{Account, Exit, ObjectRow, ThreadRow};
use crate::area::{
    CURRENT, EXITS, NEXT_ID, OBJECTS, ObjectField as O, QUEUE, SWITCHES, THREADS, ThreadField as T,
    set_word,
};
use crate::state::{BLOCKED, INACTIVE, READY, RUNNING};
use crate::{BUDGET, IDLE};

/// Objects: root 1, budget 2, frame 3 paid by 2, endpoint 4 paid by 1. Threads: 0 Ready, 7
/// current and Running, 8 Blocked, 9 Inactive, 10 and idle Ready. Queue: 10, 0. One exit.
fn sound_area() -> Vec<u8> {
    let root = Account {
        cpu_allowance: 10_000_000,
        memory_limit: 1_000_000,
        cpu_left: 6_000_000,
        cpu_reserved: 4_000_000,
        memory_used: 256,
        memory_reserved: 8_192,
        ..Account::default()
    };
    let child = Account {
        cpu_allowance: 4_000_000,
        memory_limit: 8_192,
        cpu_left: 4_000_000,
        memory_used: 4_096,
        ..Account::default()
    };
    let object = |id, kind, payer, charge, account| ObjectRow {
        id,
        kind,
        payer,
        charge,
        account,
    };
    let none = Account::default();
    let thread = |id, state, wait, budget| ThreadRow {
        id,
        state,
        wait,
        budget,
        ..ThreadRow::default()
    };
    let started = |row: ThreadRow| ThreadRow {
        space: [1, 2, 3, 4],
        ..row
    };
    let table = Table {
        next_id: 5,
        objects: vec![
            object(1, BUDGET, 1, 0, root),
            object(2, BUDGET, 1, 128, child),
            object(3, 3, 2, 4_096, none),
            object(4, 4, 1, 128, none),
        ],
        current: 7,
        switches: 2,
        threads: vec![
            thread(0, READY, [0; 2], [0; 2]),
            started(thread(7, RUNNING, [0; 2], [1, 1])),
            started(thread(8, BLOCKED, [2, 4], [1, 2])),
            thread(9, INACTIVE, [0; 2], [1, 77]),
            started(thread(10, READY, [0; 2], [1, 2])),
            thread(IDLE, READY, [0; 2], [0; 2]),
        ],
        queue: vec![10, 0],
        exits: vec![Exit {
            thread: 11,
            cause: 2,
        }],
    };
    let mut area = vec![0xff; BYTES];
    area::write(&table, &mut area);
    area
}

fn object(row: usize, field: O) -> usize {
    OBJECTS.row(row) + field as usize
}

/// Threads stand in the order 0, 7, 8, 9, 10, idle.
fn thread_word(row: usize, field: T) -> usize {
    THREADS.row(row) + field as usize
}

fn area_with(changes: &[(usize, u64)]) -> Vec<u8> {
    let mut area = sound_area();
    for (place, value) in changes {
        set_word(&mut area, *place, *value);
    }
    area
}

/// The rule that is broken first, which is also that of the first fault.
fn rule_with(changes: &[(usize, u64)]) -> &'static str {
    let area = area_with(changes);
    let rule = broken_rule(&area);
    assert_eq!(faults(&area).first().map(|fault| fault.rule), rule);
    rule.unwrap_or("none")
}

/// The first fault, of this rule, is at this word and has this text.
fn fault_with(changes: &[(usize, u64)], rule: &str, word: usize, says: &str) {
    assert_eq!(rule_with(changes), rule, "{changes:?}");
    let first = faults(&area_with(changes)).remove(0);
    assert_eq!((first.word, first.says.as_str()), (word, says));
    assert_eq!(first.offset(), 8 * word);
}

#[test]
fn a_board_is_sound() {
    assert_eq!(rule_with(&[]), "none");
    assert!(is_sound(&sound_area()));
    let table = area::read(&sound_area()).unwrap();
    assert_eq!(table.queue, [10, 0]);
    assert_eq!((table.current, table.threads.len()), (7, 6));
}

#[test]
fn each_rule_of_the_bytes_is_asked() {
    let short = &sound_area()[..BYTES - 1];
    assert_eq!(broken_rule(short), Some(LENGTH));
    let [fault] = &faults(short)[..] else {
        panic!("one fault of the length");
    };
    assert_eq!((fault.rule, fault.word), (LENGTH, BYTES / 8 - 1));
    assert_eq!(fault.says, "there are 68143 bytes, an area has 68144");
    for (place, part) in PARTS.iter().enumerate() {
        let (places, rows) = (part.places, [4, 6, 2, 1][place]);
        let too_many = places as u64 + 1;
        let says = format!("there are said to be {too_many}, there are {places} places");
        fault_with(&[(part.count, too_many)], AT_MOST[place], part.count, &says);
        let last = part.end() - 1;
        let says = format!("the word is 1, with {rows} rows in use");
        fault_with(&[(last, 1)], REST[place], last, &says);
    }
    let first = object(3, O::Id);
    let says = "the word is 4, with 3 rows in use";
    fault_with(&[(OBJECTS.count, 3)], REST[0], first, says);
}

#[test]
fn of_each_rule_three_faults_are_listed() {
    let kinds: Vec<(usize, u64)> = (1..4).map(|row| (object(row, O::Kind), 10)).collect();
    let faults = faults(&area_with(&kinds));
    let of_kinds = faults
        .iter()
        .filter(|fault| fault.rule == registry::RULES[0].says);
    assert_eq!(of_kinds.map(|fault| fault.more).collect::<Vec<_>>(), [0; 3]);
    let rest: Vec<(usize, u64)> = (5..12).map(|row| (object(row, O::Kind), 10)).collect();
    let faults = super::faults(&area_with(&rest));
    let of_rest: Vec<usize> = faults.iter().map(|fault| fault.more).collect();
    assert_eq!(of_rest, [0, 0, 4]);
    assert_eq!(faults[2].word, object(7, O::Kind));
}

#[test]
fn what_is_readable_is_tested() {
    let cause = EXITS.row(0) + 1;
    let state = thread_word(3, T::State);
    let changes = [
        (OBJECTS.count, 513),
        (QUEUE.count, 128),
        (state, 9),
        (cause, 3),
    ];
    let found: Vec<usize> = faults(&area_with(&changes))
        .iter()
        .map(|f| f.word)
        .collect();
    assert_eq!(found, [OBJECTS.count, QUEUE.count, state, cause]);
}

/// Each word of the rows in use and of the row behind them, changed to each of some values.
#[test]
fn the_first_fault_is_of_the_broken_rule() {
    let sound = sound_area();
    let rows = |part: &Part| part.length(&sound).expect("a sound area") + 1;
    let words = PARTS
        .iter()
        .flat_map(|part| part.count..part.row(rows(part)));
    let mut broken = 0;
    for place in words.chain([NEXT_ID, CURRENT, SWITCHES]) {
        let found = word(&sound, place);
        for value in [0, 1, 6, found.wrapping_add(1), u64::MAX] {
            broken += usize::from(rule_with(&[(place, value)]) != "none");
        }
    }
    assert!(broken > 500, "{broken}");
}

#[test]
fn what_may_change_freely() {
    for (place, value) in [
        (NEXT_ID, u64::MAX),
        (object(0, O::CpuLeft), 0),
        (object(1, O::PeriodStart), u64::MAX),
        (object(0, O::MemoryLimit), 8_448),
        (object(2, O::Kind), 9),
        (SWITCHES, u64::MAX),
        (thread_word(3, T::Budget), u64::MAX),
        (thread_word(2, T::WaitNumber), 0),
        (thread_word(1, T::Root), 0),
        (thread_word(3, T::Rflags), 0),
        (thread_word(0, T::RunTicks), u64::MAX),
        (thread_word(5, T::Result2), 1),
        (thread_word(5, T::State), 3),
        (thread_word(1, T::State), 4 + 1),
        (EXITS.row(0), IDLE),
    ] {
        assert_eq!(rule_with(&[(place, value)]), "none", "{place}, {value}");
    }
}
