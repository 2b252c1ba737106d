//! Book, ledger and clock on lists of calls that are written out, each with its refusal number, and
//! on random ones.

mod book;
mod literal;
mod spent;

use carv_ledger::history::Opened;
use carv_ledger::{Call, Figures, History};

const MS: u128 = 1_000_000;

/// A call as a line of a list; `_` may stand in its numbers.
fn call(line: &str) -> Call {
    let mut words = line.split(' ');
    let name = words.next().expect("a name");
    let number = |word: &str| word.replace('_', "").parse().expect("a number");
    let arguments: Vec<u64> = words.map(number).collect();
    Call::parse(name, &arguments).expect("a call")
}

/// What these lines say, each with its refusal number.
fn note(history: &mut History, lines: &[(&str, u64)]) {
    for (place, (line, number)) in (1..).zip(lines) {
        history.note(place, call(line), *number);
    }
}

/// What they say from the start.
fn told(lines: &[(&str, u64)]) -> Opened {
    let mut history = History::default();
    note(&mut history, lines);
    history.opened().expect("an opening").clone()
}

/// Memory used, memory reserved, CPU reserved and CPU left of a live budget.
fn figures(opened: &Opened, id: u64) -> Option<[u128; 4]> {
    let of = |it: Figures| {
        [
            it.memory_used,
            it.memory_reserved,
            it.cpu_reserved,
            it.cpu_left,
        ]
    };
    let mut found = opened.book.figures().filter(|(live, _)| *live == id);
    found.next().map(|(_, it)| of(it))
}

/// CPU left of a live budget.
fn left(opened: &Opened, id: u64) -> u128 {
    figures(opened, id).expect("a live budget")[3]
}
