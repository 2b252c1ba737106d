//! The stack that a call takes: as `docs/LAYOUT.md` has it, as it is seen by running, and on a kernel's
//! stack.

use crate::cases::{Answer, CASES, Case, Memory, PREPARED, memory};
use crate::own_stack::made;
use carv::{AREA_BYTES, Board, Limits, PERIOD_NS, STACK_BYTES};
use std::collections::BTreeMap;
use std::thread;

/// The stack of a kernel's thread.
const KERNEL_STACK: usize = 32 * 1_024;

/// The most that a call may take in this build. One without optimization takes more.
const MOST: usize = if cfg!(debug_assertions) {
    24 * 1_024
} else {
    STACK_BYTES
};

/// What `docs/LAYOUT.md` says that each C function takes.
fn layout() -> BTreeMap<&'static str, usize> {
    const LAYOUT: &str = include_str!("../../../../docs/LAYOUT.md");
    let (_, part) = LAYOUT
        .split_once("\n## Stack and registers\n")
        .expect("a part on stack and registers");
    let part = part.split("\n## ").next().unwrap_or_default();
    let rows = part.lines().filter_map(|line| {
        let (bytes, functions) = line.strip_prefix("| ")?.split_once(" | `")?;
        let bytes: usize = bytes.replace(',', "").parse().expect("a number of bytes");
        let functions = functions.strip_suffix("` |")?.split("`, `");
        Some(functions.map(move |function| (function, bytes)))
    });
    rows.flatten().collect()
}

/// The wrapper's documentation names the most that a C function takes.
#[test]
fn the_documentation_names_the_most() {
    const DOCUMENTATION: &str = include_str!("../../src/lib.rs");
    let most = *layout().values().max().expect("functions");
    let said = format!(
        "{},{:03} bytes of it are the library's",
        most / 1_000,
        most % 1_000
    );
    let words: Vec<&str> = DOCUMENTATION.split_whitespace().collect();
    let words = words.join(" ").replace("//! ", "");
    assert!(words.contains(&said), "{said}");
    assert!(most < STACK_BYTES && STACK_BYTES < KERNEL_STACK);
}

fn prepared() -> Box<Memory> {
    let mut memory = memory();
    memory.copy_from_slice(&PREPARED[..]);
    memory
}

/// Each call takes no more than its C function is said to take and what is left of `MOST` above the
/// most that any takes; an accepted one takes at least half of what is said.
#[test]
fn each_call_takes_what_the_layout_says() {
    let layout = layout();
    let most = layout.values().max().expect("functions");
    for Case {
        function,
        make,
        expected,
    } in CASES
    {
        let (answer, taken) = made(*make, &mut prepared());
        assert_eq!(answer, *expected, "{function}");
        let said = layout[function];
        println!("{function} {answer:?}: {taken} bytes, {said} in C");
        let least = if answer.is_ok() { said / 2 } else { 0 };
        assert!(taken >= least, "{function}: {taken} bytes, {said} in C");
        let above = MOST - most;
        assert!(
            taken <= said + above,
            "{function}: {taken} bytes, {said} in C"
        );
    }
}

/// What answers a board by value takes its bytes on the stack: that is seen, and no kernel's.
#[test]
fn by_value_is_for_hosted_programs() {
    const ROOT: Limits = Limits {
        cpu_ns: PERIOD_NS,
        memory_bytes: 0,
    };
    let by_value: [fn(&mut Memory) -> Answer; 3] = [
        |_| Board::open(ROOT).map(drop),
        |memory| Board::from_bytes(&memory[..]).map(drop),
        |memory| {
            let board = std::hint::black_box(Board::from_ref(memory).clone());
            board.current().map(drop)
        },
    ];
    for make in by_value {
        let (answer, taken) = made(make, &mut prepared());
        assert_eq!(answer, Ok(()));
        assert!(taken > AREA_BYTES, "{taken} bytes");
    }
}

/// Every call, on a thread with the stack of a kernel's thread.
#[test]
fn every_call_fits_a_kernels_stack() {
    let mut boards: Vec<Box<Memory>> = CASES.iter().map(|_| prepared()).collect();
    let mut answers = Vec::with_capacity(CASES.len());
    let thread = thread::Builder::new().stack_size(KERNEL_STACK);
    let thread = thread.spawn(move || {
        for (case, memory) in CASES.iter().zip(&mut boards) {
            answers.push((case.make)(memory));
        }
        answers
    });
    let answers = thread.expect("a thread").join().expect("no panic");
    assert_eq!(answers.len(), CASES.len());
    for (case, answer) in CASES.iter().zip(answers) {
        assert_eq!(answer, case.expected, "{}", case.function);
    }
}
