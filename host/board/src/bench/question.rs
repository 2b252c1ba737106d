//! Question 1 on a full board: 512 objects, 128 threads, 127 of them in the queue.

use super::boards::{Boards, NOTIFICATION, thread_id};
use super::case::Case;
use super::{Ids, Line};
use carv_compare::board::make::{block, carve, insert, new_thread, plan, start, wake};
use carv_compare::board::{IDLE, OBJECTS, THREADS};
use carv_compare::random::Random;

/// So much memory that budgets can be carved out of each other again and again.
const MEMORY: u64 = 1 << 62;

/// Times question 1. `told` gets each line as soon as it is measured.
pub fn question(mut told: impl FnMut(Line)) {
    for (ids, name) in [
        (Ids::Dense, "question 1"),
        (Ids::Gaps, "question 1"),
        (Ids::Far, "question 1, against the search"),
    ] {
        let case = Case {
            board: format!("{OBJECTS} objects, {THREADS} threads"),
            ids,
            name,
            parts: 1.0,
            questions: 1.0,
        };
        let port = board(ids).port;
        told(case.question(port));
    }
}

/// A full board. With ids far apart each object is paid by any budget and the queue is shuffled:
/// neither an id's distance from others nor the search before it then helps to find it.
fn board(ids: Ids) -> Boards {
    let mut random = Random::new(1);
    let mut boards = Boards::open(MEMORY);
    let mut budgets = vec![1];
    for place in 1..OBJECTS {
        boards.leave_gap(ids);
        let payer = match ids {
            Ids::Far => random.of(&budgets),
            _ => budgets[budgets.len() / 2],
        };
        if place % 2 == 0 {
            boards.make(insert(NOTIFICATION, payer, 1));
        } else {
            let memory = boards.account(payer).memory_free() / 4;
            budgets.push(boards.make(carve(payer, 0, memory, 0)));
        }
    }
    add_threads(&mut boards, &budgets, ids, &mut random);
    boards
}

/// Threads without CPU time, all of them in the queue: idle is current.
fn add_threads(boards: &mut Boards, budgets: &[u64], ids: Ids, random: &mut Random) {
    let count = THREADS as u64 - 2;
    let mut threads: Vec<u64> = (0..count).map(|place| thread_id(place, ids)).collect();
    for (place, id) in threads.iter().enumerate() {
        boards.make(new_thread(*id, budgets[1 + place]));
    }
    if ids == Ids::Far {
        for place in (1..threads.len()).rev() {
            threads.swap(place, random.through(place as u64) as usize);
        }
    }
    for id in threads {
        boards.make(start(id));
    }
    boards.make(block(1, 1));
    boards.make(plan(0));
    assert_eq!(boards.port.out[2], IDLE);
    boards.make(wake(0));
}
