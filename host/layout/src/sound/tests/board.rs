//! The rules of threads, ready queue and exit log.

use super::{fault_with, thread_word};
use crate::IDLE;
use crate::area::{CURRENT, EXITS, QUEUE, ThreadField as T};
use crate::sound::{queue, rules_of_threads, threads};

#[test]
fn each_rule_of_the_threads_is_asked() {
    let state = |row| thread_word(row, T::State);
    let rules: Vec<&str> = rules_of_threads().map(|rule| rule.says).collect();
    let is = |changes: &[(usize, u64)], rule: usize, word: usize, says: &str| {
        fault_with(changes, rules[rule], word, says);
    };
    let id = thread_word(2, T::Id);
    is(&[(id, 7)], 0, id, "id 7 stands behind id 7");
    let next = thread_word(3, T::Id);
    is(&[(id, 9)], 0, next, "id 9 stands behind id 9");
    let listed = "state of thread 9 is 0, listed are 1 to 5";
    is(&[(state(3), 0)], 1, state(3), listed);
    let listed = "state of thread 9 is 6, listed are 1 to 5";
    is(&[(state(3), 6)], 1, state(3), listed);
    for kind in [0, 6] {
        let word = thread_word(2, T::WaitKind);
        let says = format!("thread 8 is Blocked on a wait of kind {kind}, listed are 1 to 5");
        is(&[(word, kind)], 2, word, &says);
    }
    let word = thread_word(3, T::WaitKind);
    let says = "kind of the wait of thread 9, which is not Blocked, is 1";
    is(&[(word, 1)], 3, word, says);
    let word = thread_word(0, T::WaitNumber);
    let says = "number of the wait of thread 0, which is not Blocked, is 1";
    is(&[(word, 1)], 3, word, says);
    let word = thread_word(3, T::HasBudget);
    let says = "whether thread 9 has a budget is 2, neither 0 nor 1";
    is(&[(word, 2)], 4, word, says);
    let word = thread_word(0, T::Budget);
    is(
        &[(word, 1)],
        4,
        word,
        "thread 0 has no budget, and its budget is 1",
    );
    let word = thread_word(1, T::HasSpace);
    let says = "whether thread 7 has a space is 2, neither 0 nor 1";
    is(&[(word, 2)], 5, word, says);
    for field in [T::Space, T::Cspace, T::Root] {
        let word = thread_word(3, field);
        let says = format!("thread 9 has no space, and its {} is 1", field.text());
        is(&[(word, 1)], 5, word, &says);
    }
}

#[test]
fn each_rule_of_queue_and_exits_is_asked() {
    let state = |row| thread_word(row, T::State);
    let last = QUEUE.row(1);
    let is = |changes: &[(usize, u64)], rule: usize, word: usize, says: &str| {
        fault_with(changes, queue::QUEUE_RULES[rule].says, word, says);
    };
    let twice = "thread 10 is in the queue at places 0 and 1";
    is(&[(last, 10), (state(0), 1)], 0, last, twice);
    let inactive = "thread 9 in the queue has state 1, not 2";
    is(&[(last, 9)], 1, last, inactive);
    let missing = "thread 99 in the queue has no record";
    is(&[(last, 99)], 1, last, missing);
    let idle = "idle in the queue may not be there";
    is(&[(last, IDLE)], 1, last, idle);
    let outside = "thread 9 is Ready and not in the queue";
    is(&[(state(3), 2)], 2, state(3), outside);
    for cause in [0, 3] {
        let word = EXITS.row(0) + 1;
        let says = format!("cause of the end of thread 11 is {cause}, listed are 1 and 2");
        fault_with(&[(word, cause)], queue::EXIT_RULES[0].says, word, &says);
    }
}

#[test]
fn each_rule_of_current_and_idle_is_asked() {
    let state = |row| thread_word(row, T::State);
    let is = |changes: &[(usize, u64)], rule: usize, word: usize, says: &str| {
        let rule = threads::OF_CURRENT_AND_IDLE[rule].says;
        fault_with(changes, rule, word, says);
    };
    let dead = "thread 9 is Dead, current is thread 7";
    is(&[(state(3), 5)], 0, state(3), dead);
    let running = "thread 9 is Running, current is thread 7";
    is(&[(state(3), 3)], 1, state(3), running);
    let missing = "current is thread 99, which has no record";
    is(&[(CURRENT, 99), (state(1), 1)], 2, CURRENT, missing);
    let inactive = "thread 9 is current and Inactive";
    is(&[(CURRENT, 9), (state(1), 1)], 3, state(3), inactive);
    let id = thread_word(5, T::Id);
    let missing = "no thread has idle's id, 18446744073709551615";
    is(&[(id, IDLE - 1), (state(5), 1)], 4, id, missing);
    let idle = "state of idle is 1, not 2 or 3";
    is(&[(state(5), 1)], 5, state(5), idle);
    let idle = "idle is current and its state is 2, not 3";
    is(&[(CURRENT, IDLE), (state(1), 1)], 6, state(5), idle);
    let has = thread_word(5, T::HasBudget);
    is(&[(has, 1)], 7, has, "idle has a budget");
    let (has, budget) = (thread_word(3, T::HasBudget), thread_word(3, T::Budget));
    is(&[(has, 0), (budget, 0)], 7, has, "thread 9 has no budget");
}
