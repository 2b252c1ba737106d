//! Answers as a reader reads them.

use crate::answer::{self, Answer, REGISTERS};
use crate::codes::{self, CAUSES, STATES, WAITS};
use crate::figures::{bytes, count, ms};
use crate::names::Names;
use carv::{Cause, ObjectId, Switch, ThreadId, Tick, Wait};
use carv_layout::area::{Account, ThreadRow, Totals};

/// The answer of a call with these arguments.
pub fn answer(answer: &Answer, arguments: &[u64], names: &Names) -> String {
    match answer {
        Answer::Done => "done".to_string(),
        Answer::Id(ObjectId(id)) => format!("object {}", names.id(*id)),
        Answer::Renewed(true) => "renewed".to_string(),
        Answer::Renewed(false) => "not due".to_string(),
        Answer::Sound(yes) | Answer::Pays(yes) | Answer::Blocked(yes) => {
            if *yes { "yes" } else { "no" }.to_string()
        }
        Answer::Account(figures) => {
            let name = name(arguments, names).map(|name| format!("{name}: "));
            name.unwrap_or_default() + &account(&answer::figures(figures))
        }
        Answer::Charge(charge) => {
            let payer = names.id(charge.payer.0);
            format!("{}, paid by {payer}", bytes(charge.bytes))
        }
        Answer::Totals(sums) => {
            let id = arguments.first().copied().unwrap_or_default();
            let whose = names.get(id).map_or(format!("budget {id}"), str::to_string);
            format!("{whose} {}", totals(&answer::sums(sums)))
        }
        Answer::Ended(None) => "ended, it waited for nothing".to_string(),
        Answer::Ended(Some(it)) => format!("ended, it waited: {}", wait(it.codes().into())),
        Answer::Planned(None) => "no switch".to_string(),
        Answer::Planned(Some(it)) => switch(it),
        Answer::Thread(record) => thread(&answer::row(record), names),
        Answer::Current(id) => id.to_string(),
        Answer::Switches(switches) => count(*switches, "switch", "switches"),
        Answer::Exit(None) => "no end is logged".to_string(),
        Answer::Exit(Some(cause)) => cause_word(*cause),
    }
}

/// The name of the budget that is asked for, if it has one.
fn name<'a>(arguments: &[u64], names: &'a Names) -> Option<&'a str> {
    names.get(arguments.first().copied().unwrap_or_default())
}

fn cause_word(cause: Cause) -> String {
    codes::word_or_number(CAUSES, cause.code())
}

fn account(figures: &Account) -> String {
    format!(
        "share {}, left {}, reserved {}, period from {}; memory {}, used {}, reserved {}, free {}",
        ms(figures.cpu_allowance),
        ms(figures.cpu_left),
        ms(figures.cpu_reserved),
        ms(figures.period_start),
        bytes(figures.memory_limit),
        bytes(figures.memory_used),
        bytes(figures.memory_reserved),
        bytes(figures.memory_free()),
    )
}

fn totals(sums: &Totals) -> String {
    format!(
        "with all below it: left {}; memory used {}, free {}",
        ms(sums.cpu_left),
        bytes(sums.memory_used),
        bytes(sums.memory_free),
    )
}

fn switch(switch: &Switch) -> String {
    let root = match switch.root {
        Some(root) => format!("page-table root {root}"),
        None => "the kernel's page tables".to_string(),
    };
    format!("{} -> {}, {root}", switch.old, switch.new)
}

/// Kind and number of a wait.
pub fn wait([kind, number]: [u64; 2]) -> String {
    if kind == Wait::Sleep(Tick(0)).codes().0 {
        return format!("sleep until tick {number}");
    }
    format!("{} {number}", codes::word_or_number(WAITS, kind))
}

/// The state of a thread, with its wait.
pub fn state(row: &ThreadRow) -> String {
    let word = codes::word_or_number(STATES, row.state);
    match row.wait {
        [0, 0] => word,
        it => format!("{word}: {}", wait(it)),
    }
}

/// The space of a thread.
pub fn space(row: &ThreadRow) -> String {
    match row.space {
        [0, ..] => "no space".to_string(),
        [_, space, cspace, root] => format!("space {space}, cspace {cspace}, root {root}"),
    }
}

/// The thread with this id.
pub fn thread_id(id: u64) -> String {
    ThreadId(id).to_string()
}

fn thread(row: &ThreadRow, names: &Names) -> String {
    let budget = match row.budget {
        [0, _] => "no budget".to_string(),
        [_, id] => format!("budget {}", names.id(id)),
    };
    let registers = REGISTERS.iter().zip(row.context);
    let registers: Vec<String> = registers.map(|(name, it)| format!("{name} {it}")).collect();
    let [first, second, third] = row.results;
    format!(
        "{}; {budget}; {}; {}; {}; results {first}, {second}, {third}",
        state(row),
        count(row.run_ticks, "run tick", "run ticks"),
        space(row),
        registers.join(", "),
    )
}

#[cfg(test)]
mod tests {
    use super::*;
    use carv::c::{ANSWER_WORDS, Words};
    use carv::{Planned, ThreadRecord};

    /// Answer words that begin with these.
    fn words(first: &[u64]) -> Words {
        let mut words = [0; ANSWER_WORDS];
        words[..first.len()].copy_from_slice(first);
        words
    }

    #[test]
    fn answers() {
        let mut names = Names::default();
        names.set(2, "counting");
        let is = |given: Answer, expected: &str| assert_eq!(answer(&given, &[2], &names), expected);
        is(Answer::Done, "done");
        is(Answer::Id(ObjectId(2)), "object 2 (counting)");
        is(Answer::Id(ObjectId(3)), "object 3");
        is(Answer::Renewed(false), "not due");
        is(Answer::Pays(true), "yes");
        is(Answer::Planned(None), "no switch");
        is(
            Answer::Ended(Some(Wait::Sleep(Tick(9)))),
            "ended, it waited: sleep until tick 9",
        );
        is(Answer::Switches(1), "1 switch");
        is(Answer::Switches(2), "2 switches");
        is(Answer::Exit(Some(Cause::Faulted)), "faulted");
        is(Answer::Current(ThreadId::IDLE), "idle");
        let planned = Planned::from(&words(&[1, 0, 3, 1, 4_096]));
        is(
            Answer::Planned(planned.switch),
            "thread 0 -> thread 3, page-table root 4096",
        );
        let account = [4_000_000, 8_192, 0, 3_000_000, 0, 4_096, 0];
        is(
            Answer::Account((&words(&account)).into()),
            "counting: share 4 ms, left 3 ms, reserved 0 ms, period from 0 ms; memory 8,192 B, used 4,096 B, reserved 0 B, free 4,096 B",
        );
        is(
            Answer::Totals((&words(&[4_224, 3_968, 2_500_000])).into()),
            "counting with all below it: left 2.5 ms; memory used 4,224 B, free 3,968 B",
        );
        // State, wait, budget, no space, registers, results, run ticks.
        let record = [4, 2, 5, 1, 2, 0, 0, 0, 0, 0, 0, 514, 0, 0, 0, 0, 1, 2, 3, 1];
        let record = ThreadRecord::try_from(&record).expect("a listed state");
        is(
            Answer::Thread(Box::new(record)),
            "blocked: recv 5; budget 2 (counting); 1 run tick; no space; rip 0, rsp 0, rflags 514, rdi 0, rsi 0, cs 0, ss 0; results 1, 2, 3",
        );
    }
}
