//! The calls on threads.

use super::objects::backing;
use super::{Argument, Form, Meaning, THREAD, argument, default, number};
use crate::answer::Answer;
use carv::{Context, ObjectId, Space, ThreadId, Tick};

const WAIT: [Argument; 2] = [argument("kind", Meaning::Wait), number("number")];
const TICK: Argument = argument("n", Meaning::Tick);

pub(super) const FORMS: [Form; 12] = [
    Form {
        name: "create_user_thread",
        arguments: &[
            THREAD,
            argument("budget", Meaning::Object),
            argument("stack", Meaning::Flag),
        ],
        does: "creates an inactive thread under this id, on this budget, which is not looked up",
        answers: "nothing",
        refusals: &[5, 6, 14],
        asks_soundness: true,
        make: |board, a| {
            let made = board.create_user_thread(ThreadId(a[0]), ObjectId(a[1]), backing(a[2]));
            made.map(|_image| Answer::Done)
        },
    },
    Form {
        name: "start",
        arguments: &[
            THREAD,
            default("space", 0),
            default("cspace", 0),
            default("root", 0),
            default("rip", 0),
            default("rsp", 0),
            default("rflags", 0x202),
            default("rdi", 0),
            default("rsi", 0),
            default("cs", 0),
            default("ss", 0),
        ],
        does: "gives an inactive thread its space and registers, and makes it ready; what is left out at the end is as a new thread has it (rflags 514, else 0)",
        answers: "nothing",
        refusals: &[7, 8],
        asks_soundness: true,
        make: |board, a| {
            let space = Space {
                space: a[1],
                cspace: a[2],
                root: a[3],
            };
            let context = Context {
                rip: a[4],
                rsp: a[5],
                rflags: a[6],
                rdi: a[7],
                rsi: a[8],
                cs: a[9],
                ss: a[10],
            };
            let started = board.start(ThreadId(a[0]), space, context);
            started.map(|()| Answer::Done)
        },
    },
    Form {
        name: "block_current",
        arguments: &WAIT,
        does: "blocks the current thread on a wait; the number of a sleep is the tick that ends it",
        answers: "nothing",
        refusals: &[4, 8],
        asks_soundness: true,
        make: |board, a| {
            let blocked = board.block_current_by_code((a[0], a[1]));
            blocked.map(|()| Answer::Done)
        },
    },
    Form {
        name: "wake",
        arguments: &[THREAD, number("first"), number("second"), number("third")],
        does: "makes a blocked thread ready, with three results",
        answers: "nothing",
        refusals: &[7, 8],
        asks_soundness: true,
        make: |board, a| {
            let woken = board.wake(ThreadId(a[0]), [a[1], a[2], a[3]]);
            woken.map(|()| Answer::Done)
        },
    },
    Form {
        name: "is_blocked_on",
        arguments: &[THREAD, WAIT[0], WAIT[1]],
        does: "asks whether a thread is blocked on just this wait",
        answers: "yes or no",
        refusals: &[4],
        asks_soundness: true,
        make: |board, a| {
            let is_blocked = board.is_blocked_on_by_code(ThreadId(a[0]), (a[1], a[2]));
            is_blocked.map(Answer::Blocked)
        },
    },
    Form {
        name: "kill",
        arguments: &[THREAD, argument("cause", Meaning::Cause)],
        does: "ends a thread and logs its end; the current thread stays, dead, until a planning leaves it",
        answers: "the wait that this ended, if there was one",
        refusals: &[4, 5, 7],
        asks_soundness: true,
        make: |board, a| board.kill_by_code(ThreadId(a[0]), a[1]).map(Answer::Ended),
    },
    Form {
        name: "tick",
        arguments: &[TICK],
        does: "books the ms that ends with tick n to the current thread, then wakes the sleepers that are due",
        answers: "nothing",
        refusals: &[3],
        asks_soundness: true,
        make: |board, a| board.tick(Tick(a[0])).map(|()| Answer::Done),
    },
    Form {
        name: "plan",
        arguments: &[TICK],
        does: "picks the thread that runs from tick n on",
        answers: "the switch from thread to thread with the new page-table root, or no switch",
        refusals: &[3],
        asks_soundness: true,
        make: |board, a| {
            let planned = board.plan(Tick(a[0]));
            planned.map(|planned| Answer::Planned(planned.switch))
        },
    },
    Form {
        name: "read_thread",
        arguments: &[THREAD],
        does: "reads a thread's record",
        answers: "state, wait, budget, space, registers, results and run ticks",
        refusals: &[7],
        asks_soundness: true,
        make: |board, a| {
            let record = board.read_thread(ThreadId(a[0]));
            record.map(|record| Answer::Thread(Box::new(record)))
        },
    },
    Form {
        name: "current",
        arguments: &[],
        does: "reads which thread is current",
        answers: "the thread",
        refusals: &[],
        asks_soundness: true,
        make: |board, _| board.current().map(Answer::Current),
    },
    Form {
        name: "switches",
        arguments: &[],
        does: "reads how many switches there were",
        answers: "the number",
        refusals: &[],
        asks_soundness: true,
        make: |board, _| board.switches().map(Answer::Switches),
    },
    Form {
        name: "exit_of",
        arguments: &[THREAD],
        does: "reads the cause of the oldest logged end of a thread",
        answers: "the cause, if an end is logged",
        refusals: &[],
        asks_soundness: true,
        make: |board, a| board.exit_of(ThreadId(a[0])).map(Answer::Exit),
    },
];
