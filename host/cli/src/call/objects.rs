//! The calls on the whole board, on objects and on budgets.

use super::{Argument, BYTES, Form, Meaning, OBJECT, TIME, argument};
use crate::answer::Answer;
use carv::{Backing, Limits, Nanoseconds, ObjectId};

const KIND: Argument = argument("kind", Meaning::Kind);
const PAYER: Argument = argument("payer", Meaning::Object);
const CPU: Argument = argument("cpu", Meaning::Ns);
const MEMORY: Argument = argument("memory", Meaning::Bytes);

fn limits(cpu_ns: u64, memory_bytes: u64) -> Limits {
    Limits {
        cpu_ns,
        memory_bytes,
    }
}

/// What a 1 or 0 in a list says.
pub(super) fn backing(flag: u64) -> Backing {
    if flag == 0 {
        Backing::Missing
    } else {
        Backing::There
    }
}

pub(super) const FORMS: [Form; 14] = [
    Form {
        name: "open",
        arguments: &[CPU, MEMORY],
        does: "opens a board whose root budget has this share of every 10 ms and this memory",
        answers: "nothing",
        refusals: &[2],
        asks_soundness: false,
        make: |board, a| board.reopen(limits(a[0], a[1])).map(|()| Answer::Done),
    },
    Form {
        name: "is_sound",
        arguments: &[],
        does: "asks whether the board is sound",
        answers: "yes or no",
        refusals: &[],
        asks_soundness: false,
        make: |board, _| Ok(Answer::Sound(board.is_sound())),
    },
    Form {
        name: "create",
        arguments: &[KIND, PAYER, argument("backing", Meaning::Flag)],
        does: "creates an address_space, frame, endpoint, notification or reply, and charges its bytes to the payer",
        answers: "the object's id",
        refusals: &[4, 6, 7, 12, 13, 14],
        asks_soundness: true,
        make: |board, a| {
            let made = board.create_by_code(a[0], ObjectId(a[1]), backing(a[2]));
            made.map(Answer::Id)
        },
    },
    Form {
        name: "insert",
        arguments: &[KIND, PAYER, BYTES],
        does: "inserts an object of any kind but budget, and charges so many bytes to the payer",
        answers: "the object's id",
        refusals: &[4, 6, 7, 12],
        asks_soundness: true,
        make: |board, a| {
            let made = board.insert_by_code(a[0], ObjectId(a[1]), a[2]);
            made.map(Answer::Id)
        },
    },
    Form {
        name: "create_budget",
        arguments: &[argument("parent", Meaning::Object), CPU, MEMORY, TIME],
        does: "carves a budget out of its parent at this time",
        answers: "the budget's id",
        refusals: &[6, 7, 12],
        asks_soundness: true,
        make: |board, a| {
            let made = board.create_budget(ObjectId(a[0]), limits(a[1], a[2]), Nanoseconds(a[3]));
            made.map(Answer::Id)
        },
    },
    Form {
        name: "charge_more",
        arguments: &[OBJECT, BYTES],
        does: "raises an object's charge, and what its payer has used",
        answers: "nothing",
        refusals: &[7, 12],
        asks_soundness: true,
        make: |board, a| {
            board
                .charge_more(ObjectId(a[0]), a[1])
                .map(|()| Answer::Done)
        },
    },
    Form {
        name: "uncharge",
        arguments: &[OBJECT, BYTES],
        does: "lowers an object's charge, and what its payer has used",
        answers: "nothing",
        refusals: &[7, 11],
        asks_soundness: true,
        make: |board, a| board.uncharge(ObjectId(a[0]), a[1]).map(|()| Answer::Done),
    },
    Form {
        name: "remove",
        arguments: &[OBJECT, TIME],
        does: "removes an object, a budget after its payer's renewal if that is due at this time; the payer gets back the charge and, of a budget, the reservations",
        answers: "nothing",
        refusals: &[7, 9, 10],
        asks_soundness: true,
        make: |board, a| {
            board
                .remove(ObjectId(a[0]), Nanoseconds(a[1]))
                .map(|()| Answer::Done)
        },
    },
    Form {
        name: "refill",
        arguments: &[OBJECT, TIME],
        does: "renews a budget if that is due at this time",
        answers: "whether it was renewed",
        refusals: &[7],
        asks_soundness: true,
        make: |board, a| {
            board
                .refill(ObjectId(a[0]), Nanoseconds(a[1]))
                .map(Answer::Renewed)
        },
    },
    Form {
        name: "charge_cpu",
        arguments: &[OBJECT, argument("ns", Meaning::Ns), TIME],
        does: "renews a budget if that is due at this time, then charges it CPU time",
        answers: "nothing",
        refusals: &[7, 12],
        asks_soundness: true,
        make: |board, a| {
            let charged = board.charge_cpu(ObjectId(a[0]), a[1], Nanoseconds(a[2]));
            charged.map(|()| Answer::Done)
        },
    },
    Form {
        name: "pays_for_anything",
        arguments: &[OBJECT],
        does: "asks whether another object has this payer",
        answers: "yes or no",
        refusals: &[],
        asks_soundness: true,
        make: |board, a| board.pays_for_anything(ObjectId(a[0])).map(Answer::Pays),
    },
    Form {
        name: "account",
        arguments: &[OBJECT],
        does: "reads a budget's account",
        answers: "CPU share, left, reserved and period start; memory limit, used, reserved and free",
        refusals: &[7],
        asks_soundness: true,
        make: |board, a| board.account(ObjectId(a[0])).map(Answer::Account),
    },
    Form {
        name: "charge_of",
        arguments: &[OBJECT],
        does: "reads what an object is charged",
        answers: "payer and bytes",
        refusals: &[7],
        asks_soundness: true,
        make: |board, a| board.charge_of(ObjectId(a[0])).map(Answer::Charge),
    },
    Form {
        name: "totals",
        arguments: &[OBJECT],
        does: "sums up a budget and all budgets below it, at any depth, and renews nothing",
        answers: "CPU left; memory used and free, together the budget's memory limit",
        refusals: &[7],
        asks_soundness: true,
        make: |board, a| board.totals(ObjectId(a[0])).map(Answer::Totals),
    },
];
