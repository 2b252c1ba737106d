//! Events for the list below the picture. They keep ids: a name may come behind them.

use crate::answer::Answer;
use crate::call::Call;
use crate::figures::{bytes, ms};
use crate::names::Names;
use carv::{Board, ObjectId, Refusal, ThreadId};

/// Something that the list below the picture tells.
pub(super) enum Event {
    /// A refused call, in words.
    Refused(String),
    /// A budget that comes.
    Carved {
        id: u64,
        parent: u64,
        cpu_ns: u64,
        memory_bytes: u64,
    },
    /// A budget that goes.
    Removed(u64),
    /// A thread that ends, and its budget.
    Killed(ThreadId, Option<ObjectId>),
}

impl Event {
    /// The event in words, with the names that are known now.
    pub(super) fn text(&self, names: &Names) -> String {
        match self {
            Self::Refused(text) => text.clone(),
            Self::Carved {
                id,
                parent,
                cpu_ns,
                memory_bytes,
            } => {
                let (budget, parent) = (names.id(*id), names.id(*parent));
                let (cpu, memory) = (ms(*cpu_ns), bytes(*memory_bytes));
                format!("budget {budget} is carved out of {parent}: {cpu}, {memory}")
            }
            Self::Removed(id) => format!("budget {} is removed", names.id(*id)),
            Self::Killed(thread, budget) => {
                let budget = budget.map(|budget| format!(" of budget {}", names.id(budget.0)));
                format!("{thread}{} is killed", budget.unwrap_or_default())
            }
        }
    }
}

/// What a call shows: that it is refused, a budget that comes, or what it ends.
pub(super) fn event(
    call: &Call,
    made: &Result<Answer, Refusal>,
    end: Option<Event>,
) -> Option<Event> {
    match (call.form().name, made, call.arguments()) {
        (_, Err(refusal), _) => Some(Event::Refused(format!("{call}: {refusal}"))),
        ("create_budget", Ok(Answer::Id(id)), [parent, cpu, memory, _]) => Some(Event::Carved {
            id: id.0,
            parent: *parent,
            cpu_ns: *cpu,
            memory_bytes: *memory,
        }),
        _ => end,
    }
}

/// What a call on this board ends, if it is accepted: a thread or a budget.
pub(super) fn end(call: &Call, board: &Board) -> Option<Event> {
    match (call.form().name, call.arguments()) {
        ("remove", [id, _]) => {
            let _live = board.account(ObjectId(*id)).ok()?;
            Some(Event::Removed(*id))
        }
        ("kill", [id, _]) => {
            let thread = ThreadId(*id);
            let budget = board.read_thread(thread).ok()?.budget;
            Some(Event::Killed(thread, budget))
        }
        _ => None,
    }
}
