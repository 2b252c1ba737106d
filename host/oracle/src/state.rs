//! What can be read of a board, as plain numbers.

use crate::account::Account;
use crate::objects::Object;
use crate::scheduler::{self, State, Tcb, ThreadId};

/// The whole readable state of a board.
#[derive(Clone, Debug, Default, PartialEq, Eq)]
pub struct Snapshot {
    /// The id that the next object gets.
    pub next_id: u64,
    /// Live objects, by rising id.
    pub entries: Vec<Entry>,
    /// Threads, by rising id.
    pub threads: Vec<Thread>,
    /// The ready queue, front first.
    pub ready: Vec<u64>,
    /// The current thread.
    pub current: u64,
    /// Switches so far.
    pub switches: u64,
    /// The exit log, oldest first.
    pub exits: Vec<Exit>,
}

/// One live object.
#[derive(Clone, Copy, Debug, PartialEq, Eq)]
pub struct Entry {
    /// The object's id.
    pub id: u64,
    /// 1 Thread, 2 AddressSpace, 3 Frame, 4 Endpoint, 5 Notification, 6 Budget, 7 Reply, 8 Irq,
    /// 9 IrqControl.
    pub kind: u64,
    /// The budget that pays.
    pub payer: u64,
    /// The bytes it pays.
    pub charge: u64,
    /// A budget's figures.
    pub account: Option<Account>,
}

/// One thread record.
#[derive(Clone, Copy, Debug, PartialEq, Eq)]
pub struct Thread {
    /// The thread's id.
    pub id: u64,
    /// 1 Inactive, 2 Ready, 3 Running, 4 Blocked, 5 Dead.
    pub state: u64,
    /// Its wait, where it is Blocked.
    pub wait: Option<Wait>,
    /// The budget that it runs on.
    pub budget: Option<u64>,
    /// Its address space.
    pub space: Option<u64>,
    /// Its capability space.
    pub cspace: Option<u64>,
    /// Its page-table root; none for the kernel's.
    pub root: Option<u64>,
    /// Its user context: rip, rsp, rflags, rdi, rsi, cs, ss.
    pub context: [u64; 7],
    /// The result words of its last wait.
    pub result: [u64; 3],
    /// Ticks that it was current at.
    pub run_ticks: u64,
}

/// A wait: of which kind, and for what.
#[derive(Clone, Copy, Debug, Default, PartialEq, Eq)]
pub struct Wait {
    /// 1 Send, 2 Recv, 3 Reply, 4 Notification, 5 Sleep.
    pub kind: u64,
    /// The object, thread or tick waited for.
    pub number: u64,
}

/// One record of the exit log.
#[derive(Clone, Copy, Debug, PartialEq, Eq)]
pub struct Exit {
    /// The thread that ended.
    pub thread: u64,
    /// 1 Destroyed, 2 Faulted.
    pub cause: u64,
}

impl Entry {
    pub(crate) fn read((id, object, payer, charge): (u64, &Object, u64, u64)) -> Self {
        Self {
            id,
            kind: object.object_type() as u64,
            payer,
            charge,
            account: match object {
                Object::Budget(budget) => Some(budget.parts()),
                _ => None,
            },
        }
    }
}

impl Thread {
    pub(crate) fn read(thread: &Tcb) -> Self {
        let (state, wait) = match thread.state {
            State::Inactive => (1, None),
            State::Ready => (2, None),
            State::Running => (3, None),
            State::Blocked(wait) => (4, Some(Wait::read(wait))),
            State::Dead => (5, None),
        };
        Self {
            id: thread.id,
            state,
            wait,
            budget: thread.budget,
            space: thread.space,
            cspace: thread.cspace.map(|cspace| cspace.0),
            root: thread.root.and_then(|root| root.0),
            context: thread.entry.words(),
            result: thread.result,
            run_ticks: thread.run_ticks,
        }
    }
}

impl Thread {
    /// The record without its id: state; kind and number of the wait; 1 and the budget; 1, space,
    /// cspace and root; context; results; run ticks. What isn't there is 0.
    pub fn words(&self) -> [u64; 20] {
        let wait = self.wait.unwrap_or_default();
        let mut words = [0; 20];
        words[..3].copy_from_slice(&[self.state, wait.kind, wait.number]);
        words[3..5].copy_from_slice(&[self.budget.is_some().into(), self.budget.unwrap_or(0)]);
        words[5] = self.space.is_some().into();
        let places = [self.space, self.cspace, self.root];
        words[6..9].copy_from_slice(&places.map(Option::unwrap_or_default));
        words[9..16].copy_from_slice(&self.context);
        words[16..19].copy_from_slice(&self.result);
        words[19] = self.run_ticks;
        words
    }
}

impl Wait {
    pub(crate) fn read(wait: scheduler::Wait) -> Self {
        let (kind, number) = match wait {
            scheduler::Wait::Send(object) => (1, object),
            scheduler::Wait::Recv(object) => (2, object),
            scheduler::Wait::Reply(thread) => (3, thread),
            scheduler::Wait::Notification(object) => (4, object),
            scheduler::Wait::Sleep(tick) => (5, tick),
        };
        Self { kind, number }
    }

    /// The Rust's wait. Panics if the kind isn't listed.
    pub(crate) fn source(self) -> scheduler::Wait {
        match self.kind {
            1 => scheduler::Wait::Send(self.number),
            2 => scheduler::Wait::Recv(self.number),
            3 => scheduler::Wait::Reply(self.number),
            4 => scheduler::Wait::Notification(self.number),
            5 => scheduler::Wait::Sleep(self.number),
            kind => panic!("wait {kind} is not listed"),
        }
    }
}

impl Exit {
    pub(crate) fn read((thread, cause): (ThreadId, scheduler::Exit)) -> Self {
        Self {
            thread,
            cause: cause_number(cause),
        }
    }
}

/// The number of a cause.
pub(crate) fn cause_number(cause: scheduler::Exit) -> u64 {
    match cause {
        scheduler::Exit::Destroyed => 1,
        scheduler::Exit::Faulted => 2,
    }
}

/// The Rust's cause. Panics if it isn't listed.
pub(crate) fn source_cause(number: u64) -> scheduler::Exit {
    match number {
        1 => scheduler::Exit::Destroyed,
        2 => scheduler::Exit::Faulted,
        _ => panic!("cause {number} is not listed"),
    }
}
