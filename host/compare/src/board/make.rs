//! Short names for calls in lists that are written out.

use super::call::Call;

/// Reads the current thread's id.
pub const CURRENT: Call = Call::Current {};
/// Reads the switch count.
pub const SWITCHES: Call = Call::Switches {};

/// Opens a board.
pub const fn open(cpu: u64, memory: u64) -> Call {
    Call::Open { cpu, memory }
}

/// Creates an object.
pub const fn create(kind: u64, payer: u64, backing: bool) -> Call {
    Call::Create {
        kind,
        payer,
        backing,
    }
}

/// Inserts an object.
pub const fn insert(kind: u64, payer: u64, bytes: u64) -> Call {
    Call::Insert { kind, payer, bytes }
}

/// Carves out a budget.
pub const fn carve(parent: u64, cpu: u64, memory: u64, time: u64) -> Call {
    Call::CreateBudget {
        parent,
        cpu,
        memory,
        time,
    }
}

/// Raises an object's charge.
pub const fn charge_more(id: u64, bytes: u64) -> Call {
    Call::ChargeMore { id, bytes }
}

/// Lowers an object's charge.
pub const fn uncharge(id: u64, bytes: u64) -> Call {
    Call::Uncharge { id, bytes }
}

/// Removes an object.
pub const fn remove(id: u64, time: u64) -> Call {
    Call::Remove { id, time }
}

/// Renews a budget.
pub const fn refill(id: u64, time: u64) -> Call {
    Call::Refill { id, time }
}

/// Charges CPU time.
pub const fn spend(id: u64, ns: u64, time: u64) -> Call {
    Call::ChargeCpu { id, ns, time }
}

/// Reads whether a budget pays for another object.
pub const fn pays(id: u64) -> Call {
    Call::PaysForAnything { id }
}

/// Reads the figures of a budget.
pub const fn account(id: u64) -> Call {
    Call::Account { id }
}

/// Reads payer and charge.
pub const fn charge_of(id: u64) -> Call {
    Call::ChargeOf { id }
}

/// Reads figures of a budget and all below it.
pub const fn totals(id: u64) -> Call {
    Call::Totals { id }
}

/// Creates a thread, with a kernel stack.
pub const fn new_thread(id: u64, budget: u64) -> Call {
    Call::CreateUserThread {
        id,
        budget,
        stack: true,
    }
}

/// Starts a thread, always in the same place.
pub const fn start(id: u64) -> Call {
    Call::Start {
        id,
        space: 20,
        cspace: 30,
        root: 40,
        context: [1, 2, 3, 4, 5, 6, 7],
    }
}

/// Blocks the current thread.
pub const fn block(kind: u64, number: u64) -> Call {
    Call::BlockCurrent { kind, number }
}

/// Wakes a thread, always with the same results.
pub const fn wake(id: u64) -> Call {
    Call::Wake {
        id,
        results: [11, 12, 13],
    }
}

/// Reads whether a thread is blocked on this wait.
pub const fn blocked_on(id: u64, kind: u64, number: u64) -> Call {
    Call::IsBlockedOn { id, kind, number }
}

/// Ends a thread.
pub const fn kill(id: u64, cause: u64) -> Call {
    Call::Kill { id, cause }
}

/// Books a tick.
pub const fn tick(tick: u64) -> Call {
    Call::Tick { tick }
}

/// Plans.
pub const fn plan(tick: u64) -> Call {
    Call::Plan { tick }
}

/// Reads a thread's record.
pub const fn thread(id: u64) -> Call {
    Call::Thread { id }
}

/// Reads why a thread ended.
pub const fn exit_of(id: u64) -> Call {
    Call::ExitOf { id }
}
