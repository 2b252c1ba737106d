//! The calls with their arguments, and edits that no call makes.

use std::fmt;

/// Most words that a call's arguments take: those of `start`.
pub const ARGUMENTS: usize = 11;

/// Something that a call is given: one or more words.
trait Argument {
    fn push(self, to: &mut Vec<u64>);
}

impl Argument for u64 {
    fn push(self, to: &mut Vec<u64>) {
        to.push(self);
    }
}

impl Argument for bool {
    fn push(self, to: &mut Vec<u64>) {
        to.push(self.into());
    }
}

impl<const COUNT: usize> Argument for [u64; COUNT] {
    fn push(self, to: &mut Vec<u64>) {
        to.extend(self);
    }
}

macro_rules! calls {
    ($($(#[$doc:meta])* $code:literal $name:literal $call:ident { $($argument:ident: $type:ty),* })*) => {
        /// The calls without their arguments, each with its number in records.
        #[derive(Clone, Copy, Debug, PartialEq, Eq, PartialOrd, Ord)]
        pub enum Op {
            $($(#[$doc])* $call = $code,)*
        }

        impl Op {
            /// All calls, in the order of their numbers.
            pub const ALL: &[Self] = &[$(Self::$call),*];

            /// The call's name.
            pub const fn name(self) -> &'static str {
                match self {
                    $(Self::$call => $name,)*
                }
            }
        }

        /// One call with its arguments.
        #[derive(Clone, Copy, Debug, PartialEq, Eq)]
        #[expect(missing_docs, reason = "document 01 has the arguments")]
        pub enum Call {
            $($(#[$doc])* $call { $($argument: $type),* },)*
        }

        impl Call {
            /// Which call it is.
            pub const fn op(self) -> Op {
                match self {
                    $(Self::$call { .. } => Op::$call,)*
                }
            }

            /// The words of its arguments.
            pub fn arguments(self) -> Vec<u64> {
                let mut words = Vec::with_capacity(ARGUMENTS);
                match self {
                    $(Self::$call { $($argument),* } => {
                        $($argument.push(&mut words);)*
                    })*
                }
                words
            }
        }
    };
}

calls! {
    /// Opens a board in place of the one that is there.
    1 "open" Open { cpu: u64, memory: u64 }
    /// Creates an object, its backing there or not.
    2 "create" Create { kind: u64, payer: u64, backing: bool }
    /// Inserts an object at any charge.
    3 "insert" Insert { kind: u64, payer: u64, bytes: u64 }
    /// Carves out a budget.
    4 "create_budget" CreateBudget { parent: u64, cpu: u64, memory: u64, time: u64 }
    /// Raises an object's charge.
    5 "charge_more" ChargeMore { id: u64, bytes: u64 }
    /// Lowers an object's charge.
    6 "uncharge" Uncharge { id: u64, bytes: u64 }
    /// Removes an object, of a budget after its payer's renewal if that is due.
    7 "remove" Remove { id: u64, time: u64 }
    /// Renews a budget if that is due.
    8 "refill" Refill { id: u64, time: u64 }
    /// Charges CPU time to a budget.
    9 "charge_cpu" ChargeCpu { id: u64, ns: u64, time: u64 }
    /// Reads whether a budget pays for another object.
    10 "pays_for_anything" PaysForAnything { id: u64 }
    /// Reads the figures of a budget.
    11 "account" Account { id: u64 }
    /// Reads payer and charge of an object.
    12 "charge_of" ChargeOf { id: u64 }
    /// Creates a thread, its kernel stack there or not.
    13 "create_user_thread" CreateUserThread { id: u64, budget: u64, stack: bool }
    /// Makes an Inactive thread ready. The context is rip, rsp, rflags, rdi, rsi, cs, ss.
    14 "start" Start { id: u64, space: u64, cspace: u64, root: u64, context: [u64; 7] }
    /// Blocks the current thread.
    15 "block_current" BlockCurrent { kind: u64, number: u64 }
    /// Wakes a Blocked thread.
    16 "wake" Wake { id: u64, results: [u64; 3] }
    /// Reads whether a thread is blocked on just this wait.
    17 "is_blocked_on" IsBlockedOn { id: u64, kind: u64, number: u64 }
    /// Ends a thread.
    18 "kill" Kill { id: u64, cause: u64 }
    /// Books a tick to the current thread and wakes sleepers.
    19 "tick" Tick { tick: u64 }
    /// Picks the thread that runs.
    20 "plan" Plan { tick: u64 }
    /// Reads a thread's record.
    21 "thread" Thread { id: u64 }
    /// Reads the current thread's id.
    22 "current" Current {}
    /// Reads the switch count.
    23 "switches" Switches {}
    /// Reads why a thread ended.
    24 "exit_of" ExitOf { id: u64 }
    /// Reads figures of a budget and all below it.
    25 "totals" Totals { id: u64 }
}

impl Op {
    /// Whether the call changes nothing.
    pub const fn is_reading(self) -> bool {
        matches!(
            self,
            Self::PaysForAnything
                | Self::Account
                | Self::ChargeOf
                | Self::IsBlockedOn
                | Self::Thread
                | Self::Current
                | Self::Switches
                | Self::ExitOf
                | Self::Totals
        )
    }
}

impl fmt::Display for Call {
    fn fmt(&self, f: &mut fmt::Formatter<'_>) -> fmt::Result {
        let words: Vec<String> = self.arguments().iter().map(u64::to_string).collect();
        write!(f, "{}({})", self.op().name(), words.join(", "))
    }
}

/// A change that no call makes, for edges that no list of calls reaches.
#[derive(Clone, Copy, Debug, PartialEq, Eq)]
pub enum Edit {
    /// Raises the next id; a lower one is passed over.
    NextId(u64),
    /// Sets the switch count.
    Switches(u64),
    /// Sets the current thread's run ticks.
    RunTicks(u64),
}

impl fmt::Display for Edit {
    fn fmt(&self, f: &mut fmt::Formatter<'_>) -> fmt::Result {
        match self {
            Self::NextId(id) => write!(f, "[next id raised to {id}]"),
            Self::Switches(count) => write!(f, "[switch count set to {count}]"),
            Self::RunTicks(ticks) => write!(f, "[the current thread's run ticks set to {ticks}]"),
        }
    }
}

/// A step of a list: a call or an edit.
#[derive(Clone, Copy, Debug, PartialEq, Eq)]
pub enum Step {
    /// A call.
    Call(Call),
    /// An edit, made alike on both sides.
    Edit(Edit),
}

impl fmt::Display for Step {
    fn fmt(&self, f: &mut fmt::Formatter<'_>) -> fmt::Result {
        match self {
            Self::Call(call) => call.fmt(f),
            Self::Edit(edit) => edit.fmt(f),
        }
    }
}

#[cfg(test)]
mod tests {
    use super::*;

    #[test]
    fn numbers_names_and_arguments() {
        for (place, op) in Op::ALL.iter().enumerate() {
            assert_eq!(*op as usize, place + 1);
        }
        let call = Call::Start {
            id: 1,
            space: 2,
            cspace: 3,
            root: 4,
            context: [5, 6, 7, 8, 9, 10, 11],
        };
        assert_eq!(call.arguments().len(), ARGUMENTS);
        assert_eq!(call.to_string(), "start(1, 2, 3, 4, 5, 6, 7, 8, 9, 10, 11)");
        assert_eq!(Call::Current {}.to_string(), "current()");
    }
}
