//! Kinds, states, waits and causes, with document 01's numbers.

use core::error::Error;
use core::fmt;

use crate::{Refusal, Tick};
use carv_sys::*;

/// A number that no list of kinds, waits or causes has. As a refusal it is [`Refusal::Code`].
///
/// ```
/// use carv::{Kind, Refusal};
///
/// let unlisted = Kind::try_from(10).unwrap_err();
/// assert_eq!(unlisted.to_string(), "there is no kind 10");
/// assert_eq!(unlisted.number(), 10);
/// assert_eq!(Refusal::from(unlisted), Refusal::Code);
/// ```
#[derive(Clone, Copy, Debug, PartialEq, Eq, Hash)]
pub struct UnlistedCode {
    list: &'static str,
    number: u64,
}

impl UnlistedCode {
    /// The number.
    pub const fn number(self) -> u64 {
        self.number
    }
}

impl fmt::Display for UnlistedCode {
    fn fmt(&self, f: &mut fmt::Formatter<'_>) -> fmt::Result {
        write!(f, "there is no {} {}", self.list, self.number)
    }
}

impl Error for UnlistedCode {}

impl From<UnlistedCode> for Refusal {
    fn from(_: UnlistedCode) -> Self {
        Self::Code
    }
}

/// Declares an enum whose values have a number, and both ways between them.
macro_rules! coded {
    ($(#[$doc:meta])* $name:ident, $list:literal {
        $($(#[$value_doc:meta])* $value:ident = $code:path,)*
    }) => {
        $(#[$doc])*
        #[derive(Clone, Copy, Debug, PartialEq, Eq, Hash)]
        #[non_exhaustive]
        #[repr(u64)]
        pub enum $name {
            $($(#[$value_doc])* $value = $code,)*
        }

        impl $name {
            /// All of them, by rising number.
            pub const ALL: &[Self] = &[$(Self::$value),*];

            /// The number that the board knows it by.
            pub const fn code(self) -> u64 {
                self as u64
            }
        }

        impl From<$name> for u64 {
            fn from(value: $name) -> Self {
                value.code()
            }
        }

        impl TryFrom<u64> for $name {
            type Error = UnlistedCode;

            fn try_from(number: u64) -> Result<Self, UnlistedCode> {
                match number {
                    $($code => Ok(Self::$value),)*
                    number => Err(UnlistedCode { list: $list, number }),
                }
            }
        }
    };
}

coded! {
    /// The kind of an object.
    Kind, "kind" {
        /// A thread.
        Thread = CARV_KIND_THREAD,
        /// An address space.
        AddressSpace = CARV_KIND_ADDRESS_SPACE,
        /// A frame of memory.
        Frame = CARV_KIND_FRAME,
        /// An endpoint for messages.
        Endpoint = CARV_KIND_ENDPOINT,
        /// A notification.
        Notification = CARV_KIND_NOTIFICATION,
        /// A budget.
        Budget = CARV_KIND_BUDGET,
        /// A reply.
        Reply = CARV_KIND_REPLY,
        /// An interrupt.
        Irq = CARV_KIND_IRQ,
        /// The control of interrupts.
        IrqControl = CARV_KIND_IRQ_CONTROL,
    }
}

impl Kind {
    /// The bytes that an object of this kind is charged.
    pub const fn bytes(self) -> u64 {
        match self {
            Self::Thread => CARV_BYTES_THREAD,
            Self::AddressSpace => CARV_BYTES_ADDRESS_SPACE,
            Self::Frame => CARV_BYTES_FRAME,
            Self::Endpoint => CARV_BYTES_ENDPOINT,
            Self::Notification => CARV_BYTES_NOTIFICATION,
            Self::Budget => CARV_BYTES_BUDGET,
            Self::Reply => CARV_BYTES_REPLY,
            Self::Irq => CARV_BYTES_IRQ,
            Self::IrqControl => CARV_BYTES_IRQ_CONTROL,
        }
    }
}

coded! {
    /// Why a thread ended.
    Cause, "cause" {
        /// It was ended on purpose.
        Destroyed = CARV_CAUSE_DESTROYED,
        /// It did something that it must not do.
        Faulted = CARV_CAUSE_FAULTED,
    }
}

impl Cause {
    /// The cause with this number, none for 0. A board that answers others isn't sound.
    pub(crate) fn decode(number: u64) -> Result<Option<Self>, Refusal> {
        match number {
            CARV_CAUSE_NONE => Ok(None),
            number => Self::try_from(number)
                .map(Some)
                .map_err(|_| Refusal::Unsound),
        }
    }
}

/// Whether what an object or a thread needs is there: page tables, a frame, a kernel stack.
#[derive(Clone, Copy, Debug, PartialEq, Eq, Hash)]
pub enum Backing {
    /// It is there.
    There,
    /// It is not, and the call is refused with [`Refusal::Backing`].
    Missing,
}

impl Backing {
    /// As the board takes it.
    pub(crate) fn is_there(self) -> bool {
        self == Self::There
    }
}

impl From<bool> for Backing {
    /// Is it there?
    fn from(is_there: bool) -> Self {
        if is_there { Self::There } else { Self::Missing }
    }
}

/// What a Blocked thread waits for.
#[derive(Clone, Copy, Debug, PartialEq, Eq, Hash)]
#[non_exhaustive]
pub enum Wait {
    /// That a message is taken, with a number of the caller's choice, as for the next three.
    Send(u64),
    /// That a message comes.
    Recv(u64),
    /// A reply.
    Reply(u64),
    /// A notification.
    Notification(u64),
    /// This tick, which wakes the thread.
    Sleep(Tick),
}

impl Wait {
    /// The numbers that the board knows it by: of its kind, and its own.
    pub const fn codes(self) -> (u64, u64) {
        match self {
            Self::Send(number) => (CARV_WAIT_SEND, number),
            Self::Recv(number) => (CARV_WAIT_RECV, number),
            Self::Reply(number) => (CARV_WAIT_REPLY, number),
            Self::Notification(number) => (CARV_WAIT_NOTIFICATION, number),
            Self::Sleep(Tick(number)) => (CARV_WAIT_SLEEP, number),
        }
    }

    /// The wait with these numbers, none for the kind 0. A board that answers others isn't sound.
    pub(crate) fn decode(kind: u64, number: u64) -> Result<Option<Self>, Refusal> {
        match kind {
            CARV_WAIT_NONE => Ok(None),
            kind => Self::try_from((kind, number))
                .map(Some)
                .map_err(|_| Refusal::Unsound),
        }
    }
}

impl From<Wait> for (u64, u64) {
    fn from(wait: Wait) -> Self {
        wait.codes()
    }
}

impl TryFrom<(u64, u64)> for Wait {
    type Error = UnlistedCode;

    fn try_from((kind, number): (u64, u64)) -> Result<Self, UnlistedCode> {
        Ok(match kind {
            CARV_WAIT_SEND => Self::Send(number),
            CARV_WAIT_RECV => Self::Recv(number),
            CARV_WAIT_REPLY => Self::Reply(number),
            CARV_WAIT_NOTIFICATION => Self::Notification(number),
            CARV_WAIT_SLEEP => Self::Sleep(Tick(number)),
            kind => {
                return Err(UnlistedCode {
                    list: "wait",
                    number: kind,
                });
            }
        })
    }
}

/// The state of a thread.
#[derive(Clone, Copy, Debug, PartialEq, Eq, Hash)]
#[non_exhaustive]
pub enum State {
    /// Created, not started.
    Inactive,
    /// Waits in the queue for a planning to pick it; idle is Ready without being in the queue.
    Ready,
    /// Runs. Idle reads so after its first run.
    Running,
    /// Waits for something.
    Blocked(Wait),
    /// Killed while it was current; gone after the planning that leaves it.
    Dead,
}

impl State {
    /// The number that the board knows it by.
    pub const fn code(self) -> u64 {
        match self {
            Self::Inactive => CARV_STATE_INACTIVE,
            Self::Ready => CARV_STATE_READY,
            Self::Running => CARV_STATE_RUNNING,
            Self::Blocked(_) => CARV_STATE_BLOCKED,
            Self::Dead => CARV_STATE_DEAD,
        }
    }

    /// The state with this number and wait. A board that answers others isn't sound.
    pub(crate) fn decode(code: u64, wait: Option<Wait>) -> Result<Self, Refusal> {
        Ok(match (code, wait) {
            (CARV_STATE_INACTIVE, None) => Self::Inactive,
            (CARV_STATE_READY, None) => Self::Ready,
            (CARV_STATE_RUNNING, None) => Self::Running,
            (CARV_STATE_BLOCKED, Some(wait)) => Self::Blocked(wait),
            (CARV_STATE_DEAD, None) => Self::Dead,
            _ => return Err(Refusal::Unsound),
        })
    }
}

impl From<State> for u64 {
    fn from(state: State) -> Self {
        state.code()
    }
}
