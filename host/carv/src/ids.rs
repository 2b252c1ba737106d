//! Ids of objects and threads.

use core::fmt;

/// The id of an object. The board gives it; it is never given again.
#[derive(Clone, Copy, Debug, PartialEq, Eq, PartialOrd, Ord, Hash)]
pub struct ObjectId(
    /// The number that the board knows it by.
    pub u64,
);

impl ObjectId {
    /// The root budget, which pays for itself and for everything else in the end.
    pub const ROOT: Self = Self(carv_sys::CARV_ROOT);
}

impl fmt::Display for ObjectId {
    fn fmt(&self, f: &mut fmt::Formatter<'_>) -> fmt::Result {
        write!(f, "object {}", self.0)
    }
}

/// The id of a thread. The caller chooses it.
#[derive(Clone, Copy, Debug, PartialEq, Eq, PartialOrd, Ord, Hash)]
pub struct ThreadId(
    /// The number that the board knows it by.
    pub u64,
);

impl ThreadId {
    /// The thread that runs at an opening. It has no budget, so nothing holds it back.
    pub const FIRST: Self = Self(carv_sys::CARV_FIRST_THREAD);
    /// The thread that runs when no other can.
    pub const IDLE: Self = Self(carv_sys::CARV_IDLE);

    /// The thread with the number of this object, the one that stands for it in the registry: a
    /// number that no other thread had if all are chosen in this way.
    pub const fn of(object: ObjectId) -> Self {
        Self(object.0)
    }
}

impl fmt::Display for ThreadId {
    fn fmt(&self, f: &mut fmt::Formatter<'_>) -> fmt::Result {
        match *self {
            Self::IDLE => f.write_str("idle"),
            Self(number) => write!(f, "thread {number}"),
        }
    }
}

/// Both ways between an id and its number.
macro_rules! numbered {
    ($($name:ident)*) => {$(
        impl From<u64> for $name {
            fn from(number: u64) -> Self {
                Self(number)
            }
        }

        impl From<$name> for u64 {
            fn from(id: $name) -> Self {
                id.0
            }
        }
    )*};
}

numbered! { ObjectId ThreadId }
