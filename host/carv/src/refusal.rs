//! Refusals: document 01's numbers, their meanings, and what to do about them.

use core::error::Error;
use core::fmt;

/// Why a call was refused: the first of document 01's questions that it misses.
///
/// ```
/// use carv::Refusal;
///
/// let refusal = Refusal::Pays;
/// assert_eq!(refusal.number(), 10);
/// assert_eq!(refusal.to_string(), "refused with 10: the budget to be removed pays for something");
/// assert!(refusal.advice().starts_with("Remove what it pays for first"));
/// assert_eq!(Refusal::from_number(10), Refusal::Pays);
/// ```
#[derive(Clone, Copy, Debug, PartialEq, Eq, Hash)]
#[non_exhaustive]
pub enum Refusal {
    /// 1: the bytes hold no sound board, or have another length.
    Unsound,
    /// 2: the CPU share of an opening is above a period.
    Share,
    /// 3: the tick is above [`LAST_TICK`](crate::LAST_TICK).
    Tick,
    /// 4: a kind, wait or cause is not listed, or a budget was to be inserted.
    Code,
    /// 5: a new thread's id is taken, or that of thread 0 or idle; or idle was to be killed.
    Id,
    /// 6: the table has no place left, or ids have run out.
    Full,
    /// 7: there is no such object, payer or thread, or it is no budget where one is asked for.
    Missing,
    /// 8: the thread is not in the state that the call asks for.
    State,
    /// 9: the root can't be removed.
    Root,
    /// 10: the budget to be removed pays for something.
    Pays,
    /// 11: an uncharge is above the recorded charge.
    Charge,
    /// 12: the payer can't cover the charge or the carve-out.
    Limit,
    /// 13: an object of this kind can't be created.
    Kind,
    /// 14: the backing, or the new thread's kernel stack, is not there.
    Backing,
    /// A number that this crate doesn't know.
    Other(u64),
}

impl Refusal {
    /// The listed refusals, by their numbers 1 to 14.
    pub const LISTED: [Self; 14] = [
        Self::Unsound,
        Self::Share,
        Self::Tick,
        Self::Code,
        Self::Id,
        Self::Full,
        Self::Missing,
        Self::State,
        Self::Root,
        Self::Pays,
        Self::Charge,
        Self::Limit,
        Self::Kind,
        Self::Backing,
    ];

    /// The refusal with this number.
    pub fn from_number(number: u64) -> Self {
        let mut listed = Self::LISTED.into_iter();
        listed
            .find(|refusal| refusal.number() == number)
            .unwrap_or(Self::Other(number))
    }

    /// What a call of the module [`c`](crate::c) returned: 0 if it was accepted.
    pub fn check(number: u64) -> Result<(), Self> {
        match number {
            0 => Ok(()),
            number => Err(Self::from_number(number)),
        }
    }

    /// Document 01's number.
    pub const fn number(self) -> u64 {
        match self {
            Self::Unsound => 1,
            Self::Share => 2,
            Self::Tick => 3,
            Self::Code => 4,
            Self::Id => 5,
            Self::Full => 6,
            Self::Missing => 7,
            Self::State => 8,
            Self::Root => 9,
            Self::Pays => 10,
            Self::Charge => 11,
            Self::Limit => 12,
            Self::Kind => 13,
            Self::Backing => 14,
            Self::Other(number) => number,
        }
    }

    /// What it means, in words.
    pub const fn meaning(self) -> &'static str {
        match self {
            Self::Unsound => "the bytes hold no sound board, or have another length",
            Self::Share => "the CPU share of an opening is above a period of 10 ms",
            Self::Tick => "the tick is above 18446744073709, the last whose time has 64 bits",
            Self::Code => "the kind, wait or cause is not listed, or a budget was to be inserted",
            Self::Id => {
                "the new thread's id has a record or is that of thread 0 or idle, or idle was to be killed"
            }
            Self::Full => {
                "the table has no place left, 512 objects or 128 threads, or the ids of objects have run out"
            }
            Self::Missing => {
                "there is no such object, payer or thread, or it is no budget where a budget is asked for"
            }
            Self::State => {
                "the thread to start is not Inactive, the one to wake not Blocked, or the current one, which is to block, not Running or idle"
            }
            Self::Root => "the root budget can't be removed",
            Self::Pays => "the budget to be removed pays for something",
            Self::Charge => "the uncharge is above the object's recorded charge",
            Self::Limit => {
                "the payer can't cover the charge, or the CPU time or memory to be carved out"
            }
            Self::Kind => "an object of this kind can't be created",
            Self::Backing => {
                "the memory behind the object, or the thread's kernel stack, is not there"
            }
            Self::Other(_) => "a number that this wrapper doesn't know",
        }
    }

    /// What to do about it.
    pub const fn advice(self) -> &'static str {
        match self {
            Self::Unsound => {
                "Restore bytes that `as_bytes` gave, or open a board. If this one was open, something else wrote to its memory: trust none of its figures and open it again."
            }
            Self::Share => "Open with at most `PERIOD_NS`, 10000000 ns.",
            Self::Tick => {
                "Pass the number of the tick, not a time in ns: ticks of 1 ms get there after 584 years."
            }
            Self::Code => {
                "Take a kind, wait or cause that is listed; carve a budget out with `create_budget` instead of inserting it."
            }
            Self::Id => {
                "Choose an id that has no record, best with `ThreadId::of` the thread's object; leave idle alive."
            }
            Self::Full => {
                "Remove objects or kill threads that are no longer needed, then call again."
            }
            Self::Missing => {
                "Check the id: what it named may be removed or killed, or was never there; a payer must be a budget."
            }
            Self::State => {
                "Look at the record with `read_thread`: start a thread once, wake it only while it is Blocked, and plan before the next thread blocks."
            }
            Self::Root => {
                "Remove what stands below the root instead, or open the board again to start from nothing."
            }
            Self::Pays => {
                "Remove what it pays for first, budgets carved out of it included; `charge_of` names an object's payer."
            }
            Self::Charge => "Uncharge at most what `charge_of` answers.",
            Self::Limit => {
                "Look at the payer with `account`: ask for no more than its CPU left and free memory, remove something that it pays for, or wait for its next period."
            }
            Self::Kind => "Use `insert` for threads and interrupts, `create_budget` for budgets.",
            Self::Backing => {
                "Make the memory available first, page tables, frame or kernel stack, then call again."
            }
            Self::Other(_) => "Link the library that this wrapper was written for.",
        }
    }
}

impl fmt::Display for Refusal {
    fn fmt(&self, f: &mut fmt::Formatter<'_>) -> fmt::Result {
        write!(f, "refused with {}: {}", self.number(), self.meaning())
    }
}

impl Error for Refusal {}

impl From<Refusal> for u64 {
    fn from(refusal: Refusal) -> Self {
        refusal.number()
    }
}

#[cfg(test)]
mod tests {
    use super::Refusal;

    /// A call is accepted with 0 and with no other number, listed or not.
    #[test]
    fn only_0_is_accepted() {
        assert_eq!(Refusal::check(0), Ok(()));
        for number in (1..100).chain([u64::MAX]) {
            assert_eq!(Refusal::check(number), Err(Refusal::from_number(number)));
        }
    }
}
