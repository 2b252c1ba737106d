//! Where clock values fell.

use crate::{ACCEPTED, NOT_COVERED};

/// A clock value below an earlier one.
#[derive(Clone, Copy, Debug, PartialEq, Eq)]
pub struct Fall {
    /// Where its call stands, as the list counts.
    pub place: u64,
    /// The clock value before it.
    pub from: u128,
    /// Its own.
    pub to: u128,
}

/// One row of clock values: the last one, and where they first fell.
#[derive(Clone, Copy, Debug, Default, PartialEq, Eq)]
struct Values {
    last: u128,
    fell: Option<Fall>,
}

impl Values {
    fn note(&mut self, place: u64, value: u128) {
        if value < self.last && self.fell.is_none() {
            self.fell = Some(Fall {
                place,
                from: self.last,
                to: value,
            });
        }
        self.last = value;
    }
}

/// The clock values of a board's calls from its opening on. A call that is refused with another
/// number than 12 leaves nothing, so P3 needs rising values only of the others.
#[derive(Clone, Copy, Debug, Default, PartialEq, Eq)]
pub struct Clock {
    counted: Values,
    all: Values,
}

impl Clock {
    /// Notes the clock value of a call with its refusal number.
    pub fn note(&mut self, place: u64, value: u128, number: u64) {
        if matches!(number, ACCEPTED | NOT_COVERED) {
            self.counted.note(place, value);
        }
        self.all.note(place, value);
    }

    /// The last clock value of a call that was accepted or refused with 12; 0 before the first.
    pub fn last(&self) -> u128 {
        self.counted.last
    }

    /// The first fall among calls that were accepted or refused with 12.
    pub fn fell(&self) -> Option<Fall> {
        self.counted.fell
    }

    /// The first fall among all calls, which is document 02's own form.
    pub fn fell_in_any_call(&self) -> Option<Fall> {
        self.all.fell
    }
}

#[cfg(test)]
mod tests {
    use super::*;

    #[test]
    fn falls() {
        let mut clock = Clock::default();
        assert_eq!((clock.last(), clock.fell()), (0, None));
        clock.note(1, 5, 0);
        clock.note(2, 5, 12);
        clock.note(3, 9, 7);
        assert_eq!(clock.last(), 5, "refused with 7");
        assert_eq!(clock.fell_in_any_call(), None);
        // It falls for those who count every call alone.
        clock.note(4, 6, 0);
        let fall = Fall {
            place: 4,
            from: 9,
            to: 6,
        };
        assert_eq!(clock.fell_in_any_call(), Some(fall));
        assert_eq!((clock.last(), clock.fell()), (6, None));
        clock.note(5, 4, 12);
        let fall = Fall {
            place: 5,
            from: 6,
            to: 4,
        };
        assert_eq!(clock.fell(), Some(fall));
        // The first one counts, and the clock goes on from where it fell to.
        clock.note(6, 3, 0);
        assert_eq!((clock.last(), clock.fell()), (3, Some(fall)));
        assert_eq!(clock.fell_in_any_call().map(|fall| fall.place), Some(4));
    }
}
