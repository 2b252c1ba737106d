//! A board of the port: the memory that is lent, and the calls on it.

#[cfg(not(feature = "mock"))]
use crate::library as behind;
#[cfg(feature = "mock")]
use crate::mock as behind;
use carv_compare::board::call::Call;
use carv_compare::board::reference::ANSWER_WORDS;

pub use carv::IMAGE_BYTES;

/// A board of the port: the area that it lives in, and what is lent beside it.
///
/// All of them may hold anything and be of any length: the port asks for that first.
#[derive(Clone, Debug)]
pub struct Port {
    /// The area, see [`crate::area`].
    pub area: Vec<u8>,
    /// The answer words, as the last call left them.
    pub out: Vec<u64>,
    /// The register image, as the last call that is lent it left it.
    pub image: Vec<u8>,
}

impl Port {
    /// A board in this area, with answer words and image of the right length.
    pub fn new(area: Vec<u8>) -> Self {
        Self {
            area,
            out: vec![0; ANSWER_WORDS],
            image: vec![0; IMAGE_BYTES],
        }
    }

    /// Makes the call: 0 if accepted, else the number of the refusal. What it answers beyond that
    /// is in the answer words and the image.
    // So that a call that is written out, as in the benchmark, costs no look at which it is.
    #[inline(always)]
    pub fn make(&mut self, call: Call) -> u64 {
        behind::make(call, self)
    }

    /// Fills the image.
    #[inline]
    pub fn fill_image(&mut self) -> u64 {
        behind::fill_image(&mut self.image)
    }

    /// Whether the area is of its length and the board in it sound.
    #[inline]
    pub fn is_sound(&self) -> bool {
        behind::is_sound(&self.area)
    }
}

/// The comparison has its own figures, from document 01; the wrapper those of the header.
#[cfg(test)]
mod tests {
    use super::*;
    use crate::area;
    use carv::{Kind, Refusal, State, ThreadId, Tick, Wait};
    use carv_compare::board::numbers::{self, NUMBERS};
    use carv_compare::board::reference::UNSOUND;
    use carv_compare::board::{
        BUDGET, EXITS, IDLE, LAST_TICK, OBJECTS, SLEEP, THREADS, TICK, state,
    };
    use carv_oracle::account::PERIOD;
    use std::collections::BTreeSet;

    #[test]
    fn lengths_are_the_wrappers() {
        assert_eq!(area::BYTES, carv::AREA_BYTES);
        assert_eq!(ANSWER_WORDS, carv::c::ANSWER_WORDS);
        let most = (carv::MOST_OBJECTS, carv::MOST_THREADS, carv::MOST_EXITS);
        assert_eq!((OBJECTS, THREADS, EXITS), most);
    }

    #[test]
    fn times_and_codes_are_the_wrappers() {
        let times = (carv::PERIOD_NS, carv::TICK_NS, carv::LAST_TICK);
        assert_eq!((PERIOD, TICK, LAST_TICK), times);
        assert_eq!((BUDGET, IDLE), (Kind::Budget.code(), ThreadId::IDLE.0));
        let sleep = Wait::Sleep(Tick(7));
        assert_eq!((SLEEP, 7), sleep.codes());
        for (code, named) in [
            (state::INACTIVE, State::Inactive),
            (state::READY, State::Ready),
            (state::RUNNING, State::Running),
            (state::BLOCKED, State::Blocked(sleep)),
            (state::DEAD, State::Dead),
        ] {
            assert_eq!(code, named.code(), "{named:?}");
        }
    }

    #[test]
    fn numbers_are_the_wrappers() {
        let refused = Refusal::LISTED.map(Refusal::number);
        let listed: BTreeSet<u64> = refused.into_iter().chain([0]).collect();
        let answers = numbers::all().map(|(_, number)| number);
        let answers: BTreeSet<u64> = answers.chain([UNSOUND]).collect();
        assert_eq!(answers, listed);
        assert_eq!(NUMBERS, listed.len());
    }
}
