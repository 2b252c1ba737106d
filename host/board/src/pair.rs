//! The port and the Rust side by side.

use crate::area;
use crate::edit;
use crate::port::{IMAGE_BYTES, Port};
use crate::snapshot;
use carv_compare::board::IDLE;
use carv_compare::board::call::{Call, Edit, Op, Step};
use carv_compare::board::numbers;
use carv_compare::board::reference::{ANSWER_WORDS, Answer, Reference};
use carv_compare::board::removal::Removal;
use carv_compare::board::totals::Whose;
use carv_oracle::Snapshot;

/// What the answer words hold before each call: a call must leave those without a use as they are.
pub const UNTOUCHED: [u64; ANSWER_WORDS] = [0xa5a5_a5a5_a5a5_a5a5; ANSWER_WORDS];
/// What the image holds before each call that is lent it.
pub const UNTOUCHED_IMAGE: [u8; IMAGE_BYTES] = [0xa5; IMAGE_BYTES];

/// A board of the port and one of the Rust, in the same state.
pub struct Pair {
    port: Port,
    reference: Reference,
    /// The area that the port must have.
    expected: Vec<u8>,
    removal: Option<Removal>,
    totals: Option<Whose>,
}

/// What differs, in a sentence.
pub type Difference = String;

impl Default for Pair {
    fn default() -> Self {
        Self::new()
    }
}

impl Pair {
    /// Both before their opening, the area full of noise.
    pub fn new() -> Self {
        let noise = vec![0x5a; area::BYTES];
        Self {
            port: Port::new(noise.clone()),
            reference: Reference::default(),
            expected: noise,
            removal: None,
            totals: None,
        }
    }

    /// The state that both are in.
    pub fn state(&self) -> &Snapshot {
        self.reference.state()
    }

    /// The area that holds this state.
    pub fn area(&self) -> &[u8] {
        &self.expected
    }

    /// What the last call met, if it was the removal of an object that was there.
    pub fn removal(&self) -> Option<Removal> {
        self.removal
    }

    /// Whose totals the last call read, if it did.
    pub fn totals(&self) -> Option<Whose> {
        self.totals
    }

    /// Makes a call on both, compares number, answer words, image, area and soundness, and answers
    /// the number; or makes an edit on both.
    ///
    /// # Errors
    /// What differs.
    pub fn step(&mut self, step: Step) -> Result<u64, Difference> {
        match step {
            Step::Call(call) => self.call(call),
            Step::Edit(edit) => {
                self.edit(edit);
                Ok(0)
            }
        }
    }

    /// The same for a call.
    ///
    /// # Errors
    /// What differs.
    pub fn call(&mut self, call: Call) -> Result<u64, Difference> {
        self.removal = Removal::of(call, self.reference.state());
        self.totals = Whose::of(call, self.reference.state());
        let answer = self.reference.call(call);
        if self.reference.is_open() && !call.op().is_reading() {
            snapshot::write(self.reference.state(), &mut self.expected);
        }
        self.port.out.copy_from_slice(&UNTOUCHED);
        self.port.image.copy_from_slice(&UNTOUCHED_IMAGE);
        let found = self.port.make(call);
        self.compare(call, found, &answer)?;
        self.compare_image(call, answer.number)?;
        Ok(answer.number)
    }

    fn edit(&mut self, edit: Edit) {
        self.reference.edit(edit);
        snapshot::write(self.reference.state(), &mut self.expected);
        edit::apply(edit, &mut self.port.area);
    }

    fn compare(&self, call: Call, found: u64, answer: &Answer) -> Result<(), Difference> {
        let Answer {
            number,
            written,
            words,
        } = *answer;
        if found != number {
            return Err(format!("the number is {found}, not {number}"));
        }
        if self.reference.is_open() {
            own_number(call.op(), found)?;
        }
        let mut expected = UNTOUCHED;
        expected[..written].copy_from_slice(&words[..written]);
        same_words(&self.port.out, &expected)?;
        if self.port.area != self.expected {
            let difference = area::Difference {
                found: &self.port.area,
                expected: &self.expected,
            };
            return Err(difference.to_string());
        }
        let sound = self.port.is_sound();
        if sound != self.reference.is_open() {
            return Err(format!("is_sound says {sound}"));
        }
        Ok(())
    }

    /// An accepted creation fills the image, other calls leave it. At an opening the call of its
    /// own fills it as the Rust fills those of thread 0 and idle.
    fn compare_image(&mut self, call: Call, number: u64) -> Result<(), Difference> {
        let expected = match call {
            Call::CreateUserThread { id, .. } if number == 0 => self.reference.image(id),
            _ => UNTOUCHED_IMAGE,
        };
        same_image(&self.port.image, &expected)?;
        if let (Call::Open { .. }, 0) = (call, number) {
            let found = self.port.fill_image();
            if found != 0 {
                return Err(format!("the image call: the number is {found}, not 0"));
            }
            same_image(&self.port.image, &self.reference.image(0))?;
            same_image(&self.port.image, &self.reference.image(IDLE))?;
        }
        Ok(())
    }
}

/// A call on a sound board answers a number that is listed for it, whatever the Rust answers.
///
/// # Errors
/// The number, if it isn't.
pub fn own_number(op: Op, found: u64) -> Result<(), Difference> {
    match numbers::of(op).contains(&found) {
        true => Ok(()),
        false => Err(format!(
            "the number is {found}, which {} never answers on a sound board",
            op.name()
        )),
    }
}

fn same_words(found: &[u64], expected: &[u64]) -> Result<(), Difference> {
    let name = |word: &u64| match *word == UNTOUCHED[0] {
        true => "untouched".to_string(),
        false => word.to_string(),
    };
    first_differing(found, expected).map_or(Ok(()), |(place, found, expected)| {
        let (found, expected) = (name(found), name(expected));
        Err(format!("answer word {place} is {found}, not {expected}"))
    })
}

fn same_image(found: &[u8], expected: &[u8]) -> Result<(), Difference> {
    first_differing(found, expected).map_or(Ok(()), |(place, found, expected)| {
        Err(format!(
            "byte {place} of the image is {found:#x}, not {expected:#x}"
        ))
    })
}

fn first_differing<'a, T: PartialEq>(
    found: &'a [T],
    expected: &'a [T],
) -> Option<(usize, &'a T, &'a T)> {
    let mut places = found.iter().zip(expected).enumerate();
    let (place, (found, expected)) = places.find(|(_, (found, expected))| found != expected)?;
    Some((place, found, expected))
}

#[cfg(test)]
mod tests {
    use super::*;
    use carv_compare::board::make::{open, remove};
    use carv_compare::board::walk::Walk;

    /// Also where both sides give it. Before an opening there is no sound board.
    #[test]
    fn a_number_that_is_not_the_call_s_own_differs() {
        let compared = |pair: &Pair, call, number| {
            let answer = Answer {
                number,
                ..Answer::default()
            };
            pair.compare(call, number, &answer)
        };
        let mut pair = Pair::new();
        assert_eq!(pair.call(remove(2, 0)), Ok(1));
        pair.call(open(0, 0)).expect("no difference");
        pair.port.out.copy_from_slice(&UNTOUCHED);
        let mut walk = Walk::new(1);
        for op in Op::ALL.iter().copied() {
            let call = walk.call(op, pair.state());
            for number in (0..20).chain([99, u64::MAX]) {
                let done = compared(&pair, call, number);
                let own = numbers::of(op).contains(&number);
                assert_eq!(done.is_ok(), own, "{call}: {done:?}");
            }
        }
        assert_eq!(numbers::of(Op::Remove), [0, 7, 9, 10]);
        assert_eq!(numbers::of(Op::Open), [0, 2]);
        let done = compared(&pair, remove(2, 0), 15);
        let why = "the number is 15, which remove never answers on a sound board";
        assert_eq!(done, Err(why.to_string()));
    }
}
