//! Calls on an area that may be damaged.

use crate::area;
use crate::pair::{UNTOUCHED, UNTOUCHED_IMAGE, own_number};
use crate::port::Port;
use crate::snapshot;
use carv_compare::board::call::{Call, Op};
use carv_compare::board::reference::{Reference, UNSOUND};

/// Document 01's number for an object that isn't there, or is no budget.
const MISSING: u64 = 7;

/// A board of the port, and what it was lent.
pub struct Trial {
    port: Port,
    lent: Port,
    /// Calls made.
    pub calls: u64,
}

impl Trial {
    /// This area lent with so many answer words, and an image of so many bytes.
    pub fn new(area: Vec<u8>, words: usize, image_bytes: usize) -> Self {
        let lent = Port {
            area,
            out: vec![UNTOUCHED[0]; words],
            image: vec![UNTOUCHED_IMAGE[0]; image_bytes],
        };
        Self {
            port: lent.clone(),
            lent,
            calls: 0,
        }
    }

    /// The area as it is lent.
    pub fn area(&self) -> &[u8] {
        &self.lent.area
    }

    /// What the port says of the area.
    pub fn is_sound(&self) -> bool {
        self.port.is_sound()
    }

    /// Lends everything as it was.
    fn reset(&mut self) {
        self.port.area.copy_from_slice(&self.lent.area);
        self.port.out.copy_from_slice(&self.lent.out);
        self.port.image.copy_from_slice(&self.lent.image);
    }

    fn call(&mut self, call: Call) -> u64 {
        self.calls += 1;
        self.port.make(call)
    }

    /// Whether the call is refused with this number and leaves all that it is lent.
    pub fn refuses(&mut self, call: Call, number: u64) -> Result<(), String> {
        let found = self.call(call);
        self.refused(found, number)
            .map_err(|why| format!("{call}: {why}"))
    }

    /// The same for the call that fills an image, whose length is wrong.
    pub fn refuses_image(&mut self) -> Result<(), String> {
        self.calls += 1;
        let found = self.port.fill_image();
        self.refused(found, UNSOUND)
            .map_err(|why| format!("the image call: {why}"))
    }

    fn refused(&self, found: u64, number: u64) -> Result<(), String> {
        if found != number {
            return Err(format!("the number is {found}, not {number}"));
        }
        if self.port.out != self.lent.out {
            let (found, lent) = (&self.port.out, &self.lent.out);
            return Err(format!("the answer words are {found:?}, not {lent:?}"));
        }
        if self.port.area != self.lent.area {
            return Err("the area was changed".to_string());
        }
        if self.port.image != self.lent.image {
            return Err("the image was changed".to_string());
        }
        Ok(())
    }

    /// Whether the call answers a number of its own, so not 1, leaves a sound area, and leaves
    /// answer words and image if it is refused. Totals are compared with the area's words.
    pub fn does_not_refuse(&mut self, call: Call) -> Result<(), String> {
        let found = self.call(call);
        let sound = self.port.is_sound();
        let untouched = self.port.out == self.lent.out && self.port.image == self.lent.image;
        let totals = self.totals(call, found);
        self.reset();
        served(call.op(), found, sound, untouched)
            .and(totals)
            .map_err(|why| format!("{call}: {why}"))
    }

    /// Totals are those that the area's words give, and refused where these have none. They leave the
    /// area.
    fn totals(&self, call: Call, number: u64) -> Result<(), String> {
        let Call::Totals { id } = call else {
            return Ok(());
        };
        let table = area::read(self.area()).unwrap_or_default();
        let Some(totals) = area::totals(&table.objects).get(&id).copied() else {
            return self.refused(number, MISSING);
        };
        let (found, words) = (&self.port.out, totals.words());
        let mut expected = self.lent.out.clone();
        expected[..words.len()].copy_from_slice(&words);
        if number != 0 {
            return Err(format!("the number is {number}, not 0"));
        }
        if *found != expected {
            return Err(format!("the totals are {found:?}, not {expected:?}"));
        }
        match self.port.area == self.lent.area {
            true => Ok(()),
            false => Err("the area was changed".to_string()),
        }
    }

    /// Whether an accepted opening leaves what the Rust's leaves.
    pub fn opens(&mut self, call: Call) -> Result<(), String> {
        let mut reference = Reference::default();
        let answer = reference.call(call);
        let mut expected = vec![0; area::BYTES];
        snapshot::write(reference.state(), &mut expected);
        let number = self.call(call);
        let as_expected = self.port.area == expected && self.port.out == self.lent.out;
        self.reset();
        if number != answer.number {
            return Err(format!("{call}: the number is {number}, not 0"));
        }
        match as_expected {
            true => Ok(()),
            false => Err(format!("{call}: not as the Rust opens")),
        }
    }
}

/// Whether the number is one of the call's own, and what is left fits it: a sound area, and where it
/// is a refusal untouched answer words and image.
fn served(op: Op, found: u64, sound: bool, untouched: bool) -> Result<(), String> {
    own_number(op, found)?;
    match found {
        _ if !sound => Err("is_sound says no afterwards".to_string()),
        0 => Ok(()),
        _ if untouched => Ok(()),
        _ => Err("refused, and yet there is an answer".to_string()),
    }
}

#[cfg(test)]
mod tests {
    use super::*;
    use carv_compare::board::numbers;

    #[test]
    fn numbers_and_what_is_left() {
        for op in Op::ALL.iter().copied() {
            for number in (0..20).chain([99, u64::MAX]) {
                let own = numbers::of(op).contains(&number);
                let is_served = |sound, untouched| served(op, number, sound, untouched).is_ok();
                assert_eq!(is_served(true, true), own, "{} {number}", op.name());
                assert_eq!(is_served(true, false), own && number == 0);
                assert!(!is_served(false, true));
            }
        }
    }
}
