//! Lists of calls, each made on a copy of one area.

use super::rule;
use crate::area;
use crate::pair::{Difference, UNTOUCHED, UNTOUCHED_IMAGE};
use crate::port::Port;
use carv_compare::board::call::Call;
use carv_compare::board::reference::UNSOUND;
use std::fmt;

/// An area, the calls made on copies of it, and the first that was not served by the rule.
pub struct Copies<'a> {
    /// The area that each copy begins with.
    pub lent: &'a [u8],
    /// Whether it is sound; if not, every call is to be refused.
    pub is_sound: bool,
    /// What the last copy must hold.
    expected: Vec<u8>,
    made: Vec<Vec<(Call, u64)>>,
    fault: Option<Difference>,
}

/// What the calls of a list answered on a copy, and what it holds behind the last.
#[derive(Clone, Debug, PartialEq, Eq)]
pub struct Made {
    /// The numbers, in the order of the calls.
    pub numbers: Vec<u64>,
    /// The area.
    pub area: Vec<u8>,
}

impl Made {
    /// Whether every call was accepted.
    pub fn is_accepted(&self) -> bool {
        self.numbers.iter().all(|number| *number == 0)
    }

    /// The number of the first call that was refused, or 0.
    pub fn first_refusal(&self) -> u64 {
        let mut numbers = self.numbers.iter().copied();
        numbers.find(|number| *number != 0).unwrap_or(0)
    }

    /// The numbers of two calls.
    ///
    /// # Panics
    /// If there were more or less.
    pub fn two(&self) -> [u64; 2] {
        self.numbers[..].try_into().expect("two calls")
    }
}

impl<'a> Copies<'a> {
    /// Of this area, sound or not.
    pub fn new(lent: &'a [u8], is_sound: bool) -> Self {
        Self {
            lent,
            is_sound,
            expected: lent.to_vec(),
            made: Vec::new(),
            fault: None,
        }
    }

    /// Makes these charges and uncharges one after the other on a new copy.
    pub fn make(&mut self, calls: &[Call]) -> Made {
        let mut port = Port::new(self.lent.to_vec());
        self.expected.copy_from_slice(self.lent);
        let mut list = Vec::with_capacity(calls.len());
        for call in calls.iter().copied() {
            port.out.copy_from_slice(&UNTOUCHED);
            port.image.copy_from_slice(&UNTOUCHED_IMAGE);
            let found = port.make(call);
            let number = match self.is_sound {
                true => rule::make(call, &mut self.expected),
                false => UNSOUND,
            };
            let served = served(&port, found, number, &self.expected);
            list.push((call, found));
            if let (None, Err(why)) = (&self.fault, served) {
                self.fault = Some(format!("{call}: {why}"));
            }
        }
        let numbers = list.iter().map(|(_, number)| *number).collect();
        self.made.push(list);
        Made {
            numbers,
            area: port.area,
        }
    }

    /// How many calls were made.
    pub fn calls(&self) -> u64 {
        self.made.iter().map(|list| list.len() as u64).sum()
    }

    /// Whether each call was served by the rule.
    ///
    /// # Errors
    /// The first that was not.
    pub fn checked(&self) -> Result<(), Difference> {
        self.fault.clone().map_or(Ok(()), Err)
    }
}

/// Whether a call answered this number and left these bytes, and nothing in answer words and image.
fn served(port: &Port, found: u64, number: u64, expected: &[u8]) -> Result<(), Difference> {
    if found != number {
        return Err(format!("the number is {found}, not {number}"));
    }
    if port.out != UNTOUCHED {
        return Err("an answer word was written".to_string());
    }
    if port.image != UNTOUCHED_IMAGE {
        return Err("the image was written".to_string());
    }
    same(&port.area, expected)
}

/// Whether two areas hold the same bytes.
///
/// # Errors
/// Where they differ.
pub fn same(found: &[u8], expected: &[u8]) -> Result<(), Difference> {
    if found == expected {
        return Ok(());
    }
    let lengths = [found.len(), expected.len()];
    if lengths != [area::BYTES; 2] {
        return Err(format!("areas of {lengths:?} bytes differ"));
    }
    Err(area::Difference { found, expected }.to_string())
}

impl fmt::Display for Copies<'_> {
    fn fmt(&self, f: &mut fmt::Formatter<'_>) -> fmt::Result {
        for (place, list) in (1..).zip(&self.made) {
            let calls = list
                .iter()
                .map(|(call, number)| format!("{call}: {number}"));
            let calls: Vec<String> = calls.collect();
            write!(f, "\n  copy {place}: {}", calls.join(", "))?;
        }
        Ok(())
    }
}

#[cfg(test)]
mod tests {
    use super::*;

    #[test]
    fn what_a_call_answers_and_leaves_is_checked() {
        let expected = vec![0; area::BYTES];
        let lent = Port {
            area: expected.clone(),
            out: UNTOUCHED.to_vec(),
            image: UNTOUCHED_IMAGE.to_vec(),
        };
        let served = |port: &Port, found| served(port, found, 12, &expected);
        assert_eq!(served(&lent, 12), Ok(()));
        assert!(served(&lent, 0).is_err());
        for change in [
            |port: &mut Port| port.out[19] = 0,
            |port: &mut Port| port.image[511] = 0,
            |port: &mut Port| port.area[area::BYTES - 1] = 1,
        ] {
            let mut port = lent.clone();
            change(&mut port);
            assert!(served(&port, 12).is_err());
        }
    }

    #[test]
    fn areas_of_any_length_are_compared() {
        let whole = vec![0; area::BYTES];
        assert_eq!(same(&whole, &whole), Ok(()));
        assert_eq!(same(&[1], &[1]), Ok(()));
        assert!(same(&[1], &[2]).is_err());
        assert!(same(&whole, &[]).is_err());
        assert!(same(&[], &whole).is_err());
        let mut changed = whole.clone();
        changed[area::BYTES - 1] = 1;
        assert!(same(&changed, &whole).is_err());
    }
}
