//! The lengths that the module `c` hands on are those of the slices: an element more or less is refused
//! by every function.

use crate::cases::PREPARED;
use crate::functions::CALLS;
use carv::{IMAGE_BYTES, Refusal, c};

/// Functions that are not lent an area, that are not lent answer words, and that are lent an image.
const WITHOUT_AREA: [&str; 1] = ["carv_image"];
const WITHOUT_OUT: [&str; 2] = ["carv_is_sound", "carv_image"];
const WITH_IMAGE: [&str; 2] = ["carv_create_user_thread", "carv_image"];

/// What is lent. It keeps its memory when it is made shorter.
struct Lent {
    area: Vec<u8>,
    image: Vec<u8>,
    out: Vec<u64>,
}

fn refused(change: fn(&mut Lent), is_lent: impl Fn(&str) -> bool) {
    for (name, call) in CALLS {
        let mut lent = Lent {
            area: PREPARED.to_vec(),
            image: vec![0; IMAGE_BYTES],
            out: vec![0; c::ANSWER_WORDS],
        };
        change(&mut lent);
        let number = call(&mut lent.area, &mut lent.image, &mut lent.out);
        let expected = match is_lent(name) {
            true => Err(Refusal::Unsound),
            false => Ok(()),
        };
        assert_eq!(Refusal::check(number), expected, "{name}");
    }
}

#[test]
fn of_the_area() {
    let is_lent = |name: &str| !WITHOUT_AREA.contains(&name);
    refused(|lent| lent.area.truncate(lent.area.len() - 1), is_lent);
    refused(|lent| lent.area.push(0), is_lent);
}

#[test]
fn of_the_answer_words() {
    let is_lent = |name: &str| !WITHOUT_OUT.contains(&name);
    refused(|lent| lent.out.truncate(lent.out.len() - 1), is_lent);
    refused(|lent| lent.out.push(0), is_lent);
}

#[test]
fn of_the_image() {
    let is_lent = |name: &str| WITH_IMAGE.contains(&name);
    refused(|lent| lent.image.truncate(lent.image.len() - 1), is_lent);
    refused(|lent| lent.image.push(0), is_lent);
}
