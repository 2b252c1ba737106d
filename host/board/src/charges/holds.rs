//! Whether a law holds of what copies of one area answered and hold.

use super::copies::{Made, same};
use super::rule::LIMIT;
use crate::pair::Difference;

/// Document 02: "`charge_more` of a and then b is accepted throughout exactly when a + b is, and
/// leaves the same state", and "where a passes and b fails, the state keeps a". `first` is a alone.
pub fn split(before: &[u8], both: &Made, first: &Made, sum: &Made) -> Result<(), Difference> {
    alike("a, then b", both, "a + b", sum)?;
    if !sum.is_accepted() {
        same_bytes("a + b, refused", sum, "before", before)?;
    }
    match both.two() {
        [0, 0] => Ok(()),
        [0, LIMIT] => same_bytes("a, then b, refused", both, "a alone", &first.area),
        [0, number] => Err(format!("b is refused with {number}, not {LIMIT}")),
        _ => Ok(()),
    }
}

/// The same of a list, and of the list in another order.
pub fn list(listed: &Made, shuffled: &Made, sum: &Made) -> Result<(), Difference> {
    alike("the list", listed, "the sum", sum)?;
    alike("the list in another order", shuffled, "the sum", sum)
}

/// Amounts whose sum is 2^64 or more are never accepted throughout.
pub fn too_large(listed: &Made) -> Result<(), Difference> {
    match listed.is_accepted() {
        true => Err("accepted throughout".to_string()),
        false => Ok(()),
    }
}

/// "An accepted charge followed by its uncharge restores the state."
pub fn undo(before: &[u8], made: &Made) -> Result<(), Difference> {
    match made.two() {
        [0, 0] => same_bytes("both", made, "before", before),
        [0, number] => Err(format!("the uncharge is refused with {number}")),
        _ => Ok(()),
    }
}

/// "Two charges on objects of different payers give the same answers and state in either order."
pub fn two_payers(one: &Made, other: &Made) -> Result<(), Difference> {
    let [a_first, b_second] = one.two();
    let [b_first, a_second] = other.two();
    for (name, first, second) in [("a", a_first, a_second), ("b", b_first, b_second)] {
        if first != second {
            return Err(format!(
                "{name} answers {first} if it is made first, {second} if second"
            ));
        }
    }
    same_bytes("b, then a", other, "a, then b", &one.area)
}

/// Two charges on objects of one payer, each of which passes if it is made first: either both pass
/// in either order, and leave the same, or the second made is refused in both. Where only one of them
/// passes, or none, the order doesn't matter.
pub fn one_payer(one: &Made, other: &Made) -> Result<(), Difference> {
    let [a_first, b_second] = one.two();
    let [b_first, a_second] = other.two();
    match ([a_first, b_first], [a_second, b_second]) {
        ([0, 0], [0, 0]) => same_bytes("b, then a", other, "a, then b", &one.area),
        ([0, 0], [LIMIT, LIMIT]) => Ok(()),
        ([0, 0], _) => Err(format!(
            "each passes if it is made first; made second, a answers {a_second}, b {b_second}"
        )),
        _ => two_payers(one, other),
    }
}

/// Whether both are accepted throughout and leave the same, or neither is, and the first refusal of
/// each has the same number.
fn alike(name: &str, made: &Made, other_name: &str, other: &Made) -> Result<(), Difference> {
    match (made.is_accepted(), other.is_accepted()) {
        (true, true) => same_bytes(name, made, other_name, &other.area),
        (true, false) => Err(format!("{name}: accepted; {other_name}: refused")),
        (false, true) => Err(format!("{name}: refused; {other_name}: accepted")),
        (false, false) => match [made.first_refusal(), other.first_refusal()] {
            [found, expected] if found == expected => Ok(()),
            [found, expected] => Err(format!(
                "{name}: refused with {found}; {other_name}: refused with {expected}"
            )),
        },
    }
}

fn same_bytes(name: &str, made: &Made, other: &str, expected: &[u8]) -> Result<(), Difference> {
    same(&made.area, expected).map_err(|why| format!("{name}, against {other}: {why}"))
}

/// Each comparison: what holds, and then what differs in that alone.
#[cfg(test)]
mod tests {
    use super::*;

    const BEFORE: [u8; 1] = [0];

    /// These numbers, and an area of this byte.
    fn made<const COUNT: usize>(numbers: [u64; COUNT], byte: u8) -> Made {
        Made {
            numbers: numbers.to_vec(),
            area: vec![byte],
        }
    }

    #[test]
    fn splits() {
        let a = made([0], 1);
        let holds = |both, first: &Made, sum| split(&BEFORE, &both, first, &sum).is_ok();
        assert!(holds(made([0, 0], 2), &a, made([0], 2)));
        assert!(!holds(made([0, 0], 2), &a, made([0], 3)), "other bytes");
        assert!(!holds(made([0, 0], 2), &a, made([12], 0)), "only singly");
        assert!(!holds(made([0, 12], 1), &a, made([0], 2)), "only in bulk");
        assert!(holds(made([0, 12], 1), &a, made([12], 0)));
        assert!(!holds(made([0, 12], 1), &a, made([12], 1)), "a + b stays");
        assert!(!holds(made([0, 12], 0), &a, made([12], 0)), "a is lost");
        assert!(!holds(made([0, 7], 1), &a, made([12], 0)), "numbers");
        assert!(!holds(made([0, 7], 1), &a, made([7], 0)), "another number");
        let refused = made([12], 0);
        assert!(holds(made([12, 0], 2), &refused, made([12], 0)));
        assert!(holds(made([7, 7], 0), &refused, made([7], 0)));
        assert!(!holds(made([7, 12], 0), &refused, made([12], 0)), "numbers");
    }

    #[test]
    fn lists() {
        let [accepted, other] = [2, 3].map(|byte| made([0; 3], byte));
        let [refused, other_refused] = [made([0, 12, 0], 1), made([12, 0, 0], 3)];
        let holds = |listed, shuffled, sum| list(listed, shuffled, &sum).is_ok();
        assert!(holds(&accepted, &accepted, made([0], 2)));
        assert!(holds(&refused, &other_refused, made([12], 0)));
        assert!(!holds(&other, &accepted, made([0], 2)), "other bytes");
        assert!(!holds(&accepted, &other, made([0], 2)), "other bytes");
        assert!(!holds(&refused, &accepted, made([0], 2)), "one is refused");
        assert!(!holds(&accepted, &refused, made([0], 2)), "one is refused");
        assert!(!holds(&accepted, &accepted, made([12], 2)), "the sum is");
        assert!(!holds(&refused, &refused, made([7], 0)), "another number");
    }

    #[test]
    fn sums_that_are_too_large() {
        assert!(too_large(&made([0, 12, 0], 1)).is_ok());
        assert!(too_large(&made([0; 3], 1)).is_err());
    }

    #[test]
    fn undone() {
        let holds = |numbers, byte| undo(&BEFORE, &made(numbers, byte)).is_ok();
        assert!(holds([0, 0], 0));
        assert!(!holds([0, 0], 1), "other bytes");
        assert!(!holds([0, 11], 0), "not undone");
        assert!(holds([12, 0], 1), "nothing to undo");
    }

    #[test]
    fn orders_of_two_payers() {
        let holds = |one, other| two_payers(&one, &other).is_ok();
        assert!(holds(made([0, 12], 1), made([12, 0], 1)));
        assert!(!holds(made([0, 0], 1), made([0, 0], 2)), "other bytes");
        assert!(!holds(made([0, 0], 1), made([0, 12], 1)), "a's number");
        assert!(!holds(made([0, 12], 1), made([0, 0], 1)), "b's number");
        assert!(!holds(made([0, 12], 1), made([0, 12], 1)), "both numbers");
    }

    #[test]
    fn orders_of_one_payer() {
        let holds = |one, other| one_payer(&one, &other).is_ok();
        assert!(holds(made([0, 0], 2), made([0, 0], 2)));
        assert!(!holds(made([0, 0], 2), made([0, 0], 3)), "other bytes");
        assert!(holds(made([0, 12], 2), made([0, 12], 3)), "the first wins");
        assert!(!holds(made([0, 12], 2), made([0, 0], 2)), "in one order");
        assert!(!holds(made([0, 0], 2), made([0, 12], 2)), "in one order");
        assert!(!holds(made([0, 7], 2), made([0, 7], 2)), "another number");
        assert!(holds(made([0, 12], 2), made([12, 0], 2)), "b never fits");
        assert!(!holds(made([0, 12], 2), made([12, 0], 3)), "other bytes");
        assert!(!holds(made([0, 0], 2), made([12, 0], 2)), "b fits second");
        assert!(holds(made([12, 12], 0), made([12, 12], 0)));
    }
}
