//! The laws, and how they are run.

use super::cases::Case;
use super::choice::Choice;
use super::copies::Copies;
use super::{holds, look};
use crate::pair::Difference;
use carv_compare::board::call::Call;
use carv_compare::board::make::{charge_more, uncharge};

/// A law of document 02 on charges.
#[derive(Clone, Copy, Debug, PartialEq, Eq, PartialOrd, Ord)]
pub enum Law {
    /// Two charges of an object are accepted throughout exactly when one of their sum is, and leave
    /// the same; where the first passes and the second fails, the first stays.
    Split,
    /// So also a list of charges, in any order.
    List,
    /// Charges whose sum is 2^64 or more are never accepted throughout.
    TooLarge,
    /// An accepted charge followed by its uncharge leaves what was there before.
    Undo,
    /// Charges on objects of different payers answer and leave the same in either order.
    TwoPayers,
    /// Of one payer they do so where both are accepted; where each could be, but not both, the first
    /// made is.
    OnePayer,
}

impl Law {
    /// All of them.
    pub const ALL: [Self; 6] = [
        Self::Split,
        Self::List,
        Self::TooLarge,
        Self::Undo,
        Self::TwoPayers,
        Self::OnePayer,
    ];

    /// Its name.
    pub const fn name(self) -> &'static str {
        match self {
            Self::Split => "a and b against a + b",
            Self::List => "a list against its sum",
            Self::TooLarge => "a list whose sum is 2^64 or more",
            Self::Undo => "a charge and its uncharge",
            Self::TwoPayers => "two payers, in either order",
            Self::OnePayer => "one payer, in either order",
        }
    }
}

/// What a law met.
pub struct Met {
    /// Whether all charges were accepted.
    pub is_accepted: bool,
    /// The cases.
    pub cases: Vec<Case>,
}

impl Law {
    /// Draws objects and amounts, and compares what copies of the area answer and hold.
    ///
    /// # Errors
    /// What differs.
    pub(super) fn run(self, choice: &mut Choice, copies: &mut Copies) -> Result<Met, Difference> {
        match self {
            Self::Split => split(choice, copies),
            Self::List => list(choice, copies),
            Self::TooLarge => too_large(choice, copies),
            Self::Undo => undo(choice, copies),
            Self::TwoPayers => two_payers(choice, copies),
            Self::OnePayer => one_payer(choice, copies),
        }
    }
}

fn split(choice: &mut Choice, copies: &mut Copies) -> Result<Met, Difference> {
    let id = choice.object();
    let [a, b] = choice.two_parts(choice.free(id));
    let mut cases = cases_of(choice, id, &[a, b]);
    let both = copies.make(&[charge_more(id, a), charge_more(id, b)]);
    let first = copies.make(&[charge_more(id, a)]);
    let sum = copies.make(&[charge_more(id, a + b)]);
    holds::split(copies.lent, &both, &first, &sum)?;
    if first.is_accepted() && !both.is_accepted() {
        cases.push(Case::FirstPasses);
    }
    Ok(Met {
        is_accepted: sum.is_accepted(),
        cases,
    })
}

fn list(choice: &mut Choice, copies: &mut Copies) -> Result<Met, Difference> {
    let id = choice.object();
    let amounts = choice.list(choice.free(id));
    let shuffled = choice.shuffled(&amounts);
    let mut cases = cases_of(choice, id, &amounts);
    cases.extend(Case::of_list(&amounts));
    let listed = copies.make(&all_of(id, &amounts));
    let shuffled = copies.make(&all_of(id, &shuffled));
    let sum = copies.make(&[charge_more(id, amounts.iter().sum())]);
    holds::list(&listed, &shuffled, &sum)?;
    Ok(Met {
        is_accepted: sum.is_accepted(),
        cases,
    })
}

fn too_large(choice: &mut Choice, copies: &mut Copies) -> Result<Met, Difference> {
    let id = choice.object();
    let amounts = choice.too_large(choice.free(id));
    let cases = cases_of(choice, id, &amounts);
    let listed = copies.make(&all_of(id, &amounts));
    holds::too_large(&listed)?;
    Ok(Met {
        is_accepted: listed.is_accepted(),
        cases,
    })
}

fn undo(choice: &mut Choice, copies: &mut Copies) -> Result<Met, Difference> {
    let id = choice.object();
    let bytes = choice.amount(choice.free(id));
    let cases = cases_of(choice, id, &[bytes]);
    let made = copies.make(&[charge_more(id, bytes), uncharge(id, bytes)]);
    holds::undo(copies.lent, &made)?;
    Ok(Met {
        is_accepted: made.numbers[0] == 0,
        cases,
    })
}

fn two_payers(choice: &mut Choice, copies: &mut Copies) -> Result<Met, Difference> {
    let ids = choice.two_payers();
    let [one, other] = ids.map(|id| charge_more(id, choice.amount(choice.free(id))));
    let cases = Case::of_two_payers(choice.table, ids);
    let made = copies.make(&[one, other]);
    let turned = copies.make(&[other, one]);
    holds::two_payers(&made, &turned)?;
    Ok(Met {
        is_accepted: made.is_accepted(),
        cases,
    })
}

fn one_payer(choice: &mut Choice, copies: &mut Copies) -> Result<Met, Difference> {
    let ids = choice.one_payer();
    let [a, b] = choice.two_for_one_payer(choice.free(ids[0]));
    let [one, other] = [charge_more(ids[0], a), charge_more(ids[1], b)];
    let made = copies.make(&[one, other]);
    let turned = copies.make(&[other, one]);
    holds::one_payer(&made, &turned)?;
    let order = made.numbers[0] != turned.numbers[1];
    let order = order.then_some(Case::OrderMatters);
    let cases = Case::of_one_payer(choice.table, ids).into_iter();
    Ok(Met {
        is_accepted: made.is_accepted(),
        cases: cases.chain(order).collect(),
    })
}

/// A charge of an object for each amount.
fn all_of(id: u64, amounts: &[u64]) -> Vec<Call> {
    amounts
        .iter()
        .map(|bytes| charge_more(id, *bytes))
        .collect()
}

/// What charges of one object meet.
fn cases_of(choice: &Choice, id: u64, amounts: &[u64]) -> Vec<Case> {
    let table = choice.table;
    let of_object = Case::of_object(table, id);
    let of_amounts = look::free(table, id).map(|free| Case::of_amounts(free, amounts));
    let of_amounts = of_amounts.unwrap_or_default();
    of_object.into_iter().chain(of_amounts).collect()
}
