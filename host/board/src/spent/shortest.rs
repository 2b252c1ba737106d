//! Shortens a list of calls that shows a finding. Edits, by which other findings keep their ids, are
//! no calls; here the ids behind a cut are counted anew.

use super::audit::Audit;
use super::side::Side;
use super::{Terms, finding, one_call};
use crate::shorten::Finding;
use carv_compare::board::call::{Call, Step};
use std::time::{Duration, Instant};

/// Longest time for shortening a list.
const LONGEST: Duration = Duration::from_secs(20);

/// Calls from an opening on, the last of which shows something.
struct Found {
    calls: Vec<Call>,
    why: String,
    /// The ids that calls gave.
    given: Vec<Option<u64>>,
}

/// The shortest list found that still shows something, in ever smaller cuts.
pub fn shortest<S: Side>(found: Finding, side: impl Fn() -> S, terms: Terms) -> Finding {
    let started = Instant::now();
    let calls = found.steps.iter().filter_map(|step| match step {
        Step::Call(call) => Some(*call),
        Step::Edit(_) => None,
    });
    let calls: Vec<Call> = calls.collect();
    let Some(mut best) = replay(&calls, &side, terms) else {
        return found;
    };
    let mut length = best.calls.len() / 2;
    while length > 0 && started.elapsed() < LONGEST {
        let before = best.calls.len();
        // Neither the opening nor the last call is cut out.
        let mut from = 1;
        while from + length < best.calls.len() && started.elapsed() < LONGEST {
            let candidate = without(&best, from, length);
            match replay(&candidate, &side, terms) {
                Some(shorter) if shorter.calls.len() < best.calls.len() => best = shorter,
                _ => from += length,
            }
        }
        // What goes may let what stands before it go, so cuts are tried again.
        if best.calls.len() == before {
            length /= 2;
        }
    }
    finding(&best.calls, best.why)
}

/// Makes the calls anew: what they show, if they do. A clock that falls where it must not is nothing
/// that they show.
fn replay<S: Side>(calls: &[Call], side: &impl Fn() -> S, terms: Terms) -> Option<Found> {
    let mut side = side();
    let mut audit = Audit::new(terms);
    let mut given = Vec::with_capacity(calls.len());
    for (place, call) in calls.iter().enumerate() {
        let next = side.state().next_id;
        let done = one_call(&mut side, &mut audit, *call);
        let gives = done == Ok(0) && side.state().next_id == next.wrapping_add(1);
        given.push(gives.then_some(next));
        match done {
            Err(why) if why.starts_with("the clock fell") => return None,
            Err(why) => {
                let calls = calls[..=place].to_vec();
                return Some(Found { calls, why, given });
            }
            Ok(_) => {}
        }
    }
    None
}

/// The calls without `length` of them.
fn without(found: &Found, from: usize, length: usize) -> Vec<Call> {
    let to = from + length;
    let gone: Vec<u64> = found.given[from..to].iter().flatten().copied().collect();
    let mut kept = found.calls[..from].to_vec();
    let behind = found.calls[to..].iter();
    kept.extend(behind.map(|call| renumbered(*call, &gone)));
    kept
}

/// The call with the ids that its objects have where these aren't given. A call on one that isn't
/// given is on id 0, which is never there.
fn renumbered(mut call: Call, gone: &[u64]) -> Call {
    let (Call::Create { payer: id, .. }
    | Call::Insert { payer: id, .. }
    | Call::CreateBudget { parent: id, .. }
    | Call::ChargeMore { id, .. }
    | Call::Uncharge { id, .. }
    | Call::Remove { id, .. }
    | Call::Refill { id, .. }
    | Call::ChargeCpu { id, .. }
    | Call::PaysForAnything { id }
    | Call::Account { id }
    | Call::ChargeOf { id }
    | Call::Totals { id }
    | Call::CreateUserThread { budget: id, .. }) = &mut call
    else {
        return call;
    };
    let lower = gone.iter().filter(|other| **other < *id).count() as u64;
    *id = match gone.contains(id) {
        true => 0,
        false => *id - lower,
    };
    call
}

#[cfg(test)]
mod tests {
    use super::*;
    use carv_compare::board::make::{carve, charge_more, new_thread, plan, remove};

    #[test]
    fn ids_behind_a_cut() {
        let gone = [3, 5];
        for (call, expected) in [
            (remove(2, 9), remove(2, 9)),
            (remove(3, 9), remove(0, 9)),
            (charge_more(4, 7), charge_more(3, 7)),
            (carve(6, 1, 2, 3), carve(4, 1, 2, 3)),
            (new_thread(6, 6), new_thread(6, 4)),
            (plan(6), plan(6)),
        ] {
            assert_eq!(renumbered(call, &gone), expected, "{call}");
        }
    }
}
