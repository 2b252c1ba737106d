//! Shortens a list of steps that shows a difference.

use crate::pair::{Difference, Pair};
use carv_compare::board::call::{Edit, Step};
use std::fmt;
use std::time::{Duration, Instant};

/// Longest time for shortening a list.
const LONGEST: Duration = Duration::from_secs(20);

/// A list of steps from an opening on, the last of which shows a difference.
#[derive(Clone, Debug)]
pub struct Finding {
    /// The steps.
    pub steps: Vec<Step>,
    /// What differs after the last of them.
    pub difference: Difference,
}

impl Finding {
    /// The shortest list found.
    pub fn shortened(self) -> Self {
        shorten(&self.steps).unwrap_or(self)
    }
}

/// Most steps of a list that are shown.
const SHOWN: usize = 200;

impl fmt::Display for Finding {
    fn fmt(&self, f: &mut fmt::Formatter<'_>) -> fmt::Result {
        let left_out = self.steps.len().saturating_sub(SHOWN);
        write!(f, "{} calls", self.steps.len())?;
        if left_out > 0 {
            write!(f, ", the first {left_out} not shown")?;
        }
        for step in &self.steps[left_out..] {
            write!(f, "\n  {step}")?;
        }
        write!(f, "\ndifference: {}", self.difference)
    }
}

/// Makes the steps on a new pair: the finding, if there is one, and the next id before each step.
fn replay(steps: &[Step]) -> Option<(Finding, Vec<u64>)> {
    let mut pair = Pair::new();
    let mut next_ids = Vec::with_capacity(steps.len());
    for (place, step) in steps.iter().enumerate() {
        next_ids.push(pair.state().next_id);
        if let Err(difference) = pair.step(*step) {
            let steps = steps[..=place].to_vec();
            return Some((Finding { steps, difference }, next_ids));
        }
    }
    None
}

/// The shortest list found that still shows a difference, in ever smaller cuts. Where a cut takes
/// out calls that gave ids, the next id is raised instead, so that later ids stay; at last raises
/// that are not needed go. None if the steps show no difference when made again.
pub fn shorten(steps: &[Step]) -> Option<Finding> {
    let started = Instant::now();
    let (mut best, mut next_ids) = replay(steps)?;
    let mut length = best.steps.len() / 2;
    while length > 0 && started.elapsed() < LONGEST {
        // Neither the opening nor the call that differs is cut out.
        let mut from = 1;
        while from + length < best.steps.len() && started.elapsed() < LONGEST {
            let candidate = without(&best.steps, &next_ids, from, length);
            match replay(&candidate) {
                Some(shorter) if shorter.0.steps.len() < best.steps.len() => {
                    (best, next_ids) = shorter;
                }
                _ => from += length,
            }
        }
        length /= 2;
    }
    Some(without_edits(best))
}

fn without_edits(mut best: Finding) -> Finding {
    for place in (1..best.steps.len()).rev() {
        if let Some(Step::Edit(_)) = best.steps.get(place) {
            let mut candidate = best.steps.clone();
            candidate.remove(place);
            if let Some((shorter, _)) = replay(&candidate) {
                best = shorter;
            }
        }
    }
    best
}

/// The steps without `length` of them.
fn without(steps: &[Step], next_ids: &[u64], from: usize, length: usize) -> Vec<Step> {
    let to = from + length;
    let raises = |step: &Step| matches!(step, Step::Edit(Edit::NextId(_)));
    let mut kept = steps[..from].to_vec();
    if next_ids[to] != next_ids[from] && !raises(&steps[to]) {
        if kept.last().is_some_and(raises) {
            kept.pop();
        }
        kept.push(Step::Edit(Edit::NextId(next_ids[to])));
    }
    kept.extend(&steps[to..]);
    kept
}
