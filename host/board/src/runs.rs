//! Random lists of calls, made on the port and on the Rust.

use crate::pair::{Difference, Pair};
use crate::shorten::Finding;
use crate::tally::Tally;
use carv_compare::board::call::{Call, Step};
use carv_compare::board::walk::Walk;
use carv_compare::progress::Progress;

/// Boards that random steps are made on, one after the other.
pub struct RandomBoards {
    /// Makes up the steps.
    pub walk: Walk,
    /// The current board.
    pub pair: Pair,
    since_opening: Vec<Step>,
}

impl RandomBoards {
    /// Boards whose steps the seed fixes.
    pub fn new(seed: u64) -> Self {
        Self {
            walk: Walk::new(seed),
            pair: Pair::new(),
            since_opening: Vec::new(),
        }
    }

    /// Makes the next step and answers it with its number.
    ///
    /// # Errors
    /// A difference, with the steps since the board's opening.
    pub fn step(&mut self) -> Result<(Step, u64), Finding> {
        let step = self.walk.next_step(self.pair.state());
        self.since_opening.push(step);
        let done = self.pair.step(step);
        let number = done.map_err(|difference| self.finding(difference))?;
        if number == 0 && matches!(step, Step::Call(Call::Open { .. })) {
            self.since_opening.clear();
            self.since_opening.push(step);
        }
        Ok((step, number))
    }

    /// A few steps to be made before the next area is taken.
    pub fn few(&mut self) -> u64 {
        self.walk.draw().random.below(16) + 1
    }

    fn finding(&self, difference: Difference) -> Finding {
        Finding {
            steps: self.since_opening.clone(),
            difference,
        }
    }
}

/// Makes `count` random calls, which the seed fixes, and compares after each.
///
/// # Errors
/// The first difference, with a list of calls that is as it came.
pub fn first_difference(count: u64, seed: u64) -> Result<Tally, Finding> {
    let mut boards = RandomBoards::new(seed);
    let mut tally = Tally::default();
    let mut progress = Progress::new(count);
    while tally.total() < count {
        let (step, number) = boards.step()?;
        if let Step::Call(call) = step {
            tally.count(call, number, &boards.pair);
        }
        progress.tell(tally.total());
    }
    progress.end();
    Ok(tally)
}

/// The same.
///
/// # Errors
/// The first difference, with the shortest list found.
pub fn random(count: u64, seed: u64) -> Result<Tally, Finding> {
    first_difference(count, seed).map_err(Finding::shortened)
}

/// Takes `count` areas of random boards, which the seed fixes, a few steps apart.
///
/// # Errors
/// The first difference, in a few lines: between port and Rust on the way, with the shortest list
/// found, or what `take` finds, with the area's number.
pub fn areas(
    count: u64,
    seed: u64,
    mut take: impl FnMut(&mut RandomBoards) -> Result<(), String>,
) -> Result<(), String> {
    let mut boards = RandomBoards::new(seed);
    let mut progress = Progress::new(count);
    for place in 0..count {
        for _ in 0..boards.few() {
            let done = boards.step();
            done.map_err(|found| found.shortened().to_string())?;
        }
        take(&mut boards).map_err(|why| format!("area {place}, {why}"))?;
        progress.tell(place);
    }
    progress.end();
    Ok(())
}
