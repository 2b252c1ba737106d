//! Document 02's request P3 by running: no period is overspent, by any budget with all below it.
//!
//! Random calls with clock values that never fall are made on port and Rust side by side, and told to
//! document 01's book and to P3's ledger, which see calls and refusal numbers alone. After each call
//! the live budgets and their four figures by the book are those of the state, as demand 3 says, and
//! in the current period no budget is overspent; at a board's end in none.

mod audit;
mod cases;
mod meet;
mod shortest;
mod side;
mod walk;

pub use cases::{CASES, Case, Report};
pub use side::{PortAlone, Side};

use crate::pair::Pair;
use crate::shorten::Finding;
use audit::Audit;
use carv_compare::board::call::{Call, Step};
use carv_compare::progress::Progress;
use carv_ledger::History;
use walk::SpendingWalk;

/// What a run is told and held to.
#[derive(Clone, Copy, Debug, PartialEq, Eq)]
pub struct Terms {
    /// Whether the clock values of calls that are accepted or refused with 12 never fall.
    pub clocks_rise: bool,
    /// Whether, by the book, a removal renews the payer (P2).
    pub removals_renew: bool,
    /// Whether the state is held to the book. If not, nothing is looked at but numbers, and the ledger
    /// alone can find something.
    pub holds_book: bool,
}

impl Terms {
    /// Those of P3.
    pub const P3: Self = Self {
        clocks_rise: true,
        removals_renew: true,
        holds_book: true,
    };

    fn history(self) -> History {
        match self.removals_renew {
            true => History::default(),
            false => History::before_p2(),
        }
    }
}

/// Makes `count` random calls, which the seed fixes, on port and Rust.
///
/// # Errors
/// The first finding, with the shortest list found.
pub fn spent(count: u64, seed: u64) -> Result<Report, Finding> {
    on(Pair::new, Terms::P3, count, seed)
}

/// The same on any side.
///
/// # Errors
/// The first finding, with the shortest list found.
pub fn on<S: Side>(
    side: impl Fn() -> S + Copy,
    terms: Terms,
    count: u64,
    seed: u64,
) -> Result<Report, Finding> {
    first_finding(side, terms, count, seed)
        .map_err(|finding| shortest::shortest(finding, side, terms))
}

fn first_finding<S: Side>(
    side: impl Fn() -> S,
    terms: Terms,
    count: u64,
    seed: u64,
) -> Result<Report, Finding> {
    let mut side = side();
    let mut walk = SpendingWalk::new(seed, terms.clocks_rise);
    let mut audit = Audit::new(terms);
    let mut since_opening = Vec::new();
    let mut progress = Progress::new(count);
    for made in 0..count {
        let call = walk.next_call(side.state());
        if walk.opens() {
            let ended = audit.end_board();
            ended.map_err(|why| finding(&since_opening, why))?;
            since_opening.clear();
        }
        since_opening.push(call);
        let number = one_call(&mut side, &mut audit, call);
        let number = number.map_err(|why| finding(&since_opening, why))?;
        walk.told(call, number);
        progress.tell(made);
    }
    audit
        .end_board()
        .map_err(|why| finding(&since_opening, why))?;
    progress.end();
    Ok(audit.report)
}

/// Makes a call and answers its number.
fn one_call(side: &mut impl Side, audit: &mut Audit, call: Call) -> Result<u64, String> {
    let number = side.make(call)?;
    audit.note(call, number, side.state())?;
    Ok(number)
}

fn finding(calls: &[Call], difference: String) -> Finding {
    Finding {
        steps: calls.iter().copied().map(Step::Call).collect(),
        difference,
    }
}
