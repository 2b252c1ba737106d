//! All short lists of some calls, made on the port and on the Rust.

use crate::pair::Pair;
use crate::shorten::Finding;
use crate::tally::Tally;
use carv_compare::board::call::{Call, Step};
use carv_compare::board::make::*;
use carv_compare::progress::Progress;
use carv_oracle::account::PERIOD;

/// Calls to make lists of, and what comes before each list.
struct Lists {
    before: &'static [Call],
    calls: &'static [Call],
}

/// A budget, its child and objects of both come and go, at times at which a payer is due, is not
/// yet due, or sees a clock that fell, and memory, CPU time and charges run out. The root's totals
/// are then over three levels, those of id 2 over two, or it is no budget or isn't there.
const REGISTRY: Lists = Lists {
    before: &[open(PERIOD, 9_000)],
    calls: &[
        create(3, 1, true),
        create(4, 2, false),
        create(2, 2, false),
        insert(1, 2, 300),
        carve(1, 6_000_000, 4_400, 0),
        carve(2, 2_000_000, 400, 10_000_000),
        carve(1, 4_000_001, 0, 10_000_001),
        charge_more(1, 100),
        charge_more(3, 4_096),
        uncharge(1, 100),
        uncharge(2, 128),
        remove(2, 9_999_999),
        remove(2, 10_000_000),
        remove(3, 25_000_000),
        refill(2, 25_000_000),
        spend(2, 4_000_000, 9_999_999),
        spend(1, 4_000_000, 10_000_000),
        pays(2),
        account(2),
        charge_of(3),
        totals(1),
        totals(2),
    ],
};

/// Thread 0 and two threads on budgets of a tick and a half and of nothing, at three ticks of
/// which one renews: they block, wake, sleep and end, and a budget goes.
const THREADS: Lists = Lists {
    before: &[
        open(PERIOD, 9_000),
        carve(1, 1_500_000, 0, 0),
        carve(1, 0, 0, 0),
        new_thread(7, 2),
        new_thread(8, 3),
        start(8),
        start(7),
    ],
    calls: &[
        plan(0),
        plan(1),
        plan(10),
        tick(0),
        tick(1),
        tick(10),
        block(5, 1),
        block(2, 3),
        wake(0),
        wake(7),
        kill(0, 1),
        kill(7, 2),
        kill(8, 1),
        remove(2, 10_000_000),
        new_thread(9, 1),
        start(9),
        spend(2, 1_400_000, 0),
        blocked_on(7, 2, 3),
        exit_of(7),
        thread(0),
        account(2),
        totals(1),
    ],
};

/// Calls that lists are made of, in each of the two sets.
pub const CALLS: usize = 22;

/// Makes every list of up to `depth` calls of each set, each on a board of its own, and compares
/// after each call. Shorter lists are the beginnings of those of full length.
///
/// # Errors
/// The first difference with its list.
pub fn short(depth: usize) -> Result<Tally, Finding> {
    let power = depth.try_into().unwrap_or(u32::MAX);
    let lists = (CALLS as u64).saturating_pow(power);
    let mut progress = Progress::new(lists.saturating_mul(2));
    let mut tally = Tally::default();
    let mut pair = Pair::new();
    for (set, from) in [(REGISTRY, 0), (THREADS, lists)] {
        let mut list = vec![0; depth];
        for done in 0..lists {
            set.run(&list, &mut pair, &mut tally)?;
            advance(&mut list);
            progress.tell(from.saturating_add(done));
        }
    }
    progress.end();
    Ok(tally)
}

impl Lists {
    /// Makes the calls that come before, and those whose places are given.
    fn run(&self, list: &[usize], pair: &mut Pair, tally: &mut Tally) -> Result<(), Finding> {
        let calls = || {
            let listed = list.iter().map(|place| self.calls[*place]);
            self.before.iter().copied().chain(listed)
        };
        for (place, call) in calls().enumerate() {
            let number = pair.call(call).map_err(|difference| Finding {
                steps: calls().take(place + 1).map(Step::Call).collect(),
                difference,
            })?;
            tally.count(call, number, pair);
        }
        Ok(())
    }
}

/// Goes on to the next list, the last place fastest; after the last list comes the first.
fn advance(list: &mut [usize]) {
    for place in list.iter_mut().rev() {
        *place += 1;
        if *place < CALLS {
            return;
        }
        *place = 0;
    }
}

#[cfg(test)]
mod tests {
    use super::*;

    #[test]
    fn every_list_comes_once() {
        let mut list = vec![0; 2];
        let mut seen = Vec::new();
        for _ in 0..CALLS.pow(2) {
            seen.push(list.clone());
            advance(&mut list);
        }
        assert_eq!(list, [0, 0]);
        seen.sort();
        seen.dedup();
        assert_eq!(seen.len(), CALLS.pow(2));
    }

    #[test]
    fn both_sets_have_as_many_calls() {
        assert_eq!([REGISTRY, THREADS].map(|set| set.calls.len()), [CALLS; 2]);
    }
}
