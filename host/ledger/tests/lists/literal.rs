//! The ledger keeps sums; here is its definition to the letter, a list of budgets and one of charges,
//! and both on random lists.

use carv_ledger::{Carved, Ledger, PERIOD};

struct Charge {
    budget: u64,
    ns: u128,
    time: u128,
}

/// Budgets and charges, each from the latest.
#[derive(Default)]
struct Literal {
    budgets: Vec<(u64, Carved)>,
    charges: Vec<Charge>,
}

/// "Is budget i budget b, or below it? Going from i to its parent, among the budgets carved before
/// it, and so on up to the root."
fn under(budgets: &[(u64, Carved)], b: u64, i: u64) -> bool {
    match budgets {
        [] => false,
        [(id, carved), before @ ..] if *id == i => i == b || under(before, b, carved.parent),
        [_, before @ ..] => under(before, b, i),
    }
}

impl Literal {
    fn spent(&self, period: u128, b: u64) -> u128 {
        let mut sum = 0;
        for charge in &self.charges {
            if charge.time / PERIOD == period && under(&self.budgets, b, charge.budget) {
                sum += charge.ns;
            }
        }
        sum
    }

    fn periods(&self) -> Vec<u128> {
        let mut periods: Vec<u128> = self.charges.iter().map(|it| it.time / PERIOD).collect();
        periods.sort_unstable();
        periods.dedup();
        periods
    }

    /// Budget, period, what was spent.
    fn overspent(&self) -> Option<(u64, u128, u128)> {
        for period in self.periods() {
            let mut budgets: Vec<_> = self.budgets.iter().collect();
            budgets.sort_by_key(|(id, _)| *id);
            for (id, carved) in budgets {
                let spent = self.spent(period, *id);
                if spent > carved.allowance {
                    return Some((*id, period, spent));
                }
            }
        }
        None
    }
}

/// A linear congruential generator, of which the high bits are used.
struct Random(u64);

impl Random {
    fn below(&mut self, count: u64) -> u64 {
        self.0 = self.0.wrapping_mul(6_364_136_223_846_793_005);
        self.0 = self.0.wrapping_add(1_442_695_040_888_963_407);
        (self.0 >> 33) % count
    }
}

/// Budgets with gaps between their ids, and charges to them, to ids that aren't there, and to some
/// that come later; at times that rise and fall.
fn random(seed: u64) -> (Ledger, Literal) {
    let mut random = Random(seed);
    let cpu = random.below(2_000);
    let mut ledger = Ledger::opening(cpu);
    let mut literal = Literal::default();
    let root = Carved {
        parent: 1,
        allowance: cpu.into(),
    };
    literal.budgets.push((1, root));
    let mut next = 2;
    for _ in 0..random.below(60) {
        if random.below(4) == 0 {
            let parent = random.below(next - 1) + 1;
            let allowance = random.below(1_000);
            ledger.note_budget(next, parent, allowance);
            let allowance = allowance.into();
            literal
                .budgets
                .insert(0, (next, Carved { parent, allowance }));
            next += 1 + random.below(2);
        } else {
            let budget = random.below(next + 2);
            let ns = u128::from(random.below(300));
            let time = u128::from(random.below(6)) * PERIOD / 2 + u128::from(random.below(3));
            ledger.note_charge(budget, ns, time);
            literal.charges.insert(0, Charge { budget, ns, time });
        }
    }
    (ledger, literal)
}

#[test]
fn sums_are_the_definition_s() {
    let (mut found, mut none) = (0, 0);
    for seed in 0..3_000 {
        let (ledger, literal) = random(seed);
        for period in 0..5 {
            let all = ledger.spent_in(period);
            for (id, _) in &literal.budgets {
                let expected = literal.spent(period, *id);
                assert_eq!(
                    ledger.spent(period, *id),
                    expected,
                    "{seed}: {id}, {period}"
                );
                assert_eq!(all.get(id).copied().unwrap_or(0), expected, "{seed}");
            }
        }
        let most = ledger.most();
        for (id, _) in &literal.budgets {
            let spent = (0..5).map(|period| (period, literal.spent(period, *id)));
            // Of equal ones the first.
            let expected = spent.rev().max_by_key(|(_, spent)| *spent);
            let expected = expected.filter(|(_, spent)| *spent > 0);
            let got = most.get(id).map(|most| (most.period, most.spent));
            assert_eq!(got, expected, "{seed}: {id}");
        }
        let expected = literal.overspent();
        let got = ledger.overspent();
        let got = got.map(|it| (it.budget, it.period, it.spent));
        assert_eq!(got, expected, "{seed}");
        *if got.is_some() { &mut found } else { &mut none } += 1;
    }
    assert!(found > 500 && none > 500, "{found}, {none}");
}
