//! Makes up calls on a registry, edges more often than chance gives them.

use super::{Record, Registry};
use crate::board::OBJECTS;
use crate::board::call::Op;
use crate::draw::Draw;
use crate::state::{account_of, entry, is_budget, removable_budget, renewed};
use carv_oracle::Snapshot;
use carv_oracle::account::{Account, PERIOD};

/// Records without end: document 01's edges, then one registry after the other, each filled to its
/// last place or not. About every second call is a reading.
pub struct Records {
    registry: Registry,
    draw: Draw,
    edges: std::slice::Iter<'static, Edge>,
    clock: u64,
    /// Openings behind the edges.
    opened: u64,
    /// Whether the table is being filled.
    fills: bool,
    /// Calls before the next registry.
    left: u64,
    /// What the last change was about.
    touched: [u64; 2],
}

impl Records {
    /// Records that depend on the seed alone.
    pub fn new(seed: u64) -> Self {
        Self {
            registry: Registry::default(),
            draw: Draw::new(seed),
            edges: EDGES.iter(),
            clock: 0,
            opened: 0,
            fills: false,
            left: 0,
            touched: [1, 1],
        }
    }
}

impl Iterator for Records {
    type Item = Record;

    fn next(&mut self) -> Option<Record> {
        let (op, arguments) = match self.edges.next() {
            Some((op, arguments, _)) => (*op, *arguments),
            None => self.next_call(),
        };
        Some(self.registry.call(op, arguments))
    }
}

/// A call of the list that comes first, with document 01's number.
type Edge = (Op, [u64; 4], u64);

/// Document 01's edges of the registry and those of document 02's requests, with readings between.
const EDGES: [Edge; 124] = [
    // No registry is open.
    (Op::Account, [1, 0, 0, 0], 1),
    (Op::Create, [3, 1, 1, 0], 1),
    (Op::Open, [PERIOD + 1, 1_000_000, 0, 0], 2),
    (Op::PaysForAnything, [1, 0, 0, 0], 1),
    // A Frame, and budgets.
    (Op::Open, [PERIOD, 1_000_000, 0, 0], 0),
    (Op::Account, [1, 0, 0, 0], 0),
    (Op::ChargeOf, [1, 0, 0, 0], 0),
    (Op::PaysForAnything, [1, 0, 0, 0], 0),
    (Op::Create, [3, 1, 1, 0], 0),
    (Op::Account, [1, 0, 0, 0], 0),
    (Op::ChargeOf, [2, 0, 0, 0], 0),
    (Op::CreateBudget, [1, 4_000_000, 8_192, 0], 0),
    (Op::Account, [1, 0, 0, 0], 0),
    (Op::Account, [3, 0, 0, 0], 0),
    (Op::CreateBudget, [1, 6_000_001, 0, 0], 12),
    (Op::Account, [1, 0, 0, 0], 0),
    (Op::CreateBudget, [1, 6_000_000, 0, 0], 0),
    (Op::Account, [1, 0, 0, 0], 0),
    (Op::Create, [3, 3, 1, 0], 0),
    (Op::Create, [3, 3, 1, 0], 0),
    (Op::Account, [3, 0, 0, 0], 0),
    (Op::Create, [4, 3, 1, 0], 12),
    (Op::PaysForAnything, [3, 0, 0, 0], 0),
    (Op::Remove, [3, 0, 0, 0], 10),
    (Op::Remove, [5, 0, 0, 0], 0),
    (Op::Remove, [6, 0, 0, 0], 0),
    (Op::Remove, [6, 0, 0, 0], 7),
    (Op::PaysForAnything, [3, 0, 0, 0], 0),
    (Op::Account, [1, 0, 0, 0], 0),
    (Op::Remove, [3, 0, 0, 0], 0),
    (Op::Account, [1, 0, 0, 0], 0),
    (Op::Account, [3, 0, 0, 0], 7),
    (Op::ChargeOf, [3, 0, 0, 0], 7),
    (Op::PaysForAnything, [3, 0, 0, 0], 0),
    (Op::Remove, [1, 0, 0, 0], 9),
    // Renewal.
    (Op::Refill, [1, 9_999_999, 0, 0], 0),
    (Op::Account, [1, 0, 0, 0], 0),
    (Op::Refill, [1, 25_000_000, 0, 0], 0),
    (Op::Account, [1, 0, 0, 0], 0),
    // Less charged.
    (Op::Uncharge, [2, 4_097, 0, 0], 11),
    (Op::ChargeOf, [2, 0, 0, 0], 0),
    (Op::Uncharge, [2, 4_096, 0, 0], 0),
    (Op::ChargeOf, [2, 0, 0, 0], 0),
    (Op::Account, [1, 0, 0, 0], 0),
    (Op::Uncharge, [3, 0, 0, 0], 7),
    // Kinds and backing.
    (Op::Create, [0, 1, 1, 0], 4),
    (Op::Create, [10, 1, 1, 0], 4),
    (Op::Insert, [6, 1, 0, 0], 4),
    (Op::Create, [6, 1, 1, 0], 13),
    (Op::Create, [1, 1, 0, 0], 13),
    (Op::Create, [3, 1, 0, 0], 14),
    (Op::Create, [4, 1, 0, 0], 0),
    (Op::Account, [1, 0, 0, 0], 0),
    // 127 bytes: refused before the renewal that is due.
    (Op::Open, [PERIOD, 127, 0, 0], 0),
    (Op::ChargeCpu, [1, 5_000_000, 0, 0], 0),
    (Op::CreateBudget, [1, 0, 0, PERIOD], 12),
    (Op::Account, [1, 0, 0, 0], 0),
    // 128 bytes: refused behind it.
    (Op::Open, [PERIOD, 128, 0, 0], 0),
    (Op::ChargeCpu, [1, 5_000_000, 0, 0], 0),
    (Op::CreateBudget, [1, 0, 1, PERIOD - 1], 12),
    (Op::Account, [1, 0, 0, 0], 0),
    (Op::CreateBudget, [1, 0, 1, PERIOD], 12),
    (Op::Account, [1, 0, 0, 0], 0),
    (Op::CreateBudget, [1, 0, 0, PERIOD], 0),
    (Op::Account, [1, 0, 0, 0], 0),
    (Op::Account, [2, 0, 0, 0], 0),
    // A refused CPU charge keeps its renewal.
    (Op::ChargeCpu, [1, PERIOD + 1, 2 * PERIOD + 7, 0], 12),
    (Op::Account, [1, 0, 0, 0], 0),
    // A refused opening leaves the registry as it was.
    (Op::Open, [PERIOD + 1, 1, 0, 0], 2),
    (Op::Account, [1, 0, 0, 0], 0),
    (Op::Open, [u64::MAX, 1, 0, 0], 2),
    (Op::ChargeOf, [2, 0, 0, 0], 0),
    // Removals that are refused, or of another kind, while all are due.
    (Op::Open, [PERIOD, 1_000_000, 0, 0], 0),
    (Op::CreateBudget, [1, 6_000_000, 100_000, 0], 0),
    (Op::CreateBudget, [2, 4_000_000, 0, 0], 0),
    (Op::CreateBudget, [2, 1_000_000, 0, 0], 0),
    (Op::CreateBudget, [2, 0, 0, 0], 0),
    (Op::Create, [3, 2, 1, 0], 0),
    (Op::Remove, [1, PERIOD, 0, 0], 9),
    (Op::Remove, [2, PERIOD, 0, 0], 10),
    (Op::Remove, [7, PERIOD, 0, 0], 7),
    (Op::Account, [1, 0, 0, 0], 0),
    (Op::Remove, [6, PERIOD, 0, 0], 0),
    (Op::Account, [2, 0, 0, 0], 0),
    // Budget 3 uses its time and goes: its payer is renewed first.
    (Op::ChargeCpu, [3, 4_000_000, PERIOD, 0], 0),
    (Op::Remove, [3, PERIOD + 4_000_000, 0, 0], 0),
    (Op::Account, [2, 0, 0, 0], 0),
    (Op::Account, [1, 0, 0, 0], 0),
    // Not due, and a clock that falls.
    (Op::ChargeCpu, [2, 1_000_000, 2 * PERIOD - 1, 0], 0),
    (Op::Remove, [4, 2 * PERIOD - 1, 0, 0], 0),
    (Op::Account, [2, 0, 0, 0], 0),
    (Op::Remove, [5, 0, 0, 0], 0),
    (Op::Account, [2, 0, 0, 0], 0),
    (Op::Refill, [2, 2 * PERIOD, 0, 0], 0),
    (Op::Account, [2, 0, 0, 0], 0),
    // The root is the payer.
    (Op::Remove, [2, u64::MAX, 0, 0], 0),
    (Op::Account, [1, 0, 0, 0], 0),
    (Op::Account, [2, 0, 0, 0], 7),
    // Totals on every level of a tree.
    (Op::Open, [PERIOD, 1_000_000, 0, 0], 0),
    (Op::Totals, [1, 0, 0, 0], 0),
    (Op::CreateBudget, [1, 5_000_000, 100_000, 0], 0),
    (Op::CreateBudget, [2, 2_000_000, 50_000, 0], 0),
    (Op::CreateBudget, [3, 500_000, 10_000, 0], 0),
    (Op::CreateBudget, [1, 1_000_000, 20_000, 0], 0),
    (Op::Create, [3, 2, 1, 0], 0),
    (Op::Create, [2, 3, 1, 0], 0),
    (Op::Create, [7, 4, 1, 0], 0),
    (Op::Create, [3, 5, 1, 0], 0),
    (Op::ChargeCpu, [4, 100_000, 0, 0], 0),
    (Op::Totals, [1, 0, 0, 0], 0),
    (Op::Totals, [2, 0, 0, 0], 0),
    (Op::Totals, [3, 0, 0, 0], 0),
    (Op::Totals, [4, 0, 0, 0], 0),
    (Op::Totals, [5, 0, 0, 0], 0),
    // No budget, and no object.
    (Op::Totals, [6, 0, 0, 0], 7),
    (Op::Totals, [10, 0, 0, 0], 7),
    (Op::Totals, [u64::MAX, 0, 0, 0], 7),
    // One budget is renewed, those that are due stay as they are; then it goes.
    (Op::Refill, [4, 3 * PERIOD, 0, 0], 0),
    (Op::Totals, [2, 0, 0, 0], 0),
    (Op::Remove, [8, 0, 0, 0], 0),
    (Op::Remove, [4, 0, 0, 0], 0),
    (Op::Totals, [4, 0, 0, 0], 7),
    (Op::Totals, [2, 0, 0, 0], 0),
    (Op::Totals, [1, 0, 0, 0], 0),
];

/// Random calls.
impl Records {
    fn next_call(&mut self) -> (Op, [u64; 4]) {
        if self.left == 0 {
            return self.opening();
        }
        self.left -= 1;
        if self.draw.random.one_in(2) {
            return self.reading();
        }
        if self.draw.random.one_in(200) {
            let cpu = self.draw.number().max(PERIOD + 1);
            return (Op::Open, [cpu, self.draw.number(), 0, 0]);
        }
        if self.fills && self.objects() == OBJECTS && self.draw.random.one_in(16) {
            self.fills = false;
        }
        let call = self.change();
        self.touched = self.about(call);
        call
    }

    /// An opening that is accepted: for a table that is filled, then for five that aren't.
    fn opening(&mut self) -> (Op, [u64; 4]) {
        self.fills = self.opened.is_multiple_of(6);
        self.opened += 1;
        self.left = if self.fills { 1_500 } else { 200 } + self.draw.random.below(300);
        self.clock = match self.draw.random.below(4) {
            0 => u64::MAX - self.draw.within(20 * PERIOD),
            1 => self.draw.number(),
            _ => 0,
        };
        self.touched = [1, 1];
        let cpu = if self.draw.random.one_in(2) {
            PERIOD
        } else {
            self.draw.within(PERIOD)
        };
        let memory = match self.draw.random.below(4) {
            _ if self.fills => u64::MAX - self.draw.within(1_000),
            0 => self.draw.number(),
            1 => self.draw.within(1_000_000),
            _ => 1 << (17 + self.draw.random.below(47)),
        };
        (Op::Open, [cpu, memory, 0, 0])
    }

    /// A reading, often of what the last change was about.
    fn reading(&mut self) -> (Op, [u64; 4]) {
        let [id, payer] = self.touched;
        let any = [Op::Account, Op::ChargeOf, Op::PaysForAnything, Op::Totals];
        let of_budgets = [Op::Account, Op::Totals];
        let (op, id) = match self.draw.random.below(8) {
            0 | 1 => (Op::ChargeOf, id),
            2 => (self.draw.random.of(&of_budgets), id),
            3 | 4 => (self.draw.random.of(&of_budgets), payer),
            5 | 6 => (self.draw.random.of(&any), self.budget()),
            _ => (self.draw.random.of(&any), self.object()),
        };
        (op, [id, 0, 0, 0])
    }

    fn change(&mut self) -> (Op, [u64; 4]) {
        if self.fills && !self.draw.random.one_in(8) {
            return self.insert();
        }
        match self.draw.random.below(44) {
            0..6 => self.create(),
            6..12 => self.insert(),
            12..20 => self.create_budget(),
            20..25 => self.charge_more(),
            25..30 => self.uncharge(),
            30..37 => self.remove(),
            37..40 => self.refill(),
            _ => self.charge_cpu(),
        }
    }

    fn create(&mut self) -> (Op, [u64; 4]) {
        let backing = !self.draw.random.one_in(6);
        (Op::Create, [self.kind(), self.budget(), backing.into(), 0])
    }

    fn insert(&mut self) -> (Op, [u64; 4]) {
        let payer = self.budget();
        let bytes = self.bytes(self.account(payer).memory_free());
        (Op::Insert, [self.kind(), payer, bytes, 0])
    }

    fn create_budget(&mut self) -> (Op, [u64; 4]) {
        let parent = self.budget();
        let account = self.account(parent);
        let time = self.time(account.period_start);
        let left = renewed(account, time).cpu_left;
        let free = account.memory_free().saturating_sub(128);
        let (cpu, memory) = if self.draw.random.one_in(3) {
            (self.draw.amount(left), self.draw.amount(free))
        } else {
            (self.draw.within(left / 2), self.draw.within(free / 2))
        };
        (Op::CreateBudget, [parent, cpu, memory, time])
    }

    fn charge_more(&mut self) -> (Op, [u64; 4]) {
        let id = self.object();
        let payer = entry(self.registry.state(), id).map_or(0, |entry| entry.payer);
        let bytes = self.bytes(self.account(payer).memory_free());
        (Op::ChargeMore, [id, bytes, 0, 0])
    }

    fn uncharge(&mut self) -> (Op, [u64; 4]) {
        let id = self.object();
        let charge = entry(self.registry.state(), id).map_or(0, |entry| entry.charge);
        (Op::Uncharge, [id, self.draw.amount(charge), 0, 0])
    }

    /// Of any object, or of a budget that pays for nothing, at any time or one at which its payer
    /// is due.
    fn remove(&mut self) -> (Op, [u64; 4]) {
        let from = self.draw.random.below(self.objects() as u64) as usize;
        let budget = match self.draw.random.below(4) {
            0 => removable_budget(self.registry.state(), from),
            _ => None,
        };
        let id = budget.unwrap_or_else(|| self.object());
        let payer = entry(self.registry.state(), id).map_or(0, |entry| entry.payer);
        let start = self.account(payer).period_start;
        let time = match self.draw.random.below(4) {
            0 => start.saturating_add(PERIOD + self.draw.within(PERIOD)),
            _ => self.time(start),
        };
        (Op::Remove, [id, time, 0, 0])
    }

    fn refill(&mut self) -> (Op, [u64; 4]) {
        let id = self.budget();
        let time = self.time(self.account(id).period_start);
        (Op::Refill, [id, time, 0, 0])
    }

    fn charge_cpu(&mut self) -> (Op, [u64; 4]) {
        let id = self.budget();
        let account = self.account(id);
        let time = self.time(account.period_start);
        let left = renewed(account, time).cpu_left;
        let ns = if self.draw.random.one_in(2) {
            self.draw.amount(left)
        } else {
            self.draw.within(left / 4)
        };
        (Op::ChargeCpu, [id, ns, time, 0])
    }

    /// The object that a change is about, or the one that it may make, and who pays for it.
    fn about(&self, (op, [first, second, ..]): (Op, [u64; 4])) -> [u64; 2] {
        let state = self.registry.state();
        match op {
            Op::Create | Op::Insert => [state.next_id, second],
            Op::CreateBudget => [state.next_id, first],
            _ => [first, entry(state, first).map_or(1, |entry| entry.payer)],
        }
    }

    /// A kind, mostly one that can be created.
    fn kind(&mut self) -> u64 {
        match self.draw.random.below(24) {
            0 => self.draw.number(),
            1 => self.draw.random.of(&[0, 10]),
            2..6 => self.draw.random.below(9) + 1,
            _ => self.draw.random.of(&[2, 3, 4, 5, 5, 7, 7]),
        }
    }

    /// A charge, around what is free or small. A table that is filled keeps what is free for later.
    fn bytes(&mut self, free: u64) -> u64 {
        let often = if self.fills { 40 } else { 3 };
        if self.draw.random.one_in(often) {
            self.draw.amount(free)
        } else {
            self.draw.random.through(free.min(10_000) / 8)
        }
    }

    /// A time on a clock that mostly goes forward, or one around the periods that began at `start`.
    fn time(&mut self, start: u64) -> u64 {
        let whole_periods = self.draw.random.below(4) * PERIOD;
        match self.draw.random.below(16) {
            0 => self.clock.saturating_sub(self.draw.within(3 * PERIOD)),
            1 => self.draw.number(),
            2..5 => self.draw.beside(start.saturating_add(whole_periods)),
            _ => {
                self.clock = self.clock.saturating_add(self.draw.within(PERIOD / 4));
                self.clock
            }
        }
    }

    /// An id, mostly of a live object.
    fn object(&mut self) -> u64 {
        let Snapshot {
            entries, next_id, ..
        } = self.registry.state();
        match self.draw.random.below(16) {
            0 => self.draw.random.of(&[0, *next_id, 1 << 63, u64::MAX]),
            1 => self.draw.random.below(*next_id),
            2 => 1,
            _ => entries[self.draw.random.below(entries.len() as u64) as usize].id,
        }
    }

    /// An id, mostly of a live budget.
    fn budget(&mut self) -> u64 {
        match self.draw.random.below(16) {
            0 => self.object(),
            1..4 => 1,
            _ => self.any_budget(),
        }
    }

    fn any_budget(&mut self) -> u64 {
        let entries = &self.registry.state().entries;
        let from = self.draw.random.below(entries.len() as u64) as usize;
        let (before, after) = entries.split_at(from);
        let found = after.iter().chain(before).find(|entry| is_budget(entry));
        found.map_or(1, |entry| entry.id)
    }

    /// A budget's account; one without anything for another id.
    fn account(&self, id: u64) -> Account {
        account_of(self.registry.state(), id)
    }

    fn objects(&self) -> usize {
        self.registry.state().entries.len()
    }
}

#[cfg(test)]
mod tests {
    use super::super::{OPS, call};
    use super::*;
    use crate::board::numbers;
    use crate::board::removal::Removal;
    use crate::board::totals::Whose;
    use std::collections::BTreeMap;

    const COUNT: usize = 100_000;

    fn records() -> impl Iterator<Item = Record> {
        Records::new(7).take(COUNT)
    }

    #[test]
    fn a_seed_fixes_the_records() {
        assert!(records().eq(records()));
        assert!(!records().eq(Records::new(8).take(COUNT)));
    }

    #[test]
    fn edges_come_first() {
        for (record, (op, arguments, number)) in records().zip(EDGES) {
            assert_eq!((record.op, record.arguments), (op, arguments));
            assert_eq!(record.number, number, "{record:?}");
        }
    }

    #[test]
    fn figures_of_document_01() {
        let edges: Vec<Record> = records().take(EDGES.len()).collect();
        // Used, reserved and CPU left of the root after the Frame and after each carve-out.
        assert_eq!(edges[8].values[0], 2);
        assert_eq!(edges[9].values[5], 4_096);
        assert_eq!(edges[11].values[0], 3);
        assert_eq!(edges[12].values[3..], [6_000_000, 4_000_000, 4_224, 8_192]);
        // Budget 3 is removed: CPU left stays, the reservations go.
        assert_eq!(edges[28].values[3..5], [0, PERIOD]);
        assert_eq!(edges[30].values[3..5], [0, 6_000_000]);
        assert_eq!(edges[35].values[0], 0);
        assert_eq!(edges[37].values[0], 1);
        assert_eq!(edges[38].values[2], 20_000_000);
        assert_eq!(edges[42].values[..2], [1, 0]);
        // 127 and 128 bytes: period start and CPU left.
        assert_eq!(edges[56].values[2..4], [0, 5_000_000]);
        assert_eq!(edges[60].values[2..4], [0, 5_000_000]);
        assert_eq!(edges[62].values[2..4], [PERIOD, PERIOD]);
    }

    #[test]
    fn figures_of_removals() {
        let edges: Vec<Record> = records().take(EDGES.len()).collect();
        // Period start, CPU left and CPU reserved: the root, then budget 2, as they were.
        assert_eq!(edges[81].values[2..5], [0, 4_000_000, 6_000_000]);
        assert_eq!(edges[83].values[2..5], [0, 1_000_000, 5_000_000]);
        // Budget 2 is renewed with the 4 ms of budget 3 still reserved, the root isn't.
        assert_eq!(edges[86].values[2..5], [PERIOD, 1_000_000, 1_000_000]);
        assert_eq!(edges[87].values[2..5], [0, 4_000_000, 6_000_000]);
        // Not due, and a clock that fell: the reservations go, all else stays.
        assert_eq!(edges[90].values[2..5], [PERIOD, 0, 0]);
        assert_eq!(edges[92].values[2..5], [PERIOD, 0, 0]);
        assert_eq!(edges[94].values[2..5], [2 * PERIOD, 6_000_000, 0]);
        // The root has the 6 ms of budget 2 from its next renewal on.
        let last = u64::MAX - u64::MAX % PERIOD;
        assert_eq!(edges[96].values[2..], [last, 4_000_000, 0, 0, 0]);
    }

    #[test]
    fn figures_of_totals() {
        let edges = records().take(EDGES.len());
        let totals = edges.filter(|record| record.op == Op::Totals && record.number == 0);
        let found: Vec<[u64; 3]> = totals
            .map(|record| std::array::from_fn(|word| record.values[word]))
            .collect();
        let expected = [
            [0, 1_000_000, PERIOD],
            [25_152, 974_848, 9_900_000],
            [20_800, 79_200, 4_900_000],
            [16_576, 33_424, 1_900_000],
            [64, 9_936, 400_000],
            [4_096, 15_904, 1_000_000],
            [20_800, 79_200, 5_000_000],
            // Without budget 4, whose CPU time its payer gets at the next renewal.
            [20_608, 79_392, 4_500_000],
            [24_960, 975_040, 9_500_000],
        ];
        assert_eq!(found, expected);
    }

    #[test]
    fn every_answer_occurs() {
        let mut found: BTreeMap<(Op, u64), u64> = BTreeMap::new();
        // Before the first opening, 1 too.
        for record in records().skip(EDGES.len()) {
            *found.entry((record.op, record.number)).or_default() += 1;
        }
        for (op, number) in numbers::all().filter(|(op, _)| OPS.contains(op)) {
            let count = found.remove(&(op, number)).unwrap_or(0);
            assert!(count > 10, "{op:?} with {number}: {count}");
        }
        assert!(found.is_empty(), "{found:?}");
    }

    #[test]
    fn removals_meet_every_case() {
        let mut registry = Registry::default();
        let removals = records().map(|record| {
            let call = call(record.op, record.arguments);
            let removal = Removal::of(call, registry.state());
            registry.call(record.op, record.arguments);
            removal
        });
        let found = Removal::counts(removals.skip(EDGES.len()).flatten());
        for case in Removal::all() {
            let count = found.get(&case).copied().unwrap_or(0);
            assert!(count > 4, "{case:?}: {count}");
        }
    }

    /// Also behind the edges of the recorded sample.
    #[test]
    fn totals_meet_every_case() {
        for (count, least) in [(3_000, 3), (COUNT, 100)] {
            let mut registry = Registry::default();
            let totals = records().take(count).map(|record| {
                let call = call(record.op, record.arguments);
                let whose = Whose::of(call, registry.state());
                registry.call(record.op, record.arguments);
                whose
            });
            let found: Vec<Whose> = totals.skip(EDGES.len()).flatten().collect();
            for case in Whose::ALL {
                let met = found.iter().filter(|whose| **whose == case).count();
                assert!(met > least, "{case:?}: {met} of {count}");
            }
        }
    }

    #[test]
    fn half_are_readings() {
        let readings = records().filter(|record| record.op.is_reading()).count();
        assert!(readings.abs_diff(COUNT / 2) < COUNT / 50, "{readings}");
    }

    #[test]
    fn the_first_3_000_fill_the_table() {
        assert!(records().take(3_000).any(|record| record.number == 6));
    }
}
