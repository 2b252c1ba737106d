//! Draws objects and amounts for the laws, edges more often than chance gives them.

use super::look;
use crate::area::{ObjectRow, Table};
use carv_compare::board::BUDGET;
use carv_compare::draw::Draw;

/// The root's id.
const ROOT: u64 = 1;
/// Bytes of a page.
const PAGE: u64 = 4_096;
/// Most amounts of a list.
const LONGEST: u64 = 12;

/// Draws from what a sound area says.
pub struct Choice<'a> {
    /// What the area says.
    pub table: &'a Table,
    draw: &'a mut Draw,
}

impl<'a> Choice<'a> {
    /// Draws from this table.
    pub fn new(table: &'a Table, draw: &'a mut Draw) -> Self {
        Self { table, draw }
    }

    /// An object, or an id without one.
    pub fn object(&mut self) -> u64 {
        let table = self.table;
        let found = match self.draw.random.below(10) {
            0 => Some(ROOT),
            1 => self.some(|row| row.kind == BUDGET && row.id != ROOT),
            2 => self.some(|row| look::free(table, row.id) == Some(0)),
            3 => Some(self.missing()),
            4 => self.some(|row| row.payer != ROOT),
            _ => None,
        };
        found.unwrap_or_else(|| self.any())
    }

    /// Two ids, of objects with different payers or without an object.
    pub fn two_payers(&mut self) -> [u64; 2] {
        let table = self.table;
        let any = self.any();
        let other = match self.draw.random.below(8) {
            0 | 1 => self.with_its_payer(),
            2 | 3 => self.with_one_above(),
            4 => None,
            5 => Some([self.missing(), self.missing()]),
            _ => {
                let payer = look::payer(table, any);
                let other = self.some(|row| Some(row.payer) != payer);
                other.map(|other| [any, other])
            }
        };
        let [one, other] = other.unwrap_or_else(|| [any, self.missing()]);
        match self.draw.random.one_in(2) {
            true => [one, other],
            false => [other, one],
        }
    }

    /// Two objects of one payer, or one object twice.
    pub fn one_payer(&mut self) -> [u64; 2] {
        let one = match self.draw.random.below(4) {
            0 => self.some(|row| row.payer != ROOT).unwrap_or(ROOT),
            _ => self.any(),
        };
        let payer = look::payer(self.table, one);
        let other = match self.draw.random.below(4) {
            0 => None,
            1 if payer == Some(ROOT) => Some(ROOT),
            _ => self.some(|row| Some(row.payer) == payer),
        };
        [one, other.unwrap_or(one)]
    }

    /// What is free for the charges of an object: 0 where there is none.
    pub fn free(&self, id: u64) -> u64 {
        look::free(self.table, id).unwrap_or(0)
    }

    /// One amount.
    pub fn amount(&mut self, free: u64) -> u64 {
        match self.draw.random.below(8) {
            0 => 0,
            1 => 1,
            2 => PAGE,
            3 => u64::MAX,
            _ => self.draw.amount(free),
        }
    }

    /// Two amounts whose sum is below 2^64.
    pub fn two_parts(&mut self, free: u64) -> [u64; 2] {
        let all = self.parts(free, 2);
        [all[0], all[1]]
    }

    /// One amount or more, whose sum is below 2^64.
    pub fn list(&mut self, free: u64) -> Vec<u64> {
        let count = self.draw.random.below(LONGEST) + 1;
        self.parts(free, count)
    }

    fn parts(&mut self, free: u64, count: u64) -> Vec<u64> {
        let sum = match self.draw.random.below(12) {
            0 => return vec![PAGE; count as usize],
            1 => 0,
            2 => u64::MAX,
            3 => (1 << 63) - 1,
            4 | 5 => free,
            6 | 7 => free.saturating_add(1),
            8 => self.draw.number(),
            _ => self.draw.within(free),
        };
        if sum == u64::MAX && count == 2 && self.draw.random.one_in(2) {
            return vec![1 << 63, (1 << 63) - 1];
        }
        self.cut(sum, count)
    }

    /// Two amounts for one payer: often just what it has free, or one byte more.
    pub fn two_for_one_payer(&mut self, free: u64) -> [u64; 2] {
        match self.draw.random.below(4) {
            0 => [free, self.amount(free)],
            1 => [self.amount(free), self.amount(free)],
            _ => self.two_parts(free),
        }
    }

    /// Two amounts or more, whose sum is 2^64 or more.
    pub fn too_large(&mut self, free: u64) -> Vec<u64> {
        let number = self.draw.number();
        let one = self
            .draw
            .random
            .of(&[free, free, 1 << 63, 1, number])
            .max(1);
        let beyond = match self.draw.random.one_in(2) {
            true => 0,
            false => self.draw.within(one - 1),
        };
        let mut list = vec![one, u64::MAX - (one - 1) + beyond];
        for _ in 0..self.draw.random.below(4) {
            let more = self.amount(free);
            list.push(more);
        }
        match self.draw.random.one_in(2) {
            true => list,
            false => self.shuffled(&list),
        }
    }

    /// The amounts in another order; they may come in the same.
    pub fn shuffled(&mut self, amounts: &[u64]) -> Vec<u64> {
        let mut amounts = amounts.to_vec();
        for last in (1..amounts.len()).rev() {
            let place = self.draw.random.through(last as u64) as usize;
            amounts.swap(place, last);
        }
        amounts
    }

    /// Cuts a sum into so many parts, of which some are 0.
    fn cut(&mut self, sum: u64, count: u64) -> Vec<u64> {
        let mut rest = sum;
        let mut parts = Vec::new();
        for _ in 1..count {
            let part = self.draw.within(rest);
            rest -= part;
            parts.push(part);
        }
        parts.push(rest);
        self.shuffled(&parts)
    }

    /// Any live object.
    fn any(&mut self) -> u64 {
        let place = self.draw.random.below(self.table.objects.len() as u64);
        self.table.objects[place as usize].id
    }

    /// The first object from a random one on that is as asked.
    fn some(&mut self, fits: impl Fn(&ObjectRow) -> bool) -> Option<u64> {
        let objects = &self.table.objects;
        let from = self.draw.random.below(objects.len() as u64) as usize;
        let (before, after) = objects.split_at(from);
        let found = after.iter().chain(before).find(|row| fits(row));
        found.map(|row| row.id)
    }

    /// An object and its payer's own entry, which the payer's payer pays.
    fn with_its_payer(&mut self) -> Option<[u64; 2]> {
        let id = self.some(|row| row.payer != ROOT)?;
        Some([id, look::payer(self.table, id)?])
    }

    /// Two objects, the payer of one above that of the other.
    fn with_one_above(&mut self) -> Option<[u64; 2]> {
        let id = self.some(|row| row.payer != ROOT)?;
        let above = look::above(self.table, look::payer(self.table, id)?);
        let payer = self.draw.random.of(&above);
        let other = self.some(|row| row.payer == payer)?;
        Some([id, other])
    }

    /// An id without an object: one that was removed or left out, if there is one, one that was
    /// not given yet, or one that is never given.
    fn missing(&mut self) -> u64 {
        let table = self.table;
        let next = table.next_id;
        let is_live = |id| look::object(table, id).is_some();
        let gone = self.some(|row| row.id + 1 < next && !is_live(row.id + 1));
        let gone = gone.map_or(0, |id| id + 1);
        self.draw.random.of(&[0, gone, gone, next, u64::MAX])
    }
}

#[cfg(test)]
mod tests {
    use super::*;
    use look::tests::table;
    use std::cmp::Ordering;
    use std::collections::BTreeSet;

    const FREE: [u64; 5] = [0, 1, 600, u64::MAX - 1, u64::MAX];

    fn sum(amounts: &[u64]) -> u128 {
        amounts.iter().copied().map(u128::from).sum()
    }

    #[test]
    fn ids_are_what_the_laws_ask_for() {
        let table = table();
        let mut draw = Draw::new(1);
        let mut choice = Choice::new(&table, &mut draw);
        let payer = |id| look::payer(&table, id);
        let [mut drawn, mut missing] = [(); 2].map(|()| BTreeSet::new());
        let mut pairs = BTreeSet::new();
        for _ in 0..1_000 {
            drawn.insert(choice.object());
            missing.insert(choice.missing());
            let [one, other] = choice.two_payers();
            assert!(payer(one) != payer(other) || payer(one).is_none());
            pairs.insert([one, other]);
            let [one, other] = choice.one_payer();
            assert!(payer(one) == payer(other) && payer(one).is_some());
        }
        let both_ways = pairs
            .iter()
            .filter(|[one, other]| pairs.contains(&[*other, *one]));
        assert!(both_ways.count() > 20);
        let none = [0, 8, 10, u64::MAX];
        assert!(missing.into_iter().eq(none));
        let live = table.objects.iter().map(|row| row.id);
        let all: BTreeSet<u64> = live.chain(none).collect();
        assert_eq!(drawn, all);
    }

    #[test]
    fn sums_are_what_the_laws_ask_for() {
        let table = table();
        let mut draw = Draw::new(1);
        let mut choice = Choice::new(&table, &mut draw);
        let largest = u128::from(u64::MAX);
        let mut lengths = BTreeSet::new();
        for free in FREE.repeat(1_000) {
            assert!(sum(&choice.two_parts(free)) <= largest);
            let list = choice.list(free);
            assert!(sum(&list) <= largest);
            lengths.insert(list.len() as u64);
            let mut shuffled = choice.shuffled(&list);
            let mut list = list;
            list.sort();
            shuffled.sort();
            assert_eq!(list, shuffled);
            assert!(sum(&choice.too_large(free)) > largest);
        }
        assert!(lengths.into_iter().eq(1..=LONGEST));
    }

    #[test]
    fn edges_are_drawn() {
        let table = table();
        let mut draw = Draw::new(1);
        let mut choice = Choice::new(&table, &mut draw);
        let [mut amounts, mut sums] = [(); 2].map(|()| BTreeSet::new());
        let mut beyond = BTreeSet::new();
        for _ in 0..2_000 {
            amounts.insert(u128::from(choice.amount(600)));
            sums.insert(sum(&choice.two_parts(600)));
            let list = choice.too_large(600);
            beyond.insert((list.len(), sum(&list).cmp(&(1 << 64))));
        }
        let page = u128::from(PAGE);
        let largest = u128::from(u64::MAX);
        for amount in [0, 1, 599, 600, 601, page, largest] {
            assert!(amounts.contains(&amount), "{amount}");
        }
        for sum in [0, 600, 601, 2 * page, (1 << 63) - 1, largest] {
            assert!(sums.contains(&sum), "{sum}");
        }
        for order in [Ordering::Equal, Ordering::Greater] {
            assert!(beyond.contains(&(2, order)), "{order:?}");
        }
    }
}
