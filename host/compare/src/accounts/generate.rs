//! Makes up account calls, edges more often than chance gives them.

use super::{Op, Record, is_sound};
use crate::draw::Draw;
use carv_oracle::account::{self, Account, PERIOD};

/// Records without end: steps of a walk, calls on accounts made up for them, and damaged ones.
pub struct Records {
    draw: Draw,
    walk: Walk,
}

impl Records {
    /// Records that depend on the seed alone.
    pub fn new(seed: u64) -> Self {
        let mut draw = Draw::new(seed);
        let walk = Walk::new(draw.account());
        Self { draw, walk }
    }
}

impl Iterator for Records {
    type Item = Record;

    fn next(&mut self) -> Option<Record> {
        Some(match self.draw.random.below(8) {
            0 => self.draw.damaged(),
            1..4 => self.draw.made_up(),
            _ => self.walk.step(&mut self.draw),
        })
    }
}

/// Most children that a walk keeps.
const CHILDREN: usize = 8;

/// An account that each step takes as the last one left it, with children carved from it.
struct Walk {
    account: Account,
    children: Vec<Account>,
    now: u64,
}

impl Walk {
    fn new(account: Account) -> Self {
        Self {
            account,
            children: Vec::with_capacity(CHILDREN),
            now: account.period_start,
        }
    }

    fn step(&mut self, draw: &mut Draw) -> Record {
        if draw.random.one_in(50) {
            return self.reopen(draw);
        }
        self.now = draw.later(self.now, self.account.period_start);
        if !self.children.is_empty() && draw.random.one_in(4) {
            return self.child_step(draw);
        }
        let op = draw.random.of(&Op::ON_ACCOUNT);
        if op == Op::ReleaseChild && !self.children.is_empty() {
            return self.release(draw);
        }
        let record = draw.call(op, self.account, self.now);
        self.account = record.account_after;
        if op == Op::CarveOut && record.number == 0 {
            self.take_in(record.child_after, draw);
        }
        record
    }

    /// Starts again with a new account, if it can be opened.
    fn reopen(&mut self, draw: &mut Draw) -> Record {
        let record = draw.opening();
        if record.number == 0 {
            self.now = record.arguments[2];
            self.enter(record.account_after);
        }
        record
    }

    fn enter(&mut self, account: Account) {
        self.account = account;
        self.children.clear();
    }

    /// Keeps a carved child, or goes on with it in its parent's place.
    fn take_in(&mut self, child: Account, draw: &mut Draw) {
        if draw.random.one_in(16) {
            self.enter(child);
        } else if self.children.len() < CHILDREN {
            self.children.push(child);
        }
    }

    fn child_step(&mut self, draw: &mut Draw) -> Record {
        let place = self.any_child(draw);
        let op = draw.random.of(&Op::ON_ACCOUNT[..4]);
        let record = draw.call(op, self.children[place], self.now);
        self.children[place] = record.account_after;
        record
    }

    fn release(&mut self, draw: &mut Draw) -> Record {
        let place = self.any_child(draw);
        let child = self.children[place];
        let record = Record::answered(Op::ReleaseChild, self.account, child, [0; 3]);
        if record.number == 0 {
            self.children.swap_remove(place);
        }
        self.account = record.account_after;
        record
    }

    fn any_child(&self, draw: &mut Draw) -> usize {
        draw.random.below(self.children.len() as u64) as usize
    }
}

impl Draw {
    /// Two numbers whose sum is at most `limit`.
    fn two_within(&mut self, limit: u64) -> (u64, u64) {
        let first = self.within(limit);
        let second = self.within(limit - first);
        if self.random.one_in(2) {
            (first, second)
        } else {
            (second, first)
        }
    }

    /// Any time: also around multiples of the period and at the end of time.
    fn time(&mut self) -> u64 {
        let whole_periods = self.random.below(1_000) * PERIOD;
        match self.random.below(4) {
            0 => self.number(),
            1 => u64::MAX - self.amount(PERIOD),
            _ => self.beside(whole_periods),
        }
    }

    /// A time to call at, for an account whose period began at `start`.
    fn time_after(&mut self, start: u64) -> u64 {
        let whole_periods = self.random.below(4) * PERIOD;
        match self.random.below(8) {
            0 => self.time(),
            1 => start.saturating_sub(self.amount(PERIOD)),
            2 => start.saturating_add(self.within(PERIOD)),
            3 => start,
            _ => self.beside(start.saturating_add(whole_periods)),
        }
    }

    /// The next time on a clock that mostly goes forward, for an account whose period began at
    /// `start`.
    fn later(&mut self, now: u64, start: u64) -> u64 {
        match self.random.below(8) {
            0 => self.time_after(start),
            1 => now,
            _ => now.saturating_add(self.within(PERIOD / 2)),
        }
    }

    /// A sound account.
    fn account(&mut self) -> Account {
        let cpu_allowance = self.within(PERIOD);
        let memory_limit = self.number();
        let period_start = self.time();
        self.account_with(cpu_allowance, memory_limit, period_start)
    }

    /// A sound account with these limits.
    fn account_with(&mut self, cpu: u64, memory: u64, period_start: u64) -> Account {
        let (cpu_left, cpu_reserved) = self.two_within(cpu);
        let (memory_used, memory_reserved) = self.two_within(memory);
        Account {
            cpu_allowance: cpu,
            memory_limit: memory,
            period_start,
            cpu_left,
            cpu_reserved,
            memory_used,
            memory_reserved,
        }
    }

    /// A sound child to return to `parent`: it fits, has use or reservations, or is too large.
    fn child_for(&mut self, parent: &Account) -> Account {
        let fits = self.random.one_in(2);
        let cpu = if fits {
            self.within(parent.cpu_reserved)
        } else {
            self.amount(parent.cpu_reserved).min(PERIOD)
        };
        let memory = if fits {
            self.within(parent.memory_reserved)
        } else {
            self.amount(parent.memory_reserved)
        };
        let start = if self.random.one_in(2) {
            parent.period_start
        } else {
            self.time()
        };
        if self.random.one_in(4) {
            return self.account_with(cpu, memory, start);
        }
        Account {
            cpu_allowance: cpu,
            memory_limit: memory,
            period_start: start,
            cpu_left: self.within(cpu),
            ..Account::default()
        }
    }

    /// Arguments for a call on a sound account, amounts around what is free, left or used.
    fn arguments(&mut self, op: Op, account: &Account, now: u64) -> [u64; 3] {
        let renewed = account::refill(*account, now).account.unwrap_or_default();
        let free = account.memory_limit - account.memory_reserved - account.memory_used;
        match op {
            Op::Open => unreachable!("an opening takes no account"),
            Op::Refill => [0, 0, now],
            Op::ChargeCpu if self.random.one_in(8) => [self.amount(account.cpu_left), 0, now],
            Op::ChargeCpu => [self.amount(renewed.cpu_left), 0, now],
            Op::ChargeMemory => [self.amount(free), 0, 0],
            Op::ReleaseMemory => [self.amount(account.memory_used), 0, 0],
            Op::CarveOut => [self.amount(renewed.cpu_left), self.amount(free), now],
            Op::ReleaseChild => [0; 3],
        }
    }

    fn opening(&mut self) -> Record {
        let arguments = [self.amount(PERIOD), self.number(), self.time()];
        Record::answered(Op::Open, Account::default(), Account::default(), arguments)
    }

    /// A call on a sound account at a given time.
    fn call(&mut self, op: Op, account: Account, now: u64) -> Record {
        let arguments = self.arguments(op, &account, now);
        let child = match op {
            Op::ReleaseChild => self.child_for(&account),
            _ => Account::default(),
        };
        Record::answered(op, account, child, arguments)
    }

    /// A call on an account made up for it.
    fn made_up(&mut self) -> Record {
        if self.random.one_in(7) {
            return self.opening();
        }
        let op = self.random.of(&Op::ON_ACCOUNT);
        let account = self.account();
        let now = self.time_after(account.period_start);
        self.call(op, account, now)
    }

    /// A call that is refused because the account or the child isn't sound.
    fn damaged(&mut self) -> Record {
        let Record {
            op,
            account,
            child,
            arguments,
            ..
        } = loop {
            let record = self.made_up();
            if record.op != Op::Open {
                break record;
            }
        };
        let (account, child) = match (op, self.random.below(3)) {
            (Op::ReleaseChild, 0) => (account, self.damage(child)),
            (Op::ReleaseChild, 1) => (self.damage(account), self.damage(child)),
            _ => (self.damage(account), child),
        };
        Record::unsound(op, account, child, arguments)
    }

    /// The account with one condition of soundness broken, or with any unsound figures.
    fn damage(&mut self, account: Account) -> Account {
        match self.random.below(4) {
            0 => self.too_much_memory(account),
            1 => self.too_much_cpu(account),
            2 => self.too_large_a_share(account),
            _ => self.noise(),
        }
    }

    /// Used and reserved memory above the limit; nothing else broken.
    fn too_much_memory(&mut self, account: Account) -> Account {
        let (memory_used, memory_reserved) = self.two_above(account.memory_limit);
        Account {
            memory_used,
            memory_reserved,
            ..account
        }
    }

    /// CPU time left and reserved above the allowance; nothing else broken.
    fn too_much_cpu(&mut self, account: Account) -> Account {
        let (cpu_left, cpu_reserved) = self.two_above(account.cpu_allowance);
        Account {
            cpu_left,
            cpu_reserved,
            ..account
        }
    }

    /// An allowance above the period; nothing else broken.
    fn too_large_a_share(&mut self, account: Account) -> Account {
        let cpu_allowance = if self.random.one_in(2) {
            PERIOD + 1
        } else {
            self.number().max(PERIOD + 1)
        };
        let (cpu_left, cpu_reserved) = self.two_within(cpu_allowance);
        Account {
            cpu_allowance,
            cpu_left,
            cpu_reserved,
            ..account
        }
    }

    /// Figures without sense.
    fn noise(&mut self) -> Account {
        loop {
            let account = Account {
                cpu_allowance: self.number(),
                memory_limit: self.number(),
                period_start: self.number(),
                cpu_left: self.number(),
                cpu_reserved: self.number(),
                memory_used: self.number(),
                memory_reserved: self.number(),
            };
            if !is_sound(&account) {
                return account;
            }
        }
    }

    /// Two numbers whose sum is above `limit`: by one, by any amount, or wrapping.
    fn two_above(&mut self, limit: u64) -> (u64, u64) {
        let first = self.within(limit).max(u64::from(limit == u64::MAX));
        let enough = limit - first + 1;
        let (first, second) = match self.random.below(3) {
            0 => (first, enough),
            1 => (first, self.number().max(enough)),
            _ => self.two_wrapping(limit),
        };
        if self.random.one_in(2) {
            (first, second)
        } else {
            (second, first)
        }
    }

    /// Two numbers whose sum passes 2^64 and, wrapped, is at most `limit`.
    fn two_wrapping(&mut self, limit: u64) -> (u64, u64) {
        let first = self.number().max(1);
        let wrapped = self.within(limit.min(first - 1));
        (first, u64::MAX - (first - 1 - wrapped))
    }
}

#[cfg(test)]
mod tests {
    use super::super::{UNSOUND, cpu_fits, memory_fits};
    use super::*;

    const COUNT: usize = 100_000;

    fn records() -> impl Iterator<Item = Record> {
        Records::new(7).take(COUNT)
    }

    /// How many records are as `test` says.
    fn count(test: impl Fn(&Record) -> bool) -> usize {
        records().filter(test).count()
    }

    #[test]
    fn a_seed_fixes_the_records() {
        let other = Records::new(8).take(COUNT);
        assert!(records().eq(records()));
        assert!(!records().eq(other));
    }

    #[test]
    fn number_1_just_where_an_account_is_unsound() {
        for record in records() {
            let sound = is_sound(&record.account) && is_sound(&record.child);
            assert_eq!(record.number == UNSOUND, !sound, "{record:?}");
            if !sound {
                assert_eq!(record.account_after, record.account);
                assert_eq!(record.child_after, record.child);
            }
        }
    }

    #[test]
    fn unused_words_are_0() {
        let nothing = Account::default();
        for record in records() {
            let [amount, memory, now] = record.arguments;
            match record.op {
                Op::Open => assert_eq!(record.account, nothing),
                Op::Refill => assert_eq!([amount, memory], [0; 2]),
                Op::ChargeCpu => assert_eq!(memory, 0),
                Op::ChargeMemory | Op::ReleaseMemory => assert_eq!([memory, now], [0; 2]),
                Op::CarveOut => {}
                Op::ReleaseChild => assert_eq!(record.arguments, [0; 3]),
            }
            if record.op != Op::ReleaseChild {
                assert_eq!(record.child, nothing);
            }
            if record.op != Op::Refill {
                assert_eq!(record.value, 0);
            }
            if record.op == Op::Open && record.number != 0 {
                assert_eq!(record.account_after, nothing);
            }
        }
    }

    #[test]
    fn every_answer_occurs() {
        let answers = [
            (Op::Open, 0),
            (Op::Open, 2),
            (Op::Refill, 0),
            (Op::ChargeCpu, 0),
            (Op::ChargeCpu, 12),
            (Op::ChargeMemory, 0),
            (Op::ChargeMemory, 12),
            (Op::ReleaseMemory, 0),
            (Op::ReleaseMemory, 11),
            (Op::CarveOut, 0),
            (Op::CarveOut, 12),
            (Op::ReleaseChild, 0),
            (Op::ReleaseChild, 15),
        ];
        let unsound = Op::ON_ACCOUNT.map(|op| (op, UNSOUND));
        for (op, number) in answers.into_iter().chain(unsound) {
            let found = count(|r| r.op == op && r.number == number);
            assert!(found > COUNT / 200, "{op:?} with {number}: {found}");
        }
        for value in [0, 1] {
            assert!(count(|r| r.op == Op::Refill && r.value == value) > COUNT / 200);
        }
    }

    #[test]
    fn refusals_that_keep_a_renewal_occur() {
        for op in [Op::ChargeCpu, Op::CarveOut] {
            let kept = |r: &Record| r.number == 12 && r.account_after != r.account;
            assert!(count(|r| r.op == op && kept(r)) > COUNT / 500);
        }
    }

    #[test]
    fn each_condition_is_broken_alone() {
        let damaged = |broken: [bool; 3]| {
            count(|r| {
                let held = [
                    memory_fits(&r.account),
                    cpu_fits(&r.account),
                    r.account.cpu_allowance <= PERIOD,
                ];
                held == broken.map(|broken| !broken)
            })
        };
        assert!(damaged([true, false, false]) > COUNT / 100);
        assert!(damaged([false, true, false]) > COUNT / 100);
        assert!(damaged([false, false, true]) > COUNT / 100);
    }

    #[test]
    fn sums_that_wrap_occur() {
        let wraps = |first: u64, second: u64, limit| {
            first.checked_add(second).is_none() && first.wrapping_add(second) <= limit
        };
        let memory = |a: &Account| wraps(a.memory_used, a.memory_reserved, a.memory_limit);
        let cpu = |a: &Account| wraps(a.cpu_left, a.cpu_reserved, a.cpu_allowance);
        assert!(count(|r| memory(&r.account)) > COUNT / 200);
        assert!(count(|r| cpu(&r.account)) > COUNT / 200);
        assert!(count(|r| is_sound(&r.account) && memory(&r.child)) > 0);
        assert!(count(|r| is_sound(&r.account) && cpu(&r.child)) > 0);
    }
}
