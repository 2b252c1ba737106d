//! A timeline read thread by thread.

use crate::part::{Lane, Left, Part};
use crate::period::{Period, ThreadLine};
use crate::timeline::Timeline;
use crate::total::{Summing, Total};
use carv::{ObjectId, TICK_NS, ThreadId};
use std::collections::BTreeMap;

/// A thread, summed up.
#[derive(Clone, Debug)]
pub struct Thread {
    /// Its id.
    pub id: ThreadId,
    /// Its budget as last seen; thread 0 has none.
    pub budget: Option<ObjectId>,
    /// What it got in all periods. Its share is that of its budget, also if other threads have it.
    pub total: Total,
}

/// A timeline read thread by thread, idle left out.
#[derive(Debug)]
pub struct Threads<'a> {
    timeline: &'a Timeline,
    threads: Vec<Thread>,
}

impl<'a> Threads<'a> {
    /// Reads a timeline.
    pub fn new(timeline: &'a Timeline) -> Self {
        let mut threads = Self {
            timeline,
            threads: Vec::new(),
        };
        let mut sums: BTreeMap<ThreadId, (Option<ObjectId>, Summing)> = BTreeMap::new();
        for number in timeline.periods().keys() {
            for (id, budget, part) in threads.in_period(*number) {
                let (of, sum) = sums.entry(id).or_default();
                *of = budget;
                sum.add(*number, &part);
            }
        }
        let summed = sums.into_iter().map(|(id, (budget, sum))| Thread {
            id,
            budget,
            total: sum.total(),
        });
        threads.threads = summed.collect();
        threads
    }

    /// The threads, by rising id.
    pub fn threads(&self) -> &[Thread] {
        &self.threads
    }

    /// What each thread did in a period, by rising id, with its budget. Empty if no tick of it was
    /// seen.
    pub fn in_period(&self, number: u64) -> Vec<(ThreadId, Option<ObjectId>, Part)> {
        let Some(period) = self.timeline.periods().get(&number) else {
            return Vec::new();
        };
        let lines = period.threads().iter();
        let parts = lines.map(|line| {
            let mut part = Part::off(period);
            part.add(&self.lane(number, line, period), period);
            (line.thread, line.budget, part)
        });
        parts.collect()
    }

    fn lane(&self, number: u64, line: &ThreadLine, period: &Period) -> Lane {
        let account = line.budget.and_then(|budget| period.line(budget));
        let left = match line.budget {
            None => Left::Unlimited,
            Some(budget) => period.left_ns(budget).map_or(Left::Unknown, Left::Ns),
        };
        Lane {
            doings: line.doings,
            next: self.timeline.thread_behind(number, line.thread),
            share_ns: account.map_or(0, |line| line.share_ns()),
            left,
            without_account_ns: line.budget.is_none().then_some(TICK_NS),
        }
    }
}
