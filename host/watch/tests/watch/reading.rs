//! What the tests read off a timeline.

use crate::bench::Bench;
use carv::{ObjectId, ThreadId};
use carv_watch::{Doing, Part, Rows, Threads, Total};

impl Bench {
    pub fn doing(&self, budget: ObjectId, n: u64) -> Option<Doing> {
        self.timeline.doing(budget, n)
    }

    /// What the row of this name did in a period; off all of it if it isn't there.
    pub fn part(&self, name: &str, period: u64) -> Part {
        let rows = Rows::new(&self.timeline);
        let index = rows.rows().iter().position(|row| row.name == name);
        let parts = rows.in_period(period);
        let part = index.and_then(|index| parts.get(&index));
        part.copied().unwrap_or_default()
    }

    pub fn names(&self) -> Vec<String> {
        let rows = Rows::new(&self.timeline);
        rows.rows().iter().map(|row| row.name.clone()).collect()
    }

    /// The row of this budget, summed up.
    pub fn total(&self, budget: ObjectId) -> Total {
        let rows = Rows::new(&self.timeline);
        rows.row_of(budget).expect("it has a row").total
    }

    /// This thread, summed up.
    pub fn thread_total(&self, thread: ThreadId) -> Total {
        let threads = Threads::new(&self.timeline);
        let mut threads = threads.threads().iter();
        let found = threads.find(|seen| seen.id == thread);
        found.expect("it was seen").total
    }
}

/// The name of a budget that was given none.
pub fn label(budget: ObjectId) -> String {
    format!("budget {}", budget.0)
}
