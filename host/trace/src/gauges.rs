//! The counters: CPU left and memory used of each budget.

use crate::doing::Time;
use crate::event::{Events, Ms, figure};
use crate::names::Names;
use carv::{Account, Nanoseconds, ObjectId};
use carv_text::json::Json;
use carv_watch::accounts;
use std::io::{self, Write};

/// The counters of the live budgets, by rising id.
#[derive(Default)]
pub struct Gauges {
    live: Vec<Gauge>,
    /// Counters that end under this name, though the budget may live.
    ended: Vec<Counters>,
}

/// A budget's counters.
struct Gauge {
    id: u64,
    account: Account,
    is_live: bool,
    /// Its counters, from its first sample on.
    counters: Option<Counters>,
}

/// The names of two counters as JSON, and their last samples.
struct Counters {
    cpu: Json,
    memory: Json,
    written: Option<(u64, u64)>,
}

impl Gauges {
    /// Reads the budgets of a board.
    pub fn read(&mut self, area: &[u8]) {
        for gauge in &mut self.live {
            gauge.is_live = false;
        }
        let mut place = 0;
        for (ObjectId(id), account) in accounts(area) {
            while self.live.get(place).is_some_and(|gauge| gauge.id < id) {
                place += 1;
            }
            if self.live.get(place).is_none_or(|gauge| gauge.id > id) {
                self.live.insert(place, Gauge::new(id, account));
            }
            self.live[place].account = account;
            self.live[place].is_live = true;
        }
        // Of a budget without a sample nothing is to be written once it is gone.
        self.live
            .retain(|gauge| gauge.is_live || gauge.counters.is_some());
    }

    fn find(&self, id: u64) -> Option<&Gauge> {
        let place = self.live.binary_search_by_key(&id, |gauge| gauge.id);
        place.ok().map(|place| &self.live[place])
    }

    /// Whether there is such a budget.
    pub fn is_live(&self, id: u64) -> bool {
        self.find(id).is_some_and(|gauge| gauge.is_live)
    }

    /// Whether a thread on this budget may run at this time, in ns.
    pub fn time(&self, budget: Option<u64>, now_ns: u64) -> Time {
        let Some(budget) = budget else {
            return Time::Left;
        };
        match self.find(budget).filter(|gauge| gauge.is_live) {
            Some(gauge) if gauge.account.cpu_left_at(Nanoseconds(now_ns)) > 0 => Time::Left,
            Some(_) => Time::UsedUp,
            None => Time::NoBudget,
        }
    }

    /// How many budgets are kept in mind.
    #[cfg(test)]
    pub fn count(&self) -> usize {
        self.live.len()
    }

    /// The latest start of a period.
    pub fn latest_period_ns(&self) -> u64 {
        let starts = self.live.iter().map(|gauge| gauge.account.period_start.0);
        starts.max().unwrap_or(0)
    }

    /// A budget gets a name: counters under another one end, and go on under this one.
    pub fn rename(&mut self, id: u64) {
        let place = self.live.binary_search_by_key(&id, |gauge| gauge.id);
        let counters = place
            .ok()
            .and_then(|place| self.live[place].counters.take());
        self.ended.extend(counters);
    }

    /// Writes the figures that changed, as of this time in ns; removed budgets end with 0.
    pub fn write<W: Write>(
        &mut self,
        at_ns: u64,
        names: &Names,
        out: &mut Events<W>,
    ) -> io::Result<()> {
        for mut counters in self.ended.drain(..) {
            counters.write(at_ns, 0, 0, out)?;
        }
        for gauge in &mut self.live {
            gauge.write(at_ns, names, out)?;
        }
        self.live.retain(|gauge| gauge.is_live);
        Ok(())
    }
}

impl Gauge {
    fn new(id: u64, account: Account) -> Self {
        Self {
            id,
            account,
            is_live: true,
            counters: None,
        }
    }

    fn write<W: Write>(
        &mut self,
        at_ns: u64,
        names: &Names,
        out: &mut Events<W>,
    ) -> io::Result<()> {
        let (cpu_ns, memory_bytes) = match self.is_live {
            true => (self.account.cpu_left_ns, self.account.memory_used_bytes),
            false if self.counters.is_none() => return Ok(()),
            false => (0, 0),
        };
        let counters = self
            .counters
            .get_or_insert_with(|| Counters::new(&names.budget(self.id)));
        counters.write(at_ns, cpu_ns, memory_bytes, out)
    }
}

impl Counters {
    fn new(budget: &str) -> Self {
        Self {
            cpu: format!("CPU left: {budget}").into(),
            memory: format!("memory used: {budget}").into(),
            written: None,
        }
    }

    /// Writes a sample of each that differs from its last one.
    fn write<W: Write>(
        &mut self,
        at_ns: u64,
        cpu_ns: u64,
        memory_bytes: u64,
        out: &mut Events<W>,
    ) -> io::Result<()> {
        let last = self.written.replace((cpu_ns, memory_bytes));
        if last.is_none_or(|(cpu, _)| cpu != cpu_ns) {
            out.sample(at_ns, &self.cpu, "ms", &Ms(cpu_ns).to_string())?;
        }
        if last.is_none_or(|(_, memory)| memory != memory_bytes) {
            out.sample(at_ns, &self.memory, "bytes", &figure(memory_bytes))?;
        }
        Ok(())
    }
}

#[cfg(test)]
mod tests {
    use super::*;
    use carv::{Board, Limits};

    /// A budget that is gone is kept in mind until its counters have ended with 0.
    #[test]
    fn what_has_ended_is_forgotten() {
        let limits = |cpu_ns, memory_bytes| Limits {
            cpu_ns,
            memory_bytes,
        };
        let mut board = Board::open(limits(10_000_000, 1_000)).expect("a whole period");
        let mut out = Events::begin(Vec::new()).expect("a trace");
        let (mut gauges, names, now) = (Gauges::default(), Names::default(), Nanoseconds(0));
        let carved = board.create_budget(ObjectId::ROOT, limits(1, 1), now);
        gauges.read(board.as_bytes());
        gauges.write(0, &names, &mut out).expect("samples");
        assert_eq!(gauges.count(), 2);
        board
            .remove(carved.expect("time"), now)
            .expect("it pays for nothing");
        gauges.read(board.as_bytes());
        assert_eq!(gauges.count(), 2);
        gauges.write(1, &names, &mut out).expect("samples");
        assert_eq!(gauges.count(), 1);
    }
}
