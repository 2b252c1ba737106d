//! The plan of a day: its board, its services with their shares, limits and work, and what happens.

use carv::{Limits, PERIOD_NS, TICK_NS};

/// Ticks in a period.
pub const PERIOD: u64 = PERIOD_NS / TICK_NS;

/// The first tick of a day. Thread 0 sets up the services in the period before it.
pub const FIRST: u64 = PERIOD;

/// The plan of a day, as a day file has it: see [`crate::dayfile`].
#[derive(Clone, Debug, PartialEq, Eq)]
pub struct Plan {
    /// What stands above the report and the picture, if it is not the sorter's own day.
    pub title: Option<String>,
    /// The limits of the board.
    pub board: Limits,
    /// How many periods the day has, at least one.
    pub periods: u64,
    /// The first tick that the picture shows in full, if not said otherwise.
    pub show: u64,
    /// Does thread 0 go on running behind the set-up, instead of sleeping?
    pub first_thread_runs: bool,
    /// The services, each of another name.
    pub services: Vec<Service>,
    /// What happens, by rising tick.
    pub events: Vec<(u64, Event)>,
    /// The index of the service that the closing line is about; none if there is no service.
    pub watched: Option<usize>,
    /// What is expected, each of the service of an index.
    pub expected: Vec<(usize, Expected)>,
}

/// What a plan may expect of a service.
#[derive(Clone, Copy, Debug, PartialEq, Eq)]
pub enum Expected {
    /// It misses no period: it gets its share whenever it wants it.
    NeverMissed,
    /// It is never held back: it never wants more than its share.
    NeverHeldBack,
}

impl Plan {
    /// The last tick of the day.
    pub fn last(&self) -> u64 {
        last_of(self.periods)
    }

    /// What happens at this tick.
    pub fn events_at(&self, tick: u64) -> &[(u64, Event)] {
        let begin = self.events.partition_point(|(at, _)| *at < tick);
        let end = self.events.partition_point(|(at, _)| *at <= tick);
        &self.events[begin..end]
    }
}

/// The last tick of a day of so many periods.
pub fn last_of(periods: u64) -> u64 {
    FIRST + periods * PERIOD - 1
}

/// A service of the sorter.
#[derive(Clone, Debug, PartialEq, Eq)]
pub struct Service {
    /// Its name.
    pub name: String,
    /// The limits of its budget: its share of every 10 ms, and its memory.
    pub limits: Limits,
    /// Frames that it takes beside its address space, thread and endpoint.
    pub frames: u64,
    /// Is it switched on at the set-up?
    pub begins_on: bool,
    /// Its work, by rising start; none before the first.
    pub work: Vec<Phase>,
}

impl Service {
    /// Its work at this tick.
    pub fn work_at(&self, tick: u64) -> Work {
        let begun = self.work.iter().rev().find(|phase| phase.from <= tick);
        begun.map_or(Work::None, |phase| phase.work)
    }

    /// When its next job may come after this tick: in its turn, or where other work begins.
    pub fn next_job(&self, tick: u64) -> Option<u64> {
        let turn = match self.work_at(tick) {
            Work::Jobs(Jobs { most: 0, .. }) | Work::None | Work::Always => None,
            Work::Jobs(jobs) => Some(tick.saturating_add(jobs.every)),
        };
        let begins = self.work.iter().map(|phase| phase.from);
        begins.filter(|from| *from > tick).chain(turn).min()
    }
}

/// Work that comes from a tick on, until other work begins.
#[derive(Clone, Copy, Debug, PartialEq, Eq)]
pub struct Phase {
    /// The tick.
    pub from: u64,
    /// The work.
    pub work: Work,
}

/// What a service has to do.
#[derive(Clone, Copy, Debug, PartialEq, Eq)]
pub enum Work {
    /// Nothing.
    None,
    /// There is always something left: it never sleeps.
    Always,
    /// Jobs that come in turn.
    Jobs(Jobs),
}

/// Every so many ms a job of `least` to `most` ms.
#[derive(Clone, Copy, Debug, PartialEq, Eq)]
pub struct Jobs {
    /// Ms from one job to the next, at least one.
    pub every: u64,
    /// The shortest job; with 0, some don't come.
    pub least: u64,
    /// The longest job.
    pub most: u64,
}

/// Something that happens on the day.
#[derive(Clone, Debug, PartialEq, Eq)]
pub enum Event {
    /// A service is switched off: its thread is killed, its objects and its budget are removed.
    Off(usize),
    /// It is switched on.
    On(usize),
    /// Somebody asks for a budget of these limits, and keeps it.
    Ask(String, Limits),
    /// Something is noted, and nothing done.
    Note(String),
}

#[cfg(test)]
mod tests {
    use super::*;

    fn service(work: &[(u64, Work)]) -> Service {
        let work = work.iter().map(|(from, work)| Phase {
            from: *from,
            work: *work,
        });
        Service {
            name: "one".to_string(),
            limits: Limits {
                cpu_ns: 0,
                memory_bytes: 0,
            },
            frames: 0,
            begins_on: true,
            work: work.collect(),
        }
    }

    fn jobs(every: u64, most: u64) -> Work {
        Work::Jobs(Jobs {
            every,
            least: 0,
            most,
        })
    }

    #[test]
    fn jobs_come_in_turn_and_where_other_work_begins() {
        let one = service(&[(0, jobs(20, 1)), (50, jobs(30, 1)), (70, Work::Always)]);
        assert_eq!(one.next_job(0), Some(20));
        assert_eq!(one.next_job(40), Some(50));
        assert_eq!(one.next_job(50), Some(70));
        assert_eq!(one.next_job(70), None);
        assert_eq!(one.work_at(69), jobs(30, 1));
    }

    #[test]
    fn no_job_comes_where_there_is_no_work() {
        assert_eq!(service(&[]).next_job(0), None);
        let later = service(&[(30, jobs(5, 0)), (90, jobs(5, 1)), (100, Work::None)]);
        assert_eq!(later.work_at(29), Work::None);
        assert_eq!(later.next_job(0), Some(30));
        assert_eq!(later.next_job(30), Some(90));
        assert_eq!(later.next_job(98), Some(100));
        assert_eq!(later.next_job(100), None);
        let late = service(&[(0, jobs(5, 1))]);
        assert_eq!(late.next_job(u64::MAX), Some(u64::MAX));
    }
}
