//! What was seen of a period: 128 bytes, 16 for each budget and 16 for what it has left, and 32 for each thread.

use crate::TICKS;
use crate::doing::{Doing, Doings};
use crate::glimpse::Glimpse;
use carv::{ObjectId, ThreadId};

/// The ms of a period.
pub const PLACES: usize = TICKS as usize;

/// A budget in a period.
#[derive(Clone, Copy, Debug)]
pub struct Line {
    pub budget: ObjectId,
    pub doings: Doings,
    /// The highest share seen in it. A share is at most a period.
    share_ns: u32,
}

impl Line {
    pub fn share_ns(&self) -> u64 {
        self.share_ns.into()
    }
}

/// A thread in a period.
#[derive(Clone, Copy, Debug)]
pub struct ThreadLine {
    pub thread: ThreadId,
    pub budget: Option<ObjectId>,
    pub doings: Doings,
}

/// A period, its ms by the last digit of the tick that ends them.
#[derive(Debug, Default)]
pub struct Period {
    /// A bit for each ms that was seen, and for each in which thread 0 ran.
    seen: u16,
    first_ran: u16,
    /// What was booked in each ms, to whoever ran. It is at most a tick.
    booked_ns: [u32; PLACES],
    lists: Box<Lists>,
}

/// What was seen of budgets and threads in a period, each by rising id.
#[derive(Debug, Default)]
struct Lists {
    lines: Vec<Line>,
    /// What a budget has left at the period's last tick. One that isn't here wasn't live then, or that tick wasn't seen.
    left_ns: Vec<(ObjectId, u32)>,
    threads: Vec<ThreadLine>,
}

impl Period {
    /// Notes a ms, over what was noted for it before.
    pub fn note(&mut self, place: usize, glimpse: &Glimpse) {
        for line in &mut self.lists.lines {
            line.doings.set(place, Doing::Off);
        }
        for line in &mut self.lists.threads {
            line.doings.set(place, Doing::Off);
        }
        self.seen |= 1 << place;
        self.first_ran &= !(1 << place);
        self.first_ran |= u16::from(glimpse.first_runs) << place;
        self.booked_ns[place] = narrow(glimpse.booked_ns);
        if self.lists.lines.is_empty() {
            self.lists.lines.reserve_exact(glimpse.budgets.len());
            self.lists.threads.reserve_exact(glimpse.threads.len());
        }
        for seen in &glimpse.budgets {
            let line = self.line_mut(seen.budget);
            line.doings.set(place, seen.doing);
            line.share_ns = line.share_ns.max(narrow(seen.share_ns));
        }
        if place == PLACES - 1 {
            self.note_left(glimpse);
        }
        for seen in &glimpse.threads {
            let line = self.thread_mut(seen.thread);
            line.budget = seen.budget;
            line.doings.set(place, seen.doing);
        }
    }

    /// Notes what each budget has left, in place of what was noted before; the glimpse has them by rising id.
    fn note_left(&mut self, glimpse: &Glimpse) {
        let left_ns = &mut self.lists.left_ns;
        left_ns.clear();
        left_ns.reserve_exact(glimpse.budgets.len());
        for seen in &glimpse.budgets {
            left_ns.extend(seen.left_ns.map(|left| (seen.budget, narrow(left))));
        }
    }

    fn line_mut(&mut self, budget: ObjectId) -> &mut Line {
        let lines = &mut self.lists.lines;
        let place = lines.binary_search_by_key(&budget, |line| line.budget);
        let place = place.unwrap_or_else(|place| {
            let line = Line {
                budget,
                doings: Doings::default(),
                share_ns: 0,
            };
            lines.insert(place, line);
            place
        });
        &mut lines[place]
    }

    fn thread_mut(&mut self, thread: ThreadId) -> &mut ThreadLine {
        let lines = &mut self.lists.threads;
        let place = lines.binary_search_by_key(&thread, |line| line.thread);
        let place = place.unwrap_or_else(|place| {
            let line = ThreadLine {
                thread,
                budget: None,
                doings: Doings::default(),
            };
            lines.insert(place, line);
            place
        });
        &mut lines[place]
    }

    pub fn lines(&self) -> &[Line] {
        &self.lists.lines
    }

    pub fn threads(&self) -> &[ThreadLine] {
        &self.lists.threads
    }

    /// The line of a budget.
    pub fn line(&self, budget: ObjectId) -> Option<&Line> {
        let lines = &self.lists.lines;
        let found = lines.binary_search_by_key(&budget, |line| line.budget);
        found.ok().map(|at| &lines[at])
    }

    /// What a budget has left at the period's last tick; none if that wasn't seen, or if it isn't live.
    pub fn left_ns(&self, budget: ObjectId) -> Option<u64> {
        let left_ns = &self.lists.left_ns;
        let found = left_ns.binary_search_by_key(&budget, |(budget, _)| *budget);
        found.ok().map(|at| left_ns[at].1.into())
    }

    /// What a budget did in the ms at this place; Off if it isn't known in the period.
    pub fn doing(&self, budget: ObjectId, place: usize) -> Doing {
        self.line(budget)
            .map_or(Doing::Off, |line| line.doings.get(place))
    }

    /// What a thread did in the ms at this place; Off if it isn't known in the period.
    pub fn thread_doing(&self, thread: ThreadId, place: usize) -> Doing {
        let lines = &self.lists.threads;
        let found = lines.binary_search_by_key(&thread, |line| line.thread);
        found.map_or(Doing::Off, |at| lines[at].doings.get(place))
    }

    pub fn is_seen(&self, place: usize) -> bool {
        self.seen >> place & 1 == 1
    }

    /// Were all ten ms seen?
    pub fn is_whole(&self) -> bool {
        (0..PLACES).all(|place| self.is_seen(place))
    }

    pub fn first_ran(&self, place: usize) -> bool {
        self.first_ran >> place & 1 == 1
    }

    pub fn booked_ns(&self, place: usize) -> u64 {
        self.booked_ns[place].into()
    }
}

/// In 32 bits, which hold every share and booking of a sound board.
fn narrow(ns: u64) -> u32 {
    u32::try_from(ns).unwrap_or(u32::MAX)
}

#[cfg(test)]
mod tests {
    use super::*;

    #[test]
    fn sizes() {
        assert!(size_of::<Period>() <= 72);
        assert_eq!(size_of::<Line>(), 16);
    }

    /// What a timeline keeps beside that of each period, and of each thread in it.
    #[test]
    fn sizes_of_lists() {
        assert!(size_of::<Period>() + size_of::<Lists>() <= 128);
        assert_eq!(size_of::<(ObjectId, u32)>(), 16);
        assert!(size_of::<ThreadLine>() <= 32);
    }
}
