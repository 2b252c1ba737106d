//! What somebody did in a period.

use crate::doing::{Doing, Doings};
use crate::outcome::{Closed, Outcome};
use crate::period::{PLACES, Period};

/// What a row or a thread did in a period.
#[derive(Clone, Copy, Debug, Default, PartialEq, Eq)]
pub struct Part {
    /// In each ms, by the last digit of the tick that ends it; none where no tick was seen.
    pub doing: [Option<Doing>; PLACES],
    /// What ticks booked to it. To thread 0 and idle, which have no account, each is a whole ms.
    pub got_ns: u64,
    /// Its share, of several budgets the sum; 0 for thread 0 and idle.
    pub share_ns: u64,
    /// Was it held back at some ms that begins in this period?
    pub held_back: bool,
    /// How the period went; none if not all of it was seen, up to what came behind it, or if it was
    /// off at its end.
    pub outcome: Option<Outcome>,
    /// What it wanted, where there is an outcome: what it would have run, had nothing stood in its
    /// way.
    pub wanted_ns: u64,
    /// What it missed: what others ran while it waited, as far as it had time left at the end.
    pub missed_ns: u64,
}

impl Part {
    /// Off in each ms that was seen.
    pub(crate) fn off(period: &Period) -> Self {
        let seen = |place| period.is_seen(place).then_some(Doing::Off);
        Self {
            doing: std::array::from_fn(seen),
            ..Self::default()
        }
    }

    /// In how many ms it did this.
    pub fn ms(&self, doing: Doing) -> u64 {
        let ms = self.doing.iter().filter(|seen| **seen == Some(doing));
        ms.count() as u64
    }

    /// How many ms were seen in which it was live.
    pub fn ms_on(&self) -> u64 {
        self.doing.iter().flatten().count() as u64 - self.ms(Doing::Off)
    }

    /// Was it live in all ten ms, and were all seen?
    pub fn is_whole(&self) -> bool {
        self.ms_on() == PLACES as u64
    }

    /// Had it something to do in some ms?
    pub fn has_work(&self) -> bool {
        self.doing.iter().flatten().any(|doing| doing.has_work())
    }

    /// Notes what one of the row does in the ms at this place.
    pub(crate) fn note(&mut self, place: usize, doing: Doing, booked_ns: u64) {
        if let Some(noted) = &mut self.doing[place] {
            *noted = (*noted).max(doing);
            if doing == Doing::Runs {
                self.got_ns += booked_ns;
            }
        }
    }

    /// Adds what one of the row did, if it was there.
    pub(crate) fn add(&mut self, lane: &Lane, period: &Period) {
        let (mut got_ns, mut is_on) = (0, false);
        for place in 0..PLACES {
            let doing = lane.doings.get(place);
            is_on |= doing != Doing::Off;
            let booked_ns = lane.booked_ns(place, period);
            self.note(place, doing, booked_ns);
            got_ns += if doing == Doing::Runs { booked_ns } else { 0 };
            // A ms that ends at the period's first tick begins in the period before.
            self.held_back |= place > 0 && doing == Doing::HeldBack;
        }
        self.share_ns += lane.share_ns;
        self.held_back |= is_on && lane.next == Some(Doing::HeldBack);
        if let Some(closed) = lane.closed(period, got_ns) {
            let judged = closed.judge();
            self.outcome = self.outcome.max(Some(judged.outcome));
            self.wanted_ns += judged.wanted_ns;
            self.missed_ns += judged.missed_ns;
        }
    }
}

/// One budget or thread in a period.
pub(crate) struct Lane {
    pub doings: Doings,
    /// What it does in the ms behind the period; none if that wasn't seen.
    pub next: Option<Doing>,
    pub share_ns: u64,
    pub left: Left,
    /// What a ms in which it runs gives it, if no account says so.
    pub without_account_ns: Option<u64>,
}

/// What somebody has left at the period's last tick.
#[derive(Clone, Copy, Debug, PartialEq, Eq)]
pub(crate) enum Left {
    /// That wasn't seen, or its budget isn't live.
    Unknown,
    /// So much.
    Ns(u64),
    /// Nothing limits it.
    Unlimited,
}

impl Lane {
    fn booked_ns(&self, place: usize, period: &Period) -> u64 {
        let booked_ns = period.booked_ns(place);
        self.without_account_ns.unwrap_or(booked_ns)
    }

    /// The period, if all of it was seen and it was on at its end.
    fn closed(&self, period: &Period, got_ns: u64) -> Option<Closed> {
        let doing = std::array::from_fn(|place| self.doings.get(place));
        let left_ns = match self.left {
            Left::Unknown => return None,
            Left::Ns(left_ns) => Some(left_ns),
            Left::Unlimited => None,
        };
        let is_closed = period.is_whole() && doing[PLACES - 1] != Doing::Off;
        is_closed.then_some(Closed {
            doing,
            next: self.next?,
            got_ns,
            left_ns,
        })
    }
}
