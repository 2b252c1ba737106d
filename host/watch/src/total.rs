//! What somebody did in all periods.

use crate::TICKS;
use crate::doing::Doing;
use crate::outcome::Outcome;
use crate::part::Part;
use crate::wait::{Wait, Waiting};
use carv::TICK_NS;

/// What a row or a thread did in all periods.
#[derive(Clone, Copy, Debug, Default, PartialEq, Eq)]
pub struct Total {
    /// What it got.
    pub got_ns: u64,
    /// The least that it got in a period of which all was seen and in which it was live throughout.
    pub least_ns: Option<u64>,
    /// The most that it got in a period.
    pub most_ns: u64,
    /// In how many ms it ran.
    pub ms_ran: u64,
    /// How many ms were seen in which it was live.
    pub ms_on: u64,
    /// In how many periods it was live, or in a part of them.
    pub periods_on: u64,
    /// In how many of these it was not live throughout, or not all was seen.
    pub periods_partial: u64,
    /// In how many periods it was held back.
    pub periods_held_back: u64,
    /// How many periods have an outcome.
    pub periods_judged: u64,
    /// In how many of these it used its share up.
    pub periods_used_up: u64,
    /// In how many of these it wanted no more than it got.
    pub periods_wanted_no_more: u64,
    /// What it wanted in the periods that have an outcome, and what it got in them.
    pub wanted_ns: u64,
    /// What it got in the periods that have an outcome.
    pub judged_got_ns: u64,
    /// The periods that it missed; none if there is none.
    pub missed: Option<Missed>,
    /// Its longest wait from ready to run; none if it never waited.
    pub longest_wait: Option<Wait>,
    /// Its lowest and its highest share in a period.
    pub shares_ns: Option<(u64, u64)>,
}

/// Periods that were missed.
#[derive(Clone, Copy, Debug, PartialEq, Eq)]
pub struct Missed {
    /// How many.
    pub periods: u64,
    /// What was missed in all of them.
    pub ns: u64,
    /// The first.
    pub first: MissedPeriod,
    /// The first of those in which most was missed.
    pub worst: MissedPeriod,
}

/// A period that was missed.
#[derive(Clone, Copy, Debug, PartialEq, Eq)]
pub struct MissedPeriod {
    /// Its number: it begins at so many times ten ms.
    pub number: u64,
    /// What was got.
    pub got_ns: u64,
    /// What was missed.
    pub missed_ns: u64,
}

impl Total {
    /// What it got on average in a period in which it was live, in ms.
    pub fn average_ms(&self) -> f64 {
        let got = self.got_ns as f64 / TICK_NS as f64;
        got / self.periods_on.max(1) as f64
    }

    /// How many periods it missed.
    pub fn periods_missed(&self) -> u64 {
        self.missed.map_or(0, |missed| missed.periods)
    }

    fn add(&mut self, number: u64, part: &Part) {
        self.got_ns += part.got_ns;
        self.most_ns = self.most_ns.max(part.got_ns);
        self.ms_ran += part.ms(Doing::Runs);
        self.ms_on += part.ms_on();
        self.periods_held_back += u64::from(part.held_back);
        if part.ms_on() > 0 {
            self.periods_on += 1;
            self.periods_partial += u64::from(!part.is_whole());
            let (low, high) = self.shares_ns.unwrap_or((part.share_ns, part.share_ns));
            self.shares_ns = Some((low.min(part.share_ns), high.max(part.share_ns)));
        }
        if part.is_whole() {
            let least = self.least_ns.unwrap_or(part.got_ns);
            self.least_ns = Some(least.min(part.got_ns));
        }
        if let Some(outcome) = part.outcome {
            self.judge(number, outcome, part);
        }
    }

    fn judge(&mut self, number: u64, outcome: Outcome, part: &Part) {
        self.periods_judged += 1;
        self.wanted_ns += part.wanted_ns;
        self.judged_got_ns += part.got_ns;
        match outcome {
            Outcome::WantedNoMore => self.periods_wanted_no_more += 1,
            Outcome::UsedUp => self.periods_used_up += 1,
            Outcome::Missed => self.miss(MissedPeriod {
                number,
                got_ns: part.got_ns,
                missed_ns: part.missed_ns,
            }),
        }
    }

    fn miss(&mut self, period: MissedPeriod) {
        let missed = self.missed.get_or_insert(Missed {
            periods: 0,
            ns: 0,
            first: period,
            worst: period,
        });
        missed.periods += 1;
        missed.ns += period.missed_ns;
        if missed.worst.missed_ns < period.missed_ns {
            missed.worst = period;
        }
    }
}

/// Sums up one period after the other.
#[derive(Default)]
pub(crate) struct Summing {
    total: Total,
    waiting: Waiting,
}

impl Summing {
    /// Adds a period; numbers rise.
    pub fn add(&mut self, number: u64, part: &Part) {
        self.total.add(number, part);
        for (tick, doing) in (number * TICKS..).zip(part.doing) {
            if let Some(doing) = doing {
                self.waiting.note(tick, doing);
            }
        }
    }

    pub fn total(self) -> Total {
        Total {
            longest_wait: self.waiting.longest(),
            ..self.total
        }
    }
}
