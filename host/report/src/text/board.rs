//! The lines of a report's text about the board as a whole.

use crate::refusals::Refusals;
use crate::rows::BoardRow;
use crate::short::indented;
use carv::ObjectId;
use carv_ledger::{Fall, Overspent, PERIOD};
use carv_text::figures::{counted, grouped, ms};
use std::ops::RangeInclusive;

impl BoardRow {
    /// Which opening the report is of, in a line, if there were several.
    pub(super) fn which_opening(&self) -> String {
        match (self.openings, self.opened) {
            (2.., Some(line)) => format!(
                "From the last of {} on, at line {line}:\n\n",
                counted(self.openings, "opening")
            ),
            _ => String::new(),
        }
    }

    /// Its own lines.
    pub(super) fn text(&self, label: impl Fn(ObjectId) -> String) -> String {
        let calls = counted(self.accepted + self.refusals.total(), "call");
        let (accepted, refused) = (grouped(self.accepted), grouped(self.refusals.total()));
        let opened = self.opened.map(|line| format!("opened at line {line}; "));
        let opened = opened.unwrap_or_default();
        let calls = format!("{opened}{calls}: {accepted} accepted, {refused} refused");
        let mut lines = vec![calls];
        lines.push(match &self.ticks {
            Some(ticks) => self.seen(ticks),
            None => "no tick was accepted".to_string(),
        });
        lines.extend(self.ticks.as_ref().map(|_| self.idle()));
        lines.extend(self.clock_fell.map(|fall| fell(&fall)));
        lines.push(match (self.knows_spent, &self.overspent) {
            (false, _) => "what was spent isn't known: the board was not opened here".to_string(),
            (true, None) => {
                "no period of 10 ms overspent, by any budget with all below it".to_string()
            }
            (true, Some(found)) => overspent(found, label),
        });
        for (refusal, count) in self.refusals.iter() {
            let (number, meaning) = (refusal.number(), refusal.meaning());
            let times = counted(count, "time");
            lines.push(format!("refused with {number}, {times}: {meaning}"));
        }
        if self.refusals_of_nobody.total() > 0 {
            let numbers = by_number(&self.refusals_of_nobody);
            lines.push(format!(
                "refusals of calls that name nobody live: {numbers}"
            ));
        }
        let lines: String = lines.iter().map(|line| indented(line)).collect();
        format!("\nThe board\n\n{lines}")
    }

    fn seen(&self, ticks: &RangeInclusive<u64>) -> String {
        let missing = match self.ticks_missing {
            0 => "none missing".to_string(),
            missing => format!(
                "{} missing in {}",
                grouped(missing),
                counted(self.gaps, "gap")
            ),
        };
        let again = match self.ticks_repeated {
            0 => "none".to_string(),
            again => grouped(again),
        };
        let whole = self.periods - self.periods_partial;
        format!(
            "ticks {} to {}: {} seen, {missing}, {again} came again; {} of {} whole",
            grouped(*ticks.start()),
            grouped(*ticks.end()),
            grouped(self.ticks_seen),
            grouped(whole),
            counted(self.periods, "period"),
        )
    }

    fn idle(&self) -> String {
        let average = self.idle.average_ms();
        let ran = ms(self.idle.got_ns);
        format!("idle ran {ran} ms, on average {average:.2} ms of every 10 ms")
    }
}

fn fell(fall: &Fall) -> String {
    let (from, to) = (in_ms(fall.from), in_ms(fall.to));
    let place = fall.place;
    format!(
        "the clock fell at line {place}, from {from} to {to}: it is not guaranteed that no period is overspent"
    )
}

fn overspent(found: &Overspent, label: impl Fn(ObjectId) -> String) -> String {
    format!(
        "OVERSPENT: {} with all below it, {} of its {} in the period from {}",
        label(ObjectId(found.budget)),
        in_ms(found.spent),
        in_ms(found.allowance),
        in_ms(found.period * PERIOD),
    )
}

/// Refusals as counts with numbers.
pub(super) fn by_number(refusals: &Refusals) -> String {
    let counts = refusals.iter();
    let counts =
        counts.map(|(refusal, count)| format!("{} with {}", grouped(count), refusal.number()));
    counts.collect::<Vec<_>>().join(", ")
}

/// A time in ms.
pub(super) fn in_ms(ns: u128) -> String {
    u64::try_from(ns).map_or_else(|_| format!("{ns} ns"), |ns| format!("{} ms", ms(ns)))
}
