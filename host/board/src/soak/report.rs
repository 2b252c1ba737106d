//! What a soak found.

mod json;
mod text;

use super::{Found, Limit, Options};
use crate::damaged;
use crate::sound;
use crate::tally::Tally;
use carv::Refusal;
use std::time::Duration;

/// What a soak did and found, so far or at its end.
#[derive(Clone, Debug)]
pub struct Report {
    /// What was asked for.
    pub options: Options,
    /// How long it took.
    pub time: Duration,
    /// The calls on sound boards.
    pub tally: Tally,
    /// The damaged areas.
    pub damaged: damaged::Report,
    /// Whether it was broken off before its limit.
    pub is_interrupted: bool,
    /// What differed, which ends the run.
    pub difference: Option<Found>,
}

impl Report {
    /// Nothing done yet.
    pub fn new(options: &Options) -> Self {
        Self {
            options: *options,
            time: Duration::ZERO,
            tally: Tally::default(),
            damaged: damaged::Report::default(),
            is_interrupted: false,
            difference: None,
        }
    }

    /// Whether time or count are reached.
    pub fn is_over(&self) -> bool {
        match self.options.limit {
            Limit::Time(time) => self.time >= time,
            Limit::Calls(count) => self.tally.total() >= count,
        }
    }

    /// Calls on sound boards in a second.
    pub fn calls_a_second(&self) -> u64 {
        let seconds = self.time.as_secs_f64();
        match seconds > 0.0 {
            true => (self.tally.total() as f64 / seconds) as u64,
            false => 0,
        }
    }

    /// Calls that were refused.
    pub fn refused(&self) -> u64 {
        self.tally.total() - self.tally.with(0)
    }

    /// 1 if something differed: the run ends there.
    pub fn differences(&self) -> u64 {
        self.difference.is_some().into()
    }

    /// The command that makes this run again, up to what differed.
    pub fn repeating(&self) -> String {
        // What differed is the call behind the last that was counted, or stands right before it.
        let calls = self.tally.total() + self.differences();
        self.options.repeating(calls)
    }

    /// The refusals that came, with how often.
    fn refusals(&self) -> impl Iterator<Item = (Refusal, u64)> {
        let numbers = self.tally.numbers(None).filter(|(number, _)| *number > 0);
        numbers.map(|(number, count)| (Refusal::from_number(number), count))
    }

    /// The rules of soundness, with how many areas broke them first.
    fn rules(&self) -> impl Iterator<Item = (&'static str, u64)> {
        sound::rules().map(|rule| (rule, self.damaged.broken(rule)))
    }
}
