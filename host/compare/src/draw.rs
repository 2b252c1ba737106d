//! Figures drawn at random, with edges more often than chance gives them.

use crate::random::Random;
use carv_oracle::account::PERIOD;

/// Numbers that are edges anywhere.
const EDGES: [u64; 14] = [
    0,
    1,
    2,
    127,
    128,
    4_096,
    1_000_000,
    PERIOD - 1,
    PERIOD,
    PERIOD + 1,
    (1 << 63) - 1,
    1 << 63,
    u64::MAX - 1,
    u64::MAX,
];

/// Draws figures, with edges more often than chance gives them.
#[derive(Clone, Debug)]
pub struct Draw {
    /// Where the figures come from.
    pub random: Random,
}

impl Draw {
    /// Figures that depend on the seed alone.
    pub fn new(seed: u64) -> Self {
        Self {
            random: Random::new(seed),
        }
    }

    /// Any number: an edge, or one of any width.
    pub fn number(&mut self) -> u64 {
        if self.random.one_in(3) {
            self.random.of(&EDGES)
        } else {
            self.random.word() >> self.random.below(64)
        }
    }

    /// A number from 0 to `limit`.
    pub fn within(&mut self, limit: u64) -> u64 {
        match self.random.below(8) {
            0 => 0,
            1 => limit.min(1),
            2 => limit - limit.min(1),
            3 => limit,
            4 | 5 => self.random.through(limit),
            _ => self.random.through(limit / 16),
        }
    }

    /// An amount at, next to or below `limit`, or any number.
    pub fn amount(&mut self, limit: u64) -> u64 {
        match self.random.below(8) {
            0 => limit.saturating_add(1),
            1 => limit.saturating_sub(1),
            2 => limit,
            3 => self.number(),
            _ => self.within(limit),
        }
    }

    /// `time`, or a nanosecond earlier or later.
    pub fn beside(&mut self, time: u64) -> u64 {
        let shift = self.random.below(3);
        time.wrapping_add(shift).wrapping_sub(1)
    }
}
