//! Times rounds.

use std::hint::black_box;
use std::ops::Range;
use std::time::{Duration, Instant};

/// Rounds of a measurement.
pub const ROUNDS: usize = 201;
/// Shortest time of a round: so short that other work on the machine falls into few of them.
pub const ROUND: Duration = Duration::from_micros(200);

/// How long the processor is kept busy before the first round.
const WARM_UP: Duration = Duration::from_millis(500);

/// Times rounds of turns, numbered on through all of them.
#[derive(Default)]
pub struct Clock {
    turn: u64,
    turns: u64,
}

impl Clock {
    /// Nanoseconds per turn. `work` takes the turns with these numbers and says how long they took.
    /// The first round also finds out how many turns fill one.
    pub fn round(&mut self, mut work: impl FnMut(Range<u64>) -> Duration) -> f64 {
        if self.turns == 0 {
            self.turns = 1;
            while self.shortest_of_five(&mut work) < ROUND {
                self.turns *= 2;
            }
        }
        self.time(&mut work).as_nanos() as f64 / self.turns as f64
    }

    fn shortest_of_five(&mut self, work: &mut impl FnMut(Range<u64>) -> Duration) -> Duration {
        let times = (0..5).map(|_| self.time(work));
        times.min().unwrap_or_default()
    }

    fn time(&mut self, work: &mut impl FnMut(Range<u64>) -> Duration) -> Duration {
        let from = self.turn;
        self.turn += self.turns;
        work(from..self.turn)
    }
}

/// Keeps the processor busy for a while, so that the first measurement finds it as the others do.
pub fn warm_up() {
    let started = Instant::now();
    let mut turn = 0_u64;
    while started.elapsed() < WARM_UP {
        turn = black_box(turn.wrapping_mul(5).wrapping_add(1));
    }
}

/// How long it takes to do this with each of the numbers.
pub fn timed(turns: Range<u64>, mut work: impl FnMut(u64)) -> Duration {
    let started = Instant::now();
    for turn in turns {
        work(black_box(turn));
    }
    started.elapsed()
}

/// The middle one of these times, of which there is one at least.
pub fn median(times: impl Iterator<Item = f64>) -> f64 {
    let mut times: Vec<f64> = times.collect();
    times.sort_by(f64::total_cmp);
    times[times.len() / 2]
}

/// The quarter of the rounds that took least in all. What else the machine does makes rounds longer
/// and never shorter, so these tell most.
pub fn fastest_quarter(rounds: &[[f64; 3]]) -> Vec<[f64; 3]> {
    let mut rounds = rounds.to_vec();
    let whole = |round: &[f64; 3]| round.iter().sum::<f64>();
    rounds.sort_by(|one, other| whole(one).total_cmp(&whole(other)));
    rounds.truncate(rounds.len().div_ceil(4));
    rounds
}

#[cfg(test)]
mod tests {
    use super::*;

    #[test]
    fn medians_and_quarters() {
        assert_eq!(median([5.0, 1.0, 3.0].into_iter()), 3.0);
        let rounds: Vec<[f64; 3]> = (0..8).rev().map(|n| [f64::from(n), 1.0, 2.0]).collect();
        assert_eq!(fastest_quarter(&rounds), [[0.0, 1.0, 2.0], [1.0, 1.0, 2.0]]);
        assert_eq!(fastest_quarter(&rounds[..1]).len(), 1);
    }
}
