//! Measures calls on both sides.

use super::boards::Boards;
use super::clock::{Clock, ROUNDS, fastest_quarter, median, timed};
use super::{Ids, Less, Line};
use crate::port::Port;
use carv_compare::board::call::Call;
use carv_oracle::Board;
use std::hint::black_box;
use std::ops::Range;
use std::time::Duration;

/// What is measured: the line's first cells, and how its time is counted.
pub struct Case {
    pub board: String,
    pub ids: Ids,
    pub name: &'static str,
    /// A turn's time is divided by this: 2 for two calls that undo each other.
    pub parts: f64,
    /// How often the port asks question 1 in a turn.
    pub questions: f64,
}

/// The same calls on both sides; both get the number of the turn. [`turn!`] makes it.
pub struct Turn<P: FnMut(&mut Port, u64), R: FnMut(&mut Board, u64)> {
    pub port: P,
    pub rust: R,
}

/// A turn of calls that are accepted.
macro_rules! turn {
    (|$turn:pat_param| $($call:expr),+ $(,)?) => {
        $crate::bench::case::Turn {
            port: move |port: &mut $crate::port::Port, $turn: u64| {
                $($crate::bench::case::accepted(port.make($call));)+
            },
            rust: move |rust: &mut carv_oracle::Board, $turn: u64| {
                $($crate::bench::case::accepted_by_rust(&on_rust($call, rust));)+
            },
        }
    };
}
pub(super) use turn;

/// A call of the port that is accepted.
#[inline]
pub fn accepted(number: u64) {
    assert_eq!(number, 0, "the port accepts the call");
}

/// A call of the Rust that is accepted, whatever it answers.
#[inline]
pub fn accepted_by_rust<T>(answer: &Result<T, u8>) {
    assert!(black_box(answer).is_ok(), "the Rust accepts the call");
}

/// Calls that are timed together before they are undone.
pub const BATCH: u64 = 32;

impl Case {
    /// Times turns that leave the board as it was, or go on from what the last one left. A round
    /// of the port, one of question 1 and one of the Rust follow each other, so that what else the
    /// machine does touches all alike.
    pub fn turns(
        self,
        mut boards: Boards,
        mut turn: Turn<impl FnMut(&mut Port, u64), impl FnMut(&mut Board, u64)>,
    ) -> Line {
        let [mut on_port, mut is_sound, mut on_rust] = <[Clock; 3]>::default();
        let questions = self.questions;
        self.rounds(|| {
            let Boards { port, rust } = &mut boards;
            let whole = on_port.round(|turns| timed(turns, |n| (turn.port)(black_box(port), n)));
            let sound = is_sound.round(|turns| timed(turns, |_| asks(port)));
            let rust = on_rust.round(|turns| timed(turns, |n| (turn.rust)(black_box(rust), n)));
            [whole, questions * sound, rust]
        })
    }

    /// Times a reading that the Rust lacks: a round of it and one of question 1 follow each other.
    pub fn alone(self, mut port: Port, call: Call) -> Line {
        let [mut on_port, mut is_sound] = <[Clock; 2]>::default();
        let line = self.rounds(|| {
            let mut reads = |_| accepted(black_box(&mut port).make(call));
            let whole = on_port.round(|turns| timed(turns, &mut reads));
            let sound = is_sound.round(|turns| timed(turns, |_| asks(&port)));
            [whole, sound, 0.0]
        });
        Line { rust: None, ..line }
    }

    /// Times turns of one call alone, a batch at a time, which is then undone without being timed.
    /// Both get the number of the call in its batch. Question 1 is timed before and behind a batch,
    /// since the board isn't the same throughout it, and the mean counts.
    pub fn batches(
        self,
        mut boards: Boards,
        mut call: Turn<impl FnMut(&mut Port, u64), impl FnMut(&mut Board, u64)>,
        mut undo: Turn<impl FnMut(&mut Port, u64), impl FnMut(&mut Board, u64)>,
    ) -> Line {
        let [mut on_port, mut before, mut behind, mut on_rust] = <[Clock; 4]>::default();
        self.rounds(|| {
            let Boards { port, rust } = &mut boards;
            let whole = on_port.round(|turns| batch(turns, port, &mut call.port, &mut undo.port));
            let before = before.round(|turns| timed(turns, |_| asks(port)));
            (0..BATCH).for_each(|place| (call.port)(port, place));
            let behind = behind.round(|turns| timed(turns, |_| asks(port)));
            (0..BATCH).for_each(|place| (undo.port)(port, place));
            let rust = on_rust.round(|turns| batch(turns, rust, &mut call.rust, &mut undo.rust));
            let [whole, rust] = [whole, rust].map(|time| time / BATCH as f64);
            [whole, (before + behind) / 2.0, rust]
        })
    }

    /// The figures of rounds, each of which answers the port's time, that of question 1 in it, and
    /// the Rust's. How far the time less question 1 may be off is seen from three parts of them.
    fn rounds(self, mut round: impl FnMut() -> [f64; 3]) -> Line {
        let rounds: Vec<[f64; 3]> = (0..ROUNDS)
            .map(|_| round().map(|time| time / self.parts))
            .collect();
        let less = |rounds: &[[f64; 3]]| {
            let rounds = fastest_quarter(rounds);
            median(rounds.iter().map(|[whole, question, _]| whole - question))
        };
        let parts = || rounds.chunks_exact(ROUNDS / 3).map(less);
        let highest = parts().fold(f64::NEG_INFINITY, f64::max);
        let lowest = parts().fold(f64::INFINITY, f64::min);
        let fast = fastest_quarter(&rounds);
        Line {
            less: Some(Less {
                time: less(&rounds),
                off: (highest - lowest) / 2.0,
            }),
            question: Some(median(fast.iter().map(|round| round[1]))),
            rust: Some(median(fast.iter().map(|round| round[2]))),
            ..self.line(median(fast.iter().map(|round| round[0])))
        }
    }

    /// Times question 1 alone, which the Rust doesn't ask.
    pub fn question(self, port: Port) -> Line {
        let mut clock = Clock::default();
        let mut round = || clock.round(|turns| timed(turns, |_| asks(&port)));
        let rounds: Vec<[f64; 3]> = (0..ROUNDS).map(|_| [round(), 0.0, 0.0]).collect();
        let fast = fastest_quarter(&rounds);
        self.line(median(fast.iter().map(|round| round[0])))
    }

    fn line(&self, port: f64) -> Line {
        Line {
            board: self.board.clone(),
            ids: self.ids,
            name: self.name,
            port,
            less: None,
            question: None,
            rust: None,
        }
    }
}

/// Asks question 1 of a sound board.
fn asks(port: &Port) {
    assert!(black_box(port).is_sound());
}

/// As many batches as there are turns.
fn batch<S>(
    turns: Range<u64>,
    side: &mut S,
    call: &mut impl FnMut(&mut S, u64),
    undo: &mut impl FnMut(&mut S, u64),
) -> Duration {
    let batches = turns.map(|_| {
        let time = timed(0..BATCH, |place| call(black_box(side), place));
        (0..BATCH).for_each(|place| undo(side, place));
        time
    });
    batches.sum()
}
