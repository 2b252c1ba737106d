//! Document 02's laws of charges: singly and in bulk they agree. Each law is run on copies of the
//! areas of random boards, some of them damaged, through the port's C functions.
//!
//! A law compares what up to three copies answer and hold. Beside that, each call must answer and
//! leave what document 01 says, which `rule` has; a difference is told as the law that it breaks, if
//! it breaks one.

mod cases;
mod choice;
mod copies;
mod holds;
mod laws;
mod look;
mod report;
mod rule;

pub use cases::{CASES, Case};
pub use laws::Law;
pub use report::Report;

use crate::area::{self, Table};
use crate::damage::{self, Victim};
use crate::pair::{Difference, Pair};
use crate::runs::{self, RandomBoards};
use crate::sound::broken_rule;
use carv_compare::board::make::{carve, insert, open};
use carv_compare::draw::Draw;
use carv_oracle::account::PERIOD;
use choice::Choice;
use copies::Copies;
use std::fmt;

/// Runs every law on `count` areas of random boards, which the seed fixes.
///
/// # Errors
/// The first difference, in a few lines.
pub fn charges(count: u64, seed: u64) -> Result<Report, String> {
    only(&Law::ALL, count, seed)
}

/// The same with these laws alone.
///
/// # Errors
/// The first difference, in a few lines.
pub fn only(laws: &[Law], count: u64, seed: u64) -> Result<Report, String> {
    let mut report = Report::default();
    runs::areas(count, seed, |boards| one_area(boards, laws, &mut report))?;
    Ok(report)
}

/// Runs the laws on an area of the current board, or on one of its own.
fn one_area(boards: &mut RandomBoards, laws: &[Law], report: &mut Report) -> Result<(), String> {
    let RandomBoards { walk, pair, .. } = boards;
    let draw = walk.draw();
    let subject = match draw.random.below(10) {
        0 => Subject::wide(draw)?,
        1 | 2 => Subject::damaged(pair.area(), draw),
        _ => Subject::new(pair.area().to_vec(), Case::Random),
    };
    report.count(subject.case);
    for law in laws {
        let mut copies = Copies::new(&subject.area, subject.is_sound());
        let mut choice = Choice::new(&subject.table, draw);
        let met = law.run(&mut choice, &mut copies);
        let met = met.and_then(|met| copies.checked().map(|()| met));
        let met = met.map_err(|why| format!("{}: {why}{copies}{subject}", law.name()))?;
        report.count_law(*law, met, &copies);
    }
    Ok(())
}

/// An area that the laws are run on.
struct Subject {
    area: Vec<u8>,
    /// What it says, or said before it was damaged: objects and amounts are drawn from it.
    table: Table,
    case: Case,
    /// The damage, and where it is.
    damage: Option<String>,
}

impl Subject {
    /// A sound area.
    fn new(area: Vec<u8>, case: Case) -> Self {
        let table = area::read(&area).expect("a sound area");
        Self {
            area,
            table,
            case,
            damage: None,
        }
    }

    /// A small board with 2^64 - 1 bytes, all of them free, or all but those of a child.
    fn wide(draw: &mut Draw) -> Result<Self, Difference> {
        let mut pair = Pair::new();
        let mut calls = vec![open(PERIOD, u64::MAX), insert(5, 1, 0), insert(3, 1, 0)];
        if draw.random.one_in(2) {
            let memory = draw.random.of(&[1 << 63, u64::MAX - 128]);
            calls.extend([carve(1, 0, memory, 0), insert(5, 4, 0)]);
        }
        for call in calls {
            let done = pair.call(call);
            done.map_err(|why| format!("{call}: {why}"))?;
        }
        Ok(Self::new(pair.area().to_vec(), Case::Wide))
    }

    /// A sound area, damaged.
    fn damaged(sound: &[u8], draw: &mut Draw) -> Self {
        let ways = damage::ALL.len() as u64;
        let way = &damage::ALL[draw.random.below(ways) as usize];
        let mut victim = Victim::new(sound.to_vec());
        (way.apply)(&mut victim, draw);
        let rule = broken_rule(&victim.area);
        let case = match rule {
            None => Case::StillSound,
            Some(_) => Case::Unsound,
        };
        let read_from = if rule.is_none() { &victim.area } else { sound };
        let table = area::read(read_from).expect("a sound area");
        let rule = rule.unwrap_or("none");
        let where_it_is = copies::same(&victim.area, sound).err();
        let where_it_is = where_it_is.unwrap_or_else(|| "nothing changed".to_string());
        Self {
            table,
            case,
            damage: Some(format!("{}: {where_it_is}\nrule broken: {rule}", way.name)),
            area: victim.area,
        }
    }

    fn is_sound(&self) -> bool {
        self.case != Case::Unsound
    }
}

impl fmt::Display for Subject {
    fn fmt(&self, f: &mut fmt::Formatter<'_>) -> fmt::Result {
        match &self.damage {
            Some(damage) => write!(f, "\ndamage: {damage}"),
            None => Ok(()),
        }
    }
}
