//! Calls on damaged areas: each must be refused with 1 and change nothing.

mod trial;

use crate::area;
use crate::damage::{self, Damage, Victim};
use crate::pair::Pair;
use crate::port::IMAGE_BYTES;
use crate::runs::{self, RandomBoards};
use crate::sound::broken_rule;
use carv_compare::board::call::{Call, Op};
use carv_compare::board::reference::{ANSWER_WORDS, UNSOUND};
use carv_compare::board::walk::Walk;
use carv_oracle::account::PERIOD;
use std::collections::BTreeMap;
use std::fmt;
use trial::Trial;

/// Document 01's number for an opening's share above the period.
const SHARE: u64 = 2;

/// Wrong numbers of answer words.
const WRONG_ANSWERS: [usize; 7] = [0, 1, 2, 7, ANSWER_WORDS - 1, ANSWER_WORDS + 1, 100];
/// Wrong lengths of an image.
const WRONG_IMAGES: [usize; 6] = [0, 1, 64, IMAGE_BYTES - 1, IMAGE_BYTES + 1, 1_024];

/// How many areas each damage left unsound and sound, and which rule was broken first.
#[derive(Clone, Debug, Default, PartialEq, Eq)]
pub struct Report {
    damages: BTreeMap<&'static str, [u64; 2]>,
    rules: BTreeMap<&'static str, u64>,
    calls: u64,
}

impl Report {
    /// Areas that were damaged.
    pub fn areas(&self) -> u64 {
        self.damages.values().flatten().sum()
    }

    /// Of these, areas that were no longer sound.
    pub fn unsound(&self) -> u64 {
        self.rules.values().sum()
    }

    /// Calls on them.
    pub fn calls(&self) -> u64 {
        self.calls
    }

    /// Areas whose first broken rule is this one.
    pub fn broken(&self, rule: &str) -> u64 {
        self.rules.get(rule).copied().unwrap_or(0)
    }

    fn count(&mut self, damage: &Damage, rule: Option<&'static str>) {
        let counts = self.damages.entry(damage.name).or_default();
        counts[usize::from(rule.is_none())] += 1;
        if let Some(rule) = rule {
            *self.rules.entry(rule).or_default() += 1;
        }
    }
}

impl fmt::Display for Report {
    fn fmt(&self, f: &mut fmt::Formatter<'_>) -> fmt::Result {
        writeln!(f, "{:48}{:>12}{:>12}", "damage", "unsound", "still sound")?;
        for (name, [unsound, sound]) in &self.damages {
            writeln!(f, "{name:48}{unsound:>12}{sound:>12}")?;
        }
        writeln!(f, "\n{:48}{:>12}", "first rule broken", "areas")?;
        for (rule, count) in &self.rules {
            writeln!(f, "{rule:48}{count:>12}")?;
        }
        write!(f, "\n{} areas, {} calls", self.areas(), self.calls)
    }
}

/// Damages `count` areas of random boards, which the seed fixes, and makes every kind of call on
/// each. Those that are still sound must answer a number of the call's own, so not 1.
///
/// # Errors
/// The first difference, in a few lines.
pub fn damaged(count: u64, seed: u64) -> Result<Report, String> {
    let mut report = Report::default();
    runs::areas(count, seed, |boards| one_area(boards, &mut report))?;
    Ok(report)
}

/// Damages an area of the current board and makes every kind of call on it.
///
/// # Errors
/// What differs, in a few lines.
pub fn one_area(boards: &mut RandomBoards, report: &mut Report) -> Result<(), String> {
    let RandomBoards { walk, pair, .. } = boards;
    let ways = damage::ALL.len() as u64;
    let way = &damage::ALL[walk.draw().random.below(ways) as usize];
    let mut victim = Victim::new(pair.area().to_vec());
    (way.apply)(&mut victim, walk.draw());

    let rule = broken_rule(&victim.area);
    report.count(way, rule);
    let mut trial = Trial::new(victim.area, ANSWER_WORDS, IMAGE_BYTES);
    check(&mut trial, rule, walk, pair).map_err(|why| {
        let rule = rule.unwrap_or("none");
        let damage = difference(trial.area(), pair.area());
        format!("{}: {why}\nrule broken: {rule}\ndamage: {damage}", way.name)
    })?;
    report.calls += trial.calls;

    let area = || pair.area().to_vec();
    let words = walk.draw().random.of(&WRONG_ANSWERS);
    let mut trial = Trial::new(area(), words, IMAGE_BYTES);
    refuses_all(&mut trial, walk, pair)
        .map_err(|why| format!("sound, {words} answer words lent: {why}"))?;
    report.calls += trial.calls;

    let bytes = walk.draw().random.of(&WRONG_IMAGES);
    let mut trial = Trial::new(area(), ANSWER_WORDS, bytes);
    let creation = walk.call(Op::CreateUserThread, pair.state());
    trial
        .refuses(creation, UNSOUND)
        .and_then(|()| trial.refuses_image())
        .map_err(|why| format!("sound, an image of {bytes} bytes lent: {why}"))?;
    report.calls += trial.calls;
    Ok(())
}

/// Where the damage is.
fn difference(damaged: &[u8], sound: &[u8]) -> String {
    if damaged.len() != sound.len() {
        return format!("the length is {}", damaged.len());
    }
    area::Difference {
        found: damaged,
        expected: sound,
    }
    .to_string()
}

/// Makes every kind of call on the area.
fn check(
    trial: &mut Trial,
    rule: Option<&str>,
    walk: &mut Walk,
    pair: &Pair,
) -> Result<(), String> {
    let sound = trial.is_sound();
    if sound != rule.is_none() {
        return Err(format!("is_sound says {sound}"));
    }
    for call in walk.one_of_each(pair.state()) {
        if rule.is_some() {
            trial.refuses(call, UNSOUND)?;
        } else {
            trial.does_not_refuse(call)?;
        }
    }
    openings(trial, walk)
}

/// Openings ask only for the length of what they are lent, and replace what is there.
fn openings(trial: &mut Trial, walk: &mut Walk) -> Result<(), String> {
    let memory = walk.draw().number();
    let accepted = Call::Open {
        cpu: walk.draw().within(PERIOD),
        memory,
    };
    let refused = Call::Open {
        cpu: walk.draw().number().max(PERIOD + 1),
        memory,
    };
    if trial.area().len() == area::BYTES {
        trial.refuses(refused, SHARE)?;
        trial.opens(accepted)
    } else {
        trial.refuses(refused, UNSOUND)?;
        trial.refuses(accepted, UNSOUND)
    }
}

/// Makes every kind of call where the answer words have a wrong length.
fn refuses_all(trial: &mut Trial, walk: &mut Walk, pair: &Pair) -> Result<(), String> {
    for call in walk.one_of_each(pair.state()) {
        trial.refuses(call, UNSOUND)?;
    }
    for cpu in [0, PERIOD + 1] {
        trial.refuses(Call::Open { cpu, memory: 0 }, UNSOUND)?;
    }
    Ok(())
}
