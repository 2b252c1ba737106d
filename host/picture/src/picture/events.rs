//! What happened: numbered lines across the plots, and a list below.

use super::scene::Scene;
use super::sheet::Sheet;
use super::style::{INK, SMALL, TEXT, THIN};
use crate::svg::Anchor;
use carv_text::figures::{counted, grouped, ms};
use carv_watch::{Event, Row};

/// The distance between numbers that would overlap, and how many stand over each other.
const STEP: f64 = 17.0;
const LEVELS: usize = 4;

/// Events where they stand in a plot, by rising place: their lines and numbers.
pub type Marks = Vec<(f64, usize)>;

/// For each mark how many others it stands over, so that numbers don't overlap; none if there is no
/// place left for it.
fn levels(marks: &Marks) -> Vec<Option<usize>> {
    let mut taken = [f64::MIN; LEVELS];
    let mut levels = Vec::new();
    for (x, _) in marks {
        let free = taken.iter().position(|last| x - last >= STEP);
        if let Some(level) = free {
            taken[level] = *x;
        }
        levels.push(free);
    }
    levels
}

/// The marks that have a place, each with its level.
fn placed(marks: &Marks) -> impl Iterator<Item = (f64, usize, usize)> {
    let placed = marks.iter().zip(levels(marks));
    placed.filter_map(|((x, number), level)| Some((*x, *number, level?)))
}

/// How much room the numbers of these marks take.
pub fn height(marks: &Marks) -> f64 {
    let most = placed(marks).map(|(_, _, level)| level).max();
    most.map_or(0.0, |most| STEP * (most + 1) as f64)
}

/// Draws marks across a plot, the numbers above it.
pub fn above(sheet: &mut Sheet, marks: &Marks, (top, bottom): (f64, f64)) {
    let y = |level: usize| top - STEP * level as f64;
    lines(sheet, marks, |level| (y(level), bottom));
    numbers(sheet, marks, |level| y(level) - 9.0);
}

/// Draws marks across a plot, the numbers below it. Answers where they end.
pub fn below(sheet: &mut Sheet, marks: &Marks, (top, bottom): (f64, f64)) -> f64 {
    let y = |level: usize| bottom + 4.0 + STEP * level as f64;
    lines(sheet, marks, |level| (top, y(level)));
    numbers(sheet, marks, |level| y(level) + 8.0);
    bottom + f64::max(12.0, height(marks))
}

/// The marks' lines, all of them before the numbers, which they would cross.
fn lines(sheet: &mut Sheet, marks: &Marks, ends: impl Fn(usize) -> (f64, f64)) {
    for (x, _, level) in placed(marks) {
        let (from, to) = ends(level);
        sheet.svg.line((x, from), (x, to), INK, THIN);
    }
}

fn numbers(sheet: &mut Sheet, marks: &Marks, y: impl Fn(usize) -> f64) {
    for (x, number, level) in placed(marks) {
        sheet.bubble((x, y(level)), number);
    }
}

/// Lists the events, and what the picture leaves out. Answers where the list ends.
pub fn list(sheet: &mut Sheet, scene: &Scene<'_>, top: f64) -> f64 {
    let longest = scene.events.iter().map(|event| time_of(scene, event).len());
    let times = longest.max().unwrap_or(0) as f64 * 6.4 + 16.0;
    let text_left = f64::max(sheet.left + 4.0, 60.0 + times);
    let mut y = top + 6.0;
    for (number, event) in (1..).zip(&scene.events) {
        sheet.bubble((text_left - times - 12.0, y - 4.0), number);
        let time = time_of(scene, event);
        sheet
            .svg
            .text((text_left - 12.0, y), Anchor::End, SMALL, &time);
        sheet.line_of_text((text_left, y), TEXT, &event.text);
        y += 20.0;
    }
    for note in notes(scene) {
        sheet.line_of_text((text_left, y), SMALL, &note);
        y += 18.0;
    }
    y
}

/// When an event was.
fn time_of(scene: &Scene<'_>, event: &Event) -> String {
    match scene.is_before_all(event.tick) {
        true => "before the first tick".to_string(),
        false => format!("{} ms", grouped(event.tick)),
    }
}

/// What the picture leaves out, in sentences.
fn notes(scene: &Scene<'_>) -> Vec<String> {
    let mut notes = Vec::new();
    if scene.more_events > 0 {
        let more = grouped(scene.more_events as u64);
        notes.push(format!("Events not listed: {more}."));
    }
    let rest = scene.rest();
    if let more @ 1.. = rest.len() {
        let sum = |of: fn(&Row) -> u64| rest.iter().map(|row| of(row)).sum::<u64>();
        let got = ms(sum(|row| row.total.got_ns));
        let missed = counted(sum(|row| row.total.periods_missed()), "period");
        let which = match scene.is_by_missing() {
            true => "ran less or missed nothing",
            false => "ran less",
        };
        notes.push(format!(
            "Budgets not drawn, which {which}: {more}. Together they got {got} ms, and missed {missed}."
        ));
    }
    let gaps = (0..scene.numbers.len()).filter(|rank| scene.is_after_gap(*rank));
    if let gaps @ 1.. = gaps.count() {
        let gaps = grouped(gaps as u64);
        notes.push(format!(
            "Gaps in time, where periods without any tick are left out: {gaps}."
        ));
    }
    if scene.repeats > 0 {
        let repeats = grouped(scene.repeats);
        notes.push(format!(
            "Ticks whose number was seen before: {repeats}. Each is drawn as last seen."
        ));
    }
    notes
}

#[cfg(test)]
mod tests {
    use super::*;

    #[test]
    fn numbers_keep_apart() {
        let marks = vec![(10.0, 1), (20.0, 2), (30.0, 3), (100.0, 4)];
        assert_eq!(levels(&marks), [0, 1, 0, 0].map(Some));
        let same = vec![(10.0, 1); 5];
        assert_eq!(levels(&same), [Some(0), Some(1), Some(2), Some(3), None]);
    }
}
