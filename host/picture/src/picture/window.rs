//! Some periods ms by ms: a lane for each row, and below it what it got against its share.

use super::events;
use super::figures;
use super::legend::{Legend, Sign};
use super::meters::Meters;
use super::scene::{Drawn, Scene};
use super::sheet::Sheet;
use super::style::{BAND, DOTS, FAINT, HELD, OFF, PARTIAL, RULE, SMALL, UNMARKED, UNSEEN, WAITS};
use crate::palette::COLOURS;
use crate::svg::{Anchor, Area};
use carv_text::figures::grouped;
use carv_watch::{Doing, Kind, PLACES, Part, Row, TICKS};
use std::collections::BTreeMap;

/// The window and where it is drawn.
struct Window<'a> {
    scene: &'a Scene<'a>,
    /// What the rows did in each period of the window.
    parts: Vec<BTreeMap<usize, Part>>,
    left: f64,
    /// Width of a ms, and heights of a row and of its lane.
    ms: f64,
    row: f64,
    lane: f64,
    top: f64,
    bottom: f64,
}

/// Draws it from this height on, and answers where it ends.
pub fn draw(sheet: &mut Sheet, scene: &Scene<'_>, top: f64) -> f64 {
    let parts: Vec<_> = scene
        .shown()
        .map(|(_, number)| scene.rows.in_period(number))
        .collect();
    let top = heading(sheet, scene, &parts, top) + 44.0;
    let (row, lane) = if sheet.dense {
        (39.0, 15.0)
    } else {
        (48.0, 22.0)
    };
    let window = Window {
        scene,
        left: sheet.left,
        ms: sheet.ms,
        parts,
        row,
        lane,
        top,
        bottom: top + row * scene.drawn.len() as f64 - 12.0,
    };
    window.periods(sheet);
    for (place, (drawn, row)) in scene.drawn().enumerate() {
        window.row(sheet, drawn, row, top + window.row * place as f64);
    }
    let events = (1..).zip(&scene.events);
    let events = events.filter_map(|(number, event)| {
        let ms = scene.ms_in_window(event.tick)?;
        Some((window.x_of(ms), number))
    });
    events::below(sheet, &events.collect(), (top - 6.0, window.bottom))
}

fn heading(sheet: &mut Sheet, scene: &Scene<'_>, parts: &[BTreeMap<usize, Part>], top: f64) -> f64 {
    let numbers = &scene.numbers[scene.window.clone()];
    let (first, last) = (numbers[0] * TICKS, numbers[numbers.len() - 1] * TICKS);
    let (first, last) = (grouped(first), grouped(last + TICKS - 1));
    let heading = format!("Who ran when: ticks {first} to {last}");
    sheet.heading(top, &heading, &[of_ms(scene, parts), of_periods(parts)])
}

/// What a ms looks like.
fn of_ms(scene: &Scene<'_>, parts: &[BTreeMap<usize, Part>]) -> Legend<'static> {
    let mut legend = vec![
        (Sign::Fill(COLOURS[0], "1"), "runs"),
        (Sign::Fill(COLOURS[0], WAITS), "waits its turn"),
        (
            Sign::Fill(HELD, "1"),
            "held back: has work, has no time left",
        ),
        (Sign::Fill(OFF, "1"), "switched off"),
    ];
    let seen = |part: &Part| part.doing.iter().all(Option::is_some);
    if !parts.iter().flat_map(BTreeMap::values).all(seen) {
        legend.push((Sign::Fill(UNSEEN, "1"), "no tick seen"));
    }
    let mut ranks = scene.window.clone().skip(1);
    if ranks.any(|rank| scene.is_after_gap(rank)) {
        legend.push((Sign::Line(DOTS), "time left out"));
    }
    legend.push((
        Sign::Fill(BAND, "1"),
        "band: a period, the ms that its ticks end",
    ));
    legend
}

/// What a period's share looks like.
fn of_periods(parts: &[BTreeMap<usize, Part>]) -> Legend<'static> {
    let meter = |got_ms, missed_ms, whole| Sign::Meter {
        got_ms,
        missed_ms,
        whole,
    };
    let mut legend = vec![
        (meter(2, 1, true), "of its share of 4 ms got 2, missed 1"),
        (Sign::UsedUp, "used its share up"),
        (Sign::HeldBack, "held back"),
        (Sign::Missed, "missed: wanted more than it got, had time"),
        (Sign::None, UNMARKED),
    ];
    let is_partial = |part: &Part| part.ms_on() > 0 && !part.is_whole();
    if parts.iter().flat_map(BTreeMap::values).any(is_partial) {
        legend.push((meter(3, 0, false), PARTIAL));
    }
    legend
}

impl Window<'_> {
    /// Where the ms at this place begins.
    fn x_of(&self, place: usize) -> f64 {
        self.left + place as f64 * self.ms
    }

    /// A band for each period, and when it begins; ms without a tick are dotted.
    fn periods(&self, sheet: &mut Sheet) {
        let height = self.bottom - self.top + 6.0;
        let mut unseen = Vec::new();
        for (place, number) in self.scene.shown() {
            let x = self.x_of(place * PLACES);
            let band = Area(x, self.top - 6.0, TICKS as f64 * self.ms, height);
            let fill = if place % 2 == 0 { BAND } else { "white" };
            sheet.svg.rect(band, fill, "");
            let part = self.parts[place].values().next();
            let doing = part.map(|part| part.doing).unwrap_or_default();
            let is_unseen = |at: &usize| doing[*at].is_none();
            for at in (0..PLACES).filter(is_unseen) {
                let x = self.x_of(place * PLACES + at);
                unseen.push(Area(x, self.top - 6.0, self.ms, height));
            }
            self.rule(sheet, place, x);
            self.first_tick(sheet, place, number);
        }
        sheet.svg.rects(&unseen, UNSEEN, "");
        self.rule(sheet, 0, self.x_of(self.parts.len() * PLACES));
    }

    /// The line where the ms of the period at this place begin.
    fn rule(&self, sheet: &mut Sheet, place: usize, x: f64) {
        let gap = place > 0 && self.scene.is_after_gap(self.scene.window.start + place);
        let (ink, look) = if gap { (FAINT, DOTS) } else { (RULE, "") };
        let (from, to) = ((x, self.top - 6.0), (x, self.bottom));
        sheet.svg.line(from, to, ink, look);
    }

    /// The time of a period's first tick, where its first ms ends.
    fn first_tick(&self, sheet: &mut Sheet, place: usize, number: u64) {
        let x = self.x_of(place * PLACES + 1);
        let (from, to) = ((x, self.top - 12.0), (x, self.top - 6.0));
        sheet.svg.line(from, to, FAINT, "");
        let at = (x, self.top - 16.0);
        let text = self.time_of(number);
        sheet.svg.text(at, Anchor::Middle, SMALL, &text);
    }

    /// When a period's first tick is, or where that is long, the time since the window's.
    fn time_of(&self, number: u64) -> String {
        let first = self.scene.numbers[self.scene.window.start];
        let last = self.scene.numbers[self.scene.window.end - 1];
        if last < 1_000_000 {
            return format!("{} ms", grouped(number * TICKS));
        }
        match (number - first) * TICKS {
            since @ 0..10_000_000 => format!("+{} ms", grouped(since)),
            since @ 10_000_000..10_000_000_000 => format!("+{} s", grouped(since / 1_000)),
            since => format!("+{} days", grouped(since / 86_400_000)),
        }
    }

    fn row(&self, sheet: &mut Sheet, drawn: &Drawn, row: &Row, top: f64) {
        sheet.label(top, row);
        self.cells(sheet, drawn, top);
        if row.kind == Kind::Budget {
            self.meters(sheet, drawn, top);
        }
        let periods = self.parts.iter();
        let parts = periods.filter_map(|parts| parts.get(&drawn.index));
        let parts = parts.filter(|part| part.ms_on() > 0);
        let figures = match row.kind {
            Kind::Budget => figures::of_share(parts),
            _ => figures::of_time(parts),
        };
        sheet.figures(top, &figures);
    }

    /// What it did in each ms.
    fn cells(&self, sheet: &mut Sheet, drawn: &Drawn, top: f64) {
        for (doing, class, fill, opacity) in [
            (Doing::Runs, "runs", drawn.colour, "1"),
            (Doing::Waits, "waits", drawn.colour, WAITS),
            (Doing::HeldBack, "held", HELD, "1"),
            (Doing::Off, "off", OFF, "1"),
        ] {
            let mut cells = Vec::new();
            for place in 0..self.parts.len() * PLACES {
                if self.doing(drawn.index, place) == Some(doing) {
                    cells.push(Area(self.x_of(place), top, self.ms - 0.8, self.lane));
                }
            }
            let more = format!(r#"class="{class}" fill-opacity="{opacity}""#);
            sheet.svg.rects(&cells, fill, &more);
        }
    }

    /// What a row did in the ms at this place; none if it wasn't seen.
    fn doing(&self, row: usize, place: usize) -> Option<Doing> {
        let parts = &self.parts[place / PLACES];
        match parts.get(&row) {
            Some(part) => part.doing[place % PLACES],
            // Another row tells whether there was a tick.
            None => parts.values().next()?.doing[place % PLACES].map(|_| Doing::Off),
        }
    }

    /// What it got of its share in each period.
    fn meters(&self, sheet: &mut Sheet, drawn: &Drawn, top: f64) {
        let mut meters = Meters::new(self.ms, top + self.lane + 4.0);
        for (place, parts) in self.parts.iter().enumerate() {
            if let Some(part) = parts.get(&drawn.index)
                && part.ms_on() > 0
            {
                let (left, right) = (place * PLACES, (place + 1) * PLACES);
                meters.add(part, (self.x_of(left), self.x_of(right)));
            }
        }
        meters.draw(&mut sheet.svg, drawn.colour);
    }
}
