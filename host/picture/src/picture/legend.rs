//! Headings, and legends below them.

use super::marks::{MISSED, Marks};
use super::meters::{METER, Meters};
use super::sheet::{Sheet, width};
use super::style::{BEYOND, FAINT, HEADING, INK, RULE, SMALL, STRIPES};
use crate::palette::COLOURS;
use crate::svg::{Anchor, Area};
use carv::TICK_NS;
use carv_watch::{Doing, PLACES, Part};

/// The room behind a text of a legend, also for fonts that are wider than [`width`] says.
const BEHIND: f64 = 22.0;

/// A sign in a legend.
pub enum Sign {
    /// None, only a text.
    None,
    /// A fill and its opacity.
    Fill(&'static str, &'static str),
    /// A line.
    Line(&'static str),
    /// A share of 4 ms, got and missed; of a whole period or not.
    Meter {
        got_ms: u64,
        missed_ms: u64,
        whole: bool,
    },
    /// A bar up to the least, the average and the most of its periods.
    Bar,
    /// A bar of a partial period.
    PartialBar,
    /// A period's share was used up.
    UsedUp,
    /// It was held back.
    HeldBack,
    /// It missed something.
    Missed,
}

/// A line of a legend: signs and what they mean.
pub type Legend<'a> = Vec<(Sign, &'a str)>;

impl Sign {
    fn width(&self) -> f64 {
        match self {
            Self::None => -6.0,
            Self::Fill(..) | Self::UsedUp => 16.0,
            Self::Line(_) => 24.0,
            Self::Meter { .. } => 36.0,
            Self::Bar | Self::PartialBar | Self::Missed | Self::HeldBack => 7.0,
        }
    }
}

impl Sheet {
    /// A heading and below it a legend, in as many lines as it needs. Answers where they end.
    pub fn heading(&mut self, top: f64, heading: &str, legend: &[Legend<'_>]) -> f64 {
        let mut y = top + 6.0;
        self.svg.text((24.0, y), Anchor::Start, HEADING, heading);
        y += 4.0;
        for line in legend {
            y = self.legend(line, y + 20.0);
        }
        y
    }

    fn legend(&mut self, legend: &Legend<'_>, mut y: f64) -> f64 {
        let mut x = 24.0;
        for (sign, meaning) in legend {
            let needed = sign.width() + 6.0 + width(meaning, SMALL);
            if x > 24.0 && x + needed > self.edge - 12.0 {
                (x, y) = (24.0, y + 20.0);
            }
            self.sign((x, y), sign);
            let at = (x + sign.width() + 6.0, y);
            self.svg.text(at, Anchor::Start, SMALL, meaning);
            x += needed + BEHIND;
        }
        y
    }

    fn sign(&mut self, (x, y): (f64, f64), sign: &Sign) {
        let width = sign.width();
        let mut marks = Marks::default();
        match sign {
            Sign::None => {}
            Sign::Fill(fill, opacity) => {
                let more =
                    format!(r#"fill-opacity="{opacity}" stroke="{RULE}" stroke-width="0.6""#);
                self.svg.rect(Area(x, y - 11.0, width, 13.0), fill, &more);
            }
            Sign::Line(look) => {
                let y = y - 4.0;
                self.svg.line((x, y), (x + width, y), INK, look);
            }
            Sign::Meter {
                got_ms,
                missed_ms,
                whole,
            } => {
                let mut meters = Meters::new(width / 4.0, y - METER - 1.0);
                meters.add(&of_four(*got_ms, *missed_ms, *whole), (x, x + width));
                meters.draw(&mut self.svg, COLOURS[0]);
            }
            Sign::Bar => self.bar((x, y), width),
            Sign::PartialBar => {
                let (middle, bottom, top, share) = (x + width / 2.0, y + 2.0, y - 5.0, y - 12.0);
                let look = format!(r#"stroke-width="{width}" {STRIPES}"#);
                let bar = [(middle, bottom, top)];
                self.svg.uprights(&bar, COLOURS[0], &look);
                let stem = [(middle, top, share)];
                self.svg.uprights(&stem, FAINT, STRIPES);
            }
            Sign::UsedUp => marks.used_up((x, x + width), y - 4.0),
            Sign::HeldBack => marks.held_back((x, y - 7.0), width, 1.0),
            Sign::Missed => marks.missed((x, y - MISSED - 1.0), width, 1.0),
        }
        marks.draw(&mut self.svg, false);
    }

    /// A bar as in a legend: solid to the least, pale to the average, thin to the most.
    fn bar(&mut self, (x, y): (f64, f64), width: f64) {
        let middle = x + width / 2.0;
        let wide = format!(r#"stroke-width="{width}""#);
        let pale = format!(r#"{wide} stroke-opacity="{BEYOND}""#);
        let (bottom, least, average, most) = (y + 2.0, y - 2.0, y - 7.0, y - 12.0);
        for (from, to, look) in [
            (bottom, least, &*wide),
            (least, average, &*pale),
            (average, most, ""),
        ] {
            self.svg.uprights(&[(middle, from, to)], COLOURS[0], look);
        }
    }
}

/// A period with a share of 4 ms, for a legend.
fn of_four(got_ms: u64, missed_ms: u64, whole: bool) -> Part {
    let seen = if whole { PLACES } else { PLACES - 1 };
    let doing = |place| (place < seen).then_some(Doing::Sleeps);
    Part {
        doing: std::array::from_fn(doing),
        got_ns: got_ms * TICK_NS,
        share_ns: 4 * TICK_NS,
        missed_ns: missed_ms * TICK_NS,
        ..Part::default()
    }
}
