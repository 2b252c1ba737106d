//! The day's picture.

use crate::plan::{FIRST, PERIOD, last_of};
use crate::record::Day;
use crate::words::{capital, services};
use carv_picture::{Look, SHOWN};
use std::ops::RangeInclusive;

/// The ticks that the picture of so many periods may begin with, so that all periods that it shows
/// ms by ms are on the day; the first period if it has no more than these.
pub fn begins(periods: u64) -> RangeInclusive<u64> {
    let shown = (SHOWN - 1) * PERIOD;
    let latest = last_of(periods).saturating_sub(shown);
    FIRST..=latest.max(FIRST + PERIOD - 1)
}

/// Draws the day, ms by ms from the period of this tick on.
pub fn draw(day: &Day, from: u64) -> String {
    let title = "A day in small of the coin sorter".to_string();
    let look = Look {
        title: day.plan.title.clone().unwrap_or(title),
        subtitle: subtitle(day),
    };
    carv_picture::draw(&day.timeline, &look, Some(from))
}

fn subtitle(day: &Day) -> String {
    let planned = day.plan.services.len();
    let mut text = format!("{} on one board", capital(&services(planned)));
    text.push_str(match planned {
        0 => ".",
        1 => ", with a share of every 10 ms.",
        _ => ", each with a share of every 10 ms.",
    });
    if planned > 0 {
        text.push_str(
            " Whoever has used up its share waits for the next period, even while the board is \
             idle.",
        );
    }
    if day.plan.first_thread_runs {
        text.push_str(" Thread 0, which has no budget, never sleeps.");
    }
    let never_on = day.noted.iter().filter(|noted| !noted.was_on).count();
    if never_on > 0 {
        text.push_str(&format!(
            " Never on, and so not drawn: {}.",
            services(never_on)
        ));
    }
    text
}
