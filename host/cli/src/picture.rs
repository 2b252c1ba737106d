//! The picture of a list: events beside what was seen tick by tick.

mod event;

use crate::answer::Answer;
use crate::call::Call;
use crate::figures::{count, grouped};
use crate::names::Names;
use carv::{Board, Refusal};
use carv_picture::{Look, draw};
use carv_report::Watch;
use carv_watch::{MOST_EVENTS, Timeline};
use event::Event;
use std::ops::RangeInclusive;

/// The events of a list, from its last accepted opening on.
#[derive(Default)]
pub struct Events {
    tick: Option<u64>,
    /// As many as a timeline keeps, with their ticks, 0 before the first, and how many came behind
    /// them.
    events: Vec<(u64, Event)>,
    more: u64,
}

/// What a call ends if it is accepted, which is to be seen before it is made.
pub struct Ends(Option<Event>);

impl Events {
    /// What a call on this board ends, if it is accepted.
    pub fn ends(call: &Call, board: &Board) -> Ends {
        Ends(event::end(call, board))
    }

    /// Notes what a call shows. What is accepted before the first tick is no event.
    pub fn note(&mut self, call: &Call, made: &Result<Answer, Refusal>, ends: Ends) {
        match (call.form().name, made, call.arguments()) {
            ("open", Ok(_), _) => *self = Self::default(),
            ("tick", Ok(_), [n]) => self.tick = Some(*n),
            _ => {
                let is_early = self.tick.is_none() && made.is_ok();
                if let (false, Some(event)) = (is_early, event::event(call, made, ends.0)) {
                    self.add(event);
                }
            }
        }
    }

    fn add(&mut self, event: Event) {
        if self.events.len() < MOST_EVENTS {
            self.events.push((self.tick.unwrap_or(0), event));
        } else {
            self.more += 1;
        }
    }

    /// Tells them, with the names that the list gave in the end.
    pub fn tell(self, watch: &mut Watch, names: &Names) {
        for (n, event) in self.events {
            watch.event(n, event.text(names));
        }
        for _ in 0..self.more {
            // They are only counted.
            watch.event(0, String::new());
        }
    }
}

/// The picture of a list of so many calls, from this tick on.
pub fn picture(
    timeline: &Timeline,
    ticks: &RangeInclusive<u64>,
    calls: u64,
    (title, from): (String, Option<u64>),
) -> String {
    let calls = count(calls, "call", "calls");
    let (first, last) = (grouped(*ticks.start()), grouped(*ticks.end()));
    let look = Look {
        title,
        subtitle: format!("{calls}, ticks {first} to {last}"),
    };
    draw(timeline, &look, from)
}
