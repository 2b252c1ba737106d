//! The lines of a day file, put together to a plan.

use super::Mistakes;
use super::form::{AT, EXPECT, Form, MOST_EVENTS, MOST_PHASES, MOST_SERVICES, SHOW, WATCH};
use super::line::{Happens, Line, is_service, name_in};
use crate::picture::begins;
use crate::plan::{Event, Expected, FIRST, Phase, Plan, Service, last_of};
use carv::{Limits, PERIOD_NS};
use carv_text::figures::grouped;
use carv_text::line::BadLine;
use carv_text::nearest::suggestion;
use std::collections::BTreeMap;

/// What a day has if its file doesn't say.
const PERIODS: u64 = 300;
const BOARD: Limits = Limits {
    cpu_ns: PERIOD_NS,
    memory_bytes: 512 << 10,
};

/// The lines so far, those that name a service with their numbers.
#[derive(Debug, Default)]
pub struct Collected {
    title: Option<String>,
    board: Option<Limits>,
    periods: Option<u64>,
    show: Option<(usize, u64)>,
    first_thread_runs: bool,
    services: Vec<Service>,
    /// Services by their names.
    indexes: BTreeMap<String, usize>,
    /// The last line that was meant as a service: its place, or none if it is bad.
    above: Option<Option<usize>>,
    events: Vec<(usize, u64, Happens)>,
    watched: Option<(usize, String)>,
    expected: Vec<(usize, String, Expected)>,
    /// Lines that stand once, by their words.
    stand: BTreeMap<&'static str, usize>,
    mistakes: Mistakes,
}

impl Collected {
    /// Adds a bad line. A service's name is known nevertheless.
    pub fn add_bad(&mut self, number: usize, line: &str, bad: BadLine) {
        self.mistakes.add(number, bad);
        if is_service(line) {
            self.above = Some(None);
        }
        if let Some(name) = name_in(line) {
            self.indexes.entry(name).or_insert(usize::MAX);
        }
    }

    /// Adds a line.
    pub fn add(&mut self, number: usize, form: &'static Form, line: Line) {
        let added = match line {
            Line::Service(service) => self.add_service(service),
            Line::Work(phase) => self.add_work(phase),
            Line::At(tick, happens) => self.add_event((number, tick, happens)),
            Line::Expect(name, expected) => {
                self.expected.push((number, name, expected));
                Ok(())
            }
            line => self.add_single(number, form.word, line),
        };
        if let Err(why) = added {
            self.mistakes.add(number, form.bad(why));
        }
    }

    /// Adds a line of which there is one.
    fn add_single(&mut self, number: usize, word: &'static str, line: Line) -> Result<(), String> {
        let first = *self.stand.entry(word).or_insert(number);
        if first != number {
            return Err(format!(
                "line {first} begins with `{word}` too, and one such line is enough"
            ));
        }
        match line {
            Line::Title(title) => self.title = Some(title),
            Line::Board(limits) => self.board = Some(limits),
            Line::Periods(periods) => self.periods = Some(periods),
            Line::Show(tick) => self.show = Some((number, tick)),
            Line::Watch(name) => self.watched = Some((number, name)),
            _ => self.first_thread_runs = true,
        }
        Ok(())
    }

    fn add_service(&mut self, service: Service) -> Result<(), String> {
        self.above = Some(None);
        if self.indexes.contains_key(&service.name) {
            let name = &service.name;
            return Err(format!("there is a service {name} already"));
        }
        if self.services.len() == MOST_SERVICES {
            return Err(format!("a day has at most {MOST_SERVICES} services"));
        }
        let place = self.services.len();
        self.above = Some(Some(place));
        self.indexes.insert(service.name.clone(), place);
        self.services.push(service);
        Ok(())
    }

    /// Adds work to the service above.
    fn add_work(&mut self, phase: Phase) -> Result<(), String> {
        let service = match self.above {
            None => return Err("no `service` line stands above it".to_string()),
            Some(None) => return Ok(()),
            Some(Some(place)) => &mut self.services[place],
        };
        let from = phase.from;
        let place = service.work.partition_point(|before| before.from < from);
        if service.work.get(place).is_some_and(|at| at.from == from) {
            let name = &service.name;
            return Err(format!("{name} has other work from {from} ms on already"));
        }
        if service.work.len() == MOST_PHASES {
            return Err(format!("a service has at most {MOST_PHASES} `work` lines"));
        }
        service.work.insert(place, phase);
        Ok(())
    }

    fn add_event(&mut self, event: (usize, u64, Happens)) -> Result<(), String> {
        if self.events.len() == MOST_EVENTS {
            return Err(format!("a day has at most {MOST_EVENTS} `at` lines"));
        }
        self.events.push(event);
        Ok(())
    }

    /// The index of a service that a line names.
    fn index_of(&mut self, number: usize, name: &str, form: &Form) -> Option<usize> {
        let index = self.indexes.get(name).copied();
        if index.is_none() {
            let near = suggestion(name, self.indexes.keys().map(String::as_str));
            let why = format!("there is no service {name}{near}");
            self.mistakes.add(number, form.bad(why));
        }
        index
    }

    /// The plan, or all mistakes.
    pub fn plan(mut self) -> Result<Plan, Mistakes> {
        let periods = self.periods.unwrap_or(PERIODS);
        let events = self.take_events(last_of(periods));
        let watched = self.watched.take();
        let watched = watched.and_then(|(number, name)| self.index_of(number, &name, &WATCH));
        let expected = std::mem::take(&mut self.expected).into_iter();
        let expected = expected.filter_map(|(number, name, expected)| {
            let index = self.index_of(number, &name, &EXPECT)?;
            Some((index, expected))
        });
        let expected = expected.collect();
        let show = self.take_show(periods);
        if self.mistakes.count > 0 {
            self.mistakes.lines.sort_by_key(|(number, _)| *number);
            return Err(self.mistakes);
        }
        Ok(Plan {
            title: self.title,
            board: self.board.unwrap_or(BOARD),
            periods,
            show,
            first_thread_runs: self.first_thread_runs,
            watched: watched.or((!self.services.is_empty()).then_some(0)),
            services: self.services,
            events,
            expected,
        })
    }

    /// The events by rising tick, those of one tick as in the file.
    fn take_events(&mut self, last: u64) -> Vec<(u64, Event)> {
        let mut events = Vec::new();
        for (number, tick, happens) in std::mem::take(&mut self.events) {
            if tick > last {
                self.mistakes.add(number, AT.bad(too_late(tick, last)));
                continue;
            }
            let event = match happens {
                Happens::On(name) => self.index_of(number, &name, &AT).map(Event::On),
                Happens::Off(name) => self.index_of(number, &name, &AT).map(Event::Off),
                Happens::Ask(name, limits) => Some(Event::Ask(name, limits)),
                Happens::Note(text) => Some(Event::Note(text)),
            };
            events.extend(event.map(|event| (tick, event)));
        }
        events.sort_by_key(|(tick, _)| *tick);
        events
    }

    /// Where the picture begins.
    fn take_show(&mut self, periods: u64) -> u64 {
        let Some((number, tick)) = self.show else {
            return FIRST;
        };
        let begins = begins(periods);
        if !begins.contains(&tick) {
            let (tick, last) = (grouped(tick), grouped(*begins.end()));
            let why = format!("{tick} ms is too late for the periods to be shown: at most {last}");
            self.mistakes.add(number, SHOW.bad(why));
        }
        tick
    }
}

fn too_late(tick: u64, last: u64) -> String {
    let (tick, last) = (grouped(tick), grouped(last));
    format!("{tick} ms is behind the end of the day, which is at {last} ms")
}
