//! A report as a page: questions with their answers, and tables. The caller adds what was asked, the
//! picture and the refusals with their places.

mod questions;
mod tables;

use crate::report::Report;
use carv_page::{Event, Events, Fact, Page, Picture, Question, Refusal, Stamp, utc};
use carv_text::figures::{counted, grouped, ms};
use carv_watch::Timeline;
use std::time::SystemTime;

/// What a page has beside the report's own figures.
#[derive(Clone, Debug, Default)]
pub struct About {
    /// The title.
    pub title: String,
    /// What was asked: the list's name, the command and the like.
    pub asked: Vec<Fact>,
    /// What else the reader must know before the figures.
    pub questions: Vec<Question>,
    /// The picture, as SVG; none if no tick was seen.
    pub svg: Option<String>,
    /// The refusals, with where they came first.
    pub refusals: Vec<Refusal>,
    /// The program that makes the page, with its version.
    pub tool: String,
}

impl Report {
    /// The report as a page, with the events of this timeline. The stamp is that of the library that
    /// the program was linked with.
    pub fn page(&self, timeline: &Timeline, about: About) -> Page {
        let mut questions = self.questions();
        questions.extend(about.questions);
        let mut asked = about.asked;
        asked.extend(self.asked());
        Page {
            title: about.title,
            questions,
            asked,
            tables: self.tables(),
            picture: self.picture(about.svg),
            refusals: about.refusals,
            events: events(timeline),
            stamp: Stamp::read(carv::LIBRARY_FNV1A),
            tool: about.tool,
            made: utc(SystemTime::now()),
        }
    }

    /// What the figures are of.
    fn asked(&self) -> Vec<Fact> {
        let board = &self.board;
        let mut facts = Vec::new();
        if let (2.., Some(line)) = (board.openings, board.opened) {
            let text = format!(
                "{}; answers, figures and picture are from the last on, at line {line}",
                grouped(board.openings)
            );
            facts.push(Fact::new("openings", text));
        }
        facts.push(Fact::new("ticks", self.ticks()));
        if board.ticks.is_some() {
            let whole = grouped(board.periods - board.periods_partial);
            let periods = grouped(board.periods);
            let text = format!("{periods} of 10 ms, {whole} of them seen as a whole");
            facts.push(Fact::new("periods", text));
        }
        facts
    }

    fn ticks(&self) -> String {
        let board = &self.board;
        let Some(ticks) = &board.ticks else {
            return "none was accepted".to_string();
        };
        let (first, last) = (grouped(*ticks.start()), grouped(*ticks.end()));
        let mut text = format!("{} of 1 ms, {first} to {last}", grouped(board.ticks_seen));
        if board.ticks_missing > 0 {
            let (missing, gaps) = (grouped(board.ticks_missing), counted(board.gaps, "gap"));
            text += &format!("; {missing} missing between them, in {gaps}");
        }
        if board.ticks_repeated > 0 {
            text += &format!("; {} came again", grouped(board.ticks_repeated));
        }
        text
    }

    fn picture(&self, svg: Option<String>) -> Picture {
        match svg {
            None => Picture::Missing("There is no picture: no tick was accepted.".to_string()),
            Some(svg) => Picture::Drawn {
                svg,
                caption: "Above, ten periods ms by ms; below, all periods, against the shares. The tables have the figures.".to_string(),
                alternative: self.alternative(),
            },
        }
    }

    /// What the picture says, for readers who don't see it.
    fn alternative(&self) -> String {
        let services = self.services.iter().map(|service| {
            let total = &service.figures.total;
            let (low, high) = total.shares_ns.unwrap_or_default();
            let share = crate::answer::range(low, high);
            let (name, average) = (&service.name, total.average_ms());
            format!(
                "{name} got {average:.2} ms on average and {} ms at most of its {share} ms",
                ms(total.most_ns)
            )
        });
        let services: Vec<String> = services.collect();
        format!(
            "Who ran when, against the shares, in every 10 ms: {}.",
            services.join("; ")
        )
    }
}

fn events(timeline: &Timeline) -> Events {
    let (events, left_out) = timeline.events();
    let begins_with_0 = timeline.ticks().is_some_and(|ticks| *ticks.start() == 0);
    let events = events.iter().map(|event| Event {
        ms: (event.tick > 0 || begins_with_0).then_some(event.tick),
        text: event.text.clone(),
    });
    Events {
        events: events.collect(),
        left_out: left_out as u64,
    }
}
