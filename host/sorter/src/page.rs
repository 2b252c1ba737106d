//! The day as a page: its report, what was planned, what was checked, and the picture.

use crate::picture;
use crate::plan::Service;
use crate::record::Day;
use crate::report::{About, checks};
use carv_page::{Answer, Fact, Mark, Question, Refusal, command, tool};
use carv_report::Report;
use carv_text::figures::{counted, grouped, ms};
use std::collections::BTreeMap;

/// The page, its picture ms by ms from the period of this tick on.
pub fn html(day: &Day, from: u64) -> String {
    let title = "A day in small of the coin sorter".to_string();
    let about = carv_report::About {
        title: day.plan.title.clone().unwrap_or(title),
        asked: asked(day),
        questions: questions(day),
        svg: Some(picture::draw(day, from)),
        refusals: refusals(&day.calls),
        tool: tool("sorter", env!("CARGO_PKG_VERSION")),
    };
    Report::new(&day.watch).page(&day.timeline, about).html()
}

/// What was planned.
fn asked(day: &Day) -> Vec<Fact> {
    let mut facts = vec![
        Fact::code("command", command("sorter")),
        Fact::new("planned", counted(day.plan.periods, "period") + " of 10 ms"),
    ];
    facts.extend(day.plan.services.iter().map(service));
    facts
}

fn service(service: &Service) -> Fact {
    let share = ms(service.limits.cpu_ns);
    let memory = grouped(service.limits.memory_bytes);
    let text = format!("{share} ms of every 10 ms, {memory} bytes");
    Fact::new(&format!("service {}", service.name), text)
}

/// Did the day go as planned, and does what must hold of the board hold?
fn questions(day: &Day) -> Vec<Question> {
    let answers = |about: About| -> Vec<Answer> {
        let checks = checks(day).into_iter();
        let checks = checks.filter(|check| check.about == about);
        let answer = |(claim, holds): (String, bool)| Answer {
            mark: if holds { Mark::Good } else { Mark::Bad },
            text: claim,
        };
        checks
            .map(|check| answer((check.claim, check.holds)))
            .collect()
    };
    let mut planned = answers(About::Plan);
    planned.extend(stayed_off(day));
    let questions = [
        ("Did the day go as the file expects?", planned),
        (
            "Does what must hold of the board hold?",
            answers(About::Board),
        ),
    ];
    let questions = questions
        .into_iter()
        .filter(|(_, answers)| !answers.is_empty());
    let question = |(text, answers): (&str, Vec<Answer>)| Question {
        text: text.to_string(),
        answers,
        note: String::new(),
    };
    questions.map(question).collect()
}

/// The services that were refused to be switched on.
fn stayed_off(day: &Day) -> Vec<Answer> {
    let services = day.noted.iter().zip(&day.plan.services);
    let refused = services.filter_map(|(noted, service)| {
        let (tick, refused) = noted.refused.as_ref()?;
        let (name, tick) = (&service.name, grouped(*tick));
        let (step, refusal, advice) = (refused.step, refused.refusal, &refused.advice);
        Some(Answer {
            mark: Mark::Bad,
            text: format!(
                "{name} stayed off at {tick} ms: {step} was {refusal}. {}",
                advice.replace('\n', " ")
            ),
        })
    });
    refused.collect()
}

/// The refused calls of a list: before each stands a comment with its number.
fn refusals(calls: &[String]) -> Vec<Refusal> {
    let mut refusals: BTreeMap<u64, Refusal> = BTreeMap::new();
    for (line, pair) in (2..).zip(calls.windows(2)) {
        if let Some(number) = refused_with(&pair[0]) {
            let refusal = carv::Refusal::from_number(number);
            let noted = refusals.entry(number).or_insert_with(|| Refusal {
                number,
                meaning: refusal.meaning().to_string(),
                advice: refusal.advice().to_string(),
                times: 0,
                first: format!("line {} of the list of calls: {}", grouped(line), pair[1]),
            });
            noted.times += 1;
        }
    }
    refusals.into_values().collect()
}

fn refused_with(line: &str) -> Option<u64> {
    let behind = line.strip_prefix("# refused with ")?;
    behind.split(':').next()?.parse().ok()
}

#[cfg(test)]
mod tests {
    use super::*;
    use crate::{day, dayfile};

    /// The camera's carve-out, with its line in what `--calls` writes.
    #[test]
    fn the_refusal_of_the_day() {
        let day = day::run(&dayfile::sorter()).expect("only the carve-out is refused");
        let found = refusals(&day.calls);
        assert_eq!(found.len(), 1);
        assert_eq!((found[0].number, found[0].times), (12, 1));
        let call = "create_budget 1 2000000 65536 500000000";
        let line = day.calls.iter().position(|line| line == call);
        let line = grouped(line.expect("the carve-out") as u64 + 1);
        let first = format!("line {line} of the list of calls: {call}");
        assert_eq!(found[0].first, first);
    }
}
