//! The short form of a report: the answers alone.

use crate::answer::{MISSED, answer};
use crate::report::figures_of_services;
use crate::rows::Figures;
use crate::watch::Watch;
use carv_text::figures::{counted, wrapped};
use carv_text::json::Json;
use carv_watch::Rows;

/// Most answers that stand in the text.
const SHOWN: usize = 8;
/// Characters in a line.
const WIDTH: usize = 100;

/// The answers for the services, by their names: those first that missed a period.
#[derive(Clone, Debug)]
pub struct Short {
    /// The services with what ticks show of them.
    pub services: Vec<(String, Figures)>,
}

impl Short {
    /// Reads what was watched; a whole report reads more of it.
    pub fn new(watch: &Watch) -> Self {
        Self::of(figures_of_services(&Rows::new(watch.timeline())).into_iter())
    }

    pub(crate) fn of(services: impl Iterator<Item = (String, Figures)>) -> Self {
        let mut services: Vec<(String, Figures)> = services.collect();
        services.sort_by_key(|(_, figures)| figures.total.missed.is_none());
        Self { services }
    }

    /// In lines of text, each indented by two blanks; nothing if no service was seen at a tick.
    pub fn text(&self) -> String {
        let (judged, others): (Vec<_>, Vec<_>) = self
            .services
            .iter()
            .partition(|(_, figures)| figures.total.periods_judged > 0);
        let mut text = String::new();
        for (name, figures) in judged.iter().take(SHOWN) {
            text += &indented(&answer(name, figures));
        }
        let missed = |(_, figures): &&&(String, Figures)| figures.total.missed.is_some();
        if judged.len() > SHOWN {
            let more = &judged[SHOWN..];
            let services = counted(more.len() as u64, "service");
            text += &indented(&match more.iter().filter(missed).count() {
                0 => format!("{services} more, none of which missed a period"),
                missed => format!("{services} more, {missed} of which MISSED periods"),
            });
        }
        if !others.is_empty() {
            let services = counted(others.len() as u64, "service");
            text += &indented(&format!(
                "{services} seen in no whole period, so nothing can be said"
            ));
        }
        text + &self.legend()
    }

    /// What is meant by missed, in a line, if something was.
    pub(crate) fn legend(&self) -> String {
        let mut services = self.services.iter();
        match services.any(|(_, figures)| figures.total.missed.is_some()) {
            true => indented(MISSED),
            false => String::new(),
        }
    }

    /// As JSON, a list; empty if no service was seen at a tick.
    pub fn json(&self) -> Json {
        let services = self.services.iter().map(|(name, figures)| {
            let total = &figures.total;
            Json::object([
                ("name", name.as_str().into()),
                ("answer", answer(name, figures).into()),
                ("periods_judged", total.periods_judged.into()),
                ("periods_used_up", total.periods_used_up.into()),
                ("periods_missed", total.periods_missed().into()),
                (
                    "periods_wanted_no_more",
                    total.periods_wanted_no_more.into(),
                ),
            ])
        });
        Json::list(services)
    }
}

/// An answer in lines, those behind the first further to the right.
pub(crate) fn indented(answer: &str) -> String {
    let answer = plain(answer);
    if answer.chars().count() <= WIDTH - 2 {
        return format!("  {answer}\n");
    }
    let lines = wrapped(&answer, WIDTH - 4);
    format!("  {}\n", lines.join("\n    "))
}

/// A text without control characters, and without those that turn the direction of the text around
/// them, as a name may have them.
pub(crate) fn plain(text: &str) -> String {
    let turns = |sign: char| matches!(sign, '\u{202a}'..='\u{202e}' | '\u{2066}'..='\u{2069}');
    text.replace(|sign: char| sign.is_control() || turns(sign), "?")
}

#[cfg(test)]
mod tests {
    use super::*;

    #[test]
    fn names_keep_to_their_line() {
        assert_eq!(plain("a\nb\u{1b}\u{202e}c\u{2066} é 号"), "a?b??c? é 号");
    }
}
