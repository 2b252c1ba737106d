//! What the reader of a page wants to know first.

use crate::report::Report;
use crate::rows::{BoardRow, ServiceRow};
use carv::ObjectId;
use carv_ledger::{Overspent, PERIOD};
use carv_page::{Answer, Mark, Question};
use carv_text::figures::ms;

/// What the answers mean by a missed period.
const MISSED: &str =
    "A period of 10 ms is missed if the service wanted more than it got although it had time.";

impl Report {
    /// The questions, with the answers.
    pub(super) fn questions(&self) -> Vec<Question> {
        vec![
            Question {
                text: "Did each service get its share in every 10 ms in which it wanted it?"
                    .to_string(),
                answers: self.got_their_shares(),
                note: match self
                    .services
                    .iter()
                    .any(|it| it.figures.total.missed.is_some())
                {
                    true => MISSED.to_string(),
                    false => String::new(),
                },
            },
            Question {
                text: "Did every budget, with all below it, keep to its share in every 10 ms?"
                    .to_string(),
                answers: vec![self.kept_to_shares()],
                note: String::new(),
            },
        ]
    }

    fn got_their_shares(&self) -> Vec<Answer> {
        if self.services.is_empty() {
            return vec![Answer {
                mark: Mark::Unknown,
                text: "No service was seen: no tick was accepted while a budget had a thread."
                    .to_string(),
            }];
        }
        self.services.iter().map(ServiceRow::told).collect()
    }

    fn kept_to_shares(&self) -> Answer {
        let board = &self.board;
        let (mark, mut text) = match (&board.overspent, board.knows_spent) {
            (_, false) => (
                Mark::Unknown,
                "What was spent isn't known: the board was not opened by the list.".to_string(),
            ),
            (None, true) => (
                Mark::Good,
                "No period was overspent, by any budget with all below it.".to_string(),
            ),
            (Some(found), true) => (Mark::Bad, self.overspent(found)),
        };
        text += &fell(board).unwrap_or_default();
        Answer { mark, text }
    }

    fn overspent(&self, found: &Overspent) -> String {
        format!(
            "{} with all below it spent {} of its {} in the period from {}.",
            self.label(ObjectId(found.budget)),
            in_ms(found.spent),
            in_ms(found.allowance),
            in_ms(found.period * PERIOD),
        )
    }
}

impl ServiceRow {
    fn told(&self) -> Answer {
        let total = &self.figures.total;
        let mark = match (total.periods_judged, total.missed) {
            (0, _) => Mark::Unknown,
            (_, Some(_)) => Mark::Bad,
            (_, None) => Mark::Good,
        };
        Answer {
            mark,
            text: format!("{}.", self.answer()),
        }
    }
}

/// Where the clock fell, without which nothing can be overspent.
fn fell(board: &BoardRow) -> Option<String> {
    let fall = board.clock_fell?;
    Some(format!(
        " The clock fell at line {}, from {} to {}, and what is proved of periods is for clocks that never fall.",
        fall.place,
        in_ms(fall.from),
        in_ms(fall.to)
    ))
}

/// A time in ms.
pub(super) fn in_ms(ns: u128) -> String {
    u64::try_from(ns).map_or_else(|_| format!("{ns} ns"), |ns| format!("{} ms", ms(ns)))
}
