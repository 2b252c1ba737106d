//! A question with its answers: what the reader came for.

use crate::html::Html;
use crate::page::{Answer, Mark, Question};

/// A question, what its answers come to, and the answers. Marks are words in boxes: the colours say
/// nothing more.
pub fn write(html: &mut Html, place: usize, question: &Question) {
    let id = format!("question-{place}");
    let attributes = [("class", "question"), ("aria-labelledby", id.as_str())];
    html.element("section", &attributes, |html| {
        html.leaf("h2", &[("id", &id)], &question.text);
        if question.answers.len() != 1 {
            all(html, &question.answers);
        }
        html.element("ul", &[("class", "answers")], |html| {
            for answer in &question.answers {
                html.element("li", &[("class", class(answer.mark))], |html| {
                    html.leaf("strong", &[("class", "mark")], word(answer.mark));
                    html.leaf("span", &[], &answer.text);
                });
            }
        });
        if !question.note.is_empty() {
            html.leaf("p", &[("class", "note")], &question.note);
        }
    });
}

/// What several answers come to, and for how many it is so.
fn all(html: &mut Html, answers: &[Answer]) {
    let marks = answers.iter().map(|answer| answer.mark);
    let mark = marks.max().unwrap_or(Mark::Unknown);
    let class = format!("all {}", class(mark));
    html.element("p", &[("class", &class)], |html| {
        html.leaf("strong", &[("class", "mark")], word(mark));
        html.text(&format!(" {}", how_many(answers, mark)));
    });
}

fn how_many(answers: &[Answer], mark: Mark) -> String {
    let alike = answers.iter().filter(|answer| answer.mark == mark).count();
    match (alike, answers.len()) {
        (_, 0) => "There is nobody of whom to ask it.".to_string(),
        (2, 2) => "for both".to_string(),
        (alike, number) if alike == number => format!("for all {number}"),
        (alike, number) => format!("for {alike} of {number}"),
    }
}

fn word(mark: Mark) -> &'static str {
    match mark {
        Mark::Good => "yes",
        Mark::Unknown => "not known",
        Mark::Bad => "NO",
    }
}

fn class(mark: Mark) -> &'static str {
    match mark {
        Mark::Good => "good",
        Mark::Unknown => "unknown",
        Mark::Bad => "bad",
    }
}
