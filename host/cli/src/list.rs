//! A line of a list: a call, a name for a budget, or nothing.

use crate::call::{self, Argument, Call, Form, Meaning};
pub use carv_text::line::{BadLine, NoNumber, number};
use carv_text::nearest::nearest;

/// What a line says.
pub enum Line {
    /// Nothing: it is empty or a comment.
    Nothing,
    /// A call.
    Call(Call),
    /// A name for a budget.
    Name(u64, String),
}

/// The word that names a budget.
const NAME: &str = "name";
/// The form of its lines.
const NAME_FORM: &str = "name ID TEXT";

/// What this line says, its end included or not.
pub fn parse(line: &[u8]) -> Result<Line, BadLine> {
    let text = str::from_utf8(line).map_err(|why| {
        let place = why.valid_up_to() + 1;
        BadLine::new(format!("byte {place} of the line is no UTF-8 text"))
    })?;
    let said = text.split('#').next().unwrap_or_default().trim();
    let mut words = said.split_whitespace();
    let Some(first) = words.next() else {
        return Ok(Line::Nothing);
    };
    if first == NAME {
        return name(said);
    }
    let form = call::find(first).ok_or_else(|| BadLine::new(unknown(first)))?;
    let arguments = arguments(form, &words.collect::<Vec<_>>());
    let arguments = arguments.map_err(|why| BadLine {
        why,
        form: Some(form.to_string()),
    })?;
    Ok(Line::Call(Call::new(form, arguments)))
}

/// What is said of a name that no call has: also the form of the nearest call.
fn unknown(name: &str) -> String {
    let known = call::table().map(|form| form.name).chain([NAME]);
    let near = nearest(name, known).map(|near| {
        let form = call::find(near).map(Form::to_string);
        let form = form.unwrap_or(NAME_FORM.to_string());
        format!("; did you mean `{form}`?")
    });
    let near = near.unwrap_or_default();
    format!("there is no call `{}`{near}", shown(name))
}

fn arguments(form: &Form, words: &[&str]) -> Result<Vec<u64>, String> {
    let (needed, most) = (form.needed(), form.arguments.len());
    if words.len() < needed || words.len() > most {
        let wanted = match most {
            0 => "no arguments".to_string(),
            1 => "1 argument".to_string(),
            _ if needed == most => format!("{most} arguments"),
            _ => format!("{needed} to {most} arguments"),
        };
        let name = form.name;
        return Err(format!("`{name}` takes {wanted}, not {}", words.len()));
    }
    let arguments = form.arguments.iter().zip(words);
    arguments
        .map(|(argument, word)| value(argument, word))
        .collect()
}

fn value(argument: &Argument, word: &str) -> Result<u64, String> {
    let Argument { name, meaning, .. } = argument;
    let words = meaning.words();
    if let Some((_, code)) = words.iter().find(|(known, _)| *known == word) {
        return Ok(*code);
    }
    let value = number(word).map_err(|why| match why {
        NoNumber::Word if !words.is_empty() => {
            let known: Vec<&str> = words.iter().map(|(known, _)| *known).collect();
            let known = known.join(", ");
            format!("{name} `{}` is neither a number nor {known}", shown(word))
        }
        why => format!("{name} `{}` {why}", shown(word)),
    })?;
    match (meaning, value) {
        (Meaning::Flag, 2..) => Err(format!("{name} is {value}, it must be 0 or 1")),
        _ => Ok(value),
    }
}

fn name(said: &str) -> Result<Line, BadLine> {
    let bad = |why: String| BadLine {
        why,
        form: Some(NAME_FORM.to_string()),
    };
    let rest = said[NAME.len()..].trim_start();
    let (id, text) = match rest.split_once(char::is_whitespace) {
        Some((id, text)) => (id, text.trim_start()),
        None => (rest, ""),
    };
    if text.is_empty() {
        return Err(bad("`name` takes an id and a text".to_string()));
    }
    if text.chars().any(char::is_control) {
        return Err(bad("the name has a control character".to_string()));
    }
    let argument = Argument {
        name: "id",
        meaning: Meaning::Object,
        default: None,
    };
    let id = value(&argument, id).map_err(bad)?;
    Ok(Line::Name(id, text.to_string()))
}

/// A word of a bad line as a message may show it: short, without control characters.
fn shown(word: &str) -> String {
    const MOST: usize = 40;
    let mut text: String = word.chars().take(MOST).collect();
    if text.len() < word.len() {
        text.push_str("...");
    }
    text.replace(char::is_control, "?")
}

#[cfg(test)]
mod tests;
