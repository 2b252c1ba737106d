//! `carv check`: is a kept board sound, and if not, which rules does it break and where?

use crate::area::AreaFile;
use crate::figures::{count, grouped};
use crate::kept_names;
use crate::names::Names;
use crate::options::Kept;
use crate::output::Output;
use crate::status::{Failure, Status};
use carv::{Board, MOST_EXITS, MOST_OBJECTS, MOST_THREADS};
use carv_layout::area::{self, Table};
use carv_layout::sound::{self, Fault};
use carv_text::json::Json;
use std::fmt::Write;

/// Checks a file and answers the exit status.
pub fn check(kept: &Kept, out: &mut Output) -> Result<Status, Failure> {
    let file = AreaFile::read(&kept.path)?;
    let verdict = Verdict {
        wrong_length: file.wrong_length(),
        table: area::read(&file.bytes),
        faults: sound::faults(&file.bytes),
        is_sound_to_the_library: Board::from_bytes(&file.bytes).is_ok(),
        names: kept_names::of(kept),
    };
    if kept.json {
        out.line(verdict.json(&file.bytes))?;
    } else {
        out.text(verdict.text(&file.bytes))?;
    }
    Ok(verdict.status())
}

/// What the rules and the library say of an area.
struct Verdict {
    wrong_length: Option<String>,
    table: Option<Table>,
    faults: Vec<Fault>,
    is_sound_to_the_library: bool,
    names: Names,
}

const DISAGREE: &str = "the proved library and the rules disagree; report this with the file";

impl Verdict {
    fn status(&self) -> Status {
        match (self.faults.is_empty(), self.is_sound_to_the_library) {
            (true, true) => Status::Fine,
            (false, false) => Status::Unsound,
            _ => Status::Disagree,
        }
    }

    fn count(&self) -> u64 {
        let faults = self.faults.iter().map(|fault| 1 + fault.more as u64);
        faults.sum()
    }

    fn text(&self, area: &[u8]) -> String {
        let mut text = match (&self.wrong_length, &self.table) {
            (Some(why), _) => format!("not sound: {why}\n"),
            (None, Some(table)) if self.faults.is_empty() => format!("sound: {}\n", figures(table)),
            _ => self.list(area),
        };
        if self.status() == Status::Disagree {
            let says = if self.is_sound_to_the_library {
                "sound"
            } else {
                "not sound"
            };
            text += &format!("carv_is_sound says: {says}. But {DISAGREE}.\n");
        }
        text
    }

    /// The faults, below the rules that they break.
    fn list(&self, area: &[u8]) -> String {
        let mut text = format!("not sound: {}\n", count(self.count(), "fault", "faults"));
        let mut rule = "";
        for fault in &self.faults {
            // Writing to a string can't fail.
            if fault.rule != rule {
                rule = fault.rule;
                let _ = writeln!(text, "\nbroken rule: {rule}");
            }
            let (offset, name) = (fault.offset(), self.word(area, fault));
            let says = self.names.put_into(&fault.says);
            let _ = writeln!(text, "  byte {offset} ({name}): {says}");
            if fault.more > 0 {
                let more = count(fault.more as u64, "more fault", "more faults");
                let _ = writeln!(text, "  and {more} of this rule");
            }
        }
        text
    }

    /// What the word is that is at fault.
    fn word(&self, area: &[u8], fault: &Fault) -> String {
        self.names.put_into(&area::name(area, fault.word))
    }

    fn json(&self, area: &[u8]) -> Json {
        let faults = self.faults.iter().map(|fault| {
            let name = match &self.wrong_length {
                None => self.word(area, fault),
                Some(_) => "length".to_string(),
            };
            Json::object([
                ("rule", fault.rule.into()),
                ("offset", fault.offset().into()),
                ("word", name.into()),
                (
                    "fault",
                    self.wrong_length
                        .clone()
                        .unwrap_or(self.names.put_into(&fault.says))
                        .into(),
                ),
                ("more", fault.more.into()),
            ])
        });
        let check = Json::object([
            ("sound", self.faults.is_empty().into()),
            ("library", self.is_sound_to_the_library.into()),
            ("agree", (self.status() != Status::Disagree).into()),
            ("count", self.count().into()),
            ("faults", Json::list(faults)),
        ]);
        Json::object([("check", check)])
    }
}

/// How much of the board is in use.
pub fn figures(table: &Table) -> String {
    let budgets = table.objects.iter();
    let budgets = budgets
        .filter(|row| row.kind == carv_layout::BUDGET)
        .count();
    let of = |used: usize, most: usize| format!("{used} of {most}");
    format!(
        "{} objects, {} among them, {} threads, {} in the ready queue, {} ends logged, next id {}",
        of(table.objects.len(), MOST_OBJECTS),
        count(budgets as u64, "budget", "budgets"),
        of(table.threads.len(), MOST_THREADS),
        table.queue.len(),
        of(table.exits.len(), MOST_EXITS),
        grouped(table.next_id),
    )
}

#[cfg(test)]
mod tests {
    use super::*;

    fn verdict(faults: usize, is_sound_to_the_library: bool) -> Verdict {
        let fault = Fault {
            rule: "object ids rise",
            word: 2,
            says: "id 1 stands behind id 1".to_string(),
            more: 0,
        };
        Verdict {
            wrong_length: None,
            table: Some(Table::default()),
            faults: vec![fault; faults],
            is_sound_to_the_library,
            names: Names::default(),
        }
    }

    #[test]
    fn a_disagreement_is_told() {
        let area = vec![0; area::BYTES];
        for (faults, library, status) in [
            (0, true, Status::Fine),
            (1, false, Status::Unsound),
            (0, false, Status::Disagree),
            (1, true, Status::Disagree),
        ] {
            let verdict = verdict(faults, library);
            assert_eq!(verdict.status(), status);
            let disagree = status == Status::Disagree;
            assert_eq!(verdict.text(&area).contains("report this"), disagree);
            let json = verdict.json(&area).to_string();
            assert_eq!(json.contains("\"agree\":false"), disagree);
        }
    }
}
