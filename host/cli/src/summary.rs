//! What became of a list's lines.

use crate::figures::{count, grouped, wrapped};
use crate::status::Status;
use carv::Refusal;
use carv_text::json::Json;
use std::collections::BTreeMap;

/// Counts of a list.
#[derive(Clone, Debug, Default)]
pub struct Summary {
    /// Lines that were read.
    pub lines: u64,
    /// Calls that were accepted.
    pub accepted: u64,
    /// Lines that say nothing that the tool understands.
    pub bad_lines: u64,
    /// The bad line at which the tool stopped.
    pub stopped_at: Option<u64>,
    /// The line behind which Ctrl-C ended the list.
    pub interrupted_at: Option<u64>,
    refused: BTreeMap<u64, u64>,
}

impl Summary {
    /// Counts a refused call.
    pub fn refuse(&mut self, refusal: Refusal) {
        *self.refused.entry(refusal.number()).or_default() += 1;
    }

    /// Calls that were refused.
    pub fn refused(&self) -> u64 {
        self.refused.values().sum()
    }

    /// Calls that were made.
    pub fn calls(&self) -> u64 {
        self.accepted + self.refused()
    }

    /// The exit status of a list with these counts.
    pub fn status(&self) -> Status {
        match (self.bad_lines, self.refused()) {
            _ if self.interrupted_at.is_some() => Status::Interrupted,
            (0, 0) => Status::Fine,
            (0, _) => Status::Refused,
            _ => Status::BadLine,
        }
    }

    fn refusals(&self) -> impl Iterator<Item = (Refusal, u64)> {
        let refused = self.refused.iter();
        refused.map(|(number, count)| (Refusal::from_number(*number), *count))
    }

    /// The counts in lines of text.
    pub fn text(&self) -> String {
        let mut text = format!(
            "{}, {}: {} accepted, {} refused; {}",
            count(self.lines, "line", "lines"),
            count(self.calls(), "call", "calls"),
            grouped(self.accepted),
            grouped(self.refused()),
            count(self.bad_lines, "bad line", "bad lines"),
        );
        if let Some(line) = self.stopped_at {
            text += &format!("; stopped at line {line}");
        }
        if let Some(line) = self.interrupted_at {
            text += &format!("; interrupted behind line {line}");
        }
        text.push('\n');
        for (refusal, times) in self.refusals() {
            let (number, meaning) = (refusal.number(), refusal.meaning());
            let times = count(times, "time", "times");
            text += &wrapped(&format!("refused with {number}, {times}: {meaning}."), 2);
            text += &wrapped(refusal.advice(), 4);
        }
        text
    }

    /// The counts as JSON.
    pub fn json(&self) -> Json {
        let refusals = self.refusals().map(|(refusal, count)| {
            Json::object([
                ("number", refusal.number().into()),
                ("count", count.into()),
                ("meaning", refusal.meaning().into()),
            ])
        });
        let mut summary = vec![
            ("lines", self.lines.into()),
            ("calls", self.calls().into()),
            ("accepted", self.accepted.into()),
            ("refused", self.refused().into()),
            ("refusals", Json::list(refusals)),
            ("bad_lines", self.bad_lines.into()),
            ("stopped_at", self.stopped_at.into()),
        ];
        let interrupted = self
            .interrupted_at
            .map(|line| ("interrupted_at", line.into()));
        summary.extend(interrupted);
        Json::object([("summary", Json::object(summary))])
    }
}

#[cfg(test)]
mod tests {
    use super::*;

    #[test]
    fn statuses() {
        let mut summary = Summary::default();
        assert_eq!(summary.status(), Status::Fine);
        summary.refuse(Refusal::Limit);
        summary.refuse(Refusal::Limit);
        summary.refuse(Refusal::Missing);
        assert_eq!(summary.status(), Status::Refused);
        assert_eq!((summary.refused(), summary.calls()), (3, 3));
        summary.bad_lines = 1;
        assert_eq!(summary.status(), Status::BadLine);
        summary.interrupted_at = Some(4);
        assert_eq!(summary.status(), Status::Interrupted);
    }
}
