//! The report to be read.

use super::Report;
use crate::damage;
use crate::tally::{REMOVALS, TOTALS};
use carv_compare::board::call::Op;
use carv_compare::board::numbers;
use carv_text::figures::{counted, grouped};
use std::fmt;

/// Answers that never came, of which so many are shown.
const SHOWN: usize = 8;

impl fmt::Display for Report {
    fn fmt(&self, f: &mut fmt::Formatter<'_>) -> fmt::Result {
        self.write_calls(f)?;
        self.write_refusals(f)?;
        self.write_boards(f)?;
        self.write_damaged(f)?;
        if let Some(found) = &self.difference {
            writeln!(f, "difference: seed {}, {found}\n", self.options.seed)?;
        }
        if self.is_interrupted {
            let (calls, limit) = (grouped(self.tally.total()), self.options.limit);
            writeln!(
                f,
                "interrupted behind call {calls}, before its limit of {limit}"
            )?;
        }
        writeln!(f, "to repeat it: {}", self.repeating())?;
        write!(
            f,
            "seed {}, {:.1} s: {} ({} a second), {}, {}",
            self.options.seed,
            self.time.as_secs_f64(),
            counted(self.tally.total(), "call"),
            grouped(self.calls_a_second()),
            counted(self.damaged.areas(), "damaged area"),
            counted(self.differences(), "difference"),
        )
    }
}

/// The parts of the text.
impl Report {
    fn write_calls(&self, f: &mut fmt::Formatter<'_>) -> fmt::Result {
        let [call, accepted, refused] = ["call", "accepted", "refused"];
        writeln!(f, "{call:20}{accepted:>14}{refused:>14}   with")?;
        for op in Op::ALL.iter().copied() {
            let numbers = self.tally.numbers(Some(op)).filter(|(n, _)| *n > 0);
            let numbers: Vec<String> = numbers
                .map(|(number, count)| format!("{number}: {}", grouped(count)))
                .collect();
            let accepted = grouped(self.tally.of(op, 0));
            let refused = grouped(self.tally.refused(op));
            let (name, numbers) = (op.name(), numbers.join("  "));
            let line = format!("{name:20}{accepted:>14}{refused:>14}   {numbers}");
            writeln!(f, "{}", line.trim_end())?;
        }
        let accepted = grouped(self.tally.with(0));
        let refused = grouped(self.refused());
        writeln!(f, "{:20}{accepted:>14}{refused:>14}\n", "all")
    }

    fn write_refusals(&self, f: &mut fmt::Formatter<'_>) -> fmt::Result {
        writeln!(f, "{:20}{:>14}   meaning", "refused with", "calls")?;
        for (refusal, count) in self.refusals() {
            let (number, count) = (refusal.number(), grouped(count));
            writeln!(f, "{number:<20}{count:>14}   {}", refusal.meaning())?;
        }
        self.write_missing(f)
    }

    /// The answers that never came.
    fn write_missing(&self, f: &mut fmt::Formatter<'_>) -> fmt::Result {
        let missing = self.tally.missing();
        let missing: Vec<String> = missing
            .map(|(op, n)| format!("{} {n}", op.name()))
            .collect();
        let all = numbers::all().count();
        let came = all - missing.len();
        write!(
            f,
            "Of {all} answers, a call with a number that it can give, {came} came"
        )?;
        if !missing.is_empty() {
            let shown = &missing[..missing.len().min(SHOWN)];
            write!(f, "; not: {}", shown.join(", "))?;
        }
        match missing.len().saturating_sub(SHOWN) {
            0 => writeln!(f, ".")?,
            more => writeln!(f, " and {more} more.")?,
        }
        // Else it may be what differs.
        if self.difference.is_none() {
            writeln!(f, "On a sound board no call gave another number.")?;
        }
        writeln!(f)
    }

    fn write_boards(&self, f: &mut fmt::Formatter<'_>) -> fmt::Result {
        let reached = self.tally.reached();
        for (name, figure) in [
            ("boards opened", self.tally.of(Op::Open, 0)),
            ("most objects", reached.objects as u64),
            ("most threads", reached.threads as u64),
            ("longest queue", reached.queue as u64),
            ("levels of budgets", reached.levels as u64),
            ("kills on a board", reached.kills),
            ("plannings to idle", reached.plans_to_idle),
        ] {
            writeln!(f, "{name:20}{:>14}", grouped(figure))?;
        }
        writeln!(f)?;
        self.write_removals(f)
    }

    /// The removals by what they were of, and when their payers saw them.
    fn write_removals(&self, f: &mut fmt::Formatter<'_>) -> fmt::Result {
        let heads = ["payer due", "not due", "clock fell"].map(str::to_string);
        let counted = REMOVALS.map(|(name, is_meant)| {
            let counts = self.tally.removals_by_clock(is_meant);
            (name, counts.map(grouped))
        });
        for (name, [due, not_due, fell]) in [("removals", heads)].into_iter().chain(counted) {
            writeln!(f, "{name:20}{due:>14}{not_due:>14}{fell:>14}")?;
        }
        writeln!(f)?;
        self.write_totals(f)
    }

    /// The totals by whose they were.
    fn write_totals(&self, f: &mut fmt::Formatter<'_>) -> fmt::Result {
        writeln!(f, "{:20}{:>14}", "totals", "read")?;
        for (name, whose) in TOTALS {
            writeln!(f, "{name:20}{:>14}", grouped(self.tally.totals(whose)))?;
        }
        writeln!(f)
    }

    fn write_damaged(&self, f: &mut fmt::Formatter<'_>) -> fmt::Result {
        let Self { damaged, .. } = self;
        if damaged.areas() == 0 {
            return writeln!(f, "No area was damaged.\n");
        }
        writeln!(
            f,
            "{} in one of {} ways, {} on them; no longer sound: {}, by the rule broken first:",
            counted(damaged.areas(), "damaged area"),
            damage::ALL.len(),
            counted(damaged.calls(), "call"),
            grouped(damaged.unsound())
        )?;
        let rules: Vec<(&str, u64)> = self.rules().collect();
        let half = rules.len().div_ceil(2);
        let cell = |(rule, count): &(&str, u64)| format!("{:>9}  {rule:47}", grouped(*count));
        for (place, left) in rules[..half].iter().enumerate() {
            let right = rules.get(half + place).map(cell).unwrap_or_default();
            writeln!(f, "{}", format!("{}{right}", cell(left)).trim_end())?;
        }
        writeln!(f)
    }
}
