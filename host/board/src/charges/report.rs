//! How often laws were run, and which cases they met.

use super::cases::{CASES, Case};
use super::copies::Copies;
use super::laws::{Law, Met};
use std::collections::BTreeMap;
use std::fmt;

/// How often each law was run on areas that are sound, with all charges accepted or some refused,
/// and on others; which areas there were, and which cases the laws met on sound ones.
#[derive(Clone, Debug, Default, PartialEq, Eq)]
pub struct Report {
    laws: BTreeMap<Law, [u64; 3]>,
    cases: BTreeMap<Case, u64>,
    calls: u64,
}

impl Report {
    /// How often a law was run, with all charges accepted, with some refused, and on an area that
    /// isn't sound.
    pub fn law(&self, law: Law) -> [u64; 3] {
        self.laws.get(&law).copied().unwrap_or_default()
    }

    /// How often a case came.
    pub fn case(&self, case: Case) -> u64 {
        self.cases.get(&case).copied().unwrap_or(0)
    }

    /// Calls on copies.
    pub fn calls(&self) -> u64 {
        self.calls
    }

    pub(super) fn count(&mut self, case: Case) {
        *self.cases.entry(case).or_default() += 1;
    }

    pub(super) fn count_law(&mut self, law: Law, met: Met, copies: &Copies) {
        self.calls += copies.calls();
        let counts = self.laws.entry(law).or_default();
        if !copies.is_sound {
            counts[2] += 1;
            return;
        }
        counts[usize::from(!met.is_accepted)] += 1;
        for case in met.cases {
            self.count(case);
        }
    }
}

impl fmt::Display for Report {
    fn fmt(&self, f: &mut fmt::Formatter<'_>) -> fmt::Result {
        writeln!(
            f,
            "{:48}{:>12}{:>12}{:>12}",
            "law", "accepted", "refused", "unsound"
        )?;
        for law in Law::ALL {
            let [accepted, refused, unsound] = self.law(law);
            let name = law.name();
            writeln!(f, "{name:48}{accepted:>12}{refused:>12}{unsound:>12}")?;
        }
        writeln!(f, "\n{:48}{:>12}", "case", "came")?;
        for (case, name) in CASES {
            writeln!(f, "{name:48}{:>12}", self.case(case))?;
        }
        write!(f, "\n{} calls", self.calls)
    }
}

#[cfg(test)]
mod tests {
    use super::*;
    use crate::area;
    use carv_compare::board::make::charge_more;
    use std::collections::BTreeSet;

    #[test]
    fn laws_cases_and_calls_are_counted() {
        let mut report = Report::default();
        let lent = vec![0; area::BYTES];
        for (is_sound, is_accepted) in [(true, true), (true, false), (true, false), (false, false)]
        {
            let mut copies = Copies::new(&lent, is_sound);
            copies.make(&[charge_more(1, 0), charge_more(1, 0)]);
            let cases = vec![Case::Root];
            let met = Met { is_accepted, cases };
            report.count_law(Law::Undo, met, &copies);
        }
        assert_eq!(report.law(Law::Undo), [1, 2, 1]);
        assert_eq!(report.law(Law::Split), [0; 3]);
        assert_eq!(report.case(Case::Root), 3, "only on sound areas");
        assert_eq!(report.calls(), 8);
    }

    #[test]
    fn every_law_and_case_has_its_line() {
        let mut report = Report::default();
        let mut expected = vec!["law accepted refused unsound".to_string()];
        for (place, law) in (1..).zip(Law::ALL) {
            report.laws.insert(law, [place, place + 10, place + 20]);
            let name = law.name();
            expected.push(format!("{name} {place} {} {}", place + 10, place + 20));
        }
        expected.extend([String::new(), "case came".to_string()]);
        for (place, (case, name)) in (100..).zip(CASES) {
            report.cases.insert(case, place);
            expected.push(format!("{name} {place}"));
        }
        report.calls = 7;
        expected.extend([String::new(), "7 calls".to_string()]);
        let text = report.to_string();
        let words = |line: &str| line.split_whitespace().collect::<Vec<_>>().join(" ");
        let found: Vec<String> = text.lines().map(words).collect();
        assert_eq!(found, expected);
        let names: BTreeSet<&str> = Law::ALL.map(Law::name).into_iter().collect();
        assert_eq!(names.len(), Law::ALL.len());
    }
}
