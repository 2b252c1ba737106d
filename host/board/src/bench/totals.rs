//! The root's totals beside question 1 of the same board. The Rust has no such call.

use super::boards::Boards;
use super::case::Case;
use super::{Ids, Line};
use carv_compare::board::OBJECTS;
use carv_compare::board::make::{carve, totals as totals_of};
use carv_compare::random::Random;
use std::fmt;

/// Most times of question 1 that the root's totals may take.
pub const MOST: f64 = 3.0;

/// The head of the table.
pub const HEAD: &str = "\
Totals of a budget and all below it: the root's, with 511 budgets below it.

| 511 budgets              | ids       | totals, ns | question 1, ns | totals ÷ question 1 |
|--------------------------|-----------|-----------:|---------------:|--------------------:|";

/// A line of that table.
pub struct Row<'a>(pub &'a Line);

impl fmt::Display for Row<'_> {
    fn fmt(&self, f: &mut fmt::Formatter<'_>) -> fmt::Result {
        let Line {
            board, ids, port, ..
        } = self.0;
        write!(f, "| {board:24} | {ids:9} | {port:>10.0} |")?;
        let question = super::line::cell(self.0.question, 0);
        let ratio = super::line::cell(self.0.over_question(), 2);
        write!(f, " {question:>14} | {ratio:>19} |")
    }
}

/// How the budgets below the root lie.
#[derive(Clone, Copy, Debug, PartialEq, Eq)]
enum Tree {
    /// Each carved out of the one before it.
    Nested,
    /// All carved out of the root.
    SideBySide,
    /// Each carved out of any one before it.
    Random,
}

/// So much memory that it can be halved again and again.
const MEMORY: u64 = 1 << 62;

impl Tree {
    const fn name(self) -> &'static str {
        match self {
            Self::Nested => "nested in one another",
            Self::SideBySide => "side by side",
            Self::Random => "a random tree",
        }
    }

    /// Budgets in every place. Each keeps some CPU time and memory of its own, as long as there is.
    fn board(self, ids: Ids) -> Boards {
        let mut random = Random::new(1);
        let mut boards = Boards::open(MEMORY);
        let mut budgets = vec![1];
        for newest in 0..OBJECTS - 1 {
            boards.leave_gap(ids);
            let parent = match self {
                Self::Nested => budgets[newest],
                Self::SideBySide => 1,
                Self::Random => random.of(&budgets),
            };
            let account = boards.account(parent);
            let (cpu, memory) = match self {
                Self::Nested => (account.cpu_left - 10_000, account.memory_free() - 256),
                Self::SideBySide => (10_000, 4_096),
                Self::Random => (account.cpu_left / 2, account.memory_free() / 2),
            };
            budgets.push(boards.make(carve(parent, cpu, memory, 0)));
        }
        boards
    }
}

const CASES: [(Tree, Ids); 7] = [
    (Tree::Nested, Ids::Dense),
    (Tree::Nested, Ids::Far),
    (Tree::SideBySide, Ids::Dense),
    (Tree::SideBySide, Ids::Far),
    (Tree::Random, Ids::Dense),
    (Tree::Random, Ids::Gaps),
    (Tree::Random, Ids::Far),
];

/// Times the root's totals. `told` gets each line as soon as it is measured.
pub fn totals(mut told: impl FnMut(Line)) {
    for (tree, ids) in CASES {
        let case = Case {
            board: tree.name().to_string(),
            ids,
            name: "totals",
            parts: 1.0,
            questions: 1.0,
        };
        told(case.alone(tree.board(ids).port, totals_of(1)));
    }
}

#[cfg(test)]
mod tests {
    use super::*;
    use crate::area::{self, ObjectRow};
    use crate::bench::boards::OBJECT_GUESSES;
    use std::collections::BTreeMap;

    /// How far each budget is from the root, by its id.
    fn levels(objects: &[ObjectRow]) -> BTreeMap<u64, u64> {
        let mut levels = BTreeMap::new();
        for row in objects {
            let above = levels.get(&row.payer).map_or(0, |level| level + 1);
            levels.insert(row.id, above);
        }
        levels
    }

    #[test]
    fn boards_are_as_they_are_called() {
        for (tree, ids) in CASES {
            let mut port = tree.board(ids).port;
            let objects = area::read(&port.area).expect("a sound area").objects;
            let levels = levels(&objects);
            let deepest = levels.values().max().copied();
            assert_eq!(levels.len(), OBJECTS);
            let is_dense = levels.contains_key(&(OBJECTS as u64));
            assert_eq!(is_dense, ids == Ids::Dense, "{tree:?}");
            let is_far = levels.keys().all(|id| id % OBJECT_GUESSES == 1);
            assert_eq!(is_far, ids == Ids::Far, "{tree:?}");
            match tree {
                Tree::Nested => assert_eq!(deepest, Some(511)),
                Tree::SideBySide => assert_eq!(deepest, Some(1)),
                Tree::Random => assert!(deepest > Some(8) && deepest < Some(40)),
            }
            assert_eq!(port.make(totals_of(1)), 0);
            assert_eq!(port.out[0] + port.out[1], MEMORY);
        }
    }

    #[test]
    fn rows() {
        let line = Line {
            board: Tree::Nested.name().to_string(),
            ids: Ids::Far,
            name: "totals",
            port: 30_000.0,
            less: None,
            question: Some(20_000.0),
            rust: None,
        };
        let row = Row(&line).to_string();
        let expected = "\
| nested in one another    | far apart |      30000 |          20000 |                1.50 |";
        assert_eq!(row, expected);
        let widths = HEAD.lines().skip(2).map(|line| line.chars().count());
        assert!(widths.into_iter().all(|width| width == row.len()));
    }
}
