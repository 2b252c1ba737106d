//! A list of calls that is made under a watch.

use carv::{Board, ObjectId};
use carv_cli::answer::Answer;
use carv_cli::list::{self, Line};
use carv_report::{BudgetRow, Report, ServiceRow, ThreadRow, Watch};

pub const MS: u64 = 1_000_000;
pub const OPEN: &str = "open 10_000_000 1_000_000";

/// A board and its watch.
pub struct Run {
    pub board: Board,
    pub watch: Watch,
    line: u64,
}

impl Run {
    pub fn new() -> Self {
        Self::on(Board::unopened())
    }

    /// On a board that has a past.
    pub fn on(board: Board) -> Self {
        Self {
            board,
            watch: Watch::new(),
            line: 0,
        }
    }

    /// After the calls of these lines.
    pub fn of(lines: &[&str]) -> Self {
        let mut run = Self::new();
        for line in lines {
            run.line(line);
        }
        run
    }

    /// Makes the call of a line; answers its number, 0 if it was accepted.
    pub fn line(&mut self, line: &str) -> u64 {
        self.answer(line).map_or_else(|number| number, |_| 0)
    }

    /// Makes the call of a line, or takes the name that it gives.
    pub fn answer(&mut self, line: &str) -> Result<Answer, u64> {
        self.line += 1;
        match list::parse(line.as_bytes()) {
            Ok(Line::Call(call)) => {
                let (name, arguments) = (call.form().name, call.arguments());
                let made = self
                    .watch
                    .call(self.line, name, arguments, &mut self.board, |board| {
                        call.make(board)
                    });
                made.map_err(|refusal| refusal.number())
            }
            Ok(Line::Name(id, name)) => {
                self.watch.name(ObjectId(id), &name);
                Ok(Answer::Done)
            }
            Ok(Line::Nothing) => Ok(Answer::Done),
            Err(why) => panic!("{line}: {why}"),
        }
    }

    /// Ticks with a planning behind each.
    pub fn ticks(&mut self, ticks: impl IntoIterator<Item = u64>) {
        for n in ticks {
            assert_eq!(self.line(&format!("tick {n}")), 0);
            assert_eq!(self.line(&format!("plan {n}")), 0);
        }
    }

    pub fn report(&mut self) -> Report {
        self.watch.end(&self.board);
        Report::new(&self.watch)
    }
}

pub fn service<'a>(report: &'a Report, name: &str) -> &'a ServiceRow {
    let mut services = report.services.iter();
    services.find(|row| row.name == name).expect("a service")
}

pub fn budget(report: &Report, id: u64) -> &BudgetRow {
    let mut budgets = report.budgets.iter();
    budgets.find(|row| row.id.0 == id).expect("a budget")
}

pub fn thread(report: &Report, id: u64) -> &ThreadRow {
    let mut threads = report.threads.iter();
    threads.find(|row| row.id.0 == id).expect("a thread")
}
