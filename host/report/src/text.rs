//! A report as text: the answers first, then tables of at most 100 columns.

mod board;
mod tables;

use crate::report::Report;
use crate::short::indented;

impl Report {
    /// As text.
    pub fn text(&self) -> String {
        let mut text = self.answers();
        text += &self.board.text(|budget| self.label(budget));
        text += &tables::of_budgets(self);
        text + &tables::of_threads(self)
    }

    /// The answers, one a line, in the order of the services; a long one goes on in the next.
    fn answers(&self) -> String {
        let mut text = self.board.which_opening();
        text += "Did each service get its share in every 10 ms in which it wanted it?\n\n";
        for service in &self.services {
            text += &indented(&service.answer());
        }
        if self.services.is_empty() {
            text += "  No service was seen: no tick was accepted while a budget had a thread.\n";
        }
        text + &self.short().legend()
    }
}
