//! The names of budgets.

use carv::{ObjectId, ThreadId};
use std::collections::BTreeMap;

/// Names that were given to budgets.
#[derive(Debug, Default)]
pub struct Names(BTreeMap<u64, String>);

impl Names {
    /// Names a budget. The last name counts.
    pub fn set(&mut self, id: u64, name: &str) {
        self.0.insert(id, name.to_string());
    }

    fn get(&self, id: u64) -> Option<&str> {
        let given = self.0.get(&id).map(String::as_str);
        given.or((id == ObjectId::ROOT.0).then_some("root"))
    }

    /// A budget as its counters and instants name it, which no other one has.
    pub fn budget(&self, id: u64) -> String {
        match self.get(id) {
            Some(name) => format!("{name} (budget {id})"),
            None => format!("budget {id}"),
        }
    }

    /// A thread on a budget, as its track is named.
    pub fn thread(&self, budget: u64, thread: ThreadId) -> String {
        match self.get(budget) {
            Some(name) => format!("{name}: {thread}"),
            None => format!("budget {budget}: {thread}"),
        }
    }
}

#[cfg(test)]
mod tests {
    use super::*;

    #[test]
    fn named_and_not_named() {
        let mut names = Names::default();
        names.set(2, "counting");
        names.set(2, "Zählwerk");
        assert_eq!(names.budget(1), "root (budget 1)");
        assert_eq!(names.budget(2), "Zählwerk (budget 2)");
        assert_eq!(names.budget(3), "budget 3");
        assert_eq!(names.thread(2, ThreadId(4)), "Zählwerk: thread 4");
        assert_eq!(names.thread(3, ThreadId(5)), "budget 3: thread 5");
    }
}
