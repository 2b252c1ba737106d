//! The names that a list gives to budgets.

use std::collections::BTreeMap;

/// The words in front of a budget's id.
const ID_FOLLOWS: [&str; 3] = ["budget", "object", "payer"];

/// Names of budgets, by their ids.
#[derive(Clone, Debug, Default)]
pub struct Names(BTreeMap<u64, String>);

impl Names {
    /// Names a budget. The last name counts.
    pub fn set(&mut self, id: u64, name: &str) {
        self.0.insert(id, name.to_string());
    }

    /// The name of a budget. The root has one without being given it.
    pub fn get(&self, id: u64) -> Option<&str> {
        let given = self.0.get(&id).map(String::as_str);
        given.or((id == 1).then_some("root"))
    }

    /// The names that were given, by rising id.
    pub fn given(&self) -> impl Iterator<Item = (u64, &str)> {
        self.0.iter().map(|(id, name)| (*id, name.as_str()))
    }

    /// The id with its name in brackets, if it has one.
    pub fn id(&self, id: u64) -> String {
        match self.get(id) {
            Some(name) => format!("{id} ({name})"),
            None => id.to_string(),
        }
    }

    /// A text with the given names behind the ids of budgets.
    pub fn put_into(&self, text: &str) -> String {
        let before = [""].into_iter().chain(text.split(' '));
        let words = before.zip(text.split(' ')).map(|(before, word)| {
            let is_id = ID_FOLLOWS.contains(&before);
            let named = is_id.then(|| self.behind_id(word)).flatten();
            named.unwrap_or(word.to_string())
        });
        words.collect::<Vec<_>>().join(" ")
    }

    /// A word that begins with an id, with its name behind that; none if it has no given name.
    fn behind_id(&self, word: &str) -> Option<String> {
        let rest = word.trim_start_matches(|sign: char| sign.is_ascii_digit());
        let id = &word[..word.len() - rest.len()];
        let name = self.0.get(&id.parse().ok()?)?;
        Some(format!("{id} ({name}){rest}"))
    }
}

#[cfg(test)]
mod tests {
    use super::*;

    #[test]
    fn named_and_not_named() {
        let mut names = Names::default();
        names.set(2, "counting");
        names.set(2, "reject gate");
        assert_eq!(names.id(2), "2 (reject gate)");
        assert_eq!(names.id(1), "1 (root)");
        assert_eq!(names.id(3), "3");
        names.set(1, "all");
        assert_eq!(names.get(1), Some("all"));
    }

    #[test]
    fn texts_get_names() {
        let mut names = Names::default();
        names.set(2, "bag printer");
        for (text, expected) in [
            (
                "used of budget 2 is 2",
                "used of budget 2 (bag printer) is 2",
            ),
            (
                "used of object 2, place 2",
                "used of object 2 (bag printer), place 2",
            ),
            (
                "payer 2 of object 1 is 22",
                "payer 2 (bag printer) of object 1 is 22",
            ),
            ("budget 22, object", "budget 22, object"),
        ] {
            assert_eq!(names.put_into(text), expected);
        }
    }
}
