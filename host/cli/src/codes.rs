//! Words for document 01's numbers, the same in lists and in answers.

/// Words with their numbers.
pub type Words = &'static [(&'static str, u64)];

/// Kinds of objects.
pub const KINDS: Words = &[
    ("thread", 1),
    ("address_space", 2),
    ("frame", 3),
    ("endpoint", 4),
    ("notification", 5),
    ("budget", 6),
    ("reply", 7),
    ("irq", 8),
    ("irq_control", 9),
];
/// Kinds of waits.
pub const WAITS: Words = &[
    ("send", 1),
    ("recv", 2),
    ("reply", 3),
    ("notification", 4),
    ("sleep", 5),
];
/// Causes of a thread's end.
pub const CAUSES: Words = &[("destroyed", 1), ("faulted", 2)];
/// States of a thread.
pub const STATES: Words = &[
    ("inactive", 1),
    ("ready", 2),
    ("running", 3),
    ("blocked", 4),
    ("dead", 5),
];

/// The word for a number, if it has one.
pub fn word(words: Words, code: u64) -> Option<&'static str> {
    let mut words = words.iter();
    words
        .find(|(_, other)| *other == code)
        .map(|(word, _)| *word)
}

/// The word for a number, or the number with the remark that it isn't listed.
pub fn word_or_number(words: Words, code: u64) -> String {
    match word(words, code) {
        Some(word) => word.to_string(),
        None => format!("{code} (not listed)"),
    }
}

#[cfg(test)]
mod tests {
    use super::*;
    use carv::{Cause, Kind, State, Tick, Wait};

    /// `AddressSpace` as `address_space`, `Blocked(Send(0))` as `blocked`.
    fn snake(value: impl std::fmt::Debug) -> String {
        let mut text = String::new();
        let shown = format!("{value:?}");
        for letter in shown.split('(').next().unwrap_or_default().chars() {
            if letter.is_uppercase() && !text.is_empty() {
                text.push('_');
            }
            text.push(letter.to_ascii_lowercase());
        }
        text
    }

    #[test]
    fn words_and_numbers_are_the_wrappers() {
        let kinds = Kind::ALL.iter().map(|kind| (snake(kind), kind.code()));
        let causes = Cause::ALL.iter().map(|cause| (snake(cause), cause.code()));
        let waits = [
            Wait::Send(0),
            Wait::Recv(0),
            Wait::Reply(0),
            Wait::Notification(0),
            Wait::Sleep(Tick(0)),
        ];
        let waits = waits.iter().map(|wait| (snake(wait), wait.codes().0));
        let states = [
            State::Inactive,
            State::Ready,
            State::Running,
            State::Blocked(Wait::Send(0)),
            State::Dead,
        ];
        let states = states.iter().map(|state| (snake(state), state.code()));
        let expected = |words: Words| -> Vec<(String, u64)> {
            let words = words.iter().map(|(word, code)| (word.to_string(), *code));
            words.collect()
        };
        assert_eq!(kinds.collect::<Vec<_>>(), expected(KINDS));
        assert_eq!(causes.collect::<Vec<_>>(), expected(CAUSES));
        assert_eq!(waits.collect::<Vec<_>>(), expected(WAITS));
        assert_eq!(states.collect::<Vec<_>>(), expected(STATES));
    }

    #[test]
    fn a_number_without_a_word_stays_a_number() {
        assert_eq!(word_or_number(KINDS, 3), "frame");
        assert_eq!(word_or_number(KINDS, 10), "10 (not listed)");
    }
}
