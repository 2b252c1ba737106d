//! The refusals' numbers and texts.

use carv::Refusal;
use std::collections::HashSet;

/// Numbers that no call answers, document 01's 15 among them.
fn unknown() -> impl Iterator<Item = u64> {
    (15..100).chain([u64::MAX])
}

#[test]
fn numbers() {
    for (refusal, number) in Refusal::LISTED.into_iter().zip(1..) {
        assert_eq!(refusal.number(), number);
        assert_eq!(Refusal::from_number(number), refusal);
    }
    for number in unknown() {
        assert_eq!(Refusal::from_number(number), Refusal::Other(number));
        assert_eq!(Refusal::Other(number).number(), number);
    }
}

/// Each has a meaning and an advice of its own, the advice in whole sentences.
#[test]
fn texts() {
    let mut texts = HashSet::new();
    for refusal in Refusal::LISTED.into_iter().chain([Refusal::Other(15)]) {
        let (meaning, advice) = (refusal.meaning(), refusal.advice());
        let shown = format!("refused with {}: {meaning}", refusal.number());
        assert_eq!(refusal.to_string(), shown);
        assert!(!meaning.is_empty() && !meaning.ends_with('.'), "{meaning}");
        assert!(
            advice.starts_with(char::is_uppercase) && advice.ends_with('.'),
            "{advice}"
        );
        assert!(texts.insert(meaning) && texts.insert(advice), "{refusal}");
    }
    let texts = unknown().map(|number| {
        let refusal = Refusal::Other(number);
        (refusal.meaning(), refusal.advice())
    });
    assert_eq!(texts.collect::<HashSet<_>>().len(), 1);
}

/// Words that each meaning must have.
#[test]
fn meanings() {
    let words = [
        "no sound board",
        "share of an opening",
        "tick is above",
        "not listed",
        "thread's id",
        "no place left",
        "no such object",
        "not Inactive",
        "root",
        "pays for something",
        "recorded charge",
        "can't cover",
        "can't be created",
        "not there",
    ];
    for (refusal, words) in Refusal::LISTED.into_iter().zip(words) {
        assert!(refusal.meaning().contains(words), "{refusal}");
    }
}
