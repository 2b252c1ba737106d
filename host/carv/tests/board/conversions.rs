//! Numbers and the wrapper's types, both ways.

use carv::{
    Backing, Cause, IMAGE_BYTES, Image, Kind, Nanoseconds, ObjectId, Refusal, State, TICK_NS,
    ThreadId, ThreadRecord, Tick, Wait, c,
};

#[test]
fn ids() {
    for number in [0, 1, u64::MAX] {
        assert_eq!(u64::from(ObjectId::from(number)), number);
        assert_eq!(u64::from(ThreadId::from(number)), number);
    }
}

/// Up to the last tick, each has a time; above it, none has.
#[test]
fn ticks_have_times() {
    for n in [0, 1, 10, Tick::LAST.0] {
        let time = Nanoseconds(n * TICK_NS);
        assert_eq!(Tick(n).time(), Ok(time));
        assert_eq!(Nanoseconds::try_from(Tick(n)), Ok(time));
    }
    for n in [Tick::LAST.0 + 1, u64::MAX] {
        assert_eq!(Tick(n).time(), Err(Refusal::Tick));
        assert_eq!(Nanoseconds::try_from(Tick(n)), Err(Refusal::Tick));
    }
    assert_eq!((u64::from(Tick(7)), u64::from(Nanoseconds(7))), (7, 7));
    assert_eq!(Tick(7).to_string(), "tick 7");
    assert_eq!(Nanoseconds(7).to_string(), "7 ns");
}

#[test]
fn codes() {
    for kind in Kind::ALL {
        assert_eq!(Kind::try_from(u64::from(*kind)), Ok(*kind));
    }
    for cause in Cause::ALL {
        assert_eq!(Cause::try_from(u64::from(*cause)), Ok(*cause));
    }
    let wait = Wait::Sleep(Tick(7));
    assert_eq!(Wait::try_from(<(u64, u64)>::from(wait)), Ok(wait));
    assert_eq!(u64::from(State::Blocked(wait)), 4);
    assert_eq!(Backing::from(true), Backing::There);
    assert_eq!(Backing::from(false), Backing::Missing);
}

#[test]
fn unlisted_codes() {
    for number in [0, 10, u64::MAX] {
        let unlisted = [
            ("kind", Kind::try_from(number).err()),
            ("cause", Cause::try_from(number).err()),
            ("wait", Wait::try_from((number, 1)).err()),
        ];
        for (list, unlisted) in unlisted {
            let unlisted = unlisted.expect("no list has it");
            assert_eq!(unlisted.number(), number);
            assert_eq!(unlisted.to_string(), format!("there is no {list} {number}"));
            assert_eq!(Refusal::from(unlisted), Refusal::Code);
        }
    }
}

/// Answer words that no sound board answers are no record.
#[test]
fn records_of_unlisted_words() {
    let mut words = [0; c::ANSWER_WORDS];
    for (state, wait, is_listed) in [
        (1, 0, true),
        (4, 5, true),
        (0, 0, false),
        (6, 0, false),
        (4, 0, false),
        (4, 6, false),
        (2, 5, false),
        (5, 5, false),
    ] {
        (words[0], words[1]) = (state, wait);
        let record = ThreadRecord::try_from(&words);
        assert_eq!(record.is_ok(), is_listed, "state {state}, wait {wait}");
        let why = record.err();
        assert!(why.is_none_or(|why| why == Refusal::Unsound));
    }
}

/// The processor asks for this boundary.
#[test]
fn an_image_is_aligned() {
    assert_eq!((align_of::<Image>(), size_of::<Image>()), (16, IMAGE_BYTES));
}

/// What the library answers must be used, and may grow: each answer has both attributes, and each list
/// of codes the second.
#[test]
fn what_may_be_added() {
    const ANSWERS: &str = include_str!("../../src/answers.rs");
    const CODES: &str = include_str!("../../src/codes.rs");
    const REFUSALS: &str = include_str!("../../src/refusal.rs");
    let attributes = |source: &str, item: &str| {
        let (before, _) = source.split_once(item).expect("it is there");
        let lines = before.trim_end().lines().rev();
        let lines = lines.take_while(|line| line.trim_start().starts_with("#["));
        lines.collect::<String>()
    };
    for answer in [
        "Account",
        "Totals",
        "Charge",
        "ThreadRecord",
        "Planned",
        "Switch",
    ] {
        let attributes = attributes(ANSWERS, &format!("pub struct {answer} {{"));
        assert!(attributes.contains("#[must_use"), "{answer}");
        assert!(attributes.contains("#[non_exhaustive]"), "{answer}");
    }
    for (source, list) in [
        (CODES, "pub enum $name {"),
        (CODES, "pub enum Wait {"),
        (CODES, "pub enum State {"),
        (REFUSALS, "pub enum Refusal {"),
    ] {
        assert!(
            attributes(source, list).contains("#[non_exhaustive]"),
            "{list}"
        );
    }
}

#[test]
fn refusals_are_errors_with_numbers() {
    for refusal in Refusal::LISTED {
        assert_eq!(Refusal::check(u64::from(refusal)), Err(refusal));
        let error: Box<dyn std::error::Error> = refusal.into();
        assert_eq!(error.to_string(), refusal.to_string());
    }
}
