//! The sorter's own day comes out as it is kept, to the byte.

use sorter::picture;
use sorter::record::Day;
use sorter::report::{closing, report};
use sorter::{day, dayfile};

fn run() -> Day {
    day::run(&dayfile::sorter()).expect("only the carve-out that is noted is refused")
}

/// The report, its closing line included.
#[test]
fn the_report() {
    let day = run();
    let expected = include_str!("expected/report.txt");
    let expected = expected.trim_end();
    assert_eq!(report(&day), expected);
    assert!(expected.ends_with(&closing(&day)));
}

/// The list of calls: its lines, bytes, and their hash (FNV-1a), as `--calls` wrote it.
#[test]
fn the_calls() {
    let list = run().calls.join("\n") + "\n";
    assert_eq!((list.lines().count(), list.len()), (6_925, 77_185));
    let hash = list.bytes().fold(0xcbf2_9ce4_8422_2325, |hash: u64, byte| {
        (hash ^ u64::from(byte)).wrapping_mul(0x100_0000_01b3)
    });
    assert_eq!(hash, 0x16e6_3412_b216_1b75);
}

/// The picture is that of the README.
#[test]
fn the_picture() {
    let day = run();
    let drawn = picture::draw(&day, day.plan.show);
    let kept = include_str!("../../../docs/sorter.svg");
    assert!(
        drawn == kept,
        "docs/sorter.svg is another picture; where the drawing changed, write it anew with \
         `tools/sorter --svg docs/sorter.svg`"
    );
}
