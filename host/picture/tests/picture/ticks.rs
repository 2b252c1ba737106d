//! Many ticks, and ticks in any order.

use crate::bench::{Bench, MS, accepted};
use carv::LAST_TICK;
use carv_picture::{Look, draw};
use carv_watch::Rows;
use std::ops::RangeInclusive;
use std::time::{Duration, Instant};

/// The last of a million ticks cost about what the first did, and the picture stays small.
/// `period.rs` tests how much is kept of each period.
#[test]
fn a_million_ticks() {
    let mut bench = Bench::without_first();
    for share in [4 * MS, 3 * MS, 2 * MS, MS] {
        bench.service(share);
    }
    bench.plan(0);
    let before = bench.board.clone();
    accepted(bench.board.tick(carv::Tick(1)));
    let mut shown = |ticks: RangeInclusive<u64>| {
        let begin = Instant::now();
        ticks.for_each(|n| {
            let before = bench.timeline.before(n, &before);
            bench.timeline.tick(before, &bench.board);
        });
        begin.elapsed()
    };
    let first = shown(1..=100_000);
    shown(100_001..=900_000);
    let last = shown(900_001..=1_000_000);
    assert!(
        last < 10 * first + Duration::from_secs(1),
        "{first:?}, {last:?}"
    );
    let svg = draw(&bench.timeline, &Look::default(), None);
    assert!(svg.len() < 200_000, "{} bytes", svg.len());
}

/// Ticks in an order that jumps about.
#[test]
fn many_periods_in_any_order() {
    let mut bench = Bench::full();
    let before = bench.board.clone();
    accepted(bench.board.tick(carv::Tick(1)));
    let mut random: u64 = 1;
    for _ in 0..20_000 {
        random = random
            .wrapping_mul(6_364_136_223_846_793_005)
            .wrapping_add(1);
        let before = bench.timeline.before((random >> 16) % LAST_TICK, &before);
        bench.timeline.tick(before, &bench.board);
    }
    assert!(Rows::new(&bench.timeline).periods().count() > 19_000);
    let svg = draw(&bench.timeline, &Look::default(), Some(LAST_TICK / 2));
    assert!(svg.len() < 1_000_000, "{} bytes", svg.len());
}
