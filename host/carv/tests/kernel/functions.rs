//! Every C function by the module `c`, on what it is lent.

use crate::cases::CASES;
use carv::{PERIOD_NS, c};
use std::collections::BTreeSet;

/// A call that is lent an area, an image and answer words.
pub type Call = fn(&mut [u8], &mut [u8], &mut [u64]) -> u64;

/// Every function, accepted on the prepared board.
pub const CALLS: [(&str, Call); 27] = [
    ("carv_open", |area, _, out| {
        c::carv_open(area, PERIOD_NS, 1_000_000, out)
    }),
    ("carv_is_sound", |area, _, _| {
        u64::from(!c::carv_is_sound(area))
    }),
    ("carv_create", |area, _, out| {
        c::carv_create(area, 3, 1, true, out)
    }),
    ("carv_insert", |area, _, out| {
        c::carv_insert(area, 8, 1, 64, out)
    }),
    ("carv_create_budget", |area, _, out| {
        c::carv_create_budget(area, 1, 1_000, 1_000, 0, out)
    }),
    ("carv_charge_more", |area, _, out| {
        c::carv_charge_more(area, 3, 1, out)
    }),
    ("carv_uncharge", |area, _, out| {
        c::carv_uncharge(area, 3, 1, out)
    }),
    ("carv_remove", |area, _, out| {
        c::carv_remove(area, 2, PERIOD_NS, out)
    }),
    ("carv_refill", |area, _, out| {
        c::carv_refill(area, 2, PERIOD_NS, out)
    }),
    ("carv_charge_cpu", |area, _, out| {
        c::carv_charge_cpu(area, 2, 1, PERIOD_NS, out)
    }),
    ("carv_pays_for_anything", |area, _, out| {
        c::carv_pays_for_anything(area, 1, out)
    }),
    ("carv_account", |area, _, out| c::carv_account(area, 2, out)),
    ("carv_charge_of", |area, _, out| {
        c::carv_charge_of(area, 3, out)
    }),
    ("carv_totals", |area, _, out| c::carv_totals(area, 1, out)),
    ("carv_create_user_thread", |area, image, out| {
        c::carv_create_user_thread(area, 9, 2, true, image, out)
    }),
    ("carv_start", |area, _, out| {
        c::carv_start(area, 7, 1, 2, 3, 4, 5, 6, 7, 8, 9, 10, out)
    }),
    ("carv_block_current", |area, _, out| {
        c::carv_block_current(area, 2, 5, out)
    }),
    ("carv_wake", |area, _, out| {
        c::carv_wake(area, 8, 1, 2, 3, out)
    }),
    ("carv_is_blocked_on", |area, _, out| {
        c::carv_is_blocked_on(area, 8, 5, 20, out)
    }),
    ("carv_kill", |area, _, out| c::carv_kill(area, 8, 1, out)),
    ("carv_tick", |area, _, out| c::carv_tick(area, 20, out)),
    ("carv_plan", |area, _, out| c::carv_plan(area, 1, out)),
    ("carv_read_thread", |area, _, out| {
        c::carv_read_thread(area, 8, out)
    }),
    ("carv_current", |area, _, out| c::carv_current(area, out)),
    ("carv_switches", |area, _, out| c::carv_switches(area, out)),
    ("carv_exit_of", |area, _, out| c::carv_exit_of(area, 8, out)),
    ("carv_image", |_, image, _| c::carv_image(image)),
];

#[test]
fn each_function_is_called() {
    let called: BTreeSet<&str> = CALLS.iter().map(|(name, _)| *name).collect();
    let functions: BTreeSet<&str> = CASES.iter().map(|case| case.function).collect();
    assert_eq!(called, functions);
}
