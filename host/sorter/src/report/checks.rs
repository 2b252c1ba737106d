//! Checks: what must hold of any day, and what this day's plan expects.

use super::Totals;
use crate::plan::Expected;
use crate::record::Day;
use crate::words::capital;
use carv::TICK_NS;
use carv_watch::Rows;

/// What a check is about.
#[derive(Clone, Copy, Debug, PartialEq, Eq)]
pub enum About {
    /// The board: it must hold of any day.
    Board,
    /// The plan, which says that it is expected.
    Plan,
}

/// Something that must hold of the day.
#[derive(Debug)]
pub struct Check {
    /// In words.
    pub claim: String,
    /// What it is about.
    pub about: About,
    /// Does it?
    pub holds: bool,
}

/// What must hold of the day. A check that the day gave no cause for isn't there.
pub fn checks(day: &Day) -> Vec<Check> {
    let totals = Totals::of(day);
    let mut checks = vec![
        of_board(claim_of_shares(day), keeps_to_shares(day)),
        of_board(
            "No period was overspent, by any budget with all below it, and the clock never fell.",
            day.clock_rose && day.ledger.overspent().is_none(),
        ),
        of_board(claim_of_booking(day), day.misbooked == 0),
        of_board(
            "The board's run ticks, idle's included, are what was seen to run.",
            ran_as_seen(day, &totals),
        ),
        of_board(
            "Every service kept to its memory limit.",
            keeps_to_memory(day),
        ),
        of_board(
            "At every planning the memory used and free of all was the board's memory.",
            day.memory_lost == 0,
        ),
    ];
    checks.extend(expected(day, &totals));
    checks.extend(of_refusals(day));
    checks.push(of_board(
        "The board is sound at the end, also restored from its bytes.",
        day.sound,
    ));
    checks
}

fn of_board(claim: impl Into<String>, holds: bool) -> Check {
    Check {
        claim: claim.into(),
        about: About::Board,
        holds,
    }
}

/// In no period a service got more than its share there, of two budgets the sum.
fn keeps_to_shares(day: &Day) -> bool {
    let rows = Rows::new(&day.timeline);
    let budgets: Vec<bool> = is_service(day, &rows);
    let mut periods = rows.periods();
    periods.all(|period| {
        let mut parts = rows.in_period(period).into_iter();
        parts.all(|(row, part)| !budgets[row] || part.got_ns <= part.share_ns)
    })
}

/// Which rows are of services.
fn is_service(day: &Day, rows: &Rows<'_>) -> Vec<bool> {
    let rows = rows.rows().iter();
    let services = &day.plan.services;
    rows.map(|row| {
        row.kind == carv_watch::Kind::Budget
            && services.iter().any(|service| service.name == row.name)
    })
    .collect()
}

/// A service that is switched off and on again in one period has more than one budget in it.
fn claim_of_shares(day: &Day) -> &'static str {
    let totals = Totals::of(day).services;
    let mut services = totals.iter().zip(&day.plan.services);
    let several = services.any(|(total, service)| {
        let highest = total.shares_ns.map_or(0, |(_, highest)| highest);
        highest > service.limits.cpu_ns
    });
    match several {
        false => "No service got more than its share in any period.",
        true => {
            "No service got more than its share in any period; with several budgets in one, than \
             their shares."
        }
    }
}

fn claim_of_booking(day: &Day) -> &'static str {
    match has_parts_of_ms(day) {
        false => {
            "After every tick the account of the service that ran said what it was seen to run."
        }
        true => {
            "After every tick the account of the service that ran said what it was seen to run, \
             or its share."
        }
    }
}

/// Is some share no whole number of ms?
pub(super) fn has_parts_of_ms(day: &Day) -> bool {
    let mut services = day.plan.services.iter();
    services.any(|service| !service.limits.cpu_ns.is_multiple_of(TICK_NS))
}

fn ran_as_seen(day: &Day, totals: &Totals) -> bool {
    let mut services = totals.services.iter().zip(&day.noted);
    let first = totals.first.map_or(0, |total| total.ms_ran);
    services.all(|(total, noted)| noted.run_ticks == total.ms_ran)
        && totals.idle.ms_ran == day.idle_run_ticks
        && first == day.first_run_ticks
}

fn keeps_to_memory(day: &Day) -> bool {
    let mut services = day.noted.iter().zip(&day.plan.services);
    services.all(|(noted, service)| noted.memory <= service.limits.memory_bytes)
}

/// What the plan expects.
fn expected(day: &Day, totals: &Totals) -> Vec<Check> {
    let expected = day.plan.expected.iter();
    let check = expected.map(|(index, expected)| {
        let name = capital(&day.plan.services[*index].name);
        let total = &totals.services[*index];
        let (claim, holds) = match expected {
            Expected::NeverMissed => (
                format!("{name} got its share in every period in which it wanted it."),
                total.periods_missed() == 0,
            ),
            Expected::NeverHeldBack => (
                format!("{name} was never held back."),
                total.periods_held_back == 0,
            ),
        };
        Check {
            claim,
            about: About::Plan,
            holds: day.noted[*index].was_on && holds,
        }
    });
    check.collect()
}

/// What refusals left, if there were any.
fn of_refusals(day: &Day) -> Vec<Check> {
    let mut checks = Vec::new();
    if day.refused > 0 {
        let which = if day.refused == 1 { "The" } else { "Each" };
        let renewal = match day.refused_with_renewal {
            0 => "",
            _ => ", but for a renewal that was due",
        };
        let claim = format!("{which} refused carve-out left every byte of the board{renewal}.");
        checks.push(of_board(claim, day.refused_uncleanly == 0));
    }
    if day.undone > 0 {
        checks.push(of_board(
            "Whatever a refused switching-on had carved out and created was given back.",
            day.undone_in_part == 0,
        ));
    }
    checks
}
