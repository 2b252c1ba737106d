//! The report's tables: what each service got against its share, and what each budget spent.

use super::checks::has_parts_of_ms;
use super::{Totals, WIDTH};
use crate::plan::Service;
use crate::record::{Day, Noted, Spent};
use carv::{PERIOD_NS, TICK_NS};
use carv_ledger::Most;
use carv_text::figures::{grouped, ms, wrapped};
use carv_watch::{MissedPeriod, Total};

/// The narrowest column of names.
const NAMES: usize = 12;

/// The width of a column of these names.
fn width<'a>(names: impl Iterator<Item = &'a str>) -> usize {
    let longest = names.map(|name| name.chars().count() + 1).max();
    longest.unwrap_or(0).max(NAMES)
}

/// What each service got.
pub fn services(day: &Day) -> Vec<String> {
    let services = &day.plan.services;
    let names = width(services.iter().map(|service| service.name.as_str()));
    let mut lines = vec![
        format!(
            "  {:<names$}{:^27}{:>16}{:>22}",
            "", "ms of every 10 ms", "held back", "memory, bytes"
        ),
        format!(
            "  {:<names$}{:>7}{:>10}{:>8}{:>18}{:>12}{:>11}",
            "service", "share", "average", "most", "periods", "used", "limit"
        ),
    ];
    let totals = Totals::of(day);
    for ((total, noted), service) in totals.services.iter().zip(&day.noted).zip(services) {
        lines.push(row(names, service, noted, total));
    }
    if let Some(first) = &totals.first {
        lines.push(row_without_budget(names, "thread 0", "none", first));
    }
    let left = ms(PERIOD_NS.saturating_sub(day.given_ns));
    lines.push(row_without_budget(names, "idle", &left, &totals.idle));
    lines.push(format!(
        "  {:<names$}{:>55}{:>11}",
        "all",
        grouped(day.memory),
        grouped(day.plan.board.memory_bytes)
    ));
    lines.push(String::new());
    lines.extend(notes(day, &totals));
    lines
}

/// The row of a service.
fn row(names: usize, service: &Service, noted: &Noted, total: &Total) -> String {
    let (name, share) = (&service.name, ms(service.limits.cpu_ns));
    let limit = grouped(service.limits.memory_bytes);
    if !noted.was_on {
        let why = match &noted.refused {
            Some((tick, refused)) => format!(
                "off, refused with {} at {} ms",
                refused.refusal.number(),
                grouped(*tick)
            ),
            None => "off".to_string(),
        };
        return format!("  {name:<names$}{share:>7}    {why:<44}{limit:>11}");
    }
    let held = format!("{} of {}", total.periods_held_back, total.periods_on);
    format!(
        "  {name:<names$}{share:>7}{:>10.2}{:>8}{held:>18}{:>12}{limit:>11}",
        total.average_ms(),
        ms(total.most_ns),
        grouped(noted.memory),
    )
}

/// The row of thread 0 or idle.
fn row_without_budget(names: usize, name: &str, share: &str, total: &Total) -> String {
    format!(
        "  {name:<names$}{share:>7}{:>10.2}{:>8}",
        total.average_ms(),
        ms(total.most_ns)
    )
}

/// How the periods of each service went: which it missed, and how long it waited.
pub fn missed(day: &Day) -> Vec<String> {
    let services = &day.plan.services;
    let names = width(services.iter().map(|service| service.name.as_str()));
    let mut lines = vec![
        format!(
            "  {:<names$}{:^40}{:^23}{:>10}",
            "", "periods", "missed, ms", "longest"
        ),
        format!(
            "  {:<names$}{:>7}{:>9}{:>16}{:>8}{:>9}{:>9}{:>5}{:>10}",
            "service",
            "missed",
            "used up",
            "wanted no more",
            "of",
            "first",
            "worst",
            "by",
            "wait, ms"
        ),
    ];
    let totals = Totals::of(day).services;
    for ((total, noted), service) in totals.iter().zip(&day.noted).zip(services) {
        if noted.was_on {
            lines.push(missed_row(names, &service.name, total));
        }
    }
    lines.push(String::new());
    let notes = [
        "Missed: it wanted more than it got although it had time. Used up: else, if it used all of \
         its share or was held back. Held back: it had used its share up and wanted more.",
        "Of: periods that were seen as a whole, and at whose end it was on.",
        "First, worst: where that missed period begins; by: what it missed in the worst.",
        "The longest wait is from ready to run, held back or not.",
    ];
    let notes = notes.iter().flat_map(|note| wrapped(note, WIDTH));
    lines.extend(notes.map(|line| format!("  {line}")));
    lines
}

/// The row of a service.
fn missed_row(names: usize, name: &str, total: &Total) -> String {
    let start = |period: MissedPeriod| grouped(period.number * (PERIOD_NS / TICK_NS));
    let (first, worst, by) = match total.missed {
        Some(missed) => (
            start(missed.first),
            start(missed.worst),
            ms(missed.worst.missed_ns),
        ),
        None => ("-".to_string(), "-".to_string(), "-".to_string()),
    };
    format!(
        "  {name:<names$}{:>7}{:>9}{:>16}{:>8}{first:>9}{worst:>9}{by:>5}{:>10}",
        grouped(total.periods_missed()),
        grouped(total.periods_used_up),
        grouped(total.periods_wanted_no_more),
        grouped(total.periods_judged),
        grouped(total.longest_wait.map_or(0, |wait| wait.ms))
    )
}

/// What the table means, and why services stayed off.
fn notes(day: &Day, totals: &Totals) -> Vec<String> {
    let mut notes = vec![
        "Averages are over the periods in which a service was switched on.".to_string(),
        "Idle has as its share what no service was given.".to_string(),
        "All is the most that was used at once, with what the root pays for budgets.".to_string(),
    ];
    if totals.first.is_some() {
        notes.push("Thread 0 has no share, so nothing holds it back.".to_string());
    }
    if has_parts_of_ms(day) {
        notes.push(
            "A service runs whole ms: with less than 1 ms left it runs 1 ms, and what was left is \
             booked."
                .to_string(),
        );
    }
    for (noted, service) in day.noted.iter().zip(&day.plan.services) {
        if let Some((tick, refused)) = &noted.refused {
            let (name, tick) = (&service.name, grouped(*tick));
            let (step, refusal) = (refused.step, refused.refusal);
            let advice = refused.advice.replace('\n', " ");
            notes.push(format!(
                "At {tick} ms {name} stayed off: {step} was {refusal}. {advice}"
            ));
        }
    }
    let lines = notes.iter().flat_map(|note| wrapped(note, WIDTH));
    lines.map(|line| format!("  {line}")).collect()
}

/// The most that each budget spent, with all below it.
pub fn spent(day: &Day) -> Vec<String> {
    let spent = day.spent();
    let names = width(spent.iter().map(|spent| spent.name));
    let mut lines = vec![
        "  The most ms that each budget spent in a period, with all below it:".to_string(),
        String::new(),
        format!(
            "  {:<names$}{:>7}{:>10}   in the period",
            "budget", "share", "spent"
        ),
    ];
    for Spent {
        name,
        allowance,
        most,
    } in spent
    {
        let share = in_ms(allowance);
        lines.push(match most {
            Some(Most { period, spent }) => {
                let from = in_ms(period * u128::from(PERIOD_NS));
                let spent = in_ms(spent);
                format!("  {name:<names$}{share:>7}{spent:>10}   from {from} ms")
            }
            None => format!("  {name:<names$}{share:>7}{:>10}", "0"),
        });
    }
    lines.push(String::new());
    lines.push("  Periods are of 10 ms, counted from 0 ms.".to_string());
    lines.push("  A service that is switched on again has a new budget.".to_string());
    lines
}

/// Nanoseconds in ms.
fn in_ms(ns: u128) -> String {
    u64::try_from(ns).map_or_else(|_| format!("{ns} ns"), ms)
}
