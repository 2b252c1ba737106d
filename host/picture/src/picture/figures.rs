//! The figures right of a row.

use super::style::{SMALL, STRONG, TEXT};
use crate::svg::Type;
use carv_text::figures::{counted, grouped, ms};
use carv_watch::{Doing, Kind, Missed, Outcome, Part, Row, TICKS, Total, Wait};

/// A line of figures.
pub type Line = (Type, String);

/// What a row got in all periods: average, least and most, what it missed, and its longest wait.
pub fn of_all(row: &Row) -> Vec<Line> {
    let mut lines = vec![(TEXT, average(&row.total))];
    if row.kind == Kind::Budget {
        lines.extend(missed(&row.total));
        lines.extend(row.total.longest_wait.map(|wait| (SMALL, waited(&wait))));
    }
    lines
}

fn average(total: &Total) -> String {
    let average = format!("average {:.2} ms", total.average_ms());
    let most = ms(total.most_ns);
    let is_always = total.got_ns == total.most_ns * total.periods_on;
    match total.least_ns {
        Some(least_ns) if least_ns < total.most_ns => {
            format!("{average}, {} to {most}", ms(least_ns))
        }
        Some(_) if is_always => format!("always {most} ms"),
        _ => format!("{average}, most {most}"),
    }
}

/// How many periods it missed, and which.
fn missed(total: &Total) -> Vec<Line> {
    let judged = counted(total.periods_judged, "period");
    match total.missed {
        None if total.periods_judged == 0 => vec![(SMALL, "no whole period".to_string())],
        None => vec![(SMALL, format!("missed none of {judged}"))],
        Some(missed) => {
            let many = grouped(missed.periods);
            let count = format!("missed {many} of {judged}");
            vec![(STRONG, count), (SMALL, which(&missed))]
        }
    }
}

fn which(missed: &Missed) -> String {
    let at = |number: u64| grouped(number * TICKS);
    let (first, worst) = (missed.first, missed.worst);
    let by = ms(worst.missed_ns);
    if first == worst {
        return format!("first and worst at {} ms (by {by} ms)", at(first.number));
    }
    let (first, worst) = (at(first.number), at(worst.number));
    format!("first at {first}, worst at {worst} ms (by {by} ms)")
}

fn waited(wait: &Wait) -> String {
    let mut text = format!("longest wait {} ms", grouped(wait.ms));
    if wait.held_back_ms > 0 {
        text.push_str(&format!(", {} held back", grouped(wait.held_back_ms)));
    }
    if !wait.ran {
        text.push_str(", no run");
    }
    text
}

/// What a budget got of its share in some periods, and how many of them it missed.
pub fn of_share<'a>(parts: impl Iterator<Item = &'a Part> + Clone) -> Vec<Line> {
    let sum = |of: fn(&Part) -> u64| ms(parts.clone().map(of).sum());
    let used = format!(
        "{} of {} ms",
        sum(|part| part.got_ns),
        sum(|part| part.share_ns)
    );
    let mut lines = vec![(TEXT, used), (SMALL, "of its share used".to_string())];
    let outcomes = parts.filter_map(|part| part.outcome);
    let judged = outcomes.clone().count() as u64;
    let missed = outcomes.filter(|outcome| *outcome == Outcome::Missed);
    if let missed @ 1.. = missed.count() {
        let judged = counted(judged, "period");
        lines.push((STRONG, format!("missed {missed} of {judged}")));
    }
    lines
}

/// In how many ms of these periods thread 0 or idle ran.
pub fn of_time<'a>(parts: impl Iterator<Item = &'a Part> + Clone) -> Vec<Line> {
    let ran: u64 = parts.clone().map(|part| part.ms(Doing::Runs)).sum();
    let seen: u64 = parts.map(Part::ms_on).sum();
    let ran = format!("{ran} of {seen} ms");
    vec![(TEXT, ran), (SMALL, "of all time".to_string())]
}

#[cfg(test)]
mod tests {
    use super::*;
    use carv_watch::MissedPeriod;

    const MS: u64 = 1_000_000;

    fn texts(total: Total) -> Vec<String> {
        let row = Row {
            name: "counting".to_string(),
            kind: Kind::Budget,
            total,
        };
        of_all(&row).into_iter().map(|(_, text)| text).collect()
    }

    #[test]
    fn what_was_missed() {
        let period = |number, missed_ns| MissedPeriod {
            number,
            got_ns: 0,
            missed_ns,
        };
        let (first, worst) = (period(3, MS), period(205, 2 * MS));
        let total = Total {
            got_ns: 25 * MS,
            periods_on: 10,
            periods_judged: 9,
            least_ns: Some(2 * MS),
            most_ns: 4 * MS,
            missed: Some(Missed {
                periods: 2,
                ns: 3 * MS,
                first,
                worst,
            }),
            longest_wait: Some(Wait {
                from_ms: 7,
                ms: 8,
                held_back_ms: 3,
                ran: true,
            }),
            ..Total::default()
        };
        assert_eq!(
            texts(total),
            [
                "average 2.50 ms, 2 to 4",
                "missed 2 of 9 periods",
                "first at 30, worst at 2,050 ms (by 2 ms)",
                "longest wait 8 ms, 3 held back",
            ]
        );
    }

    /// Held-back ms are told apart, and so is a wait that didn't end with a run.
    #[test]
    fn waits() {
        let said = |held_back_ms, ran| {
            waited(&Wait {
                from_ms: 0,
                ms: 1_200,
                held_back_ms,
                ran,
            })
        };
        assert_eq!(said(0, true), "longest wait 1,200 ms");
        assert_eq!(said(0, false), "longest wait 1,200 ms, no run");
        assert_eq!(said(8, false), "longest wait 1,200 ms, 8 held back, no run");
    }

    #[test]
    fn what_was_not() {
        assert_eq!(
            texts(Total::default()),
            ["average 0.00 ms, most 0", "no whole period"]
        );
        let total = Total {
            got_ns: MS,
            periods_on: 1,
            periods_judged: 1,
            least_ns: Some(MS),
            most_ns: MS,
            ..Total::default()
        };
        assert_eq!(texts(total), ["always 1 ms", "missed none of 1 period"]);
    }
}
