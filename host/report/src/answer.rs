//! Did a service get its share in every period in which it wanted it? The answer in one line.

use crate::rows::{Figures, MissedAt, ServiceRow};
use carv_text::figures::{counted, grouped, ms};
use carv_watch::Total;

/// What is meant by a missed period.
pub const MISSED: &str = "MISSED: wanted more than it got although it had time";

/// The answer for a service of this name.
pub fn answer(name: &str, figures: &Figures) -> String {
    let total = &figures.total;
    let says = match total.periods_judged {
        0 => "seen in no whole period, so nothing can be said".to_string(),
        _ if total.missed.is_some() => missed(figures),
        _ if total.wanted_ns == 0 && total.periods_used_up == 0 => {
            format!("wanted nothing {}", in_all(total))
        }
        _ => got(total),
    };
    format!("{name}: {says}")
}

/// It missed periods: which, and how long it waited.
fn missed(figures: &Figures) -> String {
    let total = &figures.total;
    let mut says = format!(
        "MISSED {} of {}",
        grouped(total.periods_missed()),
        counted(total.periods_judged, "period"),
    );
    if let (Some(first), Some(worst)) = (&figures.first_missed, &figures.worst_missed) {
        says += &match first.start_ms == worst.start_ms {
            true => format!("; first and worst {}", at(first)),
            false => format!("; first {}, worst {}", at(first), at(worst)),
        };
    }
    let wait = total
        .longest_wait
        .map(|wait| format!("; longest wait {} ms", grouped(wait.ms)));
    says + &wait.unwrap_or_default()
}

fn at(missed: &MissedAt) -> String {
    let (got, share) = (ms(missed.got_ns), ms(missed.share_ns));
    format!("from {} ms ({got} of {share} ms)", grouped(missed.start_ms))
}

/// It got what it wanted: how often that was its whole share.
fn got(total: &Total) -> String {
    let (share, all) = (share(total), in_all(total));
    match (total.periods_used_up, total.periods_wanted_no_more) {
        (_, 0) => format!("used up its {share} {all}, missed none"),
        (0, _) => format!("got what it wanted of its {share} {all}, never used up"),
        (used_up, no_more) => format!(
            "got what it wanted of its {share} {all} ({} used up, {} wanted no more)",
            grouped(used_up),
            grouped(no_more)
        ),
    }
}

fn in_all(total: &Total) -> String {
    match total.periods_judged {
        1 => "in the one whole period".to_string(),
        judged => format!("in all {} periods", grouped(judged)),
    }
}

/// Its share: one, or lowest and highest.
fn share(total: &Total) -> String {
    let (low, high) = total.shares_ns.unwrap_or_default();
    format!("{} ms", range(low, high))
}

/// Two times in ms, or one if they are the same.
pub(crate) fn range(low: u64, high: u64) -> String {
    match low == high {
        true => ms(low),
        false => format!("{} to {}", ms(low), ms(high)),
    }
}

impl ServiceRow {
    /// Did it get its share in every period in which it wanted it? In one line, which begins with its
    /// name.
    pub fn answer(&self) -> String {
        answer(&self.name, &self.figures)
    }
}
