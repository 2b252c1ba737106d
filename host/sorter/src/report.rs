//! The day in words: a diary, a table of what each service got against its share, and checks.

mod checks;
mod tables;

pub use checks::{About, Check, checks};

use crate::record::Day;
use crate::words::capital;
use carv::PERIOD_NS;
use carv_report::Report;
use carv_text::figures::{counted, grouped, wrapped};
use carv_watch::{Kind, Rows, Total};

/// Width of texts.
const WIDTH: usize = 84;

/// What was got in all, by rows of the picture.
struct Totals {
    /// By each service, in the plan's order.
    services: Vec<Total>,
    /// By thread 0, if it ran.
    first: Option<Total>,
    idle: Total,
}

impl Totals {
    fn of(day: &Day) -> Self {
        let rows = Rows::new(&day.timeline);
        let services = day.plan.services.iter();
        let services = services.map(|service| rows.budget(&service.name));
        let first = rows.rows().iter().find(|row| row.kind == Kind::NoBudget);
        Self {
            services: services
                .map(|row| row.map_or_else(Total::default, |row| row.total))
                .collect(),
            first: first.map(|row| row.total),
            idle: rows.idle().map_or_else(Total::default, |row| row.total),
        }
    }
}

/// The whole account.
pub fn report(day: &Day) -> String {
    let mut lines = Vec::new();
    lines.extend(day.plan.title.clone());
    lines.push(format!(
        "A day in small: {} of {} ms, ticks of 1 ms, {} switches.",
        counted(day.plan.periods, "period"),
        PERIOD_NS / 1_000_000,
        grouped(day.switches)
    ));
    lines.push(String::new());
    lines.extend(diary(day));
    lines.push(String::new());
    lines.extend(tables::services(day));
    lines.push(String::new());
    lines.extend(tables::missed(day));
    lines.push(String::new());
    lines.extend(tables::spent(day));
    lines.push(String::new());
    for check in checks(day) {
        let mark = if check.holds { "yes" } else { "NO" };
        lines.push(format!("  {mark:<4} {}", check.claim));
    }
    lines.push(String::new());
    lines.push(closing(day));
    lines.join("\n")
}

fn diary(day: &Day) -> Vec<String> {
    let mut lines = Vec::new();
    for entry in &day.diary {
        let mut front = format!("{:>6} ms", grouped(entry.tick));
        for line in entry.text.lines().flat_map(|line| wrapped(line, WIDTH)) {
            lines.push(format!("{front:>9}  {line}"));
            front.clear();
        }
    }
    lines
}

/// The closing line: did the watched service get its share in every period in which it wanted it?
pub fn closing(day: &Day) -> String {
    let Some(index) = day.plan.watched else {
        return "No service was planned, so there is none to tell about.".to_string();
    };
    let name = &day.plan.services[index].name;
    let report = Report::new(&day.watch);
    let mut services = report.services.iter();
    match services.find(|service| service.name == *name) {
        Some(service) => capital(&service.answer()) + ".",
        None => format!("{} was never on.", capital(name)),
    }
}
