//! The figures of a row by their names, for JSON and CSV.

use crate::refusals::Refusals;
use crate::rows::{BudgetRow, Figures, Memory, MissedAt, ServiceRow, Spent, ThreadRow};
use carv::{ObjectId, TICK_NS};
use carv_layout::area::Totals;
use carv_text::json::Json;
use carv_watch::{Total, Wait};

/// A figure with its name.
pub type Field = (&'static str, Json);

/// The name of the field that has the refusals by number.
pub const REFUSALS: &str = "refusals";

impl ServiceRow {
    pub(crate) fn fields(&self) -> Vec<Field> {
        let budgets = self.budgets.iter().map(|budget| budget.0);
        let mut fields = vec![
            ("name", self.name.as_str().into()),
            ("budgets", Json::list(budgets)),
            ("answer", self.answer().into()),
        ];
        fields.extend(of_shares(self.figures.total.shares_ns));
        fields.extend(of_figures(Some(&self.figures)));
        fields.extend(of_spent(self.spent));
        fields.extend(of_memory(&self.memory));
        fields.extend([("renewals", self.renewals.into())]);
        fields.push((REFUSALS, of_refusals(&self.refusals)));
        fields
    }
}

impl BudgetRow {
    pub(crate) fn fields(&self) -> Vec<Field> {
        let mut fields = vec![
            ("id", self.id.0.into()),
            ("name", self.name.as_deref().into()),
            ("parent", self.parent.0.into()),
            ("live", self.is_live.into()),
            ("cpu_ns", self.cpu_ns.into()),
        ];
        fields.extend(of_shares(self.shares_ns));
        fields.extend(of_figures(self.figures.as_ref()));
        fields.extend(of_spent(self.spent));
        fields.extend(of_memory(&self.memory));
        fields.extend(of_totals(self.totals));
        fields.extend([("renewals", self.renewals.into())]);
        fields.push((REFUSALS, of_refusals(&self.refusals)));
        fields
    }
}

impl ThreadRow {
    pub(crate) fn fields(&self) -> Vec<Field> {
        let total = self.figures.map(|figures| figures.total);
        let mut fields = vec![
            ("id", self.id.0.into()),
            ("name", self.budget_name.as_deref().into()),
            (
                "budget",
                self.budget.map(|budget: ObjectId| budget.0).into(),
            ),
        ];
        // Without a budget there is none.
        let shares = self.budget.and(total).and_then(|total| total.shares_ns);
        fields.extend(of_shares(shares));
        fields.extend(of_figures(self.figures.as_ref()));
        fields.push((REFUSALS, of_refusals(&self.refusals)));
        fields
    }
}

fn of_shares(shares: Option<(u64, u64)>) -> [Field; 2] {
    [
        ("share_lowest_ns", shares.map(|(low, _)| low).into()),
        ("share_highest_ns", shares.map(|(_, high)| high).into()),
    ]
}

fn of_figures(figures: Option<&Figures>) -> Vec<Field> {
    let total = figures.map(|figures| figures.total);
    let of = |figure: fn(&Total) -> u64| Json::from(total.as_ref().map(figure));
    let some = |figure: fn(&Total) -> Option<u64>| Json::from(total.as_ref().and_then(figure));
    let mut fields = vec![
        ("wanted_ns", of(|it| it.wanted_ns)),
        (
            "wanted_average_ns",
            some(|it| it.wanted_ns.checked_div(it.periods_judged)),
        ),
        ("got_ns", of(|it| it.got_ns)),
        ("got_least_ns", some(|it| it.least_ns)),
        (
            "got_average_ns",
            some(|it| it.got_ns.checked_div(it.periods_on)),
        ),
        ("got_most_ns", of(|it| it.most_ns)),
        ("periods_on", of(|it| it.periods_on)),
        ("periods_partial", of(|it| it.periods_partial)),
        ("periods_judged", of(|it| it.periods_judged)),
        ("periods_used_up", of(|it| it.periods_used_up)),
        ("periods_missed", of(Total::periods_missed)),
        ("periods_wanted_no_more", of(|it| it.periods_wanted_no_more)),
        ("periods_held_back", of(|it| it.periods_held_back)),
        (
            "missed_ns",
            of(|it| it.missed.map_or(0, |missed| missed.ns)),
        ),
    ];
    fields.extend(of_missed(FIRST, figures.and_then(|it| it.first_missed)));
    fields.extend(of_missed(WORST, figures.and_then(|it| it.worst_missed)));
    fields.extend(of_wait(total.and_then(|total| total.longest_wait)));
    fields
}

fn of_wait(wait: Option<Wait>) -> [Field; 4] {
    [
        ("longest_wait_ms", wait.map(|wait| wait.ms).into()),
        ("longest_wait_from_ms", wait.map(|wait| wait.from_ms).into()),
        (
            "longest_wait_held_back_ms",
            wait.map(|wait| wait.held_back_ms).into(),
        ),
        ("longest_wait_ran", wait.map(|wait| wait.ran).into()),
    ]
}

/// Names of the figures of the first missed period, and of the worst.
const FIRST: [&str; 4] = [
    "first_missed_period_start_ns",
    "first_missed_share_ns",
    "first_missed_got_ns",
    "first_missed_ns",
];
const WORST: [&str; 4] = [
    "worst_missed_period_start_ns",
    "worst_missed_share_ns",
    "worst_missed_got_ns",
    "worst_missed_ns",
];

fn of_missed(names: [&'static str; 4], missed: Option<MissedAt>) -> [Field; 4] {
    let figures = missed.map(|missed| {
        let start_ns = missed.start_ms.saturating_mul(TICK_NS);
        [start_ns, missed.share_ns, missed.got_ns, missed.missed_ns]
    });
    std::array::from_fn(|place| (names[place], figures.map(|all| all[place]).into()))
}

fn of_spent(spent: Option<Spent>) -> [Field; 2] {
    let start = spent.and_then(|spent| spent.start_ns);
    [
        (
            "spent_most_ns",
            spent.map(|spent| number(spent.most_ns)).into(),
        ),
        ("spent_most_period_start_ns", start.map(number).into()),
    ]
}

fn of_memory(memory: &Memory) -> [Field; 3] {
    [
        ("memory_bytes", memory.limit.into()),
        ("memory_most_bytes", memory.most.into()),
        ("memory_most_below_bytes", memory.most_below.into()),
    ]
}

fn of_totals(totals: Option<Totals>) -> [Field; 3] {
    [
        (
            "totals_cpu_left_ns",
            totals.map(|totals| totals.cpu_left).into(),
        ),
        (
            "totals_memory_used_bytes",
            totals.map(|totals| totals.memory_used).into(),
        ),
        (
            "totals_memory_free_bytes",
            totals.map(|totals| totals.memory_free).into(),
        ),
    ]
}

/// Refusals by number, with their meanings.
pub fn of_refusals(refusals: &Refusals) -> Json {
    Json::list(refusals.iter().map(|(refusal, count)| {
        Json::object([
            ("number", refusal.number().into()),
            ("count", count.into()),
            ("meaning", refusal.meaning().into()),
        ])
    }))
}

/// Above 2^64 - 1 there is none.
pub fn number(value: u128) -> Json {
    u64::try_from(value).ok().into()
}
