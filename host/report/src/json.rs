//! A report as JSON.

use crate::fields::{number, of_refusals};
use crate::report::Report;
use crate::rows::BoardRow;
use carv_ledger::{Fall, Overspent, PERIOD};
use carv_text::json::Json;

impl Report {
    /// As one JSON object.
    pub fn json(&self) -> Json {
        let services = self.services.iter().map(|row| Json::object(row.fields()));
        let budgets = self.budgets.iter().map(|row| Json::object(row.fields()));
        let threads = self.threads.iter().map(|row| Json::object(row.fields()));
        let report = Json::object([
            ("services", Json::list(services)),
            ("board", self.board.json()),
            ("budgets", Json::list(budgets)),
            ("threads", Json::list(threads)),
        ]);
        Json::object([("report", report)])
    }
}

impl BoardRow {
    fn json(&self) -> Json {
        let ticks = self.ticks.as_ref();
        Json::object([
            ("opened_line", self.opened.into()),
            ("openings", self.openings.into()),
            ("accepted", self.accepted.into()),
            ("refused", self.refusals.total().into()),
            ("first_tick", ticks.map(|ticks| *ticks.start()).into()),
            ("last_tick", ticks.map(|ticks| *ticks.end()).into()),
            ("ticks", self.ticks_seen.into()),
            ("ticks_missing", self.ticks_missing.into()),
            ("gaps", self.gaps.into()),
            ("ticks_repeated", self.ticks_repeated.into()),
            ("periods", self.periods.into()),
            ("periods_partial", self.periods_partial.into()),
            ("idle_ns", self.idle.got_ns.into()),
            ("spent_known", self.knows_spent.into()),
            ("overspent", self.overspent.map(overspent).into()),
            ("clock_fell", self.clock_fell.map(fall).into()),
            ("any_clock_fell", self.any_clock_fell.map(fall).into()),
            ("refusals", of_refusals(&self.refusals)),
            ("refusals_of_nobody", of_refusals(&self.refusals_of_nobody)),
        ])
    }
}

fn overspent(found: Overspent) -> Json {
    Json::object([
        ("id", found.budget.into()),
        ("spent_ns", number(found.spent)),
        ("cpu_ns", number(found.allowance)),
        ("period_start_ns", number(found.period * PERIOD)),
    ])
}

fn fall(fall: Fall) -> Json {
    Json::object([
        ("line", fall.place.into()),
        ("from_ns", number(fall.from)),
        ("to_ns", number(fall.to)),
    ])
}
