//! The report as JSON.

use super::Report;
use crate::soak::{Found, Limit, Options};
use crate::tally::{REMOVALS, TOTALS};
use carv_compare::board::call::Op;
use carv_text::json::Json;

impl Report {
    /// The report as one JSON object, in one line.
    pub fn json(&self) -> String {
        let Options {
            limit,
            seed,
            damaged: share,
            ..
        } = self.options;
        let limit = match limit {
            Limit::Time(time) => ("seconds", Json::Number(time.as_secs())),
            Limit::Calls(count) => ("calls", Json::Number(count)),
        };
        let object = Json::object([
            ("seed", Json::Number(seed)),
            ("limit", Json::object([limit])),
            ("damaged_percent", Json::Number(share)),
            ("seconds", Json::Real(self.time.as_secs_f64())),
            ("interrupted", Json::from(self.is_interrupted)),
            ("calls", Json::Number(self.tally.total())),
            ("calls_a_second", Json::Number(self.calls_a_second())),
            ("accepted", Json::Number(self.tally.with(0))),
            ("refused", Json::Number(self.refused())),
            ("by_call", self.calls_json()),
            ("refusals", self.refusals_json()),
            ("boards", self.boards_json()),
            ("removals", self.removals_json()),
            ("totals", self.totals_json()),
            ("damaged", self.damaged_json()),
            ("differences", Json::Number(self.differences())),
            ("difference", self.difference_json()),
            ("repeat", Json::from(self.repeating())),
        ]);
        object.to_string()
    }

    fn calls_json(&self) -> Json {
        let ops = Op::ALL.iter().map(|op| {
            let refused = self.tally.numbers(Some(*op)).filter(|(n, _)| *n > 0);
            let refused = refused.map(|(n, count)| (n.to_string(), Json::Number(count)));
            let counts = Json::object([
                ("accepted", Json::Number(self.tally.of(*op, 0))),
                ("refused", Json::object(refused)),
            ]);
            (op.name(), counts)
        });
        Json::object(ops)
    }

    fn refusals_json(&self) -> Json {
        let refusals = self.refusals().map(|(refusal, count)| {
            Json::object([
                ("number", Json::Number(refusal.number())),
                ("calls", Json::Number(count)),
                ("meaning", Json::from(refusal.meaning())),
            ])
        });
        Json::List(refusals.collect())
    }

    fn boards_json(&self) -> Json {
        let reached = self.tally.reached();
        Json::object([
            ("opened", Json::Number(self.tally.of(Op::Open, 0))),
            ("objects", Json::Number(reached.objects as u64)),
            ("threads", Json::Number(reached.threads as u64)),
            ("queue", Json::Number(reached.queue as u64)),
            ("levels", Json::Number(reached.levels as u64)),
            ("kills", Json::Number(reached.kills)),
            ("plans_to_idle", Json::Number(reached.plans_to_idle)),
        ])
    }

    fn removals_json(&self) -> Json {
        let removals = REMOVALS.map(|(_, is_meant)| {
            let counts = self.tally.removals_by_clock(is_meant).map(Json::Number);
            let names = ["payer_due", "not_due", "clock_fell"];
            Json::object(names.into_iter().zip(counts))
        });
        let names = ["budget", "another_kind", "refused"];
        Json::object(names.into_iter().zip(removals))
    }

    fn totals_json(&self) -> Json {
        let counts = TOTALS.map(|(_, whose)| Json::Number(self.tally.totals(whose)));
        let names = [
            "root",
            "three_levels",
            "two_levels",
            "leaf",
            "another_kind",
            "missing",
        ];
        Json::object(names.into_iter().zip(counts))
    }

    fn damaged_json(&self) -> Json {
        let Self { damaged, .. } = self;
        let rules = self
            .rules()
            .map(|(rule, count)| (rule, Json::Number(count)));
        Json::object([
            ("areas", Json::Number(damaged.areas())),
            ("unsound", Json::Number(damaged.unsound())),
            ("calls", Json::Number(damaged.calls())),
            ("broken_first", Json::object(rules)),
        ])
    }

    fn difference_json(&self) -> Json {
        match &self.difference {
            None => Json::Null,
            Some(Found::Area(why)) => Json::object([("what", Json::from(why.as_str()))]),
            Some(Found::Calls(finding)) => {
                let steps = finding
                    .steps
                    .iter()
                    .map(|step| Json::from(step.to_string()));
                Json::object([
                    ("what", Json::from(finding.difference.as_str())),
                    ("calls", Json::List(steps.collect())),
                ])
            }
        }
    }
}
