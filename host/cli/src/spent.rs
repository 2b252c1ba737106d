//! What the budgets of the list's board spent: the end of the summary.

use crate::figures::{count, ms, wrapped};
use crate::names::Names;
use carv_ledger::history::Opened;
use carv_ledger::{Fall, History, Most, Overspent, PERIOD};
use carv_text::json::Json;

/// What the ledger was told, from the list's last accepted opening on. A board that the list didn't
/// open has a past that isn't known, so nothing is said of it.
#[derive(Clone, Copy, Debug)]
pub struct Spent<'a>(pub &'a History);

/// Most budgets whose figures stand in the text.
const SHOWN: usize = 8;

impl Spent<'_> {
    /// Which opening this is of, in a line, if there were several.
    pub fn heading(&self) -> String {
        match (self.0.openings(), self.0.opened()) {
            (2.., Some(opened)) => {
                wrapped(&format!("from the opening at line {} on:", opened.place), 2)
            }
            _ => String::new(),
        }
    }

    /// In lines of text; nothing if the list opened no board.
    pub fn text(&self, names: &Names) -> String {
        let Some(opened) = self.0.opened() else {
            return String::new();
        };
        let overspent = opened.ledger.overspent();
        let mut text = opened.clock.fell().map(fell).unwrap_or_default();
        text += &match overspent {
            Some(found) => wrapped(&told(&found, names), 2),
            None => wrapped(
                "no period of 10 ms overspent, by any budget with all below it.",
                2,
            ),
        };
        if overspent.is_some() && opened.clock.fell().is_none() {
            text += &wrapped("The clock never fell, so this must not be: report it.", 4);
        }
        text + &wrapped(&most(opened, names), 4)
    }

    /// As JSON; none if the list opened no board.
    pub fn json(&self, names: &Names) -> Option<Json> {
        let Opened {
            place,
            ledger,
            clock,
            ..
        } = self.0.opened()?;
        let most = ledger.most();
        let budgets = ledger.budgets().map(|(id, carved)| {
            let most = most.get(&id);
            Json::object([
                ("id", id.into()),
                ("name", names.get(id).into()),
                ("parent", carved.parent.into()),
                ("cpu_ns", number(carved.allowance)),
                ("most_ns", number(most.map_or(0, |most| most.spent))),
                (
                    "period_start_ns",
                    most.map(|most| start(most.period)).into(),
                ),
            ])
        });
        let overspent = ledger.overspent().map(|found| {
            Json::object([
                ("id", found.budget.into()),
                ("spent_ns", number(found.spent)),
                ("cpu_ns", number(found.allowance)),
                ("period_start_ns", start(found.period)),
            ])
        });
        let spent = Json::object([
            ("opened_line", (*place).into()),
            ("overspent", overspent.into()),
            ("clock_fell", clock.fell().map(fall).into()),
            ("any_clock_fell", clock.fell_in_any_call().map(fall).into()),
            ("budgets", Json::list(budgets)),
        ]);
        Some(Json::object([("spent", spent)]))
    }
}

fn fell(fall: Fall) -> String {
    let (from, to) = (in_ms(fall.from), in_ms(fall.to));
    let place = fall.place;
    let text = format!("the clock fell at line {place}, from {from} to {to}:");
    wrapped(
        &format!("{text} it is not guaranteed that no period is overspent."),
        2,
    )
}

fn told(found: &Overspent, names: &Names) -> String {
    format!(
        "OVERSPENT: {} with all below it, {} of its {} in the period from {}.",
        name(found.budget, names),
        in_ms(found.spent),
        in_ms(found.allowance),
        in_ms(found.period * PERIOD),
    )
}

/// The most that each budget spent, those left out that spent nothing.
fn most(opened: &Opened, names: &Names) -> String {
    let most = opened.ledger.most();
    let budgets = opened.ledger.budgets();
    let budgets = budgets.filter_map(|(id, carved)| Some((id, carved, *most.get(&id)?)));
    let mut told = budgets.map(|(id, carved, Most { period, spent })| {
        let (spent, share) = (in_ms(spent), in_ms(carved.allowance));
        let (name, from) = (name(id, names), in_ms(period * PERIOD));
        format!("{spent} of {share} by {name}, from {from}")
    });
    let shown: Vec<String> = told.by_ref().take(SHOWN).collect();
    let rest = match told.count() as u64 {
        0 => String::new(),
        more => format!("; and by {}", count(more, "budget more", "budgets more")),
    };
    match shown.is_empty() {
        true => "No CPU time was charged.".to_string(),
        false => format!("The most in a period: {}{rest}.", shown.join("; ")),
    }
}

fn name(id: u64, names: &Names) -> String {
    names
        .get(id)
        .map_or_else(|| format!("budget {id}"), str::to_string)
}

fn in_ms(ns: u128) -> String {
    u64::try_from(ns).map_or_else(|_| format!("{ns} ns"), ms)
}

fn start(period: u128) -> Json {
    number(period * PERIOD)
}

fn fall(fall: Fall) -> Json {
    Json::object([
        ("line", fall.place.into()),
        ("from_ns", number(fall.from)),
        ("to_ns", number(fall.to)),
    ])
}

/// Above 2^64 - 1 there is none: a refused call's tick alone can be there.
fn number(value: u128) -> Json {
    u64::try_from(value).ok().into()
}

#[cfg(test)]
mod tests {
    use super::*;
    use crate::call::{self, Call};

    /// Every call of the table is one of the ledger's, with all of its arguments.
    #[test]
    fn calls_are_the_ledger_s() {
        let mut history = History::default();
        for form in call::table() {
            for given in [form.arguments.len(), form.needed()] {
                let call = Call::new(form, vec![1; given]);
                note(&mut history, form.name, call.arguments(), 7);
            }
        }
        assert!(Spent(&history).json(&Names::default()).is_none());
    }

    fn note(history: &mut History, name: &str, arguments: &[u64], number: u64) {
        let call = carv_ledger::Call::parse(name, arguments);
        history.note(1, call.expect("a call of the table"), number);
    }

    /// The time of a call that is refused, not with 12, doesn't count; what is overspent without a
    /// clock that fell is to be reported.
    #[test]
    fn overspent_though_the_clock_never_fell() {
        let mut history = History::default();
        note(&mut history, "open", &[10_000_000, 1_000_000], 0);
        note(&mut history, "charge_cpu", &[1, 10_000_000, 20_000_000], 0);
        note(&mut history, "charge_cpu", &[9, 1, 5], 7);
        note(&mut history, "charge_cpu", &[1, 1, 20_000_000], 0);
        let expected = "  OVERSPENT: root with all below it, 10.000001 ms of its 10 ms in the period from 20 ms.
    The clock never fell, so this must not be: report it.
    The most in a period: 10.000001 ms of 10 ms by root, from 20 ms.
";
        assert_eq!(Spent(&history).text(&Names::default()), expected);
    }

    #[test]
    fn many_budgets() {
        let text = |history: &History| {
            let text = Spent(history).text(&Names::default());
            text.replace("\n    ", " ")
        };
        let mut history = History::default();
        note(&mut history, "open", &[10_000_000, 1_000_000], 0);
        for _ in 0..=SHOWN {
            note(&mut history, "create_budget", &[1, 1_000, 0, 0], 0);
        }
        let last = " overspent, by any budget with all below it. No CPU time was charged.\n";
        assert!(text(&history).ends_with(last), "{}", text(&history));
        for (id, last) in (2..).zip([
            " by root, from 0 ms; 0.0005 ms of 0.001 ms by budget 2, from 0 ms.\n",
            "; 0.0005 ms of 0.001 ms by budget 3, from 0 ms.\n",
            "; 0.0005 ms of 0.001 ms by budget 4, from 0 ms.\n",
            "; 0.0005 ms of 0.001 ms by budget 5, from 0 ms.\n",
            "; 0.0005 ms of 0.001 ms by budget 6, from 0 ms.\n",
            "; 0.0005 ms of 0.001 ms by budget 7, from 0 ms.\n",
            "; 0.0005 ms of 0.001 ms by budget 8, from 0 ms.\n",
            " by budget 8, from 0 ms; and by 1 budget more.\n",
            " by budget 8, from 0 ms; and by 2 budgets more.\n",
        ]) {
            note(&mut history, "charge_cpu", &[id, 500, 0], 0);
            assert!(text(&history).ends_with(last), "{}", text(&history));
        }
    }
}
