//! Random lists: every trace is valid, and ends with the board's figures.

use crate::{Traced, traced};
use carv::{LAST_TICK, ObjectId};
use carv_cli::call::{Form, Meaning, find, table};

/// Numbers that a seed fixes.
struct Draw(u64);

impl Draw {
    fn below(&mut self, count: u64) -> u64 {
        self.0 = self.0.wrapping_mul(6_364_136_223_846_793_005);
        self.0 = self.0.wrapping_add(1_442_695_040_888_963_407);
        (self.0 >> 20) % count
    }
}

/// How the times of a list are drawn.
#[derive(Clone, Copy)]
enum Times {
    /// They rise, in steps with odd ns.
    Rise,
    /// Small ones, in any order.
    Small,
    /// Any of 64 bits.
    Any,
}

struct List {
    draw: Draw,
    times: Times,
    now_ns: u64,
}

impl List {
    fn time(&mut self) -> u64 {
        match self.times {
            Times::Rise => {
                self.now_ns += self.draw.below(1_500_001);
                self.now_ns
            }
            Times::Small => self.draw.below(40_000_000),
            Times::Any => self.draw.below(1 << 44) << self.draw.below(21),
        }
    }

    fn argument(&mut self, meaning: Meaning) -> u64 {
        match meaning {
            Meaning::Ns => self.time(),
            Meaning::Tick => (self.time() / 1_000_000).min(LAST_TICK + 1),
            Meaning::Flag => u64::from(self.draw.below(20) > 0),
            Meaning::Kind | Meaning::Wait | Meaning::Cause => 1 + self.draw.below(9),
            Meaning::Object => 1 + self.draw.below(12),
            Meaning::Thread => self.draw.below(9).wrapping_sub(1),
            Meaning::Bytes => self.draw.below(60_000),
            Meaning::Number => self.draw.below(30) << self.draw.below(60),
        }
    }

    /// Any call, those below more often.
    fn form(&mut self) -> &'static Form {
        const OFTEN: [&str; 6] = [
            "tick",
            "plan",
            "start",
            "wake",
            "create_budget",
            "create_user_thread",
        ];
        let forms: Vec<&Form> = table().filter(|it| it.name != "open").collect();
        match self.draw.below(1_000) {
            0 => find("open"),
            1..=600 => find(OFTEN[self.draw.below(6) as usize]),
            _ => Some(forms[self.draw.below(forms.len() as u64) as usize]),
        }
        .expect("a call")
    }

    fn line(&mut self) -> String {
        let form = self.form();
        let mut text = form.name.to_string();
        for argument in form.arguments {
            let number = match (form.name, argument.name) {
                ("open", "cpu") => 10_000_000,
                ("open", _) => 1_000_000,
                ("create_budget", "cpu") => self.draw.below(3_000_000),
                ("charge_cpu", "ns") => self.draw.below(3_000_000),
                _ => self.argument(argument.meaning),
            };
            text += &format!(" {number}");
        }
        text
    }
}

fn list(seed: u64, times: Times, lines: usize) -> Vec<String> {
    let mut list = List {
        draw: Draw(seed),
        times,
        now_ns: 0,
    };
    let rest = std::iter::repeat_with(|| list.line()).take(lines);
    ["open 10_000_000 1_000_000".to_string()]
        .into_iter()
        .chain(rest)
        .collect()
}

/// The counters of the live budgets end with their figures, and refusals are counted.
fn agrees(traced: &Traced) {
    assert_eq!(traced.trace.refusals().len() as u64, traced.refused);
    for id in 1..=40 {
        let Ok(account) = traced.board.account(ObjectId(id)) else {
            continue;
        };
        let name = if id == 1 {
            "root (budget 1)"
        } else {
            &format!("budget {id}")
        };
        let last = |counter: &str| {
            let samples = &traced.trace.counters[&format!("{counter}: {name}")];
            samples.last().expect("a sample").figure.clone()
        };
        assert_eq!(last("CPU left").scaled(6), account.cpu_left_ns);
        assert_eq!(last("memory used").whole(), account.memory_used_bytes);
    }
}

/// Enough happens in such lists: slices, counters of several budgets, and refusals.
fn is_busy(traced: &Traced) -> bool {
    let trace = &traced.trace;
    trace.slices.len() > 100 && trace.counters.len() > 6 && traced.refused > 300
}

fn tried(times: Times) -> Vec<Traced> {
    let mut runs = Vec::new();
    for seed in 1..=12 {
        let traced = traced(&list(seed, times, 3_000));
        agrees(&traced);
        runs.push(traced);
    }
    assert!(runs.iter().all(is_busy));
    runs
}

#[test]
fn times_that_rise() {
    for run in tried(Times::Rise) {
        let about = &run.trace.about;
        assert_eq!(about["clock_leaps"].whole(), 0);
    }
}

#[test]
fn times_that_fall() {
    let runs = tried(Times::Small);
    assert!(
        runs.iter()
            .all(|it| it.trace.about["clock_falls"].whole() > 300)
    );
}

#[test]
fn times_of_64_bits() {
    let runs = tried(Times::Any);
    assert!(
        runs.iter()
            .all(|it| it.trace.about["clock_leaps"].whole() > 300)
    );
}
