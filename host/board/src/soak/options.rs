//! The arguments of a soak.

use super::called_as;
use carv_compare::command::number;
use carv_text::figures::counted;
use std::fmt;
use std::time::{Duration, SystemTime, UNIX_EPOCH};

/// Where a run ends.
#[derive(Clone, Copy, Debug, PartialEq, Eq)]
pub enum Limit {
    /// Behind the first call after this time.
    Time(Duration),
    /// Behind so many calls.
    Calls(u64),
}

/// What a run is asked for.
#[derive(Clone, Copy, Debug, PartialEq, Eq)]
pub struct Options {
    /// Where it ends.
    pub limit: Limit,
    /// Fixes the calls.
    pub seed: u64,
    /// The share of damaged areas, in percent of the time.
    pub damaged: u64,
    /// Whether the report is also written as JSON.
    pub json: bool,
}

/// The share of damaged areas if none is asked for.
pub const DAMAGED: u64 = 10;
/// The largest share: calls must go on in between.
pub const MOST_DAMAGED: u64 = 90;
const SECONDS: u64 = 60;

impl Options {
    /// Reads the arguments.
    ///
    /// # Errors
    /// A sentence that says what is wrong.
    pub fn read(arguments: &[&str]) -> Result<Self, String> {
        let mut limit = None;
        let mut seed = None;
        let mut damaged = DAMAGED;
        let mut json = false;
        let mut arguments = arguments.iter().copied();
        while let Some(name) = arguments.next() {
            let mut value = || {
                let text = arguments.next();
                number(
                    name,
                    text.ok_or(format!("{name} needs a number behind it"))?,
                )
            };
            match name {
                "--seconds" => set(&mut limit, seconds(value()?, 1)?)?,
                "--minutes" => set(&mut limit, seconds(value()?, 60)?)?,
                "--calls" => set(&mut limit, Limit::Calls(above_0(value()?)?))?,
                "--seed" => seed = Some(value()?),
                "--damaged" => damaged = share(value()?)?,
                "--json" => json = true,
                _ => return Err(format!("there is no option `{name}`")),
            }
        }
        Ok(Self {
            limit: limit.unwrap_or(Limit::Time(Duration::from_secs(SECONDS))),
            seed: seed.unwrap_or_else(seed_of_the_clock),
            damaged,
            json,
        })
    }

    /// The command that makes the first `calls` calls of this run again, as its user types it.
    pub fn repeating(&self, calls: u64) -> String {
        let Self { seed, damaged, .. } = self;
        let share = match *damaged {
            DAMAGED => String::new(),
            other => format!(" --damaged {other}"),
        };
        let command = called_as();
        format!("{command} --calls {calls} --seed {seed}{share}")
    }
}

fn set(limit: &mut Option<Limit>, to: Limit) -> Result<(), String> {
    match limit.replace(to) {
        None => Ok(()),
        Some(_) => Err("only one of --seconds, --minutes and --calls can be given".to_string()),
    }
}

fn seconds(count: u64, each: u64) -> Result<Limit, String> {
    let seconds = above_0(count)?.checked_mul(each);
    let seconds = seconds.ok_or_else(|| format!("{count} minutes are too many"))?;
    Ok(Limit::Time(Duration::from_secs(seconds)))
}

fn above_0(count: u64) -> Result<u64, String> {
    match count {
        0 => Err("a run of 0 makes no call: give at least 1".to_string()),
        count => Ok(count),
    }
}

fn share(percent: u64) -> Result<u64, String> {
    match percent {
        0..=MOST_DAMAGED => Ok(percent),
        _ => Err(format!(
            "--damaged takes a share of the time in percent, 0 to {MOST_DAMAGED}, not {percent}"
        )),
    }
}

/// A seed of at most nine digits, so that it is easily given again.
fn seed_of_the_clock() -> u64 {
    let now = SystemTime::now().duration_since(UNIX_EPOCH);
    let now = now.unwrap_or_default().as_micros();
    (now % 1_000_000_000) as u64
}

impl fmt::Display for Limit {
    fn fmt(&self, f: &mut fmt::Formatter<'_>) -> fmt::Result {
        match self {
            Self::Time(time) => write!(f, "{} s", time.as_secs()),
            Self::Calls(count) => f.write_str(&counted(*count, "call")),
        }
    }
}

#[cfg(test)]
mod tests {
    use super::*;

    fn read(arguments: &str) -> Result<Options, String> {
        let arguments: Vec<&str> = arguments.split_whitespace().collect();
        Options::read(&arguments)
    }

    #[test]
    fn defaults() {
        let options = read("--seed 7").unwrap();
        let expected = Options {
            limit: Limit::Time(Duration::from_secs(60)),
            seed: 7,
            damaged: 10,
            json: false,
        };
        assert_eq!(options, expected);
        assert!(read("").unwrap().seed < 1_000_000_000);
    }

    #[test]
    fn limits() {
        let limit = |arguments| read(arguments).unwrap().limit;
        let seconds = |count| Limit::Time(Duration::from_secs(count));
        assert_eq!(limit("--seconds 5"), seconds(5));
        assert_eq!(limit("--minutes 2 --json"), seconds(120));
        assert_eq!(limit("--calls 9 --damaged 0"), Limit::Calls(9));
    }

    #[test]
    fn a_run_is_repeated_by_its_count() {
        let repeating = |arguments| read(arguments).unwrap().repeating(9);
        assert_eq!(repeating("--seed 7"), "board soak --calls 9 --seed 7");
        assert_eq!(
            repeating("--seed 7 --damaged 3 --seconds 1"),
            "board soak --calls 9 --seed 7 --damaged 3"
        );
    }

    #[test]
    fn what_is_wrong_is_said() {
        for (arguments, part) in [
            ("--calls", "--calls needs a number"),
            (
                "--calls ten",
                "--calls must be a number below 2^64, not `ten`",
            ),
            ("--calls 0", "at least 1"),
            ("--seconds 0", "at least 1"),
            ("--minutes 18446744073709551615", "too many"),
            ("--calls 1 --seconds 1", "only one of"),
            ("--damaged 91", "0 to 90, not 91"),
            ("--sed 1", "no option `--sed`"),
            ("1000", "no option `1000`"),
        ] {
            let why = read(arguments).expect_err(arguments);
            assert!(why.contains(part), "{arguments}: {why}");
        }
    }
}
