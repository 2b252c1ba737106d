//! Compares the port's board with the Rust's.

use carv_board_host::soak::command::Ended;
use carv_board_host::tally::Tally;
use carv_board_host::{charges, damaged, runs, short, soak, spent};
use carv_compare::command::{self, Done, numbers, say};
use std::io;
use std::process::ExitCode;

const HELP: &str = "\
Makes calls on the port's board and on the Rust's, and compares after each call the number,
the answer words, the register image and every byte of the state.

usage: board random COUNT SEED
       board short DEPTH
       board damaged COUNT SEED
       board charges COUNT SEED
       board spent COUNT SEED
       board soak [OPTIONS]
       board --help

random   makes COUNT random calls, on one board after the other
short    makes every list of up to DEPTH calls out of 22 on the registry, and out of 22 on
         threads, each on a new board
damaged  damages COUNT areas and makes every kind of call on each: one that isn't sound
         must be refused with 1, without any change
charges  runs laws of charges on COUNT areas, some of them damaged, by the port alone, and
         compares copies of each: charged singly and in bulk, charged and uncharged, charged in
         either order
spent    makes COUNT random calls with clock values that never fall, on one board after the
         other: after each, the figures of every live budget are those worked from the calls
         and their refusals alone, and no budget has spent more than its allowance in the
         period, with all below it
soak     random calls and damaged areas by turns, for a time or a count, with a report:
         see board soak --help

COUNT and SEED are numbers below 2^64; a seed fixes the calls. DEPTH is at most 8.
Exit status: 0 if nothing differs, 1 if something does or is overspent, 2 if called wrongly,
130 if Ctrl-C ended a soak.
";

/// Longest short lists: 22 times as many with each call more.
const DEEPEST: usize = 8;

fn main() -> ExitCode {
    let arguments: Vec<String> = std::env::args().skip(1).collect();
    let arguments: Vec<&str> = arguments.iter().map(String::as_str).collect();
    if let ["soak", options @ ..] = &arguments[..] {
        return soak(options);
    }
    command::run("board", HELP, &arguments, compare)
}

/// `board soak`, which Ctrl-C ends with a status of its own.
fn soak(options: &[&str]) -> ExitCode {
    let mut ended = None;
    let help = soak::command::help();
    let status = command::run(&soak::called_as(), &help, options, |options| {
        let done = soak::command::run(options, &mut io::stdout())?;
        Ok(done.map(|it| ended = Some(it)))
    });
    match ended {
        Some(Ended::Interrupted) => ExitCode::from(carv_interrupt::STATUS),
        _ => status,
    }
}

fn compare(arguments: &[&str]) -> Done {
    let done = match arguments {
        ["random", count, seed] => random(numbers(count, seed)?),
        ["short", depth] => all_short(depth_of(depth)?),
        ["damaged", count, seed] => damage(numbers(count, seed)?),
        ["charges", count, seed] => laws_of_charges(numbers(count, seed)?),
        ["spent", count, seed] => no_period_overspent(numbers(count, seed)?),
        _ => {
            let modes =
                "`random`, `short`, `damaged`, `charges` or `spent` with their numbers, or `soak`";
            return Err(format!("expected {modes}"));
        }
    };
    Ok(done.map(say))
}

fn random((count, seed): (u64, u64)) -> Result<String, String> {
    runs::random(count, seed)
        .map(|tally| report(&tally))
        .map_err(|finding| format!("seed {seed}, {finding}"))
}

fn depth_of(text: &str) -> Result<usize, String> {
    let depth = text.parse().ok();
    depth
        .filter(|depth| *depth <= DEEPEST)
        .ok_or_else(|| format!("DEPTH must be a number up to {DEEPEST}, not `{text}`"))
}

fn all_short(depth: usize) -> Result<String, String> {
    short::short(depth)
        .map(|tally| report(&tally))
        .map_err(|finding| format!("a short list, {finding}"))
}

fn damage((count, seed): (u64, u64)) -> Result<String, String> {
    damaged::damaged(count, seed)
        .map(|report| format!("{report}, 0 differences"))
        .map_err(|why| format!("seed {seed}, {why}"))
}

fn laws_of_charges((count, seed): (u64, u64)) -> Result<String, String> {
    charges::charges(count, seed)
        .map(|report| format!("{report}, 0 differences"))
        .map_err(|why| format!("seed {seed}, {why}"))
}

fn no_period_overspent((count, seed): (u64, u64)) -> Result<String, String> {
    spent::spent(count, seed)
        .map(|report| format!("{report}, none overspent, 0 differences"))
        .map_err(|finding| format!("seed {seed}, {finding}"))
}

fn report(tally: &Tally) -> String {
    format!("{tally}\n{} calls, 0 differences", tally.total())
}

#[cfg(all(test, feature = "mock"))]
mod tests {
    use super::*;
    use carv_board_host::mock::{Mistake, plant};

    #[test]
    fn a_broken_law_is_told_with_its_place_and_calls() {
        plant(Some(Mistake::UnchargeKeepsTheEntry));
        let done = compare(&["charges", "100", "2"]);
        plant(None);
        let why = done.expect("called rightly").expect_err("a difference");
        for part in [
            "seed 2, area ",
            ", a charge and its uncharge: ",
            "\n  copy 1: charge_more(",
        ] {
            assert!(why.contains(part), "{part}: {why}");
        }
    }

    #[test]
    fn what_is_overspent_is_told_with_its_calls() {
        plant(Some(Mistake::RemovalRenewsBehindTheReturn));
        let done = compare(&["spent", "10000", "2"]);
        plant(None);
        let why = done.expect("called rightly").expect_err("a finding");
        for part in [
            "seed 2, ",
            " calls\n  open(",
            "\n  remove(",
            "\ndifference: ",
        ] {
            assert!(why.contains(part), "{part}: {why}");
        }
    }
}
