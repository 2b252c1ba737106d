//! Writes random account calls with the Rust's answers, or runs the port's program on them.

use carv_compare::accounts::{BYTES, Records};
use carv_compare::command::{self, numbers, write_out, write_records};
use carv_compare::program;
use std::process::ExitCode;

const HELP: &str = "\
Random calls on one account alone, each with the answer that the Rust gives.

usage: accounts write COUNT SEED
       accounts run PROGRAM COUNT SEED
       accounts --help

write  writes COUNT records of 34 little-endian 64-bit words to standard output
run    starts PROGRAM, feeds it the same records on standard input and passes its
       output through; its last line must read `COUNT calls, 0 differences`

COUNT and SEED are numbers below 2^64; a seed fixes the records.
Exit status: 0 if all went well, 1 if not, 2 if called wrongly.
";

fn main() -> ExitCode {
    command::program("accounts", HELP, |arguments| match arguments {
        ["write", count, seed] => {
            let (count, seed) = numbers(count, seed)?;
            Ok(write_out(records(seed), count))
        }
        ["run", program, count, seed] => {
            let (count, seed) = numbers(count, seed)?;
            Ok(run(program, count, seed))
        }
        _ => Err("expected `write COUNT SEED` or `run PROGRAM COUNT SEED`".to_string()),
    })
}

fn run(program: &str, count: u64, seed: u64) -> Result<(), String> {
    program::run(program, count, move |input| {
        write_records(input, records(seed), count)
    })
}

fn records(seed: u64) -> impl Iterator<Item = [u8; BYTES]> {
    Records::new(seed).map(|record| record.bytes())
}
