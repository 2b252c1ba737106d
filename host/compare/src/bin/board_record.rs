//! Writes random calls on a board with the answers that are expected.

use carv_compare::board::record::Records;
use carv_compare::command::record_program;
use std::process::ExitCode;

const ABOUT: &str = "\
Document 01's edges, then random calls on one board after the other, each with the answer
that the Rust gives or, where the port refuses beyond the Rust, with document 01's number.";

fn main() -> ExitCode {
    record_program("board_record", ABOUT, |seed| {
        Records::new(seed).map(|record| record.bytes())
    })
}
