//! Writes random calls on a registry with the answers that are expected.

use carv_compare::command::record_program;
use carv_compare::objects::Records;
use std::process::ExitCode;

const ABOUT: &str = "\
Random calls on one registry, each with the answer that the Rust gives or, where the
port refuses beyond the Rust, with document 01's number.";

fn main() -> ExitCode {
    record_program("objects_record", ABOUT, |seed| {
        Records::new(seed).map(|record| record.bytes())
    })
}
