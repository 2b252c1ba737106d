//! Runs the programs.

use std::process::Command;

/// How a program ended, and what it printed.
pub struct Run {
    /// Its exit status.
    pub status: Option<i32>,
    /// Standard output.
    pub out: String,
    /// Standard error.
    pub err: String,
}

/// Runs a program with these arguments.
pub fn run(program: &str, arguments: &str) -> Run {
    let arguments = arguments.split_whitespace();
    ended(Command::new(program).args(arguments))
}

/// Runs it with nobody to read its standard error.
#[allow(dead_code, reason = "not every test has use for it")]
pub fn with_reader_gone(program: &str, arguments: &str) -> Run {
    let (reader, writer) = std::io::pipe().expect("a pipe");
    drop(reader);
    let arguments = arguments.split_whitespace();
    ended(Command::new(program).args(arguments).stderr(writer))
}

fn ended(command: &mut Command) -> Run {
    let run = command.output();
    let run = run.expect("the program starts");
    let text = |bytes| String::from_utf8(bytes).expect("text");
    Run {
        status: run.status.code(),
        out: text(run.stdout),
        err: text(run.stderr),
    }
}
