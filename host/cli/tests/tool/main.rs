//! The tool as its users call it: output, files and exit status.

mod answers;
mod boards;
mod checks;
mod closed;
mod files;
mod interrupted;
mod kept_names;
mod lists;
mod pages;
mod pictures;
mod reports;
mod spent;
mod traces;
mod usage;

use std::io::Write;
use std::path::PathBuf;
use std::process::{Child, Command, Stdio};
use std::thread::JoinHandle;

/// The example list and its answers.
const EXAMPLE: &str = include_str!("../../examples/first.calls");
const ANSWERS: &str = include_str!("../../examples/first.answers");

/// What a run of the tool left.
#[derive(Debug)]
struct Ran {
    status: i32,
    out: String,
    err: String,
}

/// Starts the tool with these arguments; a thread writes its standard input.
fn spawn(arguments: &[&str], input: &[u8]) -> (Child, JoinHandle<()>) {
    let mut child = Command::new(env!("CARGO_BIN_EXE_carv"))
        .args(arguments)
        .stdin(Stdio::piped())
        .stdout(Stdio::piped())
        .stderr(Stdio::piped())
        .spawn()
        .expect("the tool runs");
    let mut stdin = child.stdin.take().expect("standard input");
    let input = input.to_vec();
    // A tool that doesn't read its input closes it.
    let writer = std::thread::spawn(move || drop(stdin.write_all(&input)));
    (child, writer)
}

/// Runs the tool with these arguments on this standard input.
fn carv_bytes(arguments: &[&str], input: &[u8]) -> Ran {
    let (child, writer) = spawn(arguments, input);
    let output = child.wait_with_output().expect("the tool ends");
    writer.join().expect("the input is written");
    let text = |bytes| String::from_utf8(bytes).expect("UTF-8 text");
    Ran {
        status: output.status.code().expect("an exit status"),
        out: text(output.stdout),
        err: text(output.stderr),
    }
}

fn carv(arguments: &[&str], input: &str) -> Ran {
    carv_bytes(arguments, input.as_bytes())
}

/// Lines of a list.
fn lines(lines: &[&str]) -> String {
    lines.join("\n") + "\n"
}

/// A path for a test's own file, where nothing stands.
fn scratch(name: &str) -> PathBuf {
    let folder = PathBuf::from(env!("CARGO_TARGET_TMPDIR"));
    let path = folder.join(name);
    if path.exists() {
        std::fs::remove_file(&path).expect("a file of an earlier run");
    }
    path
}

/// A path as an argument.
fn text(path: &std::path::Path) -> &str {
    path.to_str().expect("a path in UTF-8")
}
