//! Ctrl-C in a replay: it ends with summary and files.

use crate::{EXAMPLE, carv, scratch, text};
use std::io::{BufRead, BufReader, Read, Write};
use std::process::{Child, Command, Stdio};

/// The tool with an input that stays open. It isn't started to ignore Ctrl-C, as what runs in the
/// background may be.
fn start(arguments: &[&str]) -> Child {
    Command::new("env")
        .arg("--default-signal=INT")
        .arg(env!("CARGO_BIN_EXE_carv"))
        .args(arguments)
        .stdin(Stdio::piped())
        .stdout(Stdio::piped())
        .stderr(Stdio::piped())
        .spawn()
        .expect("the tool runs")
}

fn interrupt(child: &Child) {
    let number = child.id().to_string();
    let sent = Command::new("kill").args(["-INT", &number]).status();
    assert!(sent.expect("kill runs").success());
}

/// Reads the answers up to this line, so that all calls before it are made.
fn read_up_to(answers: &mut impl BufRead, last: &str) {
    let mut line = String::new();
    while !line.contains(last) {
        line.clear();
        assert_ne!(answers.read_line(&mut line).expect("a line"), 0, "{last}");
    }
}

/// More answers than the tool's buffer holds, behind those of the example.
fn fill() -> String {
    "current\n".repeat(5_000)
}

#[test]
fn a_list_that_waits_ends_with_summary_and_files() {
    let [board, whole] = ["int.board", "int-whole.board"].map(scratch);
    let [picture, trace] = ["int.svg", "int.json"].map(scratch);
    let files = ["--keep", text(&board), "--svg", text(&picture)];
    let files = [&files[..], &["--trace", text(&trace)]].concat();
    let mut child = start(&[&["replay"], &files[..]].concat());
    let mut stdin = child.stdin.take().expect("standard input");
    let list = format!("{EXAMPLE}{}", fill());
    let lines = list.lines().count();
    let mut answers = BufReader::new(child.stdout.take().expect("standard output"));
    let feeding = std::thread::spawn(move || {
        stdin.write_all(list.as_bytes()).expect("the tool reads");
        stdin
    });
    read_up_to(&mut answers, "current");
    let reading = std::thread::spawn(move || {
        let mut rest = Vec::new();
        answers.read_to_end(&mut rest).expect("answers");
    });
    let stdin = feeding.join().expect("the list is written");
    interrupt(&child);
    let output = child.wait_with_output().expect("the tool ends");
    drop(stdin);
    reading.join().expect("answers");
    let told = String::from_utf8(output.stderr).expect("UTF-8 text");
    assert_eq!(output.status.code(), Some(130), "{told}");
    // A part of the list may still have been in the pipe.
    let (_, line) = told.split_once("; interrupted behind line ").expect(&told);
    let line: usize = line
        .lines()
        .next()
        .and_then(|it| it.parse().ok())
        .expect("a line");
    assert!((EXAMPLE.lines().count()..=lines).contains(&line), "{told}");
    assert!(told.contains("no period of 10 ms overspent"), "{told}");
    carv(&["replay", "--silent", "--keep", text(&whole)], EXAMPLE);
    let bytes = |path| std::fs::read(path).expect("a kept board");
    assert!(bytes(board) == bytes(whole), "the calls so far were made");
    let picture = std::fs::read_to_string(picture).expect("a picture");
    assert!(picture.contains("ticks 1 to 10"));
    let trace = std::fs::read_to_string(trace).expect("a trace");
    assert!(trace.ends_with("}}\n"), "{trace}");
}

#[test]
fn as_json() {
    let mut child = start(&["replay", "--json"]);
    let mut stdin = child.stdin.take().expect("standard input");
    let list = "open 10_000_000 1\n".to_string() + &fill();
    stdin.write_all(list.as_bytes()).expect("the tool reads");
    let mut answers = BufReader::new(child.stdout.take().expect("standard output"));
    read_up_to(&mut answers, "\"current\"");
    let reading = std::thread::spawn(move || {
        let mut rest = String::new();
        answers.read_to_string(&mut rest).expect("answers");
        rest
    });
    interrupt(&child);
    let status = child.wait().expect("the tool ends");
    let rest = reading.join().expect("answers");
    assert_eq!(status.code(), Some(130));
    let last = rest.lines().last().expect("a summary");
    assert!(last.starts_with("{\"summary\":{"), "{last}");
    assert!(
        last.contains(",\"stopped_at\":null,\"interrupted_at\":"),
        "{last}"
    );
    assert!(!last.contains("\"interrupted_at\":null"), "{last}");
    drop(stdin);
}

/// A report on a part of the list says so, and so does its page.
#[test]
fn a_report() {
    let page = scratch("int-report.html");
    let mut child = start(&["report", "--html", text(&page)]);
    let mut stdin = child.stdin.take().expect("standard input");
    // The page's file is prepared when the tool watches for Ctrl-C, and what is more than a pipe holds
    // is taken when it reads.
    let list = format!("{EXAMPLE}{}", fill().repeat(4));
    stdin.write_all(list.as_bytes()).expect("the tool reads");
    interrupt(&child);
    let output = child.wait_with_output().expect("the tool ends");
    drop(stdin);
    let told = String::from_utf8(output.stderr).expect("UTF-8 text");
    assert_eq!(output.status.code(), Some(130), "{told}");
    let line = told.strip_prefix("carv: interrupted behind line ");
    let line = line.and_then(|it| it.strip_suffix(": the report is of those up to it\n"));
    let line: u64 = line.and_then(|it| it.parse().ok()).expect(&told);
    assert!((1..=list.lines().count() as u64).contains(&line), "{told}");
    let out = String::from_utf8(output.stdout).expect("UTF-8 text");
    assert!(out.starts_with("Did each service get its share"), "{out}");
    let page = std::fs::read_to_string(page).expect("a page");
    assert!(page.contains("The tool was interrupted behind line "));
}

#[test]
fn a_list_that_was_not_interrupted_says_nothing_of_it() {
    let ran = carv(&["replay", "--silent"], EXAMPLE);
    assert!(!ran.err.contains("interrupted"), "{}", ran.err);
    let ran = carv(&["replay", "--silent", "--json"], EXAMPLE);
    assert!(!ran.out.contains("interrupted"), "{}", ran.out);
    assert_eq!(carv(&["report"], EXAMPLE).err, "");
}
