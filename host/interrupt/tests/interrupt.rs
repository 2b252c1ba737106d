//! Programs that Ctrl-C is sent to.

use std::io::{BufRead, BufReader, Read};
use std::os::unix::process::ExitStatusExt;
use std::process::{Command, Stdio};
use std::time::Duration;

const SIGINT: i32 = 2;

fn interrupt(process: u32) {
    let process = process.to_string();
    let sent = Command::new("kill").args(["-INT", &process]).status();
    assert!(sent.expect("kill runs").success());
}

/// The number of this thread. A signal that is sent to it comes on it, before the next call that
/// waits ends.
fn this_thread() -> u32 {
    let link = std::fs::read_link("/proc/thread-self").expect("Linux");
    let number = link.file_name().and_then(|name| name.to_str());
    number.and_then(|it| it.parse().ok()).expect("a number")
}

/// This program as a command that runs one of the tests below, behind these words.
fn program(words: &[&str], test: &str) -> Command {
    let this = std::env::current_exe().expect("this program");
    let mut command = Command::new(words[0]);
    let command_line = ["--exact", "--nocapture", "--ignored", test];
    command.args(&words[1..]).arg(this).args(command_line);
    command.stdout(Stdio::piped());
    command
}

const AS_USUAL: [&str; 2] = ["env", "--default-signal=INT"];
const IGNORING: [&str; 3] = ["env", "--ignore-signal=INT", "--"];

#[test]
fn a_second_ctrl_c_ends_the_program() {
    let mut child = program(&AS_USUAL, "goes_on_and_on")
        .spawn()
        .expect("it runs");
    let out = BufReader::new(child.stdout.take().expect("standard output"));
    let mut lines = out.lines().map(|line| line.expect("a line"));
    assert!(lines.any(|line| line.contains("watching")));
    interrupt(child.id());
    assert!(lines.any(|line| line.contains("asked to end")));
    interrupt(child.id());
    let ended = child.wait().expect("it ends");
    assert_eq!(ended.signal(), Some(SIGINT));
    assert_eq!(i32::from(carv_interrupt::STATUS), 128 + SIGINT);
}

/// For some seconds, if nobody ends it.
#[test]
#[ignore = "run by another test"]
fn goes_on_and_on() {
    carv_interrupt::watch();
    assert!(!carv_interrupt::is_asked());
    println!("watching");
    let mut was_asked = false;
    for _ in 0..5_000 {
        std::thread::sleep(Duration::from_millis(1));
        if carv_interrupt::is_asked() && !was_asked {
            was_asked = true;
            println!("asked to end");
        }
    }
}

/// A read that waits ends with `Interrupted`, so that the program gets to ask.
#[test]
fn ctrl_c_ends_a_read_that_waits() {
    let mut command = program(&AS_USUAL, "reads");
    let mut child = command.stdin(Stdio::piped()).spawn().expect("it runs");
    let out = BufReader::new(child.stdout.take().expect("standard output"));
    let mut lines = out.lines().map(|line| line.expect("a line"));
    let reader = lines.find_map(|line| line.split_once("reads: ")?.1.parse().ok());
    let reader = reader.expect("its number");
    while !waits(reader) {
        std::thread::yield_now();
    }
    interrupt(reader);
    // A read that goes on ends with its input, some seconds later.
    let input = child.stdin.take();
    std::thread::spawn(move || {
        std::thread::sleep(Duration::from_secs(5));
        drop(input);
    });
    let line = lines.find(|line| line.starts_with("ended: "));
    assert_eq!(
        line.as_deref(),
        Some("ended: Some(Interrupted), asked: true")
    );
    assert!(child.wait().expect("it ends").success());
}

/// Does this thread wait for something?
fn waits(thread: u32) -> bool {
    let stat = std::fs::read_to_string(format!("/proc/{thread}/stat")).expect("a thread");
    let (_, behind_name) = stat.rsplit_once(')').expect("a name");
    behind_name.trim_start().starts_with('S')
}

#[test]
#[ignore = "run by another test"]
fn reads() {
    carv_interrupt::watch();
    println!("reads: {}", this_thread());
    let read = std::io::stdin().read(&mut [0]);
    let why = read.err().map(|why| why.kind());
    println!("ended: {why:?}, asked: {}", carv_interrupt::is_asked());
}

#[test]
fn a_program_that_ignores_it_goes_on_to() {
    for (words, expected) in [(&AS_USUAL[..], "asked: true"), (&IGNORING, "asked: false")] {
        let output = program(words, "interrupts_itself").output();
        let output = output.expect("it runs");
        assert!(output.status.success(), "{words:?}");
        let out = String::from_utf8(output.stdout).expect("text");
        assert!(out.contains(expected), "{words:?}: {out}");
    }
}

#[test]
#[ignore = "run by another test"]
fn interrupts_itself() {
    carv_interrupt::watch();
    interrupt(this_thread());
    println!("asked: {}", carv_interrupt::is_asked());
}
