//! The program: what it writes, and its exit status.

use std::ffi::OsString;
use std::io::Write;
use std::path::Path;
use std::process::{Command, Output, Stdio};

fn sorter(arguments: &[&str]) -> Output {
    let mut command = Command::new(env!("CARGO_BIN_EXE_sorter"));
    command.current_dir(env!("CARGO_TARGET_TMPDIR"));
    command.args(arguments).output().expect("it starts")
}

fn status(output: &Output) -> Option<i32> {
    output.status.code()
}

#[test]
fn runs_the_day() {
    let output = sorter(&["--svg", "day.svg", "--from", "1200"]);
    assert_eq!(status(&output), Some(0));
    let text = String::from_utf8(output.stdout).expect("text");
    assert!(text.ends_with("The picture is in day.svg.\n"));
    let svg = Path::new(env!("CARGO_TARGET_TMPDIR")).join("day.svg");
    let svg = std::fs::read_to_string(svg).expect("it was written");
    assert!(svg.contains("ticks 1,200 to 1,299"));
}

#[test]
fn writes_the_calls() {
    let output = sorter(&["--calls", "day.calls", "--svg", "of_calls.svg"]);
    assert_eq!(status(&output), Some(0));
    let text = String::from_utf8(output.stdout).expect("text");
    assert!(text.ends_with("The list of calls is in day.calls.\n"));
    let list = Path::new(env!("CARGO_TARGET_TMPDIR")).join("day.calls");
    let list = std::fs::read_to_string(list).expect("it was written");
    let day = sorter::day::run(&sorter::dayfile::sorter()).expect("the day is as always");
    assert_eq!(list, day.calls.join("\n") + "\n");
}

#[test]
fn helps() {
    let output = sorter(&["--help"]);
    assert_eq!(status(&output), Some(0));
    let text = String::from_utf8(output.stdout).expect("text");
    assert!(text.contains("usage: sorter [--svg PATH] [--from MS] [--calls PATH]"));
    assert!(text.lines().all(|line| line.len() <= 100));
}

#[test]
fn called_wrongly() {
    for arguments in [
        &["day"][..],
        &["--svg"],
        &["--calls"],
        &["--from", "noon"],
        &["--from", "3000"],
        &["--help", "day"],
        &["--day"],
        &["--print-day", "stárving"],
        &["--print-day", "--calls", "day.calls"],
    ] {
        let output = sorter(arguments);
        assert_eq!(status(&output), Some(2), "{arguments:?}");
        let text = String::from_utf8(output.stderr).expect("text");
        assert!(text.ends_with("see sorter --help\n"), "{text}");
        assert!(output.stdout.is_empty());
    }
}

/// A file that can't be written is told before the day is run, and nothing is written.
#[test]
fn no_place_for_a_file() {
    for (option, what) in [
        ("--svg", "picture"),
        ("--calls", "list of calls"),
        ("--html", "page"),
        ("--trace", "trace"),
    ] {
        let svg = Path::new(env!("CARGO_TARGET_TMPDIR")).join("of_no_place.svg");
        let _ = std::fs::remove_file(&svg);
        let output = sorter(&["--svg", "of_no_place.svg", option, "no such folder/day"]);
        assert_eq!(status(&output), Some(1));
        let why = format!("the {what} can't be written to no such folder/day: ");
        assert!(text(&output.stderr).contains(&why), "{what}");
        assert!(output.stdout.is_empty(), "the day was not run");
        assert!(!svg.exists());
    }
}

/// Ctrl-C ends a day, and leaves the files as they were and nothing beside them.
#[test]
fn ctrl_c_leaves_nothing() {
    let folder = Path::new(env!("CARGO_TARGET_TMPDIR")).join("interrupted");
    let _ = std::fs::remove_dir_all(&folder);
    std::fs::create_dir(&folder).expect("a folder");
    let services: String = (0..50)
        .map(|number| format!("service s{number}: 0.2 ms, 64 KiB\nwork: always\n"))
        .collect();
    let day = format!("periods 10000\nboard 10 ms, 4 MiB\n{services}");
    std::fs::write(folder.join("long.day"), day).expect("a day file");
    std::fs::write(folder.join("old.svg"), "old").expect("a picture");
    // It isn't started to ignore Ctrl-C, as what runs in the background may be.
    let mut command = Command::new("env");
    command.arg("--default-signal=INT");
    command.arg(env!("CARGO_BIN_EXE_sorter"));
    command.args([
        "--day", "long.day", "--svg", "old.svg", "--html", "new.html",
    ]);
    command.current_dir(&folder);
    let command = command.stdout(Stdio::piped()).stderr(Stdio::piped());
    let mut child = command.spawn().expect("it starts");
    let names = || {
        let files = std::fs::read_dir(&folder).expect("the folder");
        let names = files.map(|file| file.expect("a file").file_name());
        let mut names: Vec<OsString> = names.collect();
        names.sort();
        names
    };
    while names().len() < 4 && child.try_wait().expect("a status").is_none() {
        std::thread::sleep(std::time::Duration::from_millis(1));
    }
    let number = child.id().to_string();
    let sent = Command::new("kill").args(["-INT", &number]).status();
    assert!(sent.expect("kill runs").success());
    let output = child.wait_with_output().expect("it ends");
    assert_eq!(status(&output), Some(130));
    assert_eq!(text(&output.stdout), "");
    let says = "sorter: interrupted before the day was over: no file is written\n";
    assert_eq!(text(&output.stderr), says);
    assert_eq!(names(), ["long.day", "old.svg"]);
    let old = std::fs::read(folder.join("old.svg")).expect("the picture");
    assert_eq!(old, b"old");
}

/// No file is written over the day file, or over another.
#[test]
fn files_are_kept_apart() {
    file("apart.day", "periods 1\n");
    for arguments in [
        ["--day", "apart.day", "--svg", "apart.day"],
        ["--svg", "apart.svg", "--html", "apart.svg"],
        ["--svg", "apart.svg", "--trace", "apart.svg"],
    ] {
        let output = sorter(&arguments);
        assert_eq!(status(&output), Some(2), "{arguments:?}");
        assert!(output.stdout.is_empty(), "the day was not run");
    }
    let day = Path::new(env!("CARGO_TARGET_TMPDIR")).join("apart.day");
    assert_eq!(std::fs::read(day).expect("the day file"), b"periods 1\n");
}

/// The trace is that of the day's list of calls, with the day's events.
#[test]
fn the_trace() {
    let output = sorter(&[
        "--svg",
        "trace.svg",
        "--calls",
        "trace.calls",
        "--trace",
        "trace.json",
    ]);
    assert_eq!(status(&output), Some(0));
    assert!(text(&output.stdout).ends_with("The trace is in trace.json.\n"));
    let folder = Path::new(env!("CARGO_TARGET_TMPDIR"));
    let trace = std::fs::read_to_string(folder.join("trace.json")).expect("the trace");
    let (list, of_list) = (folder.join("trace.calls"), folder.join("of_list.json"));
    let arguments = ["replay", "--silent", "--trace"].map(OsString::from);
    let files = [of_list.clone().into(), list.into()];
    let status = carv_cli::carv(&[&arguments[..], &files[..]].concat());
    assert_eq!(status, carv_cli::status::Status::Refused);
    let of_list = std::fs::read_to_string(of_list).expect("the trace of the list");
    let events = trace.lines().filter(|line| !of_list.contains(line)).count();
    assert_eq!(events, 7);
    assert_eq!(trace.lines().count(), of_list.lines().count() + events);
    for part in [
        r#""name":"counting: thread 4""#,
        r#""ts":2100000,"s":"t","name":"upload overruns: it now wants"#,
    ] {
        assert!(trace.contains(part), "{part}");
    }
}

/// The page has the answers, the checks, what was planned and why a service stayed off.
#[test]
fn the_page() {
    let page = |arguments: &[&str]| {
        let output = sorter(&[&["--svg", "page.svg", "--html", "page.html"], arguments].concat());
        assert!(text(&output.stdout).ends_with("The page is in page.html.\n"));
        let path = Path::new(env!("CARGO_TARGET_TMPDIR")).join("page.html");
        std::fs::read_to_string(path).expect("the page")
    };
    let own = page(&[]);
    for part in [
        "counting: got what it wanted of its 4 ms in all 300 periods",
        "Counting got its share in every period in which it wanted it.",
        "<dt>service counting</dt>",
        "4 ms of every 10 ms, 98,304 bytes",
        "upload overruns",
        "<svg ",
        "create_budget 1 2000000 65536 500000000",
    ] {
        assert!(own.contains(part), "{part}");
    }
    file(
        "page.day",
        sorter_day().replace("counting: 4 ms", "counting: 6 ms"),
    );
    let refused = page(&["--day", "page.day"]);
    assert!(refused.contains("upload stayed off at 0 ms: its budget was refused with 12"));
    let printed = sorter(&["--print-day", "starving"]);
    file("starving.day", printed.stdout);
    let starving = page(&["--day", "starving.day"]);
    assert!(starving.contains("counting: MISSED 30 of 30 periods"));
}

/// The sorter's own day, as a file.
fn sorter_day() -> String {
    text(&sorter(&["--print-day"]).stdout)
}

/// A file for a test, in the folder where the program runs.
fn file(name: &str, text: impl AsRef<[u8]>) {
    let path = Path::new(env!("CARGO_TARGET_TMPDIR")).join(name);
    std::fs::write(path, text).expect("it can be written");
}

fn text(bytes: &[u8]) -> String {
    String::from_utf8(bytes.to_vec()).expect("text")
}

/// What is printed is the file of the sorter's own day: run, it is the same day.
#[test]
fn prints_a_day_to_begin_with() {
    let printed = sorter(&["--print-day"]);
    assert_eq!(status(&printed), Some(0));
    file("printed.day", &printed.stdout);
    let arguments = ["--day", "printed.day", "--svg", "printed.svg"];
    let (own, again) = (sorter(&["--svg", "printed.svg"]), sorter(&arguments));
    assert_eq!(text(&own.stdout), text(&again.stdout));
    let starving = sorter(&["--print-day", "starving"]);
    assert_eq!(text(&starving.stdout), sorter::dayfile::DAYS[1].1);
}

#[test]
fn runs_another_day() {
    let day = text(&sorter(&["--print-day"]).stdout);
    file("five.day", day.replace("counting: 4 ms", "counting: 5 ms"));
    let output = sorter(&["--day", "five.day", "--svg", "five.svg"]);
    assert_eq!(status(&output), Some(0));
    assert!(text(&output.stdout).contains("\n  counting          5 "));
}

/// 3 if a service is refused, or what is expected doesn't hold.
#[test]
fn not_as_planned() {
    for (name, day) in [
        ("refused.day", "periods 5\nservice one: 11 ms, 64 KiB\n"),
        (
            "unexpected.day",
            "periods 5\nservice one: 1 ms, 64 KiB\nwork: always\nexpect one: never held back\n",
        ),
    ] {
        file(name, day);
        let output = sorter(&["--day", name, "--svg", "not_as_planned.svg"]);
        assert_eq!(status(&output), Some(3), "{name}");
        assert!(output.stderr.is_empty());
        assert!(text(&output.stdout).ends_with("The picture is in not_as_planned.svg.\n"));
    }
    // What somebody asks for may be refused.
    file(
        "asked.day",
        "periods 5\nat 20 ms: ask camera: 11 ms, 1 KiB\n",
    );
    let output = sorter(&["--day", "asked.day", "--svg", "not_as_planned.svg"]);
    assert_eq!(status(&output), Some(0));
}

#[test]
fn bad_lines() {
    file(
        "bad.day",
        "periods 5\n\nservce one: 1 ms, 64 KiB\nwatch two\n",
    );
    let output = sorter(&["--day", "bad.day"]);
    assert_eq!(status(&output), Some(2));
    assert!(output.stdout.is_empty());
    let told = text(&output.stderr);
    assert!(
        told.starts_with("sorter: the day file bad.day has 2 bad lines:\n  line 3: "),
        "{told}"
    );
    assert!(told.contains("\n  line 4: there is no service two\n      the form is `watch NAME`\n"));
    assert!(told.ends_with("see sorter --help\n"));
}

/// A file that can't be read, or holds no text, or too much.
#[test]
fn no_day_file() {
    file("bytes.day", b"periods 5\n\xff\n");
    file("long.day", vec![b'\n'; (1 << 20) + 1]);
    for (path, why) in [
        ("no such folder/my.day", "can't be read: "),
        (".", "can't be read: "),
        ("bytes.day", "can't be read: line 2 is no UTF-8 text"),
        ("long.day", "can't be read: it has more than 1 MiB"),
    ] {
        let output = sorter(&["--day", path]);
        assert_eq!(status(&output), Some(1), "{path}");
        let told = text(&output.stderr);
        assert!(
            told.contains(&format!("the day file {path} {why}")),
            "{told}"
        );
        assert!(output.stdout.is_empty());
    }
}

/// `-` is standard input; a short day has one place for the picture to begin.
#[test]
fn reads_standard_input() {
    let run = |from: &str| {
        let mut command = Command::new(env!("CARGO_BIN_EXE_sorter"));
        command.current_dir(env!("CARGO_TARGET_TMPDIR"));
        command.args(["--day", "-", "--svg", "input.svg", "--from", from]);
        command.stdin(Stdio::piped()).stdout(Stdio::piped());
        let mut child = command.stderr(Stdio::null()).spawn().expect("it starts");
        let mut input = child.stdin.take().expect("it is piped");
        input.write_all(b"periods 5\n").expect("it reads");
        drop(input);
        child.wait_with_output().expect("it ends")
    };
    let output = run("19");
    assert_eq!(status(&output), Some(0));
    assert!(text(&output.stdout).starts_with("A day in small: 5 periods"));
    assert_eq!(status(&run("20")), Some(2));
}

/// Who closes standard output or standard error early doesn't see a crash.
#[test]
fn closed_outputs() {
    for arguments in [
        &["--print-day"][..],
        &["--svg", "closed.svg"],
        &["--nonsense"],
    ] {
        let mut command = Command::new(env!("CARGO_BIN_EXE_sorter"));
        command.current_dir(env!("CARGO_TARGET_TMPDIR"));
        command
            .args(arguments)
            .stdout(Stdio::piped())
            .stderr(Stdio::piped());
        let mut child = command.spawn().expect("it starts");
        drop((child.stdout.take(), child.stderr.take()));
        let status = child.wait().expect("it ends").code();
        assert!(
            [Some(0), Some(2)].contains(&status),
            "{arguments:?}: {status:?}"
        );
    }
}

/// Paths needn't be UTF-8 text.
#[cfg(unix)]
#[test]
fn paths_of_any_bytes() {
    use std::os::unix::ffi::OsStrExt;
    let folder = Path::new(env!("CARGO_TARGET_TMPDIR"));
    let path = |name: &[u8]| folder.join(std::ffi::OsStr::from_bytes(name));
    let (day, svg) = (path(b"\xff.day"), path(b"\xff.svg"));
    std::fs::write(&day, "periods 5\n").expect("it can be written");
    let mut command = Command::new(env!("CARGO_BIN_EXE_sorter"));
    command.arg("--day").arg(&day).arg("--svg").arg(&svg);
    let output = command.output().expect("it starts");
    assert_eq!(status(&output), Some(0));
    assert!(svg.exists());
}
