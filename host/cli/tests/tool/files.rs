//! The files that a replay writes.

use crate::{ANSWERS, EXAMPLE, carv, scratch, text};
use std::fs;
use std::path::{Path, PathBuf};
use std::process::{Command, Stdio};

/// A test's own folder with a list in it.
fn folder(name: &str) -> (PathBuf, PathBuf) {
    let folder = Path::new(env!("CARGO_TARGET_TMPDIR")).join(name);
    let _ = fs::remove_dir_all(&folder);
    fs::create_dir_all(&folder).expect("a folder");
    let list = folder.join("first.calls");
    fs::write(&list, EXAMPLE).expect("a list");
    (folder, list)
}

/// The names of what is in a folder.
fn names(folder: &Path) -> Vec<String> {
    let entries = fs::read_dir(folder).expect("a folder");
    let names = entries.map(|entry| entry.expect("an entry").file_name());
    let mut names: Vec<String> = names.map(|it| it.into_string().expect("UTF-8")).collect();
    names.sort();
    names
}

#[test]
fn no_file_is_written_over_what_is_read() {
    let (folder, list) = folder("over");
    let board = folder.join("first.board");
    carv(&["replay", text(&list), "--keep", text(&board)], "");
    let kept = fs::read(&board).expect("a kept board");
    let [list, board] = [text(&list), text(&board)];
    let round = format!("{}/../over/first.calls", text(&folder));
    let board_names = format!("{board}.names");
    let one = format!("{}/one", text(&folder));
    let one_names = format!("{one}.names");
    for (arguments, part) in [
        (
            vec![list, "--keep", list],
            "the board would be written over the list, ",
        ),
        (
            vec![list, "--keep", &round],
            "the board would be written over the list, ",
        ),
        (
            vec![list, "--svg", list],
            "the picture would be written over the list, ",
        ),
        (
            vec![list, "--board", board, "--keep", list],
            "the board would be written over the list, ",
        ),
        (
            vec![list, "--board", board, "--keep", board, "--svg", board],
            "the board and the picture would both be written to ",
        ),
        (
            vec![list, "--board", board, "--svg", board],
            "the picture would be written over the board to begin with, ",
        ),
        (
            vec![list, "--board", board, "--svg", &board_names],
            "the picture would be written over its names, ",
        ),
        (
            vec![list, "--keep", &one, "--svg", &one],
            "the board and the picture would both be written to ",
        ),
        (
            vec![list, "--keep", &one, "--svg", &one_names],
            "the names and the picture would both be written to ",
        ),
    ] {
        let ran = carv(&[&["replay"], &arguments[..]].concat(), "");
        assert_eq!((ran.status, ran.out.as_str()), (2, ""), "{arguments:?}");
        assert!(ran.err.contains(part), "{arguments:?}: {}", ran.err);
    }
    assert_eq!(fs::read_to_string(list).expect("the list"), EXAMPLE);
    assert_eq!(fs::read(board).expect("the board"), kept);
    let expected = ["first.board", "first.board.names", "first.calls"];
    assert_eq!(names(&folder), expected);
}

#[test]
fn a_list_on_standard_input_is_known_too() {
    let (folder, list) = folder("input");
    let run = |to: &Path| {
        let mut tool = Command::new(env!("CARGO_BIN_EXE_carv"));
        let tool = tool.args(["replay", "--silent", "--keep", text(to)]);
        let tool = tool.stdin(fs::File::open(&list).expect("the list"));
        tool.output().expect("the tool runs").status.code()
    };
    assert_eq!(run(&list), Some(2));
    assert_eq!(fs::read_to_string(&list).expect("the list"), EXAMPLE);
    assert_eq!(run(&folder.join("first.board")), Some(3));
}

#[test]
fn what_cannot_be_written_is_said_before_the_first_call() {
    let (folder, list) = folder("before");
    let none = folder.join("none/file");
    for (option, what) in [("--keep", "the board"), ("--svg", "the picture")] {
        let ran = carv(&["replay", text(&list), option, text(&none)], "");
        assert_eq!((ran.status, ran.out.as_str()), (1, ""));
        let expected = format!("carv: {what} {} can't be written: ", none.display());
        assert!(ran.err.starts_with(&expected), "{}", ran.err);
    }
    assert_eq!(names(&folder), ["first.calls"]);
}

/// A run that fails leaves the old files, and no others.
#[test]
fn old_files_stay_whole() {
    let (folder, _) = folder("old");
    let [board, picture] = ["board", "picture"].map(|name| folder.join(name));
    for path in [&board, &picture] {
        fs::write(path, "the old one").expect("a file");
    }
    let arguments = ["replay", "--keep", text(&board), "--svg", text(&picture)];
    assert_eq!(carv(&arguments, "current\n").status, 1);
    for path in [&board, &picture] {
        assert_eq!(fs::read_to_string(path).expect("a file"), "the old one");
    }
    assert_eq!(names(&folder), ["board", "first.calls", "picture"]);
}

#[test]
fn special_files_are_written_as_they_are() {
    let null = [
        "replay",
        "--silent",
        "--keep",
        "/dev/null",
        "--svg",
        "/dev/null",
    ];
    assert_eq!(carv(&null, EXAMPLE).status, 3);
    assert!(!Path::new("/dev/null.names").exists());
    let piped = carv(&["replay", "--silent", "--svg", "/dev/stdout"], EXAMPLE);
    assert!(piped.out.starts_with("<?xml"), "{}", piped.out);
    assert!(piped.out.trim_end().ends_with("</svg>"), "{}", piped.out);
}

/// Standard output that is a file has the answers, then the picture.
#[test]
fn a_picture_behind_the_answers() {
    let (folder, list) = folder("behind");
    let path = folder.join("out");
    let ran = Command::new(env!("CARGO_BIN_EXE_carv"))
        .args(["replay", text(&list), "--svg", "/dev/stdout"])
        .stdout(fs::File::create(&path).expect("a file"))
        .stderr(Stdio::null())
        .status();
    assert_eq!(ran.expect("the tool runs").code(), Some(3));
    let out = fs::read_to_string(&path).expect("what was printed");
    let picture = out.strip_prefix(ANSWERS).expect("the answers");
    assert!(picture.starts_with("<?xml"), "{picture}");
    assert_eq!(names(&folder), ["first.calls", "out"]);
}

#[test]
fn a_link_is_followed() {
    let (_, list) = folder("link");
    // Outside of the repository, in which `rt ci` takes no link.
    let folder = std::env::temp_dir().join(format!("carv-link-{}", std::process::id()));
    fs::create_dir_all(&folder).expect("a folder");
    let link = folder.join("link");
    std::os::unix::fs::symlink("target", &link).expect("a link");
    carv(&["replay", text(&list), "--keep", text(&link)], "");
    let target = fs::read(folder.join("target")).expect("a kept board");
    fs::remove_dir_all(&folder).expect("a folder");
    let straight = scratch("straight.board");
    carv(&["replay", text(&list), "--keep", text(&straight)], "");
    assert!(target == fs::read(straight).expect("a kept board"));
}
