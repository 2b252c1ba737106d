//! Files as a program prepares and writes them.

use carv_files::{OutputFile, apart};
use std::fs;
use std::io::Write;
use std::os::unix::fs::{PermissionsExt, symlink};
use std::path::{Path, PathBuf};
use std::process::Command;

/// A test's own folder, empty.
fn folder(name: &str) -> PathBuf {
    let folder = Path::new(env!("CARGO_TARGET_TMPDIR")).join(name);
    let _ = fs::remove_dir_all(&folder);
    fs::create_dir_all(&folder).expect("a folder");
    folder
}

/// A test's own folder for links, outside of the repository, in which `rt ci` takes no link.
fn folder_of_links(name: &str) -> PathBuf {
    let process = std::process::id();
    let folder = std::env::temp_dir().join(format!("carv_files-{process}-{name}"));
    let folder = folder.join(name);
    fs::create_dir_all(&folder).expect("a folder");
    folder
}

fn remove(folder: &Path) {
    let above = folder.parent().expect("the test's");
    fs::remove_dir_all(above).expect("a folder");
}

/// The names of what is in a folder.
fn names(folder: &Path) -> Vec<String> {
    let entries = fs::read_dir(folder).expect("a folder");
    let names = entries.map(|entry| entry.expect("an entry").file_name());
    let mut names: Vec<String> = names.map(|it| it.into_string().expect("UTF-8")).collect();
    names.sort();
    names
}

fn read(path: &Path) -> String {
    fs::read_to_string(path).expect("a file")
}

#[test]
fn a_file_is_put_in_its_place_as_a_whole() {
    let folder = folder("whole");
    let path = folder.join("picture.svg");
    fs::write(&path, "the old one").expect("a file");
    fs::set_permissions(&path, fs::Permissions::from_mode(0o640)).expect("its mode");
    let mut file = OutputFile::prepare("the picture", &path).expect("a place");
    write!(file, "the new").expect("room");
    file.flush().expect("room");
    assert_eq!(read(&path), "the old one");
    file.finish_with(b" one").expect("room");
    assert_eq!(read(&path), "the new one");
    let mode = fs::metadata(&path).expect("a file").permissions().mode();
    assert_eq!(mode & 0o777, 0o640);
    assert_eq!(names(&folder), ["picture.svg"]);
}

#[test]
fn one_that_is_dropped_leaves_nothing() {
    let folder = folder("dropped");
    let [old, new] = ["old", "new"].map(|name| folder.join(name));
    fs::write(&old, "the old one").expect("a file");
    for path in [&old, &new] {
        let mut file = OutputFile::prepare("the board", path).expect("a place");
        write!(file, "half").expect("room");
    }
    assert_eq!(names(&folder), ["old"]);
    assert_eq!(read(&old), "the old one");
}

#[test]
fn what_cannot_be_written_is_said_at_once() {
    let folder = folder("cannot");
    fs::write(folder.join("file"), "").expect("a file");
    for (path, part) in [
        (folder.join("none/picture"), "No such file or directory"),
        (folder.join("file/picture"), "Not a directory"),
        (folder.clone(), "directory"),
    ] {
        let why = OutputFile::prepare("the picture", &path).expect_err("no place");
        let says = why.to_string();
        let begin = format!("the picture {} can't be written: ", path.display());
        assert!(says.starts_with(&begin) && says.contains(part), "{says}");
    }
    assert_eq!(names(&folder), ["file"]);
}

#[test]
fn links_stay_and_lead_to_the_new_one() {
    let folder = folder_of_links("links");
    fs::write(folder.join("old"), "old").expect("a file");
    for (link, target) in [("to-old", "old"), ("to-new", "new")] {
        let path = folder.join(link);
        symlink(target, &path).expect("a link");
        let file = OutputFile::prepare("the list", &path).expect("a place");
        file.finish_with(link.as_bytes()).expect("room");
        assert!(fs::symlink_metadata(&path).expect("a link").is_symlink());
        assert_eq!(read(&folder.join(target)), link);
    }
    // A link to a link to a link to a file that isn't there yet.
    for (link, target) in [("first", "second"), ("second", "third"), ("third", "file")] {
        symlink(target, folder.join(link)).expect("a link");
    }
    let file = OutputFile::prepare("the list", &folder.join("first")).expect("a place");
    file.finish_with(b"at the end").expect("room");
    assert_eq!(read(&folder.join("file")), "at the end");
    symlink("round", folder.join("round")).expect("a link");
    let round = OutputFile::prepare("the list", &folder.join("round"));
    assert!(round.is_err());
    remove(&folder);
}

#[test]
fn several_files_of_a_folder_at_a_time() {
    let folder = folder("several");
    let paths = ["one", "two"].map(|name| folder.join(name));
    let files = paths
        .clone()
        .map(|path| OutputFile::prepare("it", &path).expect("a place"));
    for (file, path) in files.into_iter().zip(&paths) {
        let name = path.file_name().expect("a name");
        file.finish_with(name.as_encoded_bytes()).expect("room");
    }
    assert_eq!(paths.map(|path| read(&path)), ["one", "two"]);
    assert_eq!(names(&folder), ["one", "two"]);
}

/// A file that is standard output gets the bytes behind what stands in it.
#[test]
fn standard_output_is_written_as_it_comes() {
    let path = folder("output").join("answers");
    fs::write(&path, "before ").expect("a file");
    let append = fs::OpenOptions::new().append(true).open(&path);
    let mut command = Command::new(std::env::current_exe().expect("this program"));
    command.args([
        "--exact",
        "--nocapture",
        "--ignored",
        "writes_to_standard_output",
    ]);
    let status = command.stdout(append.expect("a file")).status();
    assert!(status.expect("it runs").success());
    let text = read(&path);
    assert!(
        text.starts_with("before ") && text.contains("the board's bytes"),
        "{text}"
    );
    assert!(text.contains("test result: ok"), "{text}");
}

#[test]
#[ignore = "run by another test"]
fn writes_to_standard_output() {
    let file = OutputFile::prepare("the board", Path::new("/dev/stdout")).expect("it is open");
    file.finish_with(b"the board's bytes").expect("room");
}

#[test]
fn devices_are_written_as_they_are() {
    let file = OutputFile::prepare("the board", Path::new("/dev/null")).expect("a device");
    file.finish_with(b"bytes").expect("room");
    let about = fs::metadata("/dev/null").expect("a device");
    assert!(!about.is_file());
}

#[test]
fn one_file_for_two_things_is_refused() {
    let folder = folder_of_links("apart");
    let [list, link, board] = ["list", "link", "board"].map(|name| folder.join(name));
    fs::write(&list, "").expect("a file");
    symlink("list", &link).expect("a link");
    let round = folder.join("../apart/./list");
    let null = Path::new("/dev/null");
    for path in [&list, &link, &round] {
        let why = apart(&[("the list", &list)], &[("the board", path)]).expect_err("the same");
        let expected = format!(
            "the board would be written over the list, {}: name another file",
            path.display()
        );
        assert_eq!(why.to_string(), expected);
    }
    // A name without a folder is one of the folder at work.
    let here = std::env::current_dir().expect("a folder").join("none");
    assert!(apart(&[("the list", Path::new("none"))], &[("the board", &here)]).is_err());
    let twice = [("the board", board.as_path()), ("the picture", &board)];
    let why = apart(&[], &twice).expect_err("the same");
    let expected = format!(
        "the board and the picture would both be written to {}: name two files",
        board.display()
    );
    assert_eq!(why.to_string(), expected);
    let fine = [("the board", board.as_path()), ("a", null), ("b", null)];
    assert_eq!(apart(&[("the list", &list), ("c", null)], &fine), Ok(()));
    remove(&folder);
}
