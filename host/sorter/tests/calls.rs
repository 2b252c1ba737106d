//! The list of calls: replayed by the tool `carv`, it leaves the same board.

use carv::{Board, ObjectId};
use carv_cli::list::{Line, parse};
use sorter::day;
use sorter::dayfile;
use sorter::record::Day;

fn run() -> Day {
    day::run(&dayfile::sorter()).expect("only the carve-out that is noted is refused")
}

fn line_of(text: &str) -> Line {
    parse(text.as_bytes()).expect("a line of a list")
}

#[test]
fn the_same_board() {
    let day = run();
    let mut board = Board::unopened();
    let mut comment = "";
    let mut refusals = 0;
    for line in &day.calls {
        if let Some(text) = line.strip_prefix("# ") {
            comment = text;
        }
        let Line::Call(call) = line_of(line) else {
            continue;
        };
        // A comment before each refused call, and before no other, has its number.
        let refusal = call.make(&mut board).err();
        let expected = refusal.map(|refusal| refusal.to_string());
        let said = comment.starts_with("refused").then_some(comment);
        assert_eq!(said, expected.as_deref(), "{line}");
        refusals += usize::from(refusal.is_some());
        comment = "";
    }
    assert_eq!(refusals, 1);
    assert!(board == *day.board, "the board has other bytes");
}

/// Each budget has its name once it is carved out, the printer's second one too.
#[test]
fn names() {
    let day = run();
    let mut board = Board::unopened();
    let mut names = Vec::new();
    for line in &day.calls {
        match line_of(line) {
            Line::Name(id, name) => {
                let live = board.account(ObjectId(id)).is_ok();
                assert!(live, "{line}");
                names.push(name);
            }
            Line::Call(call) => drop(call.make(&mut board)),
            Line::Nothing => {}
        }
    }
    let services = day.plan.services.iter();
    let mut expected: Vec<&str> = services.map(|service| service.name.as_str()).collect();
    expected.push("bag printer");
    assert_eq!(names, expected);
}

/// Each event stands before its calls, numbered as in the picture.
#[test]
fn events() {
    let day = run();
    let comments = || {
        day.calls
            .iter()
            .filter_map(|line| line.strip_prefix("# event "))
    };
    assert_eq!(comments().count() + 1, day.diary.len());
    for (number, (comment, entry)) in (1..).zip(comments().zip(&day.diary[1..])) {
        let text = entry.text.lines().next().expect("it has a line");
        assert!(comment.starts_with(&format!("{number}, ")), "{comment}");
        assert!(comment.ends_with(&format!(" ms: {text}")), "{comment}");
    }
    let begins = |start: &str| {
        let place = day.calls.iter().position(|line| line.starts_with(start));
        place.expect("it is in the list")
    };
    let off = begins("# event 3, 1,203 ms: bag printer off");
    assert_eq!(day.calls[off - 1], "tick 1203");
    assert!(day.calls[off + 1].starts_with("kill "));
    let asks = begins("# event 1, 500 ms: camera asks");
    assert!(day.calls[asks + 1].starts_with("refill 1 "));
}
