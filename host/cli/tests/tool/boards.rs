//! Boards that are kept, gone on with and printed.

use crate::{EXAMPLE, carv, scratch, text};
use carv::{AREA_BYTES, Board};
use std::path::PathBuf;

/// The example's board in a file of this name.
fn example(name: &str) -> PathBuf {
    let path = scratch(name);
    carv(&["replay", "--silent", "--keep", text(&path)], EXAMPLE);
    path
}

#[test]
fn a_kept_board_goes_on() {
    let whole = std::fs::read(example("whole.board")).expect("a kept board");
    assert_eq!(whole.len(), AREA_BYTES);
    assert!(Board::from_bytes(&whole).is_ok());
    let (first, second) = EXAMPLE.split_at(EXAMPLE.find("# Thread 0").expect("a comment"));
    let kept = scratch("half.board");
    let arguments = ["replay", "--silent", "--keep", text(&kept)];
    assert_eq!(carv(&arguments, first).status, 3);
    assert_ne!(std::fs::read(&kept).expect("a kept board"), whole);
    let ran = carv(
        &[&arguments[..], &["--board", text(&kept)]].concat(),
        second,
    );
    assert_eq!(ran.status, 3);
    assert_eq!(std::fs::read(&kept).expect("a kept board"), whole);
}

#[test]
fn a_board_is_kept_where_a_bad_line_ended_the_list() {
    let kept = scratch("stopped.board");
    let list = "open 10_000_000 5\noops\nopen 10_000_000 6\n";
    let ran = carv(&["replay", "--keep", text(&kept)], list);
    assert_eq!(ran.status, 4);
    let board = Board::from_bytes(&std::fs::read(&kept).expect("a kept board"));
    let root = board.and_then(|board| board.account(carv::ObjectId::ROOT));
    assert_eq!(root.map(|root| root.limits.memory_bytes), Ok(5));
}

#[test]
fn boards_that_are_not_there() {
    let kept = scratch("never.board");
    let ran = carv(&["replay", "--keep", text(&kept)], "current");
    assert_eq!(ran.status, 1);
    assert!(
        ran.err.ends_with("can't be kept: no board was opened.\n"),
        "{}",
        ran.err
    );
    assert!(!kept.exists());
    let ran = carv(&["replay", "--board", text(&kept)], "current");
    assert_eq!((ran.status, ran.out.as_str()), (1, ""));
    std::fs::write(&kept, [0; 100]).expect("a file");
    let ran = carv(&["replay", "--board", text(&kept)], "current");
    assert_eq!((ran.status, ran.out.as_str()), (5, ""));
    let expected = "holds no sound board: the file has 100 bytes, a kept board has 68144";
    assert!(ran.err.contains(expected), "{}", ran.err);
    let folder = scratch("no-folder").join("board");
    let list = "open 10_000_000 1";
    let ran = carv(&["replay", "--keep", text(&folder)], list);
    assert_eq!(ran.status, 1);
    assert!(ran.err.contains("can't be written: "), "{}", ran.err);
}

/// The example's board without the names that its list gives.
const DUMPED: &str = "\
Board: 4 of 512 objects, 2 budgets among them, 4 of 128 threads, 1 in the ready queue, 1 of 32 ends logged, next id 7
Current: thread 5, after 8 switches

Budgets, each below the one that it was carved out of:
  budget  CPU share  left  reserved  period from       memory      used  reserved       free
  1 root      10 ms  6 ms      4 ms        20 ms  1,000,000 B     128 B  65,536 B  934,336 B
    2          4 ms  3 ms      0 ms        10 ms     65,536 B  37,888 B       0 B   27,648 B

Totals, each budget with all below it:
  budget  CPU left       memory      used       free
  1 root      9 ms  1,000,000 B  38,016 B  961,984 B
    2         3 ms     65,536 B  37,888 B   27,648 B

Other objects:
  object  kind    payer    charge
       4  thread  2      33,792 B
       6  frame   2       4,096 B

Threads:
  thread  state                    queue    budget       run ticks  space
  0       blocked: notification 1  -        none                 0  no space
  4       ready                    1 of 1   2                    4  space 1, cspace 1, root 4096
  5       dead                     current  3, not live          2  space 1, cspace 1, root 8192
  idle    running                  -        none                 2  no space

Ready queue, threads from front to back:
  4

Exit log, oldest first:
  thread  cause
       5  faulted
";

#[test]
fn a_board_is_printed() {
    let path = example("dumped.board");
    let ran = carv(&["dump", text(&path)], "");
    assert_eq!((ran.status, ran.out.as_str()), (0, DUMPED));
}

#[test]
fn a_board_is_printed_as_json() {
    let path = example("dumped-json.board");
    let ran = carv(&["dump", "--json", text(&path)], "");
    assert_eq!((ran.status, ran.out.lines().count()), (0, 1));
    for part in [
        "{\"board\":{\"sound\":true,\"next_id\":7,\"current\":5,\"switches\":8,\"budgets\":[{\"id\":1,\"name\":\"root\",",
        "\"memory_free_bytes\":934336,\"totals\":{\"cpu_left_ns\":9000000,\"memory_used_bytes\":38016,\"memory_free_bytes\":961984}},{\"id\":2,",
        "\"totals\":{\"cpu_left_ns\":3000000,\"memory_used_bytes\":37888,\"memory_free_bytes\":27648}}],",
        "\"objects\":[{\"id\":4,\"kind\":\"thread\",\"payer\":2,\"charge_bytes\":33792},{\"id\":6,",
        "\"threads\":[{\"id\":0,\"state\":\"blocked\",\"wait\":{\"kind\":\"notification\",\"number\":1},\"budget\":null,",
        "\"queue\":[4],\"exits\":[{\"thread\":5,\"cause\":\"faulted\"}]}}",
    ] {
        assert!(ran.out.contains(part), "{part}: {}", ran.out);
    }
}

#[test]
fn what_is_readable_of_an_unsound_board_is_printed() {
    let path = example("unsound.board");
    let mut bytes = std::fs::read(&path).expect("a kept board");
    bytes[66_600] = 128; // The length of the ready queue.
    bytes[45_096 + 8] = 9; // The state of thread 0.
    std::fs::write(&path, bytes).expect("a file");
    let ran = carv(&["dump", text(&path)], "");
    assert_eq!(ran.status, 5);
    assert!(
        ran.out.starts_with("WARNING: this is no sound board"),
        "{}",
        ran.out
    );
    for part in [
        "The queue table tells of 128 rows, it has 127 places: it isn't read.\n",
        "9 (not listed): notification 1",
        "Ready queue: empty\n",
        "       5  faulted\n",
    ] {
        assert!(ran.out.contains(part), "{part}: {}", ran.out);
    }
    std::fs::write(&path, "short").expect("a file");
    let ran = carv(&["dump", text(&path)], "");
    assert_eq!(ran.status, 5);
    assert!(
        ran.out.ends_with("Nothing of it can be read.\n"),
        "{}",
        ran.out
    );
}
