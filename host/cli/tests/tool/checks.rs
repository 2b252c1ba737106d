//! `carv check` on sound and damaged boards.

use crate::{EXAMPLE, carv, scratch, text};
use carv::Board;
use carv_layout::{area, sound};

/// Checks the example's board with these bytes changed.
fn check(name: &str, changes: &[(usize, u8)], arguments: &[&str]) -> (i32, String) {
    let path = scratch(name);
    carv(&["replay", "--silent", "--keep", text(&path)], EXAMPLE);
    let mut bytes = std::fs::read(&path).expect("a kept board");
    for (offset, value) in changes {
        bytes[*offset] = *value;
    }
    std::fs::write(&path, bytes).expect("a file");
    let ran = carv(&[&["check", text(&path)], arguments].concat(), "");
    (ran.status, ran.out)
}

#[test]
fn a_sound_board() {
    let expected = "sound: 4 of 512 objects, 2 budgets among them, 4 of 128 threads, 1 in the ready queue, 1 of 32 ends logged, next id 7\n";
    assert_eq!(check("sound.board", &[], &[]), (0, expected.to_string()));
    let expected =
        "{\"check\":{\"sound\":true,\"library\":true,\"agree\":true,\"count\":0,\"faults\":[]}}\n";
    assert_eq!(
        check("sound-json.board", &[], &["--json"]),
        (0, expected.to_string())
    );
}

#[test]
fn a_damaged_board() {
    // Object 2's memory used, and the first thread in the queue.
    let changes = [(16 + 88 + 72, 1), (66_608, 7)];
    let expected = "\
not sound: 3 faults

broken rule: used equals the charges it pays
  byte 176 (memory used of object 2, place 1): memory used of budget 2 is 37889, the charges that it pays sum up to 37888

broken rule: queue ids are Ready threads other than idle
  byte 66608 (thread in queue place 0): thread 7 in the queue has no record

broken rule: Ready threads other than idle are in the queue
  byte 45272 (state of thread 4, place 1): thread 4 is Ready and not in the queue
";
    assert_eq!(
        check("damaged.board", &changes, &[]),
        (5, expected.to_string())
    );
    let (status, json) = check("damaged-json.board", &changes[..1], &["--json"]);
    let expected = "{\"check\":{\"sound\":false,\"library\":false,\"agree\":true,\"count\":1,\"faults\":[{\"rule\":\"used equals the charges it pays\",\"offset\":176,\"word\":\"memory used of object 2, place 1\",\"fault\":\"memory used of budget 2 is 37889, the charges that it pays sum up to 37888\",\"more\":0}]}}\n";
    assert_eq!((status, json.as_str()), (5, expected));
}

#[test]
fn many_faults_are_counted() {
    let changes: Vec<(usize, u8)> = (0..20).map(|row| (16 + 88 * (100 + row), 1)).collect();
    let (status, out) = check("many.board", &changes, &[]);
    assert_eq!(status, 5);
    assert!(out.starts_with("not sound: 20 faults\n"), "{out}");
    assert!(
        out.contains("\n  and 17 more faults of this rule\n"),
        "{out}"
    );
    assert_eq!(out.lines().count(), 7);
}

#[test]
fn another_length() {
    let path = scratch("length.board");
    for (length, told) in [
        (0, "0 bytes"),
        (68_143, "68143 bytes"),
        (100_000, "100000 bytes"),
    ] {
        std::fs::write(&path, vec![0; length]).expect("a file");
        let ran = carv(&["check", text(&path)], "");
        let expected = format!("not sound: the file has {told}, a kept board has 68144\n");
        assert_eq!((ran.status, ran.out), (5, expected));
    }
    let ran = carv(&["check", text(&scratch("nowhere.board"))], "");
    assert_eq!((ran.status, ran.out.as_str()), (1, ""));
}

/// Each word that is in use, changed by one or set to 0 or the largest number.
#[test]
fn the_rules_say_what_the_library_says() {
    let path = scratch("changed.board");
    carv(&["replay", "--silent", "--keep", text(&path)], EXAMPLE);
    let kept = std::fs::read(&path).expect("a kept board");
    let used = (0..area::WORDS).filter(|place| area::word(&kept, *place) != 0);
    let (mut sound, mut unsound) = (0, 0);
    for place in used.chain([area::QUEUE.row(3), area::EXITS.row(9)]) {
        let found = area::word(&kept, place);
        for value in [found.wrapping_add(1), found.wrapping_sub(1), 0, u64::MAX] {
            let mut changed = kept.clone();
            area::set_word(&mut changed, place, value);
            let is_sound = sound::faults(&changed).is_empty();
            assert_eq!(
                Board::from_bytes(&changed).is_ok(),
                is_sound,
                "{place}, {value}"
            );
            *(if is_sound { &mut sound } else { &mut unsound }) += 1;
        }
    }
    assert!(sound > 20 && unsound > 100, "{sound}, {unsound}");
}
