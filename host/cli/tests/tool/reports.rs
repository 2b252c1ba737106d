//! Reports, and the answers at the end of a replay.

use crate::{EXAMPLE, carv, lines, scratch, text};

const STARVING: &str = include_str!("../../examples/starving.calls");
const REPORT: &str = include_str!("../../examples/starving.report");
const MISSED: &str =
    "counting: MISSED 10 of 10 periods; first and worst from 10 ms (2 of 4 ms); longest wait 3 ms";
const OPEN: &str = "open 10_000_000 1_000_000";

/// The starving example with its recorded report: missed periods are seen in each form.
#[test]
fn the_starving_example() {
    let file = concat!(env!("CARGO_MANIFEST_DIR"), "/examples/starving.calls");
    let ran = carv(&["report", file], "");
    assert_eq!((ran.status, ran.err.as_str()), (0, ""));
    assert_eq!(ran.out, REPORT);
    assert!(ran.out.contains(&format!("\n  {MISSED}\n")), "{}", ran.out);
    assert!(ran.out.lines().all(|line| line.chars().count() <= 100));
    assert_eq!(carv(&["report"], STARVING).out, REPORT);
    assert_eq!(carv(&["report", "-"], STARVING).out, REPORT);
    let json = carv(&["report", "--json", file], "").out;
    assert_eq!(json.lines().count(), 1, "one object");
    let part = "\"periods_judged\":10,\"periods_used_up\":0,\"periods_missed\":10,";
    assert!(json.contains(part), "{json}");
    assert!(json.contains(&format!("\"answer\":\"{MISSED}\"")), "{json}");
    let csv = carv(&["report", "--csv", file], "").out;
    let mut rows = csv
        .split("\r\n")
        .map(|row| row.split(',').collect::<Vec<_>>());
    let header = rows.next().expect("a header");
    let column = header.iter().position(|name| *name == "periods_missed");
    let counting = rows.next().expect("a row");
    assert_eq!(counting[..3], ["service", "", "counting"]);
    assert_eq!(counting[column.expect("a column")], "10");
}

/// JSON that is made of what it may be made of: strings, numbers, words, lists and objects.
fn well_formed(text: &str) -> &str {
    let text = text.trim_start();
    let many = |open: char, close: char, one: fn(&str) -> &str| {
        let mut rest = text.strip_prefix(open).expect("it opens").trim_start();
        while !rest.starts_with(close) {
            rest = one(rest).trim_start();
            rest = match rest.strip_prefix(',') {
                Some(behind) => {
                    assert!(!behind.starts_with(close), "a value behind a comma");
                    behind.trim_start()
                }
                None => {
                    assert!(rest.starts_with(close), "a comma or the end: {rest:.40}");
                    rest
                }
            };
        }
        &rest[1..]
    };
    match text.chars().next().expect("a value") {
        '{' => many('{', '}', |field| {
            let rest = string(field);
            well_formed(rest.strip_prefix(':').expect("a colon"))
        }),
        '[' => many('[', ']', well_formed),
        '"' => string(text),
        _ => {
            let end = text.find([',', '}', ']']).unwrap_or(text.len());
            let word = &text[..end];
            let is_word = ["null", "true", "false"].contains(&word);
            assert!(is_word || word.parse::<u64>().is_ok(), "{word}");
            &text[end..]
        }
    }
}

/// What stands behind a string.
fn string(text: &str) -> &str {
    let rest = text.strip_prefix('"').expect("a quote");
    let mut escaped = false;
    for (place, letter) in rest.char_indices() {
        match letter {
            _ if escaped => escaped = false,
            '\\' => escaped = true,
            '"' => return &rest[place + 1..],
            letter => assert!(!letter.is_control(), "escaped if it is a control character"),
        }
    }
    panic!("a string that ends");
}

#[test]
fn json_is_well_formed() {
    let named = lines(&["name 2 bag \"printer\" \\ é", "name 3 a, b"]) + STARVING;
    for list in [EXAMPLE, STARVING, &named, OPEN, "current", ""] {
        for command in ["report", "replay"] {
            let ran = carv(&[command, "--json"], list);
            for line in ran.out.lines() {
                assert_eq!(well_formed(line), "", "{line}");
            }
        }
    }
}

/// Help has each field of the object.
#[test]
fn help_has_the_fields() {
    let help = carv(&["help", "json"], "").out;
    let words: Vec<&str> = help
        .split(|letter: char| !letter.is_alphanumeric() && letter != '_')
        .collect();
    let list = STARVING.to_string() + "account 99\nremove 2 0\n";
    for arguments in [&["report", "--json"][..], &["replay", "--json", "--silent"]] {
        let ran = carv(arguments, &list);
        let names = ran
            .out
            .split("\":")
            .filter_map(|part| part.rsplit('"').next());
        let names: Vec<&str> = names.filter(|name| !name.contains('}')).collect();
        assert!(names.len() > 20, "{names:?}");
        for name in names {
            assert!(words.contains(&name), "{name}");
        }
    }
    let csv = carv(&["report", "--csv"], STARVING).out;
    for name in csv.split("\r\n").next().expect("a header").split(',') {
        let is_numbered = name.starts_with("refused_");
        assert!(
            is_numbered || name == "row" || words.contains(&name),
            "{name}"
        );
    }
    assert!(carv(&["help", "report"], "").out.contains("column `row`"));
}

#[test]
fn the_list_of_the_help() {
    let help = carv(&["help", "report"], "").out;
    let pasted = help
        .lines()
        .filter_map(|line| line.strip_prefix("    echo "));
    let mut list: String = pasted.map(|line| format!("{line}\n")).collect();
    for n in 1..=59 {
        list += &format!("tick {n}\nplan {n}\n");
    }
    assert!(help.contains("for n in $(seq 1 59); do echo tick $n; echo plan $n; done"));
    let ran = carv(&["report"], &list);
    assert_eq!(ran.status, 0, "{}", ran.err);
    let counting = "\n  counting: used up its 4 ms in all 5 periods, missed none\n";
    assert!(ran.out.contains(counting), "{}", ran.out);
    assert!(ran.out.contains("\n  bag printer: MISSED 2 of 5 periods; "));
}

/// A replay ends with the answers and what was spent, as lines of text or as objects.
#[test]
fn at_the_end_of_a_replay() {
    let ran = carv(&["replay", "--silent"], STARVING);
    let (_, told) = ran.err.split_once("bad lines\n").expect("the counts");
    let answers = format!("  {MISSED}\n  reject gate: MISSED 5 of 10 periods; ");
    assert!(told.starts_with(&answers), "{told}");
    assert!(told.contains(
        "\n  MISSED: wanted more than it got although it had time\n  no period of 10 ms overspent, "
    ));
    assert!(
        told.contains("\n    The most in a period: 8 ms of 10 ms by root, "),
        "{told}"
    );
    let as_json = ["replay", "--silent", "--json", "--services"];
    let ran = carv(&as_json, STARVING);
    let found: Vec<&str> = ran.out.lines().collect();
    for (line, object) in found
        .iter()
        .zip(["{\"services\":[", "{\"spent\":{", "{\"summary\":{"])
    {
        assert!(line.starts_with(object), "{line}");
    }
    assert_eq!(found.len(), 3);
    let part = format!(
        "{{\"name\":\"counting\",\"answer\":\"{MISSED}\",\"periods_judged\":10,\"periods_used_up\":0,\"periods_missed\":10,\"periods_wanted_no_more\":0}}"
    );
    assert!(found[0].contains(&part), "{}", found[0]);
    // Of the example no whole period is seen; without a tick there is nothing to say.
    let ran = carv(&["replay", "--silent"], EXAMPLE);
    assert!(
        ran.err
            .contains("\n  2 services seen in no whole period, so nothing can be said\n")
    );
    let none = carv(&as_json, OPEN);
    assert!(!none.out.contains("services"), "{}", none.out);
}

/// A board that is opened again: answers and report are of the last opening, and both say so.
#[test]
fn several_openings() {
    let list = EXAMPLE.to_string() + STARVING;
    let line = EXAMPLE.lines().count() + 7;
    let ran = carv(&["replay", "--silent"], &list);
    let expected = format!("\n  from the opening at line {line} on:\n  {MISSED}\n");
    assert!(ran.err.contains(&expected), "{}", ran.err);
    let report = carv(&["report"], &list);
    assert_eq!(report.status, 3, "some call was refused before");
    let begin = format!("From the last of 2 openings on, at line {line}:\n\nDid each service get");
    assert!(report.out.starts_with(&begin), "{}", report.out);
    let (_, of_last) = report.out.split_once("\n\n").expect("what follows");
    let opened = |line: usize| format!("  opened at line {line}; 231 calls");
    let expected = REPORT.replace(&opened(7), &opened(line));
    assert_eq!(of_last, expected);
}

#[test]
fn bad_lines_and_refusals() {
    let bad = lines(&[OPEN, "tik 1", "tick 1", "remove root 0"]);
    let stopped = carv(&["report"], &bad);
    assert_eq!(stopped.status, 4);
    let told = "carv: line 2: there is no call `tik`; did you mean `tick N`?\ncarv: stopped at line 2: the report is of those before it\n";
    assert_eq!(stopped.err, told);
    assert!(
        stopped
            .out
            .contains("\n  opened at line 1; 1 call: 1 accepted, 0 refused\n")
    );
    let skipped = carv(&["report", "--bad-lines", "skip", "--json"], &bad);
    assert_eq!(skipped.status, 4);
    assert!(
        skipped
            .err
            .ends_with("carv: 1 bad line is not in the report\n")
    );
    assert_eq!(
        skipped.out.lines().count(),
        1,
        "bad lines are no objects here"
    );
    assert!(skipped.out.contains("\"accepted\":2,\"refused\":1,"));
    let refused = carv(&["report", "--csv"], &lines(&[OPEN, "remove root 0"]));
    assert_eq!((refused.status, refused.err.as_str()), (3, ""));
    assert_eq!(carv(&["report", "no/such/list"], "").status, 1);
}

#[test]
fn a_board_to_begin_with() {
    let kept = scratch("report.board");
    let ran = carv(&["replay", "--silent", "--keep", text(&kept)], STARVING);
    assert_eq!(ran.status, 0);
    let more: String = (110..=129)
        .map(|n| format!("tick {n}\nplan {n}\n"))
        .collect();
    let list = "name 2 counting\n".to_string() + &more;
    let ran = carv(&["report", "--board", text(&kept)], &list);
    assert_eq!(ran.status, 0, "{}", ran.err);
    let counting = "\n  counting: MISSED 2 of 2 periods; ";
    assert!(ran.out.contains(counting), "{}", ran.out);
    assert!(
        ran.out.contains("what was spent isn't known"),
        "{}",
        ran.out
    );
    std::fs::write(&kept, "no board").expect("it is written");
    assert_eq!(carv(&["report", "--board", text(&kept)], &list).status, 5);
}
