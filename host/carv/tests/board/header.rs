//! `include/carv.h` beside `carv-sys` and the wrapper: the constants, and the functions with their types.

use carv::{
    AREA_BYTES, Cause, IMAGE_BYTES, Kind, LAST_TICK, MOST_EXITS, MOST_OBJECTS, MOST_THREADS,
    ObjectId, PERIOD_NS, Refusal, State, TICK_NS, ThreadId, Tick, Wait, c,
};
use std::collections::{BTreeMap, BTreeSet};

const HEADER: &str = include_str!("../../../../include/carv.h");
const DECLARED: &str = include_str!("../../../carv-sys/src/functions.rs");
const DEFINED: &str = include_str!("../../../carv-sys/src/constants.rs");
const CALLED: &str = include_str!("../../src/ffi.rs");
const REFUSALS: &str = include_str!("../../src/refusal.rs");
const CODE: &str = include_str!("../../../../crates/carv_objects/src/refusal.rt");
const LAYOUT: &str = include_str!("../../../../docs/LAYOUT.md");
const DEFINITIONS: &str = include_str!("../../../../crates/carv_objects_spec/specs/Refused.antt");

/// The header without comments.
fn header() -> String {
    let mut parts = HEADER.split("/*");
    let before = parts.next().unwrap_or_default().to_string();
    parts.fold(before, |text, part| {
        text + part.split_once("*/").expect("a comment's end").1
    })
}

/// The number of a constant of the header.
fn constant(name: &str) -> u64 {
    let header = header();
    let mut words = header
        .split_whitespace()
        .skip_while(|word| *word != name)
        .skip(1)
        .filter(|word| *word != "=");
    let value = words.next().unwrap_or_else(|| panic!("no {name}"));
    let next = words.next().unwrap_or_default();
    let goes_on = value.ends_with(|last: char| last.is_alphanumeric() || last == ')')
        && next.starts_with(|first: char| !first.is_alphanumeric() && !"#}_".contains(first));
    assert!(!goes_on, "{name} is {value} {next}");
    let places = header.split_whitespace().filter(|word| *word == name);
    assert_eq!(places.count(), 1, "{name}");
    let value = value.trim_end_matches(',');
    let digits = value.trim_start_matches("UINT64_C(").trim_end_matches(')');
    digits
        .parse()
        .unwrap_or_else(|_| panic!("{name} is {value}"))
}

/// `AddressSpace` as `ADDRESS_SPACE`.
fn upper(name: &str) -> String {
    let mut text = String::new();
    for letter in name.chars() {
        if letter.is_uppercase() && !text.is_empty() {
            text.push('_');
        }
        text.push(letter.to_ascii_uppercase());
    }
    text
}

/// The name of a value as the header has it: `Blocked(Send(0))` as `BLOCKED`.
fn name_of(value: impl std::fmt::Debug) -> String {
    let shown = format!("{value:?}");
    upper(shown.split('(').next().unwrap_or_default())
}

/// Constants by their names in the header, without `CARV_`.
const CONSTANTS: [(&str, u64); 12] = [
    ("AREA_BYTES", AREA_BYTES as u64),
    ("ANSWER_WORDS", c::ANSWER_WORDS as u64),
    ("IMAGE_BYTES", IMAGE_BYTES as u64),
    ("MOST_OBJECTS", MOST_OBJECTS as u64),
    ("MOST_THREADS", MOST_THREADS as u64),
    ("MOST_EXITS", MOST_EXITS as u64),
    ("PERIOD_NS", PERIOD_NS),
    ("TICK_NS", TICK_NS),
    ("LAST_TICK", LAST_TICK),
    ("ROOT", ObjectId::ROOT.0),
    ("FIRST_THREAD", ThreadId::FIRST.0),
    ("IDLE", ThreadId::IDLE.0),
];

#[test]
fn constants() {
    for (name, value) in CONSTANTS {
        assert_eq!(constant(&format!("CARV_{name}")), value, "{name}");
    }
}

/// Names of the header that are compared one by one in `codes` and in `refusals`; what begins with one
/// of `WORDS` is the place of one of so many answer words.
const CODES: [&str; 6] = ["KIND_", "BYTES_", "STATE_", "WAIT_", "CAUSE_", "REFUSED_"];
const WORDS: [(&str, usize); 7] = [
    ("OUT_", 1),
    ("ACCOUNT_", 7),
    ("CHARGE_", 2),
    ("TOTALS_", 3),
    ("KILL_", 2),
    ("PLAN_", 5),
    ("THREAD_", 20),
];

/// What the header names by `#define` or in an enum.
fn named(header: &str) -> Vec<&str> {
    let defined = header.split("#define ").skip(1);
    let enums = header.split("enum {").skip(1);
    let listed = enums.flat_map(|text| text.split('}').next().unwrap_or_default().split(','));
    let names = defined.chain(listed).map(str::split_whitespace);
    names.filter_map(|mut words| words.next()).collect()
}

/// The header has no other name, and as many codes of each form as the wrapper.
#[test]
fn names() {
    let header = header();
    for name in named(&header) {
        assert!(name.starts_with("CARV_"), "{name}");
    }
    let words = header.split(|letter: char| !letter.is_alphanumeric() && letter != '_');
    let names: BTreeSet<&str> = words.filter_map(|it| it.strip_prefix("CARV_")).collect();
    let begins = |name: &str, forms: &[&str]| forms.iter().any(|form| name.starts_with(form));
    let others = names.iter().copied();
    let forms = WORDS.map(|(form, _)| form);
    let others = others.filter(|name| !begins(name, &CODES) && !begins(name, &forms));
    let constants = CONSTANTS.into_iter().map(|(name, _)| name);
    let expected = constants.chain(["H", "ACCEPTED"]).collect::<BTreeSet<_>>();
    assert_eq!(others.collect::<BTreeSet<_>>(), expected);

    // Waits and causes also have a number for none.
    let counts = [
        Kind::ALL.len(),
        Kind::ALL.len(),
        STATES.len(),
        WAITS.len() + 1,
        Cause::ALL.len() + 1,
        Refusal::LISTED.len(),
    ];
    for (form, count) in CODES.into_iter().zip(counts).chain(WORDS) {
        let named = names.iter().filter(|name| name.starts_with(form));
        assert_eq!(named.count(), count, "{form}");
    }
    for name in names.iter().filter(|name| begins(name, &forms)) {
        assert!(constant(&format!("CARV_{name}")) < c::ANSWER_WORDS as u64);
    }
}

const WAITS: [Wait; 5] = [
    Wait::Send(7),
    Wait::Recv(7),
    Wait::Reply(7),
    Wait::Notification(7),
    Wait::Sleep(Tick(7)),
];

const STATES: [State; 5] = [
    State::Inactive,
    State::Ready,
    State::Running,
    State::Blocked(Wait::Send(0)),
    State::Dead,
];

#[test]
fn codes() {
    for kind in Kind::ALL {
        let name = name_of(kind);
        assert_eq!(constant(&format!("CARV_KIND_{name}")), kind.code());
        assert_eq!(constant(&format!("CARV_BYTES_{name}")), kind.bytes());
        assert_eq!(Kind::try_from(kind.code()), Ok(*kind));
    }
    let unlisted = Kind::try_from(10).map_err(Refusal::from);
    assert_eq!(unlisted, Err(Refusal::Code));
    for cause in Cause::ALL {
        assert_eq!(
            constant(&format!("CARV_CAUSE_{}", name_of(cause))),
            cause.code()
        );
        assert_eq!(Cause::try_from(cause.code()), Ok(*cause));
    }
    for wait in WAITS {
        let code = constant(&format!("CARV_WAIT_{}", name_of(wait)));
        assert_eq!(wait.codes(), (code, 7));
        assert_eq!(Wait::try_from((code, 7)), Ok(wait));
    }
    for state in STATES {
        assert_eq!(
            constant(&format!("CARV_STATE_{}", name_of(state))),
            state.code()
        );
    }
}

/// Document 01's number that no call answers: only an account called alone does.
const NOT_GIVEN: u64 = 15;

/// Refusals by name, with their numbers.
type Refusals = BTreeMap<String, u64>;

/// What a call returns, by the header: all constants of the enum that begins with `CARV_ACCEPTED`, and
/// whatever else is called `CARV_REFUSED_`.
fn refusals_in_header() -> Refusals {
    let header = header();
    let mut enums = header.split(['{', '}']);
    let returned = enums.find(|text| text.trim_start().starts_with("CARV_ACCEPTED = 0,"));
    let returned = returned
        .expect("the enum of what a call returns")
        .split(',');
    let returned = returned.filter_map(|line| line.split_whitespace().next());
    let refused = header.split_whitespace();
    let refused = refused.filter(|word| word.starts_with("CARV_REFUSED_"));
    let names = returned.skip(1).chain(refused);
    let named = names.map(|name| (name.replacen("CARV_REFUSED_", "", 1), constant(name)));
    named.collect()
}

/// The refusals that the wrapper gives a number, listed or not.
fn refusals_in_wrapper() -> Refusals {
    let arms = REFUSALS.lines().filter_map(|line| {
        let (name, number) = line.trim().strip_prefix("Self::")?.split_once(" => ")?;
        let number = number.strip_suffix(',')?.parse().ok()?;
        Some((upper(name), number))
    });
    arms.collect()
}

/// The variants of the wrapper's `Refusal`.
fn variants_in_wrapper() -> Vec<String> {
    let (_, body) = REFUSALS.split_once("pub enum Refusal {").expect("the enum");
    let (body, _) = body.split_once("\n}").expect("its end");
    let lines = body.lines().map(str::trim);
    let variants = lines.filter(|line| !line.is_empty() && !line.starts_with("//"));
    let names = variants.map(|line| line.trim_end_matches(',').split('(').next());
    names.flatten().map(upper).collect()
}

/// The refusals of the code: every line of the enum is one, or a comment.
fn refusals_in_code() -> Refusals {
    let (_, body) = CODE.split_once("pub enum Refusal {").expect("the enum");
    let (body, _) = body.split_once("\n}").expect("its end");
    let lines = body.lines().map(str::trim);
    let is_code = |line: &&str| !line.is_empty() && !line.starts_with("//");
    let named = lines.filter(is_code).map(|line| {
        let named = line
            .strip_suffix(',')
            .and_then(|line| line.split_once(" = "));
        let (name, number) = named.unwrap_or_else(|| panic!("no refusal: {line}"));
        (upper(name), parsed(number, line))
    });
    named.collect()
}

/// The refusals of the definitions: every number that is declared there, by the line that says which.
fn refusals_in_definitions() -> Refusals {
    let is_code = |line: &&str| !line.is_empty() && !line.starts_with("--");
    let lines = DEFINITIONS.lines().filter(is_code);
    // What is neither a declaration nor its one line of definition is an import.
    let declared = lines.filter(|line| !line.starts_with("use ") && !line.contains(" = "));
    let declared = declared.filter_map(|line| {
        let declared = line
            .strip_prefix("abbrev pub ")
            .and_then(|it| it.split_once(" : "));
        match declared.unwrap_or_else(|| panic!("no declaration: {line}")) {
            (name, "ℕ") => Some(name),
            (name, "ℕ → Bool") if name.starts_with("added") => None,
            _ => panic!("no refusal: {line}"),
        }
    });
    let named = declared.map(|name| {
        let mut lines = DEFINITIONS.lines();
        let number = lines.find_map(|line| line.strip_prefix(name)?.strip_prefix(" = "));
        (
            name.to_uppercase(),
            parsed(number.unwrap_or_default(), name),
        )
    });
    named.collect()
}

fn parsed(number: &str, named: &str) -> u64 {
    number
        .parse()
        .unwrap_or_else(|_| panic!("no number of {named}: {number}"))
}

/// Header, wrapper, code and definitions have the same refusals, the wrapper lists all of them, and
/// 15 is none.
#[test]
fn refusals() {
    let listed = Refusal::LISTED.map(|refusal| (name_of(refusal), refusal.number()));
    let mut variants = listed.clone().map(|(name, _)| name).to_vec();
    variants.push("OTHER".to_string());
    assert_eq!(variants_in_wrapper(), variants);
    let listed = Refusals::from(listed);
    assert_eq!(refusals_in_header(), listed);
    assert_eq!(refusals_in_wrapper(), listed);
    assert_eq!(refusals_in_code(), listed);
    assert_eq!(refusals_in_definitions(), listed);
    assert!(listed.values().all(|number| *number != NOT_GIVEN));
    assert_eq!(Refusal::from_number(NOT_GIVEN), Refusal::Other(NOT_GIVEN));
}

/// Functions by name: the types of the arguments in Rust, then that of the answer.
type Functions = BTreeMap<String, Vec<String>>;

fn in_header() -> Functions {
    let header = header();
    let prototypes = header.split([';', '{', '}']).map(str::trim);
    let prototypes = prototypes.filter_map(|prototype| {
        let (front, arguments) = prototype.strip_suffix(')')?.split_once('(')?;
        let (answer, name) = front.split_once(" carv_")?;
        let types = arguments.split(',').map(|argument| {
            let (c, name) = argument.trim().rsplit_once(' ').expect("type and name");
            rust_type(c, name.starts_with('*'))
        });
        let types = types.chain([rust_type(answer, false)]).collect();
        Some((format!("carv_{name}"), types))
    });
    prototypes.collect()
}

fn rust_type(c: &str, pointer: bool) -> String {
    let (element, lent) = match c.strip_prefix("const ") {
        Some(element) => (element, "*const "),
        None => (c, "*mut "),
    };
    let element = match element {
        "uint8_t" => "u8",
        "uint64_t" => "u64",
        "size_t" => "usize",
        "bool" => "bool",
        other => panic!("the type {other}"),
    };
    format!("{}{element}", if pointer { lent } else { "" })
}

/// The types of `name: type, name: type`.
fn types(arguments: &str) -> impl Iterator<Item = String> {
    let arguments = arguments.split(',');
    arguments.filter_map(|argument| Some(argument.split_once(": ")?.1.trim().to_string()))
}

/// The functions that `carv-sys` declares.
fn declared() -> Functions {
    let (_, block) = DECLARED
        .split_once("unsafe extern \"C\" {")
        .expect("a block");
    let (block, _) = block.split_once("\n}\n").expect("its end");
    let functions = block.split_terminator(';').map(|function| {
        let (_, function) = function.split_once("pub fn ").expect("a function");
        let (name, function) = function.split_once('(').expect("arguments");
        let (arguments, answer) = function.split_once(')').expect("their end");
        let answer = answer.trim().trim_start_matches("-> ");
        let whole = types(arguments).chain([answer.to_string()]);
        (name.to_string(), whole.collect())
    });
    functions.collect()
}

/// The constants that `carv-sys` defines.
fn defined() -> BTreeMap<&'static str, u64> {
    let lines = DEFINED.lines().filter_map(|line| {
        let (name, value) = line.strip_prefix("pub const ")?.split_once(": ")?;
        let (_, value) = value.strip_suffix(';')?.split_once(" = ")?;
        let number = match value {
            "u64::MAX" => u64::MAX,
            digits => parsed(&digits.replace('_', ""), name),
        };
        Some((name, number))
    });
    lines.collect()
}

/// docs/LAYOUT.md lists the figures of an account and of totals in the order of the header's words.
#[test]
fn figures_stand_in_the_layouts_order() {
    let header = header();
    for (function, prefix) in [
        ("carv_account", "CARV_ACCOUNT_"),
        ("carv_totals", "CARV_TOTALS_"),
    ] {
        let figure = |name: &str| {
            let words = name.strip_prefix(prefix)?.to_lowercase().replace('_', " ");
            Some((constant(name), words.replace("cpu", "CPU")))
        };
        let mut figures: Vec<(u64, String)> =
            named(&header).into_iter().filter_map(figure).collect();
        figures.sort();
        let listed: Vec<&str> = figures.iter().map(|(_, words)| words.as_str()).collect();
        let expected = format!("| 0 to {}: {}", listed.len() - 1, listed.join(", "));
        let head = format!("| `{function}`, ");
        let row = LAYOUT.lines().find(|line| line.starts_with(&head));
        let row = row.expect("a row of the C functions");
        assert!(row.contains(&expected), "{expected}: {row}");
    }
}

#[test]
fn functions() {
    let header = in_header();
    assert_eq!(header.len(), 27);
    assert_eq!(declared(), header);
}

/// Each function of the header is called in one place of the wrapper: in a list, or written out.
#[test]
fn each_function_is_called() {
    for name in in_header().keys() {
        let listed = CALLED.matches(&format!("\n    {name}(")).count();
        let written = CALLED.matches(&format!("called!({name}(")).count();
        assert_eq!(listed + written, 1, "{name}");
    }
}

#[test]
fn definitions() {
    let header = header();
    let names = named(&header).into_iter().filter(|name| *name != "CARV_H");
    let expected: BTreeMap<&str, u64> = names.map(|name| (name, constant(name))).collect();
    assert!(expected.len() > 80, "{}", expected.len());
    assert_eq!(defined(), expected);
}
