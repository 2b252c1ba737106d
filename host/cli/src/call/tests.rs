//! The table beside `include/carv.h` and `docs/LAYOUT.md`.

use super::*;

const HEADER: &str = include_str!("../../../../include/carv.h");
const LAYOUT: &str = include_str!("../../../../docs/LAYOUT.md");

/// Names and arguments of the header's functions on an area, without what is lent.
fn in_header() -> Vec<(String, Vec<String>)> {
    let prototypes = HEADER.split(';').filter_map(|text| {
        let (front, arguments) = text.trim().strip_suffix(')')?.rsplit_once('(')?;
        let (_, name) = front.rsplit_once("carv_")?;
        let names = arguments.split(',').filter_map(|argument| {
            let (_, name) = argument.trim().rsplit_once(' ')?;
            Some(name.trim_start_matches('*').to_string())
        });
        let mut names: Vec<String> = names.collect();
        let is_on_an_area = names.first().is_some_and(|name| name == "area");
        let lent = [
            "area",
            "area_bytes",
            "image",
            "image_bytes",
            "out",
            "out_words",
        ];
        names.retain(|name| !lent.contains(&name.as_str()));
        is_on_an_area.then(|| (name.to_string(), names))
    });
    prototypes.collect()
}

#[test]
fn names_and_arguments_are_the_headers() {
    let forms = table().map(|form| {
        let names = form.arguments.iter().map(|it| it.name.to_string());
        (form.name.to_string(), names.collect::<Vec<_>>())
    });
    let forms: Vec<_> = forms.collect();
    assert_eq!(forms.len(), 26);
    assert_eq!(forms, in_header());
}

/// The numbers in the last column of the functions' table, if it has any; 1 may have a remark.
fn refusals_in_layout(name: &str) -> Vec<u64> {
    let begins = [
        format!("| `carv_{name}` |"),
        format!("| `carv_{name}`, reads |"),
    ];
    let rows = LAYOUT.lines();
    let mut rows = rows.filter(|row| begins.iter().any(|begin| row.starts_with(begin)));
    let (row, second) = (rows.next(), rows.next());
    assert_eq!(second, None, "{name}");
    let numbers = row.and_then(|row| row.trim_end_matches('|').rsplit('|').next());
    let numbers = numbers.expect("a row of the function").split(',');
    let numbers = numbers.map(|number| match number.trim() {
        "1 (the lengths alone)" => "1",
        number => number,
    });
    let numbers = numbers.filter(|number| !number.is_empty());
    let numbers = numbers.map(|number| number.parse());
    numbers.collect::<Result<_, _>>().expect("numbers")
}

#[test]
fn refusals_are_the_layouts() {
    for form in table() {
        let mut expected = refusals_in_layout(form.name);
        let asked = form.name != "open" && expected.contains(&1);
        assert_eq!(form.asks_soundness, asked, "{}", form.name);
        expected.retain(|number| *number != 1);
        assert_eq!(form.refusals, expected, "{}", form.name);
        let unknown =
            |number: &u64| matches!(carv::Refusal::from_number(*number), carv::Refusal::Other(_));
        assert!(!form.refusals.iter().any(unknown), "{}", form.name);
    }
}

#[test]
fn defaults_stand_last() {
    for form in table() {
        let left_out = form.arguments.iter().skip(form.needed());
        assert!(left_out.into_iter().all(|it| it.default.is_some()));
    }
    let defaults = find("start").expect("a call").arguments;
    let context = carv::Context::default();
    let expected = [
        0,
        0,
        0,
        context.rip,
        context.rsp,
        context.rflags,
        0,
        0,
        0,
        0,
    ];
    let defaults = defaults.iter().filter_map(|it| it.default);
    assert_eq!(defaults.collect::<Vec<_>>(), expected);
}
