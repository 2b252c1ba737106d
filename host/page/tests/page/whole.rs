//! Whole pages.

use crate::sample::{ODD, STAMP, SUM, page};
use crate::xml::{Tag, tags};
use carv_page::{Event, Page, Stamp};

const ESCAPED: &str = "&lt;b&gt;&amp;&quot;'&lt;/b&gt;";

fn elements(page: &Page) -> Vec<Tag> {
    tags(&page.html()).expect("a well-formed page")
}

#[test]
fn well_formed_also_if_empty() {
    elements(&page());
    elements(&Page::default());
}

/// Every text that was given stands in the page, escaped.
#[test]
fn every_part_is_there() {
    let html = page().html();
    assert!(!html.contains(ODD));
    for text in [
        "title",
        "question 1",
        "counting missed",
        "display got",
        "upload wasn't seen",
        "never overspent",
        "how to read",
        "list",
        "command",
        "heading",
        "service",
        "row",
        "cell",
        "note",
        "caption",
        "alternative",
        "meaning",
        "advice",
        "line 7",
        "event",
        "tool",
    ] {
        assert!(html.contains(&format!("{text} {ESCAPED}")), "{text}");
    }
    for text in [
        "<dt>list</dt>",
        "<dt>command</dt>",
        ">12<",
        ">12,345<",
        ">1,203<",
        "2026-11-18 03:00 UTC",
    ] {
        assert!(html.contains(text), "{text}");
    }
    let svg = "<svg xmlns=\"http://www.w3.org/2000/svg\" width=\"100\"";
    assert!(html.contains(svg) && !html.contains("<?xml"));
}

/// Each line of the stamp, and at the page's begin what it comes to.
#[test]
fn the_stamp_is_there() {
    let html = page().html();
    for line in STAMP.lines() {
        let (_, text) = line.split_once(": ").expect("a word");
        let text = text.replace('<', "&lt;").replace('>', "&gt;");
        assert!(html.contains(&format!(">{text}</code>")), "{line}");
    }
    let said = "<strong>logic=proved, 322 functions of 8 crates, 0 axioms</strong>";
    let (begin, _) = html.split_once("What was asked").expect("a heading");
    assert!(begin.contains(said));
}

/// A page without the library's stamp never says that anything is proved.
#[test]
fn never_said_to_be_proved_without_a_stamp() {
    let other = STAMP.replace(SUM, "0000000000000001");
    let not = STAMP.replace("logic=proved", "logic=not proved throughout");
    for (stamp, said) in [
        (
            Stamp::of(Err("the stamp isn't there".to_string()), Some(SUM)),
            "not stamped: the stamp isn&apos;t there",
        ),
        (
            Stamp::of(Ok(STAMP), None),
            "not stamped: the program was built without",
        ),
        (
            Stamp::of(Ok(&other), Some(SUM)),
            "not stamped: the stamp is of another library",
        ),
        (
            Stamp::of(Ok(&not), Some(SUM)),
            "NOT PROVED: the prover's verdict on the library is `logic=not proved throughout`",
        ),
        (Stamp::default(), "not stamped: no stamp was looked for"),
    ] {
        let html = Page { stamp, ..page() }.html();
        let said = said.replace("&apos;", "'");
        assert_eq!(html.matches(&said).count(), 2, "{said}");
        assert!(!html.contains("logic=proved"), "{said}");
        assert!(!html.contains("Proved is"), "{said}");
    }
}

/// The answers stand before everything but the title, marked by words.
#[test]
fn answers_come_first() {
    let html = page().html();
    let place = |text: &str| html.find(text).expect(text);
    let order = [
        "<h1>",
        "question 1",
        "counting missed",
        "question 2",
        "The board's code",
        "What was asked",
        "heading &lt;",
        "<svg",
        "meaning &lt;",
        "What happened when",
        "What this rests on",
    ];
    assert!(order.map(place).is_sorted());
    for mark in [
        "NO</strong><span>counting missed",
        "yes</strong><span>display got",
        "not known</strong><span>upload",
    ] {
        assert!(html.contains(mark), "{mark}");
    }
    assert!(html.contains("NO</strong> for 1 of 3</p>"));
}

#[test]
fn nothing_is_fetched() {
    let html = page().html();
    let fetching = [
        "src",
        "href",
        "xlink:href",
        "action",
        "data",
        "srcset",
        "poster",
        "style",
    ];
    for tag in elements(&page()) {
        let known = ![
            "script", "link", "img", "iframe", "object", "embed", "base", "a", "form",
        ]
        .contains(&tag.name.as_str());
        assert!(known, "<{}>", tag.name);
        for name in fetching {
            assert!(tag.get(name).is_none(), "{name} of <{}>", tag.name);
        }
        assert!(
            tag.attributes
                .iter()
                .all(|(name, _)| !name.starts_with("on"))
        );
    }
    for fetches in ["url(", "@import", "@font-face", "//www.w3.org/1999"] {
        assert!(!html.contains(fetches), "{fetches}");
    }
    let namespace = "xmlns=\"http://www.w3.org/2000/svg\"";
    assert_eq!(
        html.matches("http").count(),
        html.matches(namespace).count()
    );
}

#[test]
fn for_readers_who_do_not_see_it() {
    let elements = elements(&page());
    let named = |name: &'static str| elements.iter().filter(move |tag| tag.name == name);
    assert_eq!(
        named("html").next().and_then(|tag| tag.get("lang")),
        Some("en")
    );
    assert_eq!(
        named("title")
            .filter(|tag| tag.around == ["html", "head"])
            .count(),
        1
    );
    assert!(named("th").all(|tag| matches!(tag.get("scope"), Some("col" | "row"))));
    let rows = named("tr").filter(|tag| tag.around.last().is_some_and(|it| it == "tbody"));
    let row_heads = named("th").filter(|tag| tag.get("scope") == Some("row"));
    assert_eq!(rows.count(), row_heads.count());
    let drawing = named("div")
        .find(|tag| tag.get("role") == Some("img"))
        .expect("a picture");
    assert!(
        drawing
            .get("aria-label")
            .is_some_and(|text| text.starts_with("alternative"))
    );
    let ids: Vec<&str> = elements.iter().filter_map(|tag| tag.get("id")).collect();
    let mut once = ids.clone();
    once.sort_unstable();
    once.dedup();
    assert_eq!(ids.len(), once.len(), "an id stands twice");
    for tag in &elements {
        if let Some(id) = tag.get("aria-labelledby") {
            assert!(ids.contains(&id), "{id}");
        }
    }
}

/// One heading of the first level, and no level is left out on the way down.
#[test]
fn headings_in_order() {
    let elements = elements(&page());
    let levels = elements.iter().filter_map(|tag| match tag.name.as_str() {
        "h1" => Some(1),
        "h2" => Some(2),
        "h3" => Some(3),
        _ => None,
    });
    let levels: Vec<u32> = levels.collect();
    assert_eq!(
        (
            levels[0],
            levels.iter().filter(|level| **level == 1).count()
        ),
        (1, 1)
    );
    assert!(
        levels.windows(2).all(|pair| pair[1] <= pair[0] + 1),
        "{levels:?}"
    );
}

/// Many events are cut, and the page says how many there are more.
#[test]
fn many_events() {
    let mut page = page();
    page.events.left_out = 50;
    page.events.events = (0..1_000)
        .map(|ms| Event {
            ms: Some(ms),
            text: format!("event number {ms};"),
        })
        .collect();
    let html = page.html();
    assert_eq!(html.matches("event number").count(), 100);
    assert!(html.contains("event number 99;") && html.contains("And 950 events more, later."));
}

/// What has no time was before the first tick, which is another than 0 ms.
#[test]
fn times_of_events() {
    let mut page = page();
    let event = |ms, text: &str| Event {
        ms,
        text: text.to_string(),
    };
    page.events.events = vec![event(None, "early"), event(Some(0), "at once")];
    let html = page.html();
    let (_, rest) = html.split_once(">before the first tick</").expect("early");
    let (_, rest) = rest.split_once(">early</").expect("its text");
    let (_, rest) = rest.split_once(">0</").expect("a time");
    assert!(rest.contains(">at once</"));
}

/// What isn't there is said not to be there.
#[test]
fn empty_parts() {
    let html = Page::default().html();
    for said in [
        "No call was refused.",
        "No event was noted.",
        "No picture was drawn.",
        "There are no figures.",
    ] {
        assert!(html.contains(said), "{said}");
    }
}
