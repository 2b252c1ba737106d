//! A trace that was read, each event held against the fields that the format documents.

use crate::json::{Value, parse};
use std::collections::{BTreeMap, BTreeSet};

/// What a thread did.
#[derive(Clone, Debug, PartialEq)]
pub struct Slice {
    pub tid: u64,
    pub from_ns: u64,
    pub dur_ns: u64,
    pub name: String,
    pub args: Option<Value>,
}

impl Slice {
    pub fn to_ns(&self) -> u64 {
        self.from_ns + self.dur_ns
    }
}

/// A sample of a counter.
#[derive(Clone, Debug, PartialEq)]
pub struct Sample {
    pub at_ns: u64,
    pub unit: String,
    /// As it is written.
    pub figure: Value,
}

/// Something that happened.
#[derive(Clone, Debug, PartialEq)]
pub struct Instant {
    pub at_ns: u64,
    pub name: String,
    pub args: Value,
}

/// A trace.
#[derive(Debug, Default)]
pub struct Trace {
    pub slices: Vec<Slice>,
    pub counters: BTreeMap<String, Vec<Sample>>,
    pub instants: Vec<Instant>,
    /// The names of tracks, and their places.
    pub threads: BTreeMap<u64, String>,
    pub places: BTreeMap<u64, u64>,
    pub process: Option<String>,
    pub about: BTreeMap<String, Value>,
}

/// Colours that the format names.
const COLOURS: [&str; 6] = ["good", "bad", "terrible", "black", "grey", "white"];
/// The largest number of a process or thread that fits everywhere.
const MOST: u64 = i32::MAX as u64;

impl Trace {
    /// Reads a trace and checks it.
    pub fn read(text: &str) -> Self {
        let Value::Object(mut whole) = parse(text) else {
            panic!("no object");
        };
        let fields: Vec<&str> = whole.keys().map(String::as_str).collect();
        assert_eq!(fields, ["displayTimeUnit", "otherData", "traceEvents"]);
        assert_eq!(whole["displayTimeUnit"].text(), "ms");
        let mut trace = Self::default();
        let Some(Value::Object(about)) = whole.remove("otherData") else {
            panic!("otherData is an object");
        };
        trace.about = about;
        let Some(Value::List(events)) = whole.remove("traceEvents") else {
            panic!("traceEvents is a list");
        };
        for event in &events {
            trace.event(event);
        }
        trace.check();
        trace
    }

    fn event(&mut self, event: &Value) {
        let field = |name| {
            event
                .get(name)
                .unwrap_or_else(|| panic!("{name}: {event:?}"))
        };
        assert_eq!(field("pid").whole(), carv_trace::PID);
        let tid = field("tid").whole();
        assert!((1..=MOST).contains(&tid), "{tid}");
        let name = field("name").text().to_string();
        assert!(!name.is_empty());
        match field("ph").text() {
            "X" => {
                fields(event, &["ts", "dur", "cname"], &["args"]);
                assert!(COLOURS.contains(&field("cname").text()));
                self.slices.push(Slice {
                    tid,
                    from_ns: field("ts").scaled(3),
                    dur_ns: field("dur").scaled(3),
                    name,
                    args: event.get("args").cloned(),
                });
            }
            "C" => {
                fields(event, &["ts", "args"], &[]);
                let Value::Object(args) = field("args") else {
                    panic!("args is an object");
                };
                assert_eq!(args.len(), 1);
                let (unit, figure) = args.first_key_value().expect("one");
                figure.number();
                self.counters.entry(name).or_default().push(Sample {
                    at_ns: field("ts").scaled(3),
                    unit: unit.clone(),
                    figure: figure.clone(),
                });
            }
            "i" => {
                fields(event, &["ts", "s", "args"], &[]);
                assert_eq!((tid, field("s").text()), (carv_trace::EVENTS, "t"));
                self.instants.push(Instant {
                    at_ns: field("ts").scaled(3),
                    name,
                    args: field("args").clone(),
                });
            }
            "M" => {
                fields(event, &["args"], &[]);
                self.metadata(tid, &name, field("args"));
            }
            other => panic!("{other} is not expected"),
        }
    }

    fn metadata(&mut self, tid: u64, what: &str, args: &Value) {
        let arg = |name| args.get(name).unwrap_or_else(|| panic!("{name}: {args:?}"));
        let before = match what {
            "process_name" => self.process.replace(arg("name").text().to_string()),
            "process_sort_index" => None,
            "thread_name" => self.threads.insert(tid, arg("name").text().to_string()),
            "thread_sort_index" => {
                let before = self.places.insert(tid, arg("sort_index").whole());
                before.map(|place| place.to_string())
            }
            other => panic!("{other} is no documented metadata"),
        };
        if what.ends_with("sort_index") {
            arg("sort_index").whole();
        }
        assert_eq!(before, None, "{what} of {tid} stands twice");
    }

    /// What holds between events.
    fn check(&self) {
        assert_eq!(self.process.as_deref(), Some("board"));
        assert!(self.threads.keys().eq(self.places.keys()));
        let places: BTreeSet<u64> = self.places.values().copied().collect();
        assert_eq!(places.len(), self.places.len(), "places differ");
        let mut ends = BTreeMap::new();
        for slice in &self.slices {
            assert!(self.threads.contains_key(&slice.tid), "{slice:?}");
            assert!(slice.dur_ns > 0, "{slice:?}");
            let [exact, seen] = ends.insert(slice.tid, ends_of(slice)).unwrap_or([0, 0]);
            assert!(slice.from_ns >= exact, "{slice:?} overlaps");
            assert!(
                seen_ns(slice.from_ns) >= seen,
                "{slice:?} overlaps in doubles"
            );
        }
        for (name, samples) in &self.counters {
            for two in samples.windows(2) {
                assert!(two[0].at_ns < two[1].at_ns, "{name}: {two:?}");
                // A budget that ended, and one of its number on a board opened later, may both be 0.
                let [last, next] = [&two[0], &two[1]].map(|it| it.figure.number());
                assert!(last != next || last == "0", "{name}: {two:?}");
                assert_eq!(two[0].unit, two[1].unit);
            }
        }
        assert!(self.instants.is_sorted_by_key(|instant| instant.at_ns));
    }

    /// The track of this name.
    pub fn tid(&self, name: &str) -> u64 {
        let found = self.threads.iter().find(|(_, known)| *known == name);
        *found
            .unwrap_or_else(|| panic!("{name}: {:?}", self.threads))
            .0
    }

    /// The slices of the track of this name.
    pub fn track(&self, name: &str) -> Vec<&Slice> {
        let tid = self.tid(name);
        self.slices
            .iter()
            .filter(|slice| slice.tid == tid)
            .collect()
    }

    /// The same in ms, as "Ready 0-3".
    pub fn told(&self, name: &str) -> Vec<String> {
        let ms = |ns: u64| carv_text::figures::ms(ns);
        let told = |it: &&Slice| format!("{} {}-{}", it.name, ms(it.from_ns), ms(it.to_ns()));
        self.track(name).iter().map(told).collect()
    }

    /// The samples of a counter, as "2 at 3".
    pub fn samples(&self, name: &str) -> Vec<String> {
        let samples = self.counters.get(name);
        let samples = samples.unwrap_or_else(|| panic!("{name}: {:?}", self.counters.keys()));
        let told = |it: &Sample| {
            let at = carv_text::figures::ms(it.at_ns);
            format!("{} at {at}", it.figure.number())
        };
        samples.iter().map(told).collect()
    }

    /// The names of the instants.
    pub fn happened(&self) -> Vec<&str> {
        let names = self.instants.iter();
        names.map(|instant| instant.name.as_str()).collect()
    }

    /// The instants of refusals.
    pub fn refusals(&self) -> Vec<&Instant> {
        let instants = self.instants.iter();
        instants
            .filter(|it| it.name.starts_with("refused with "))
            .collect()
    }
}

/// An event has these fields, and of others only those.
fn fields(event: &Value, needed: &[&str], may: &[&str]) {
    let Value::Object(fields) = event else {
        panic!("no object");
    };
    let common = ["ph", "pid", "tid", "name"];
    let known = common.iter().chain(needed).chain(may);
    let known: BTreeSet<&str> = known.copied().collect();
    for name in fields.keys() {
        assert!(known.contains(name.as_str()), "{name}: {event:?}");
    }
    for name in needed {
        assert!(fields.contains_key(*name), "{name}: {event:?}");
    }
}

/// Where a slice ends, exactly and as a viewer in doubles sees it.
fn ends_of(slice: &Slice) -> [u64; 2] {
    let seen = seen_ns(slice.from_ns) + seen_ns(slice.dur_ns);
    [slice.to_ns(), seen]
}

/// Parsed from its decimals in microseconds, and cut off to ns.
fn seen_ns(ns: u64) -> u64 {
    let text = format!("{}.{:03}", ns / 1_000, ns % 1_000);
    let us: f64 = text.parse().expect("a decimal");
    (us * 1_000.0) as u64
}
