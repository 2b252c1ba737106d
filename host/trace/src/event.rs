//! Events of the Trace Event Format, written as JSON, one a line.

use crate::doing::Doing;
use carv_text::json::Json;
use std::fmt;
use std::io::{self, BufWriter, Write};

/// The process that all tracks belong to.
pub const PID: u64 = 1;
/// The track of the instants.
pub const EVENTS: u64 = 2_147_483_646;

/// How much is written at once, in bytes.
const BUFFER: usize = 1 << 16;

/// From here on a number isn't exact in a viewer that counts in doubles.
const EXACT: u64 = 1 << 53;

/// A trace that is being written.
pub struct Events<W: Write> {
    out: BufWriter<W>,
    is_empty: bool,
}

impl<W: Write> Events<W> {
    /// Begins a trace.
    pub fn begin(out: W) -> io::Result<Self> {
        let mut out = BufWriter::with_capacity(BUFFER, out);
        out.write_all(b"{\"traceEvents\":[")?;
        Ok(Self {
            out,
            is_empty: true,
        })
    }

    /// Begins an event: what this kind of event has in front.
    fn event(&mut self, phase: char) -> io::Result<()> {
        let comma = if self.is_empty { "" } else { "," };
        self.is_empty = false;
        write!(self.out, "{comma}\n{{\"ph\":\"{phase}\",\"pid\":{PID}")
    }

    /// What a thread did from one time to another, in ns.
    pub fn slice(&mut self, tid: u64, from_ns: u64, to_ns: u64, doing: &Doing) -> io::Result<()> {
        self.event('X')?;
        let (ts, dur) = (Us(from_ns), Us(length(from_ns, to_ns)));
        let colour = doing.colour();
        write!(self.out, ",\"tid\":{tid},\"ts\":{ts},\"dur\":{dur}")?;
        write!(self.out, ",\"name\":\"{doing}\",\"cname\":\"{colour}\"")?;
        if let Some((name, figure)) = doing.wait() {
            write!(self.out, ",\"args\":{{\"{name}\":{}}}", number(figure))?;
        }
        self.out.write_all(b"}")
    }

    /// A sample of a counter, whose name is a JSON string.
    pub fn sample(&mut self, at_ns: u64, name: &Json, unit: &str, figure: &str) -> io::Result<()> {
        self.event('C')?;
        let ts = Us(at_ns);
        write!(self.out, ",\"tid\":{PID},\"ts\":{ts},\"name\":{name}")?;
        write!(self.out, ",\"args\":{{\"{unit}\":{figure}}}}}")
    }

    /// Something that happened.
    pub fn instant(&mut self, at_ns: u64, name: String, args: Json) -> io::Result<()> {
        self.event('i')?;
        let (ts, name) = (Us(at_ns), Json::from(name));
        write!(self.out, ",\"tid\":{EVENTS},\"ts\":{ts},\"s\":\"t\"")?;
        write!(self.out, ",\"name\":{name},\"args\":{args}}}")
    }

    /// The name of the process, and its place.
    pub fn process(&mut self, name: &str) -> io::Result<()> {
        self.metadata(PID, "process_name", "name", name.into())?;
        self.metadata(PID, "process_sort_index", "sort_index", 0_u64.into())
    }

    /// The name of a track, and its place among the others.
    pub fn thread(&mut self, tid: u64, place: usize, name: &str) -> io::Result<()> {
        self.metadata(tid, "thread_name", "name", name.into())?;
        self.metadata(tid, "thread_sort_index", "sort_index", place.into())
    }

    fn metadata(&mut self, tid: u64, what: &str, field: &str, value: Json) -> io::Result<()> {
        self.event('M')?;
        let args = Json::object([(field, value)]);
        write!(
            self.out,
            ",\"tid\":{tid},\"name\":\"{what}\",\"args\":{args}}}"
        )
    }

    /// Ends the trace, with what is to be said of all of it.
    pub fn end(&mut self, about: &Json) -> io::Result<()> {
        let out = &mut self.out;
        writeln!(
            out,
            "\n],\"displayTimeUnit\":\"ms\",\"otherData\":{about}}}"
        )?;
        out.flush()
    }
}

/// A time in microseconds, exact, with as many decimals as it needs.
struct Us(u64);

impl fmt::Display for Us {
    fn fmt(&self, f: &mut fmt::Formatter<'_>) -> fmt::Result {
        decimal(f, self.0, 1_000, 3)
    }
}

/// A time in ms, exact, with as many decimals as it needs.
pub struct Ms(pub u64);

impl fmt::Display for Ms {
    fn fmt(&self, f: &mut fmt::Formatter<'_>) -> fmt::Result {
        decimal(f, self.0, 1_000_000, 6)
    }
}

/// So many ns in a unit of which 10^`digits` are one ns.
fn decimal(f: &mut fmt::Formatter<'_>, ns: u64, unit: u64, digits: usize) -> fmt::Result {
    let (whole, mut rest, mut digits) = (ns / unit, ns % unit, digits);
    if rest == 0 {
        return write!(f, "{whole}");
    }
    while rest.is_multiple_of(10) {
        rest /= 10;
        digits -= 1;
    }
    write!(f, "{whole}.{rest:0digits$}")
}

/// The length of a slice: one ns less than it is, if it would reach into the next slice for a viewer
/// that takes times as doubles and cuts them off to ns. Viewers may drop slices that overlap.
fn length(from_ns: u64, to_ns: u64) -> u64 {
    let length = to_ns - from_ns;
    let reaches = as_seen(from_ns) + as_seen(length) > as_seen(to_ns);
    length - u64::from(reaches)
}

/// A time as such a viewer sees it. Up to `LATEST_NS` it is off by a ns at most.
fn as_seen(ns: u64) -> u64 {
    (ns as f64 / 1_000.0 * 1_000.0) as u64
}

/// A number of the board: as text from where doubles aren't exact.
pub fn number(number: u64) -> Json {
    if number <= EXACT {
        number.into()
    } else {
        number.to_string().into()
    }
}

/// The number of a counter, which can't be text: from where doubles aren't exact it has a decimal, so
/// that no viewer takes it for a number of 64 bits with a sign.
pub fn figure(number: u64) -> String {
    if number <= EXACT {
        number.to_string()
    } else {
        format!("{number}.0")
    }
}

#[cfg(test)]
mod tests {
    use super::*;

    #[test]
    fn times_are_exact() {
        for (ns, us, ms) in [
            (0, "0", "0"),
            (1, "0.001", "0.000001"),
            (999, "0.999", "0.000999"),
            (12_340, "12.34", "0.01234"),
            (7_000_000, "7000", "7"),
            (u64::MAX, "18446744073709551.615", "18446744073709.551615"),
        ] {
            assert_eq!(Us(ns).to_string(), us);
            assert_eq!(Ms(ns).to_string(), ms);
        }
    }

    #[test]
    fn numbers_above_doubles() {
        assert_eq!(number(EXACT).to_string(), "9007199254740992");
        assert_eq!(number(EXACT + 1).to_string(), "\"9007199254740993\"");
        assert_eq!(figure(EXACT), "9007199254740992");
        assert_eq!(figure(u64::MAX), "18446744073709551615.0");
    }

    /// Of times with odd ns, slices don't reach into the next one, and some would without care.
    #[test]
    fn slices_do_not_overlap_in_doubles() {
        let (mut shortened, mut time) = (0, 0_u64);
        let mut draw: u64 = 1;
        for _ in 0..100_000 {
            draw = draw.wrapping_mul(6_364_136_223_846_793_005) | 1;
            let next = time + (draw >> 40);
            let dur = length(time, next);
            assert!(as_seen(time) + as_seen(dur) <= as_seen(next));
            assert!(next - time - dur <= 1);
            shortened += u64::from(dur < next - time);
            time = next;
        }
        assert!(shortened > 0);
        assert_eq!(length(3_000_000, 7_000_000), 4_000_000);
    }
}
