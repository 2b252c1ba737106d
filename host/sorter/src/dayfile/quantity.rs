//! Figures with their units.

use carv::{PERIOD_NS, TICK_NS};
use carv_text::figures::{cut, grouped};
use carv_text::line::{NoNumber, number};
use carv_text::nearest::nearest;
use std::ops::RangeInclusive;

/// What stands between two commas.
#[derive(Clone, Copy, Debug, PartialEq, Eq)]
pub enum Quantity {
    /// A share, in ns.
    Share(u64),
    /// Memory, in bytes.
    Memory(u64),
    /// So many frames.
    Frames(u64),
    /// Switched off.
    Off,
}

/// The units, compared without regard to capitals.
const UNITS: [&str; 6] = ["ms", "KiB", "MiB", "bytes", "frames", "off"];

/// The unit that was meant by this one, in small letters.
fn near_unit(unit: &str) -> String {
    let small = UNITS.map(str::to_lowercase);
    let near = nearest(unit, small.iter().map(String::as_str));
    let mut units = UNITS.iter();
    let near = near.and_then(|near| units.find(|unit| unit.eq_ignore_ascii_case(near)));
    near.map_or_else(String::new, |unit| format!("; did you mean `{unit}`?"))
}

/// What this text says, by its unit.
pub fn quantity(text: &str) -> Result<Quantity, String> {
    let (figure, unit) = split(text);
    if figure.is_empty() && unit.eq_ignore_ascii_case("off") {
        return Ok(Quantity::Off);
    }
    let unit = unit.to_lowercase();
    let bytes = |each: u64| memory(text, figure, each).map(Quantity::Memory);
    match unit.split(' ').next().unwrap_or_default() {
        "" if text.is_empty() => Err("between two commas, or at an end, is nothing".to_string()),
        "" => Err(format!(
            "`{}` has no unit: write ms, KiB, bytes or frames behind it",
            shown(text)
        )),
        "ms" => share(text).map(Quantity::Share),
        "kib" if unit == "kib" => bytes(1 << 10),
        "mib" if unit == "mib" => bytes(1 << 20),
        "byte" | "bytes" if !unit.contains(' ') => bytes(1),
        "frame" | "frames" if !unit.contains(' ') => whole(figure, "frames").map(Quantity::Frames),
        _ => {
            let near = near_unit(&unit);
            let text = shown(text);
            Err(format!(
                "`{text}` is no share in ms, memory in KiB or bytes, or number of frames{near}"
            ))
        }
    }
}

/// The figure that a text begins with, and what stands behind it.
fn split(text: &str) -> (&str, &str) {
    let in_figure = |letter: char| letter.is_ascii_digit() || "._".contains(letter);
    let end = text.find(|letter| !in_figure(letter));
    let (figure, unit) = text.split_at(end.unwrap_or(text.len()));
    (figure, unit.trim())
}

/// A share in ns: `4 ms`, `2.5 ms`, or with `of every 10 ms` behind it.
fn share(text: &str) -> Result<u64, String> {
    let (figure, unit) = split(text);
    let behind = unit.get(2..).unwrap_or_default().trim();
    if !["", "of every 10 ms"].contains(&behind) {
        return Err(format!(
            "`{}` is no share: write `4 ms` or `4 ms of every 10 ms`, a period is always 10 ms",
            shown(text)
        ));
    }
    let no_ms = || format!("`{}` is no figure of ms, as `4` or `2.5` is", shown(figure));
    let (ms, decimals) = figure.split_once('.').unwrap_or((figure, "0"));
    if decimals.is_empty() || decimals.bytes().any(|digit| !digit.is_ascii_digit()) {
        return Err(no_ms());
    }
    if decimals.len() > 6 {
        let figure = shown(figure);
        return Err(format!(
            "`{figure}` is too fine: six decimals of a ms at most"
        ));
    }
    let ms = whole(ms, "ms")?;
    let ns: u64 = format!("{decimals:0<6}").parse().map_err(|_| no_ms())?;
    let share = ms.checked_mul(TICK_NS);
    let share = share.and_then(|share| share.checked_add(ns));
    share.ok_or_else(|| too_large(text))
}

/// So many times `each` bytes.
fn memory(text: &str, figure: &str, each: u64) -> Result<u64, String> {
    let number = whole(figure, "KiB, MiB or bytes")?;
    number.checked_mul(each).ok_or_else(|| too_large(text))
}

fn too_large(text: &str) -> String {
    let text = shown(text);
    format!("`{text}` is too large: a board counts ns and bytes below 2^64")
}

/// A whole number of something.
fn whole(figure: &str, what: &str) -> Result<u64, String> {
    let shown = shown(figure);
    number(figure).map_err(|why| match why {
        NoNumber::Word if figure.is_empty() => format!("a number of {what} is missing"),
        NoNumber::Word => format!("`{shown}` is no whole number of {what}"),
        NoNumber::TooLarge => format!("`{shown}` is too large"),
    })
}

/// A number in these bounds, of something.
pub fn count(text: &str, what: &str, bounds: RangeInclusive<u64>) -> Result<u64, String> {
    let number = whole(text, what)?;
    within(number, what, bounds)
}

/// The number, if it is in these bounds.
pub fn within(number: u64, what: &str, bounds: RangeInclusive<u64>) -> Result<u64, String> {
    let (least, most) = (grouped(*bounds.start()), grouped(*bounds.end()));
    match number {
        number if bounds.contains(&number) => Ok(number),
        number => Err(format!(
            "{} {what} are not possible: {least} to {most} are",
            grouped(number)
        )),
    }
}

/// A time in whole ms, in these bounds.
pub fn time(text: &str, bounds: RangeInclusive<u64>) -> Result<u64, String> {
    let (figure, unit) = split(text);
    match unit.to_lowercase().as_str() {
        "ms" => count(figure, "ms", bounds),
        _ => Err(format!(
            "`{}` is no time in ms, as `800 ms` is",
            shown(text)
        )),
    }
}

/// The jobs' ms: `2 ms`, or `0 to 2 ms`.
pub fn ms_of_jobs(text: &str, bounds: RangeInclusive<u64>) -> Result<(u64, u64), String> {
    let Some((least, most)) = text.split_once(" to ") else {
        let ms = time(text, bounds)?;
        return Ok((ms, ms));
    };
    let least = least.trim().trim_end_matches("ms").trim();
    let least = count(least, "ms", bounds.clone())?;
    let most = time(most.trim(), bounds)?;
    match least <= most {
        true => Ok((least, most)),
        false => Err(format!(
            "jobs of {least} to {most} ms: the smaller number comes first"
        )),
    }
}

/// The largest share of a board.
pub fn share_of_a_board(share_ns: u64) -> Result<u64, String> {
    match share_ns {
        0..=PERIOD_NS => Ok(share_ns),
        _ => Err("a board has at most 10 ms of every 10 ms".to_string()),
    }
}

/// A piece of a bad line as a message may show it: short, without control characters.
pub fn shown(text: &str) -> String {
    cut(text, 40).replace(char::is_control, "?")
}

#[cfg(test)]
mod tests {
    use super::*;

    #[test]
    fn shares() {
        for (text, ns) in [
            ("4 ms", 4_000_000),
            ("4ms", 4_000_000),
            ("2.5 ms", 2_500_000),
            ("0.000001 ms", 1),
            ("10 ms of every 10 ms", 10_000_000),
            ("1_000 MS", 1_000_000_000),
            ("18446744073709.551615 ms", u64::MAX),
        ] {
            assert_eq!(quantity(text), Ok(Quantity::Share(ns)), "{text}");
        }
        for (text, why) in [
            ("18446744073709.551616 ms", "too large"),
            ("18446744073710 ms", "too large"),
            ("99999999999999999999999 ms", "too large"),
            ("2. ms", "no figure of ms"),
            ("2.5.5 ms", "no figure of ms"),
            ("2.0000001 ms", "too fine"),
            ("ms", "missing"),
            (".5 ms", "missing"),
            ("4 ms of every 20 ms", "a period is always 10 ms"),
            ("4 ms each", "no share"),
        ] {
            let said = quantity(text).expect_err(text);
            assert!(said.contains(why), "{text}: {said}");
        }
    }

    #[test]
    fn memory_frames_and_off() {
        for (text, quantity_of) in [
            ("96 KiB", Quantity::Memory(98_304)),
            ("1kib", Quantity::Memory(1_024)),
            ("2 MiB", Quantity::Memory(2_097_152)),
            ("1 byte", Quantity::Memory(1)),
            ("18446744073709551615 bytes", Quantity::Memory(u64::MAX)),
            ("1 frame", Quantity::Frames(1)),
            ("10 frames", Quantity::Frames(10)),
            ("off", Quantity::Off),
        ] {
            assert_eq!(quantity(text), Ok(quantity_of), "{text}");
        }
        for (text, why) in [
            ("18014398509481984 KiB", "too large"),
            ("18446744073709551616 bytes", "too large"),
            ("1.5 KiB", "no whole number"),
            ("96 KB", "did you mean `KiB`?"),
            ("96", "has no unit"),
            ("", "is nothing"),
            ("3 fames", "did you mean `frames`?"),
            ("KiB", "missing"),
            ("3 off", "is no share"),
            ("4 µs", "is no share"),
        ] {
            let said = quantity(text).expect_err(text);
            assert!(said.contains(why), "{text}: {said}");
        }
    }

    #[test]
    fn times() {
        assert_eq!(time("800 ms", 0..=900), Ok(800));
        assert_eq!(ms_of_jobs("2 ms", 0..=9), Ok((2, 2)));
        assert_eq!(ms_of_jobs("0 to 2 ms", 0..=9), Ok((0, 2)));
        assert_eq!(ms_of_jobs("0 ms to 2 ms", 0..=9), Ok((0, 2)));
        for text in ["901 ms", "800", "8 s", "2.5 ms", "-3 ms", "ms", "1,203 ms"] {
            assert!(time(text, 0..=900).is_err(), "{text}");
        }
        for text in ["2 to 1 ms", "a to 1 ms", "0 to 10 ms", " to ", "0 to"] {
            assert!(ms_of_jobs(text, 0..=9).is_err(), "{text}");
        }
    }
}
