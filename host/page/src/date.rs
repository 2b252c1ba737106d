//! A time as a date.

use std::time::{Duration, SystemTime, UNIX_EPOCH};

const MINUTE: u64 = 60;
const HOUR: u64 = 60 * MINUTE;
const DAY: u64 = 24 * HOUR;

/// Days from 0000-03-01 to 1970-01-01, and in 400, 100, 4 and 1 years that begin with March.
const TO_1970: u64 = 719_468;
const YEARS_400: u64 = 146_097;
const YEARS_100: u64 = 36_524;
const YEARS_4: u64 = 1_461;
const YEAR: u64 = 365;

/// A time as `2026-11-18 02:50 UTC`; one before 1970 counts as its begin.
pub fn utc(time: SystemTime) -> String {
    let since = time.duration_since(UNIX_EPOCH).unwrap_or(Duration::ZERO);
    let seconds = since.as_secs();
    let (year, month, day) = date(seconds / DAY);
    let (hour, minute) = (seconds % DAY / HOUR, seconds % HOUR / MINUTE);
    format!("{year:04}-{month:02}-{day:02} {hour:02}:{minute:02} UTC")
}

/// Year, month and day so many days after 1970-01-01. Years begin with March here, so that the leap
/// day is the last of its year.
fn date(days: u64) -> (u64, u64, u64) {
    let days = days + TO_1970;
    let (era, day) = (days / YEARS_400, days % YEARS_400);
    let year = (day - day / (YEARS_4 - 1) + day / YEARS_100 - day / (YEARS_400 - 1)) / YEAR;
    let day = day - (YEAR * year + year / 4 - year / 100);
    // Five months in a row, from March or August on, have 153 days.
    let month = (5 * day + 2) / 153;
    let day = day - (153 * month + 2) / 5 + 1;
    let (month, next) = if month < 10 {
        (month + 3, 0)
    } else {
        (month - 9, 1)
    };
    (era * 400 + year + next, month, day)
}

#[cfg(test)]
mod tests {
    use super::*;

    #[test]
    fn dates() {
        let at = |seconds| utc(UNIX_EPOCH + Duration::from_secs(seconds));
        assert_eq!(at(0), "1970-01-01 00:00 UTC");
        assert_eq!(at(951_782_399), "2000-02-28 23:59 UTC");
        assert_eq!(at(951_782_400), "2000-02-29 00:00 UTC");
        assert_eq!(at(1_709_251_199), "2024-02-29 23:59 UTC");
        assert_eq!(at(1_793_000_000), "2026-10-26 07:33 UTC");
        assert_eq!(at(4_107_542_400), "2100-03-01 00:00 UTC");
        assert_eq!(utc(UNIX_EPOCH - Duration::from_secs(1)), at(0));
    }

    /// Day after day for 500 years: the days of a month follow each other, and months have their
    /// lengths.
    #[test]
    fn one_day_after_the_other() {
        let by = |year: u64, years| year.is_multiple_of(years);
        let is_leap = |year| by(year, 4) && (!by(year, 100) || by(year, 400));
        let (mut year, mut month, mut day) = (1970, 1, 1);
        for days in 0..500 * YEAR {
            assert_eq!(date(days), (year, month, day));
            let length = match month {
                2 => 28 + u64::from(is_leap(year)),
                4 | 6 | 9 | 11 => 30,
                _ => 31,
            };
            day += 1;
            if day > length {
                (month, day) = (month + 1, 1);
            }
            if month > 12 {
                (year, month) = (year + 1, 1);
            }
        }
    }
}
