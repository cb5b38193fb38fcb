//! Days and times in UTC, as a page is dated.

use super::Failure;
use std::ffi::OsStr;
use std::time::{SystemTime, UNIX_EPOCH};

/// Where the environment names the time that is to stand in what is made, so that it can be made twice alike.
const GIVEN: &str = "SOURCE_DATE_EPOCH";

/// The time of what is made, in seconds from 1970 on: the one that the environment gives, or this moment.
pub fn of_making() -> Result<i64, Failure> {
    match std::env::var_os(GIVEN) {
        Some(word) => given(&word),
        None => Ok(SystemTime::now().duration_since(UNIX_EPOCH).map_or(0, |past| past.as_secs() as i64)),
    }
}

fn given(word: &OsStr) -> Result<i64, Failure> {
    let seconds = word.to_str().and_then(|word| word.parse::<u32>().ok()).map(i64::from);
    seconds.ok_or_else(|| Failure::Usage(format!("{GIVEN}: {} is no number of seconds from 1970 on", word.to_string_lossy())))
}

const DAY: i64 = 24 * 60 * 60;

/// A time in words: `1996-02-29 23:59:59 UTC`.
pub fn utc(seconds: i64) -> String {
    let (year, month, day) = civil(seconds.div_euclid(DAY));
    let second = seconds.rem_euclid(DAY);
    format!("{year:04}-{month:02}-{day:02} {:02}:{:02}:{:02} UTC", second / 3600, second / 60 % 60, second % 60)
}

/// Days of 400 years, after which the calendar repeats.
const ERA: i64 = 146_097;
/// Days from 1 March of year 0 to 1 January 1970.
const TO_1970: i64 = 719_468;

/// Year, month and day of a day counted from 1 January 1970. Years are taken from March on, so that a leap day ends them.
fn civil(day: i64) -> (i64, i64, i64) {
    let day = day + TO_1970;
    let (era, in_era) = (day.div_euclid(ERA), day.rem_euclid(ERA));
    let year = (in_era - in_era / 1460 + in_era / 36_524 - in_era / (ERA - 1)) / 365;
    let in_year = in_era - (365 * year + year / 4 - year / 100);
    // five months from March on have 153 days, and so have the next five
    let from_march = (5 * in_year + 2) / 153;
    let day = in_year - (153 * from_march + 2) / 5 + 1;
    let month = (from_march + 2) % 12 + 1;
    (400 * era + year + i64::from(month <= 2), month, day)
}

#[cfg(test)]
mod tests {
    use super::*;

    #[test]
    fn times_are_those_of_the_calendar() {
        for (seconds, words) in [
            (0, "1970-01-01 00:00:00 UTC"),
            (-1, "1969-12-31 23:59:59 UTC"),
            (825_638_399, "1996-02-29 23:59:59 UTC"),
            (825_638_400, "1996-03-01 00:00:00 UTC"),
            (951_782_400, "2000-02-29 00:00:00 UTC"),
            (1_000_000_000, "2001-09-09 01:46:40 UTC"),
            (4_107_542_399, "2100-02-28 23:59:59 UTC"),
            (4_107_542_400, "2100-03-01 00:00:00 UTC"),
        ] {
            assert_eq!(utc(seconds), words);
        }
    }

    /// Counted day by day, over 800 years.
    #[test]
    fn each_day_follows_the_one_before() {
        let is_leap = |year: i64| year % 4 == 0 && (year % 100 != 0 || year % 400 == 0);
        let days = |year, month| match month {
            2 => 28 + i64::from(is_leap(year)),
            4 | 6 | 9 | 11 => 30,
            _ => 31,
        };
        let mut expected = (1570, 1, 1);
        for day in -ERA..ERA {
            assert_eq!(civil(day), expected);
            let (year, month, day) = expected;
            expected = match (month, day) {
                (12, 31) => (year + 1, 1, 1),
                (_, last) if last == days(year, month) => (year, month + 1, 1),
                _ => (year, month, day + 1),
            };
        }
    }

    #[test]
    fn a_time_that_is_given_is_a_number() {
        assert!(given(OsStr::new("825638399")).is_ok_and(|seconds| seconds == 825_638_399));
        for word in ["", "-1", "1e9", "today", "99999999999"] {
            assert!(given(OsStr::new(word)).is_err(), "{word}");
        }
    }
}
