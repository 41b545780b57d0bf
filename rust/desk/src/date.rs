//! The date and time of day, in UTC.

use base::{Failure, Status};
use std::ffi::OsStr;
use std::fmt;
use std::time::{SystemTime, UNIX_EPOCH};

/// The variable that says which date stands in what is made, so that it can be made again byte for byte
/// (https://reproducible-builds.org/specs/source-date-epoch/).
const VARIABLE: &str = "SOURCE_DATE_EPOCH";
/// The seconds of a day.
const DAY: u64 = 86_400;
/// The seconds before the year 10000, whose date has another form.
const END: u64 = 253_402_300_800;

/// A date with its time of day, by the seconds since 1970. Printed, it has the form of ISO 8601.
#[derive(Clone, Copy, Debug, PartialEq, Eq)]
pub struct Date(u64);

impl Date {
    /// That of the clock, or the one that the environment says.
    pub fn now() -> Result<Date, Failure> {
        match std::env::var_os(VARIABLE).filter(|said| !said.is_empty()) {
            Some(said) => Date::said(&said),
            None => Date::of_clock(),
        }
    }

    fn said(said: &OsStr) -> Result<Date, Failure> {
        let digits = said
            .to_str()
            .filter(|said| said.bytes().all(|byte| byte.is_ascii_digit()));
        let seconds: Option<u64> = digits.and_then(|digits| digits.parse().ok());
        let date = seconds.filter(|seconds| *seconds < END).map(Date);
        let message = format!("{VARIABLE} takes the seconds since 1970, from 0 to {}", END - 1);
        date.ok_or_else(|| Failure::usage(message))
    }

    fn of_clock() -> Result<Date, Failure> {
        let passed = SystemTime::now().duration_since(UNIX_EPOCH).ok();
        let date = passed.map(|passed| passed.as_secs()).filter(|seconds| *seconds < END);
        date.map(Date)
            .ok_or_else(|| Failure::new(Status::System, "the clock shows no year from 1970 to 9999"))
    }

    /// The year, the month and the day of the month.
    fn day(self) -> (u64, u64, u64) {
        // Of years that begin in March, so that a leap day is the last of its year; 719,468 days before 1970 such a cycle of
        // 400 years begins, which has 146,097 days.
        let days = self.0 / DAY + 719_468;
        let (cycle, day) = (days / 146_097, days % 146_097);
        let year = (day - day / 1_460 + day / 36_524 - day / 146_096) / 365;
        let day = day - (365 * year + year / 4 - year / 100);
        let month = (5 * day + 2) / 153;
        let of_month = day - (153 * month + 2) / 5 + 1;
        let is_next = month >= 10;
        let month = if is_next { month - 9 } else { month + 3 };
        (400 * cycle + year + u64::from(is_next), month, of_month)
    }
}

impl fmt::Display for Date {
    fn fmt(&self, out: &mut fmt::Formatter<'_>) -> fmt::Result {
        let (year, month, day) = self.day();
        let second = self.0 % DAY;
        let (hour, minute, second) = (second / 3600, second / 60 % 60, second % 60);
        write!(out, "{year:04}-{month:02}-{day:02}T{hour:02}:{minute:02}:{second:02}Z")
    }
}

#[cfg(test)]
mod tests {
    #![allow(clippy::unwrap_used)]

    use super::{Date, DAY, END};

    #[test]
    fn dates_are_those_of_the_calendar() {
        for (seconds, wanted) in [
            (0, "1970-01-01T00:00:00Z"),
            (68_169_599, "1972-02-28T23:59:59Z"),
            (68_169_600, "1972-02-29T00:00:00Z"),
            (68_256_000, "1972-03-01T00:00:00Z"),
            (951_782_400, "2000-02-29T00:00:00Z"),
            (1_000_000_000, "2001-09-09T01:46:40Z"),
            (4_107_542_399, "2100-02-28T23:59:59Z"),
            (4_107_542_400, "2100-03-01T00:00:00Z"),
            (END - 1, "9999-12-31T23:59:59Z"),
        ] {
            assert_eq!(Date(seconds).to_string(), wanted);
        }
    }

    /// Each day has the day after it of the next, over two cycles of the calendar.
    #[test]
    fn days_follow_one_another() {
        let length = |year: u64, month: u64| match month {
            2 if year.is_multiple_of(4) && (!year.is_multiple_of(100) || year.is_multiple_of(400)) => 29,
            2 => 28,
            4 | 6 | 9 | 11 => 30,
            _ => 31,
        };
        let mut wanted = (1970, 1, 1);
        for day in 0..2 * 146_097 {
            assert_eq!(Date(day * DAY).day(), wanted);
            let (year, month, of_month) = wanted;
            wanted = match (month, of_month) {
                (12, 31) => (year + 1, 1, 1),
                (month, last) if last == length(year, month) => (year, month + 1, 1),
                _ => (year, month, of_month + 1),
            };
        }
    }

    #[test]
    fn a_date_that_is_said_is_a_number_of_seconds() {
        assert_eq!(Date::said("68169600".as_ref()).unwrap(), Date(68_169_600));
        for said in ["x", "-1", "1.5", "253402300800"] {
            assert!(Date::said(said.as_ref()).is_err(), "{said}");
        }
    }
}
