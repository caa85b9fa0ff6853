//! Date and time in UTC, from the system's clock or from the environment variable SOURCE_DATE_EPOCH, for logs that can be made again.
use crate::failure::Failure;
use std::env;
use std::time::{SystemTime, UNIX_EPOCH};

const VARIABLE: &str = "SOURCE_DATE_EPOCH";
/// The last second of the year 9999.
const LAST: u64 = 253_402_300_799;
const DAY: u64 = 24 * 60 * 60;
/// The days of 400 years, after which the calendar comes again, and of 100 and of 4 that begin behind a leap day. Of the next 100 or 4 the last
/// has a day more or less, but that is its last.
const DAYS_400: u64 = 146_097;
const DAYS_100: u64 = 36_524;
const DAYS_4: u64 = 1_461;
const DAYS_1: u64 = 365;
/// The days from March 1 of the year 0 to January 1 of 1970.
const BEFORE_1970: u64 = 719_468;
/// The days of the months from March on; that of February is never counted over.
const MONTHS: [u64; 11] = [31, 30, 31, 30, 31, 31, 30, 31, 30, 31, 31];

/// Whence the time comes.
pub enum Clock {
    System,
    /// Seconds from 1970 on.
    Fixed(u64),
}

impl Clock {
    pub fn chosen() -> Result<Clock, Failure> {
        let Some(value) = env::var_os(VARIABLE) else {
            return Ok(Clock::System);
        };
        let text = value.to_string_lossy();
        let digits = !text.is_empty() && text.bytes().all(|byte| byte.is_ascii_digit());
        match text.parse().ok().filter(|&seconds| digits && seconds <= LAST) {
            Some(seconds) => Ok(Clock::Fixed(seconds)),
            None => Err(Failure::Usage(format!("the environment variable {VARIABLE} is {text:?}, not a whole number of seconds from 0 to {LAST}"))),
        }
    }

    pub fn now(&self) -> Result<String, Failure> {
        let seconds = match self {
            Clock::Fixed(seconds) => Some(*seconds),
            Clock::System => SystemTime::now().duration_since(UNIX_EPOCH).ok().map(|since| since.as_secs()),
        };
        let wrong =
            || Failure::Trouble("the system's clock is not within 1970 to 9999; set it, or the environment variable SOURCE_DATE_EPOCH".into());
        seconds.filter(|&seconds| seconds <= LAST).map(utc).ok_or_else(wrong)
    }
}

/// The date and time of a second from 1970 on, as 2026-11-17T15:29:49Z. Years are counted from March on, so that a leap day is the last of its year.
fn utc(seconds: u64) -> String {
    let (days, of_day) = (seconds / DAY + BEFORE_1970, seconds % DAY);
    let (centuries, day) = parts(days % DAYS_400, DAYS_100, 3);
    let (fours, day) = (day / DAYS_4, day % DAYS_4);
    let (years, mut day) = parts(day, DAYS_1, 3);
    let mut month = 3;
    for length in MONTHS {
        if day < length {
            break;
        }
        day -= length;
        month += 1;
    }
    let year = 400 * (days / DAYS_400) + 100 * centuries + 4 * fours + years + month / 13;
    let month = (month - 1) % 12 + 1;
    format!("{year:04}-{month:02}-{:02}T{:02}:{:02}:{:02}Z", day + 1, of_day / 3600, of_day / 60 % 60, of_day % 60)
}

/// How many whole parts of a length there are, no more than a most, and the days that are left.
fn parts(days: u64, length: u64, most: u64) -> (u64, u64) {
    let whole = (days / length).min(most);
    (whole, days - whole * length)
}

#[cfg(test)]
mod tests {
    use super::{utc, DAY, DAYS_100, DAYS_400, LAST};

    #[test]
    fn known_dates() {
        for (seconds, date) in [
            (0, "1970-01-01T00:00:00Z"),
            (951_782_399, "2000-02-28T23:59:59Z"),
            (951_782_400, "2000-02-29T00:00:00Z"),
            (951_868_800, "2000-03-01T00:00:00Z"),
            (1_794_929_389, "2026-11-17T15:29:49Z"),
            (4_107_542_400, "2100-03-01T00:00:00Z"),
            (LAST, "9999-12-31T23:59:59Z"),
        ] {
            assert_eq!(utc(seconds), date);
        }
    }

    /// Every day of more than 400 years follows the one before: the next of its month, or the first of the next month.
    #[test]
    fn every_day_follows_the_one_before() {
        let leap = |year: u64| year % 4 == 0 && (year % 100 != 0 || year % 400 == 0);
        let (mut year, mut month, mut day) = (1970, 1, 1);
        for at in 0..DAYS_400 + 2 * DAYS_100 {
            assert_eq!(utc(at * DAY), format!("{year:04}-{month:02}-{day:02}T00:00:00Z"));
            let length = match month {
                2 => 28 + u64::from(leap(year)),
                4 | 6 | 9 | 11 => 30,
                _ => 31,
            };
            (day, month) = if day < length { (day + 1, month) } else { (1, month + 1) };
            (month, year) = if month > 12 { (1, year + 1) } else { (month, year) };
        }
    }
}
