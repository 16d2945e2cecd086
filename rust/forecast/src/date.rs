//! Timestamps as dates: seconds and milliseconds since 2000-01-01 00:00, in the
//! calendar of today, each day with 86,400 seconds. Times are UTC.

use std::time::Duration;

use basin::Timestamp;

const DAY: u64 = 86_400;
/// Days from 0000-03-01 to 2000-01-01. A year that begins in March has its leap
/// day last, so that its months have the same places in every year.
const TO_2000: u64 = 730_425;
/// Days of 400 years, after which the calendar repeats.
const ERA: u64 = 146_097;
/// A year past the last timestamp, whose number of days still fits.
const PAST_LAST: u64 = 600_000_000_000;

/// `2026-11-16 06:00:00`, or `2026-11-16 06:00:00.250` where there are
/// milliseconds. The year has as many digits as it needs.
pub fn to_date(timestamp: Timestamp) -> String {
    match timestamp.milliseconds {
        0 => to_second(timestamp.seconds),
        _ => to_date_ms(timestamp),
    }
}

/// The same with milliseconds, 0 too: one form for a table.
pub fn to_date_ms(timestamp: Timestamp) -> String {
    let date = to_second(timestamp.seconds);
    format!("{date}.{:03}", timestamp.milliseconds)
}

fn to_second(seconds: u64) -> String {
    let (year, month, day) = date_of(seconds / DAY);
    let second = seconds % DAY;
    let (hour, minute) = (second / 3600, second / 60 % 60);
    let second = second % 60;
    format!("{year:04}-{month:02}-{day:02} {hour:02}:{minute:02}:{second:02}")
}

/// The timestamp of a date such as `2026-11-16` and a time such as `06:00`,
/// `06:00:00` or `06:00:00.250`. `None` where there is no such day or time, and
/// before 2000.
pub fn from_date(date: &str, time: &str) -> Option<Timestamp> {
    let [year, month, day] = numbers(date, '-')?[..] else {
        return None;
    };
    let (time, milliseconds) = split_fraction(time)?;
    let (hour, minute, second) = match numbers(time, ':')?[..] {
        [hour, minute] if milliseconds.is_none() => (hour, minute, 0),
        [hour, minute, second] => (hour, minute, second),
        _ => return None,
    };
    if hour > 23 || minute > 59 || second > 59 {
        return None;
    }
    let day = day_of(year, month, day)?.checked_mul(DAY)?;
    Some(Timestamp {
        seconds: day.checked_add(hour * 3600 + minute * 60 + second)?,
        milliseconds: milliseconds.unwrap_or(0),
    })
}

/// What stands before a point, and the milliseconds after it, where there is
/// one. `None` where these are not three digits.
pub fn split_fraction(text: &str) -> Option<(&str, Option<u64>)> {
    let Some((whole, fraction)) = text.split_once('.') else {
        return Some((text, None));
    };
    let digits = fraction.len() == 3 && fraction.bytes().all(|byte| byte.is_ascii_digit());
    let milliseconds = fraction.parse().ok().filter(|_| digits)?;
    Some((whole, Some(milliseconds)))
}

/// The timestamp so much later: full seconds are carried. `None` where its
/// seconds do not fit.
pub fn later(timestamp: Timestamp, by: Duration) -> Option<Timestamp> {
    let sum = Duration::from_secs(timestamp.seconds)
        .checked_add(Duration::from_millis(timestamp.milliseconds))?
        .checked_add(by)?;
    Some(Timestamp {
        seconds: sum.as_secs(),
        milliseconds: sum.subsec_millis().into(),
    })
}

/// Numbers of digits alone, parted by a sign.
fn numbers(text: &str, between: char) -> Option<Vec<u64>> {
    let number = |part: &str| {
        let digits = part.bytes().all(|byte| byte.is_ascii_digit());
        part.parse().ok().filter(|_| digits)
    };
    text.split(between).map(number).collect()
}

/// Year, month and day of the day with this number after 2000-01-01.
fn date_of(day: u64) -> (u64, u64, u64) {
    let day = day + TO_2000;
    let (era, in_era) = (day / ERA, day % ERA);
    let year = (in_era - in_era / 1460 + in_era / 36_524 - in_era / 146_096) / 365;
    let in_year = in_era - (365 * year + year / 4 - year / 100);
    let month = (5 * in_year + 2) / 153;
    let day = in_year - (153 * month + 2) / 5 + 1;
    let year = year + 400 * era;
    match month {
        0..=9 => (year, month + 3, day),
        _ => (year + 1, month - 9, day),
    }
}

/// The number of a day after 2000-01-01, where there is such a day.
fn day_of(year: u64, month: u64, day: u64) -> Option<u64> {
    let known = (2000..PAST_LAST).contains(&year) && (1..=12).contains(&month);
    if !known || !(1..=31).contains(&day) {
        return None;
    }
    let (from_march, march_year) = match month {
        1 | 2 => (month + 9, year - 1),
        _ => (month - 3, year),
    };
    let (era, in_era) = (march_year / 400, march_year % 400);
    let in_year = (153 * from_march + 2) / 5 + day - 1;
    let days = 365 * in_era + in_era / 4 - in_era / 100 + in_year;
    let number = era * ERA + days - TO_2000;
    // The 31st of a shorter month is a day of the next one.
    Some(number).filter(|&number| date_of(number) == (year, month, day))
}

#[cfg(test)]
mod tests {
    use super::*;

    fn at(seconds: u64, milliseconds: u64) -> Timestamp {
        Timestamp {
            seconds,
            milliseconds,
        }
    }

    #[test]
    fn known_dates() {
        assert_eq!(to_date(at(0, 0)), "2000-01-01 00:00:00");
        assert_eq!(to_date(at(59 * DAY + 86_399, 0)), "2000-02-29 23:59:59");
        assert_eq!(to_date(at(60 * DAY, 0)), "2000-03-01 00:00:00");
        assert_eq!(to_date(at(848_124_000, 0)), "2026-11-16 06:00:00");
        assert_eq!(to_date(at(848_124_000, 7)), "2026-11-16 06:00:00.007");
        assert_eq!(to_date(at(848_124_000, 250)), "2026-11-16 06:00:00.250");
        for (time, milliseconds) in [
            ("06:00", 0),
            ("06:00:00", 0),
            ("06:00:00.000", 0),
            ("06:00:00.250", 250),
        ] {
            let timestamp = from_date("2026-11-16", time);
            assert_eq!(timestamp, Some(at(848_124_000, milliseconds)), "{time}");
        }
    }

    fn goes_round(timestamp: Timestamp) {
        let date = to_date(timestamp);
        let (date, time) = date.split_once(' ').unwrap();
        assert_eq!(from_date(date, time), Some(timestamp), "{date} {time}");
    }

    #[test]
    fn every_day_of_four_hundred_years_every_millisecond_and_the_ends() {
        (0..146_097).for_each(|day| goes_round(at(day * DAY, day % 1_000)));
        for milliseconds in 0..1_000 {
            for seconds in [0, 86_399, u64::MAX - 1, u64::MAX] {
                goes_round(at(seconds, milliseconds));
            }
        }
    }

    #[test]
    fn a_sum_carries_full_seconds_and_has_an_end() {
        let sum = |seconds, milliseconds, by| later(at(seconds, milliseconds), by);
        let by = Duration::from_millis(750);
        assert_eq!(sum(5, 500, by), Some(at(6, 250)));
        assert_eq!(sum(5, 249, by), Some(at(5, 999)));
        assert_eq!(sum(5, 250, by), Some(at(6, 0)));
        assert_eq!(sum(5, 250, Duration::ZERO), Some(at(5, 250)));
        let last = at(u64::MAX, 999);
        assert_eq!(sum(u64::MAX, 249, by), Some(last));
        assert_eq!(sum(u64::MAX, 250, by), None);
        assert_eq!(sum(0, 999, Duration::from_secs(u64::MAX)), Some(last));
        assert_eq!(sum(1, 0, Duration::from_secs(u64::MAX)), None);
    }

    #[test]
    fn no_such_day() {
        for date in [
            "1999-12-31",
            "2025-02-29",
            "2100-02-29",
            "2026-13-01",
            "2026-00-01",
            "2026-04-31",
            "2026-04-0",
            "2026-04",
            "2026-04-01-01",
            "+2026-04-01",
            "584942419325-01-01",
            "599999999999-12-31",
            "18446744073709551615-01-01",
            "99999999999999999999999-01-01",
            "",
        ] {
            assert_eq!(from_date(date, "00:00:00"), None, "{date}");
        }
        for time in [
            "24:00",
            "23:60",
            "23:59:60",
            "12",
            "12:00:00:00",
            "-1:00",
            "12:00.250",
            "12:00:00.",
            "12:00:00.5",
            "12:00:00.25",
            "12:00:00.2500",
            "12:00:00.-25",
            "12:00:00.+25",
            "12:00:00.2.5",
            "12:00:00,250",
            ".250",
            "",
        ] {
            assert_eq!(from_date("2026-04-01", time), None, "{time}");
        }
    }
}
