//! Instants (document 01, "Instants"): microseconds from 1957 January 1, 0h, with years that end as the
//! calendar has it (document 02, wish 3).

use crate::elementary::{fmod, PI, TWOPI};
use std::ops::Range;

/// Microseconds in a day of 86,400 s.
pub const DAY: i64 = 86_400_000_000;
pub const FIRST_YEAR: i64 = 1957;
/// The first year past the last one.
pub const END_YEAR: i64 = 2057;
/// An instant may be moved, and a time may lie from the epoch, by this much either way.
pub const SPAN_LIMIT: i64 = 3652 * DAY;

/// Days from 1957 January 1 to January 1 of the year; every fourth year from
/// 1960 to 2056 is a leap year, 2000 too.
const fn days_to_year(year: i64) -> i64 {
    (year - FIRST_YEAR) * 365 + (year - FIRST_YEAR) / 4
}

/// The first instant past the calendar: 2057 January 1, 0h.
pub const END: i64 = days_to_year(END_YEAR) * DAY;

/// The days that a year has, in 10^-8 days; January 1, 0h is 1_00000000. A common year
/// ends at day 365.99999999, a year that 4 divides, 2000 too, at 366.99999999.
pub fn days_of(year: i64) -> Range<i64> {
    let last = if year % 4 == 0 { 366 } else { 365 };
    1_0000_0000..(last + 1) * 1_0000_0000
}

/// The instant of a year and a day of the year in 10^-8 days.
pub fn from_epoch(year: i64, day8: i64) -> Option<i64> {
    let lawful = (FIRST_YEAR..END_YEAR).contains(&year) && days_of(year).contains(&day8);
    lawful.then(|| days_to_year(year) * DAY + (day8 - 1_0000_0000) * 864)
}

/// The calendar year, the day of the year from 1 and the microseconds of that day.
pub fn split(instant: i64) -> (i64, i64, i64) {
    let day = instant / DAY;
    let mut year = FIRST_YEAR;
    while days_to_year(year + 1) <= day {
        year += 1;
    }
    (year, day - days_to_year(year) + 1, instant % DAY)
}

/// An instant moved by a span, or refusal 9, then 6.
pub fn moved(instant: i64, span: i64) -> Result<i64, u8> {
    if !(-SPAN_LIMIT..=SPAN_LIMIT).contains(&span) {
        return Err(9);
    }
    let inside = 0..END;
    if inside.contains(&instant) && inside.contains(&(instant + span)) {
        Ok(instant + span)
    } else {
        Err(6)
    }
}

/// Minutes: microseconds divided by 60,000,000, rounded once.
pub fn minutes(micros: i64) -> f64 {
    if micros.unsigned_abs() <= 1 << 53 {
        return micros as f64 / 60_000_000.0;
    }
    // The count is not an f64: 40 more bits of quotient, the last one standing
    // for all that is left over, then one rounding.
    let scaled = (micros.unsigned_abs() as u128) << 40;
    let left_over = !scaled.is_multiple_of(60_000_000);
    let quotient = (scaled / 60_000_000) | left_over as u128;
    let magnitude = quotient as f64 / (1u64 << 40) as f64;
    if micros < 0 {
        -magnitude
    } else {
        magnitude
    }
}

/// 002's `epoch`: days from 1950 January 0, 0h.
pub fn epoch_days(instant: i64) -> f64 {
    instant as f64 / 86_400_000_000.0 + 2558.0
}

/// 002's `gstime`, of a Julian date.
pub fn gstime(jdut1: f64) -> f64 {
    const DEG2RAD: f64 = PI / 180.0;
    let tut1 = (jdut1 - 2451545.0) / 36525.0;
    let temp = -6.2e-6 * tut1 * tut1 * tut1
        + 0.093104 * tut1 * tut1
        + (876600.0 * 3600.0 + 8640184.812866) * tut1
        + 67310.54841;
    let temp = fmod(temp * DEG2RAD / 240.0, TWOPI);
    if temp < 0.0 {
        temp + TWOPI
    } else {
        temp
    }
}

#[cfg(test)]
mod tests {
    use super::*;

    #[test]
    fn calendar() {
        assert_eq!(END, 36525 * DAY);
        assert_eq!(from_epoch(1957, 1_0000_0000), Some(0));
        assert_eq!(from_epoch(2056, 366_9999_9999), Some(END - 864));
        assert_eq!(from_epoch(2056, 367_0000_0000), None);
        for year in FIRST_YEAR..END_YEAR {
            let days = days_to_year(year + 1) - days_to_year(year);
            assert_eq!(days_of(year).end, (days + 1) * 1_0000_0000);
            let last = from_epoch(year, days_of(year).end - 1).unwrap();
            assert_eq!(split(last), (year, days, DAY - 864));
            assert_eq!(from_epoch(year, days_of(year).end), None);
        }
        assert_eq!(
            [1957, 1999, 2000, 2001, 2055, 2056].map(|year| days_of(year).end / 1_0000_0000),
            [366, 366, 367, 366, 366, 367]
        );
        assert_eq!(split(from_epoch(2000, 179_7849_5062).unwrap()), (2000, 179, 67_819_733_568));
        assert_eq!(split(END - 1), (2056, 366, DAY - 1));
        assert_eq!(split(days_to_year(1960) * DAY + 60 * DAY), (1960, 61, 0));
        assert_eq!(split(days_to_year(1961) * DAY - 1), (1960, 366, DAY - 1));
    }

    #[test]
    fn moves() {
        assert_eq!(moved(0, SPAN_LIMIT), Ok(SPAN_LIMIT));
        assert_eq!(moved(0, SPAN_LIMIT + 1), Err(9));
        assert_eq!(moved(0, i64::MIN), Err(9));
        assert_eq!(moved(0, -1), Err(6));
        assert_eq!(moved(END - 1, 1), Err(6));
        assert_eq!(moved(END, -1), Err(6));
        assert_eq!(moved(END - 1, 0), Ok(END - 1));
    }
}
