//! Quantities of time, kept apart, and instants moved and dated.

use crate::ffi;
use crate::refusal::Answer as Packed;
use crate::Date;
use std::fmt;

/// A time since a satellite's epoch, negative before it.
///
/// A request takes times up to [`LIMIT`](Microseconds::LIMIT) either way and refuses others with 9.
#[derive(Clone, Copy, Debug, Default, PartialEq, Eq, PartialOrd, Ord, Hash)]
#[repr(transparent)]
pub struct Microseconds(pub i64);

impl Microseconds {
    /// 3,652 days of 86,400 seconds.
    pub const LIMIT: Microseconds = Microseconds(315_532_800_000_000);

    pub const fn from_minutes(minutes: i32) -> Microseconds {
        Microseconds(minutes as i64 * 60_000_000)
    }
}

/// Puts times in the best order, in place: zeros first, then those after the epoch outward, then those
/// before it outward. Times out of range are put in order as all others are.
///
/// A satellite newly opened and asked for a list of times in range takes in this order the strides to the
/// farthest time on each side, added, and in no order fewer. Each row goes where its time goes
/// ([`Satellite::list_in_best_order`](crate::Satellite::list_in_best_order) brings them back).
///
/// ```
/// use saddlekerf::{best_order, Microseconds};
///
/// let mut times = [5, -2, 0, 9, -1, 5].map(Microseconds);
/// best_order(&mut times);
/// assert_eq!(times, [0, 5, 5, 9, -1, -2].map(Microseconds));
/// ```
pub fn best_order(times: &mut [Microseconds]) {
    Packed(ffi::best_order(times)).plain().expect("a call that is never refused");
}

/// Microseconds since 1957 January 1, 0h UTC, in days of 86,400 seconds.
#[derive(Clone, Copy, Debug, PartialEq, Eq, PartialOrd, Ord, Hash)]
pub struct Instant(pub u64);

impl Instant {
    /// The time from an epoch to this instant. One too far apart for any i64 becomes the farthest,
    /// which requests refuse as well.
    ///
    /// ```
    /// use saddlekerf::{Instant, Microseconds};
    ///
    /// assert_eq!(Instant(5).since(Instant(7)), Microseconds(-2));
    /// assert_eq!(Instant(0).since(Instant(u64::MAX)), Microseconds(i64::MIN));
    /// ```
    pub fn since(self, epoch: Instant) -> Microseconds {
        let apart = self.0 as i128 - epoch.0 as i128;
        Microseconds(apart.clamp(i64::MIN as i128, i64::MAX as i128) as i64)
    }

    /// Numbers of a date in lent memory.
    pub const DATE_NUMBERS: usize = 3;

    /// This instant moved by a span. Two moves, where both are made, their instants lie in the calendar and
    /// the sum of their spans is at most [`LIMIT`](Microseconds::LIMIT), are one move by that sum; a move
    /// there and back returns to the start.
    ///
    /// ```
    /// use saddlekerf::{Date, Instant, Microseconds, Unmoved};
    ///
    /// let slot = Instant::from_date(Date { year: 2000, day: 179, microseconds: 0 }).unwrap();
    /// let hour = Microseconds::from_minutes(60);
    /// let moved = slot.moved(hour)?.moved(hour)?;
    /// assert_eq!(moved, slot.moved(Microseconds::from_minutes(120))?);
    /// assert_eq!(moved.date().unwrap().to_string(), "2000 179 7200000000");
    /// assert_eq!(Instant(0).moved(Microseconds(-1)), Err(Unmoved::Outside));
    /// # Ok::<(), Unmoved>(())
    /// ```
    pub fn moved(self, span: Microseconds) -> Result<Instant, Unmoved> {
        let mut moved = 0;
        Packed(ffi::move_by(self.0, span.0, &mut moved)).moved()?;
        Ok(Instant(moved))
    }

    /// The date of this instant; none outside 1957-2056.
    pub fn date(self) -> Option<Date> {
        let mut date = [0; Instant::DATE_NUMBERS];
        Packed(ffi::date(self.0, &mut date)).moved().ok()?;
        let [year, day, microseconds] = date;
        Some(Date { year, day, microseconds })
    }

    /// The instant of a date; none where the year is outside 1957-2056 or has no such day, or the
    /// microseconds are a day or more.
    pub fn from_date(date: Date) -> Option<Instant> {
        let mut instant = 0;
        Packed(ffi::instant(date.year, date.day, date.microseconds, &mut instant)).moved().ok()?;
        Some(Instant(instant))
    }
}

/// Why an instant is not moved.
#[derive(Clone, Copy, Debug, PartialEq, Eq, Hash)]
pub enum Unmoved {
    /// 9: the span is beyond 3,652 days.
    TooFar,
    /// 6: the instant given or reached lies outside 1957-2056.
    Outside,
}

impl Unmoved {
    /// The refusal's number: 9 or 6.
    pub const fn number(self) -> u8 {
        match self {
            Unmoved::TooFar => 9,
            Unmoved::Outside => 6,
        }
    }
}

impl fmt::Display for Unmoved {
    fn fmt(&self, f: &mut fmt::Formatter<'_>) -> fmt::Result {
        match self {
            Unmoved::TooFar => f.write_str("refusal 9: a move beyond 3,652 days"),
            Unmoved::Outside => f.write_str("refusal 6: an instant outside 1957-2056"),
        }
    }
}

impl std::error::Error for Unmoved {}

/// A number of integrator strides, of 720 minutes each.
#[derive(Clone, Copy, Debug, Default, PartialEq, Eq, PartialOrd, Ord, Hash)]
pub struct Strides(pub u32);
