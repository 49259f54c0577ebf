//! The report of a text of pairs.

use crate::ffi;
use crate::refusal::{Answer as Packed, Refusal};
use std::fmt;

/// Counts the pairs of a text: the 17 numbers of the report, in the order in which it prints them, at
/// the front of `counts`; what lies past them stays. With none accepted the last seven are 0. Refusal
/// 23 where the text has more than 4,096 whole pairs, then 24 where it has an odd number of lines, then
/// 17 where `counts` is too short; each leaves `counts` as it was.
///
/// [`Report`] is the same with names.
pub fn count_text(text: &[u8], counts: &mut [u64]) -> Result<(), Refusal> {
    Packed(ffi::report(text, counts)).plain()
}

/// How many pairs of a text have each property. Every pair is accepted or refused under one number, and
/// every accepted one is near-Earth, deep-space or refused by opening.
///
/// It prints as the program `monday_report` does: thirteen lines.
///
/// ```
/// use saddlekerf::{Refusal, Report};
///
/// let report = Report::of(b"no element set\nat all\n").unwrap();
/// assert_eq!(report.refused, [1, 0, 0, 0, 0, 0]);
/// assert_eq!(report.earliest, None);
/// assert!(report.to_string().starts_with("accepted 0\nrefused 1 1\n"));
/// assert_eq!(Report::of(b"one line"), Err(Refusal::Odd));
/// ```
#[derive(Clone, Copy, Debug, Default, PartialEq, Eq, Hash)]
pub struct Report {
    pub accepted: u64,
    /// Pairs refused under 1 to 6.
    pub refused: [u64; 6],
    pub near: u64,
    pub deep: u64,
    /// Accepted pairs that opening refuses, with 7 or 8.
    pub unopened: u64,
    /// The earliest epoch of the accepted pairs.
    pub earliest: Option<Date>,
    /// The latest.
    pub latest: Option<Date>,
    /// Microseconds between the two.
    pub span: Option<u64>,
}

/// An epoch as it is printed.
#[derive(Clone, Copy, Debug, PartialEq, Eq, PartialOrd, Ord, Hash)]
pub struct Date {
    /// 1957 to 2056.
    pub year: u64,
    /// The day of the year, from 1.
    pub day: u64,
    /// Microseconds of that day.
    pub microseconds: u64,
}

impl Report {
    /// Numbers of a report, and the most pairs of its text.
    pub const NUMBERS: usize = 17;
    pub const PAIRS_LIMIT: usize = 4096;

    /// The report of a whole text, two lines a pair. A line ends at a newline, and a last one without a
    /// newline counts if it has a byte. Refusal 23 where it has more than 4,096 whole pairs, then 24
    /// where it has an odd number of lines.
    pub fn of(text: &[u8]) -> Result<Report, Refusal> {
        let mut counts = [0; Report::NUMBERS];
        count_text(text, &mut counts)?;
        let [accepted, refused @ .., _, _, _, _, _, _, _, _, _, _] = counts;
        let some = |n: usize| (accepted > 0).then(|| counts[n]);
        let date =
            |n: usize| some(n).map(|year| Date { year, day: counts[n + 1], microseconds: counts[n + 2] });
        Ok(Report {
            accepted,
            refused,
            near: counts[7],
            deep: counts[8],
            unopened: counts[9],
            earliest: date(10),
            latest: date(13),
            span: some(16),
        })
    }
}

impl fmt::Display for Date {
    fn fmt(&self, f: &mut fmt::Formatter<'_>) -> fmt::Result {
        write!(f, "{} {} {}", self.year, self.day, self.microseconds)
    }
}

impl fmt::Display for Report {
    fn fmt(&self, f: &mut fmt::Formatter<'_>) -> fmt::Result {
        writeln!(f, "accepted {}", self.accepted)?;
        for (number, count) in (1..).zip(self.refused) {
            writeln!(f, "refused {number} {count}")?;
        }
        writeln!(f, "near {}\ndeep {}\nunopened {}", self.near, self.deep, self.unopened)?;
        let shown = |value: Option<&dyn fmt::Display>| value.map_or("-".into(), |value| value.to_string());
        writeln!(f, "earliest {}", shown(self.earliest.as_ref().map(|date| date as _)))?;
        writeln!(f, "latest {}", shown(self.latest.as_ref().map(|date| date as _)))?;
        writeln!(f, "span {}", shown(self.span.as_ref().map(|span| span as _)))
    }
}
