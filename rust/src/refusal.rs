//! Refusals, and answers of the library taken apart.

use crate::award::PlanRefusal;
use crate::passes::{Found, Unseen};
use crate::roster::{Uncompared, Which};
use crate::time::Unmoved;
use std::fmt;

/// One of the two lines of a set.
#[derive(Clone, Copy, Debug, PartialEq, Eq, Hash)]
pub enum Line {
    One = 1,
    Two = 2,
}

/// A field that has a range, in column order.
#[derive(Clone, Copy, Debug, PartialEq, Eq, Hash)]
pub enum Field {
    /// Day of the year, from 1 to the end of the year's last day: 365.99999999, or in a year that 4
    /// divides 366.99999999.
    Day = 1,
    /// At most 180.0000 degrees.
    Inclination = 2,
    /// Right ascension of the node, below 360 degrees.
    Node = 3,
    /// Argument of perigee, below 360 degrees.
    Perigee = 4,
    /// Mean anomaly, below 360 degrees.
    Anomaly = 5,
    /// Mean motion, above 0.
    Motion = 6,
}

/// Why something is not answered, with what comes back.
///
/// Every refusal has one [`number`](Refusal::number), the same in C, in Rust and in what the
/// programs print.
#[derive(Clone, Copy, Debug, PartialEq, Eq, Hash)]
pub enum Refusal {
    /// 1: a line is not 69 bytes.
    Length { line: Line },
    /// 2: column 1 is not the line's number.
    Start { line: Line },
    /// 3: a column breaks the layout; the first one at which no lawful line agrees so far, from 1.
    Column { line: Line, column: u8 },
    /// 4: the checksum differs.
    Checksum { line: Line },
    /// 5: the catalogue numbers of the lines differ.
    Catalogue,
    /// 6: a field is out of its range.
    Range { field: Field },
    /// 7: perigee at epoch below one Earth radius.
    PerigeeBelowSurface,
    /// 8: a number of the opened satellite is not finite.
    RecordNotFinite,
    /// 9: a time beyond 3,652 days.
    Time,
    /// 10: mean motion at most 0.
    MeanMotion,
    /// 11: mean eccentricity 1 or more, or below -0.001, or semi-major axis below 0.95.
    MeanEccentricity,
    /// 12: perturbed eccentricity below 0 or above 1.
    Eccentricity,
    /// 13: semi-latus rectum below 0.
    SemiLatusRectum,
    /// 14: radius below one Earth radius.
    Radius,
    /// 15: a number of the state is not finite.
    StateNotFinite,
    /// 16: a record to be written is outside layout or ranges, or no accepted form yields the fields.
    Record,
    /// 17: lent room too short.
    Room,
    /// 18: a list of more than 1,024 times, or windows of more than 1,024 samples.
    List,
    /// 19: all 64 places of a roster hold other numbers.
    Full,
    /// 20: a roster's pair of this number has a later epoch.
    Older,
    /// 21: a roster has no pair of this number.
    Absent,
    /// 22: a buffer is no roster or has another length, or the row beside it has another length or
    /// disagrees with the pairs.
    NoRoster,
    /// 23: a text of more than 4,096 whole pairs.
    Pairs,
    /// 24: a text with an odd number of lines.
    Odd,
    /// 25: a station that is zero or not finite; of passes, one out of range, or such a least elevation.
    Station,
    /// 26: a step of 0 or more than 86,400 s.
    Step,
    /// 32, of the profile: a period of 225 minutes or more, or a deep-space or resonant satellite.
    DeepSpace,
    /// 33, of the profile: a negative time, or one beyond 30 days.
    ProfileTime,
}

impl Refusal {
    /// The refusal's number, 1 to 26, or 32 and 33 of the profile.
    pub const fn number(self) -> u8 {
        match self {
            Refusal::Length { .. } => 1,
            Refusal::Start { .. } => 2,
            Refusal::Column { .. } => 3,
            Refusal::Checksum { .. } => 4,
            Refusal::Catalogue => 5,
            Refusal::Range { .. } => 6,
            Refusal::PerigeeBelowSurface => 7,
            Refusal::RecordNotFinite => 8,
            Refusal::Time => 9,
            Refusal::MeanMotion => 10,
            Refusal::MeanEccentricity => 11,
            Refusal::Eccentricity => 12,
            Refusal::SemiLatusRectum => 13,
            Refusal::Radius => 14,
            Refusal::StateNotFinite => 15,
            Refusal::Record => 16,
            Refusal::Room => 17,
            Refusal::List => 18,
            Refusal::Full => 19,
            Refusal::Older => 20,
            Refusal::Absent => 21,
            Refusal::NoRoster => 22,
            Refusal::Pairs => 23,
            Refusal::Odd => 24,
            Refusal::Station => 25,
            Refusal::Step => 26,
            Refusal::DeepSpace => 32,
            Refusal::ProfileTime => 33,
        }
    }
}

impl fmt::Display for Refusal {
    fn fmt(&self, f: &mut fmt::Formatter<'_>) -> fmt::Result {
        write!(f, "refusal {}: ", self.number())?;
        match *self {
            Refusal::Length { line } => write!(f, "line {} is not 69 bytes", line as u8),
            Refusal::Start { line } => write!(f, "column 1 of line {} is not its number", line as u8),
            Refusal::Column { line, column } => write!(f, "line {}, column {column}", line as u8),
            Refusal::Checksum { line } => write!(f, "checksum of line {}", line as u8),
            Refusal::Catalogue => f.write_str("the catalogue numbers differ"),
            Refusal::Range { field } => {
                f.write_str(match field {
                    Field::Day => "day",
                    Field::Inclination => "inclination",
                    Field::Node => "node",
                    Field::Perigee => "argument of perigee",
                    Field::Anomaly => "mean anomaly",
                    Field::Motion => "mean motion",
                })?;
                f.write_str(" out of range")
            }
            Refusal::PerigeeBelowSurface => f.write_str("perigee at epoch below one Earth radius"),
            Refusal::RecordNotFinite => f.write_str("a number of the satellite is not finite"),
            Refusal::Time => f.write_str("a time beyond 3,652 days"),
            Refusal::MeanMotion => f.write_str("mean motion at most 0"),
            Refusal::MeanEccentricity => f.write_str("mean eccentricity or axis out of bounds"),
            Refusal::Eccentricity => f.write_str("perturbed eccentricity below 0 or above 1"),
            Refusal::SemiLatusRectum => f.write_str("semi-latus rectum below 0"),
            Refusal::Radius => f.write_str("radius below one Earth radius"),
            Refusal::StateNotFinite => f.write_str("a number of the state is not finite"),
            Refusal::Record => f.write_str("a record outside layout or ranges"),
            Refusal::Room => f.write_str("lent room too short"),
            Refusal::List => f.write_str("more than 1,024 times or samples"),
            Refusal::Full => f.write_str("all 64 places hold other numbers"),
            Refusal::Older => f.write_str("an epoch older than that of the roster's pair"),
            Refusal::Absent => f.write_str("no pair of this number"),
            Refusal::NoRoster => f.write_str("the buffer is no roster"),
            Refusal::Pairs => f.write_str("a text of more than 4,096 pairs"),
            Refusal::Odd => f.write_str("a text with an odd number of lines"),
            Refusal::Station => f.write_str("a station that is zero, not finite or out of range"),
            Refusal::Step => f.write_str("a step of 0 or more than 86,400 s"),
            Refusal::DeepSpace => f.write_str("deep space"),
            Refusal::ProfileTime => f.write_str("a negative time, or one beyond 30 days"),
        }
    }
}

impl std::error::Error for Refusal {}

/// An answer of a library, as include/saddlekerf.h lays it out. What it does not name for a
/// function and a refusal is 0; another answer comes only from an archive of another header.
#[derive(Clone, Copy)]
pub(crate) struct Answer(pub u64);

impl Answer {
    fn detail(self) -> u8 {
        (self.0 >> 8) as u8
    }

    fn place(self) -> u16 {
        (self.0 >> 16) as u16
    }

    fn count(self) -> u32 {
        (self.0 >> 32) as u32
    }

    /// The answer of a function that tells a refusal with its values, or nothing.
    pub fn plain(self) -> Result<(), Refusal> {
        match self.counted() {
            Ok(0) => Ok(()),
            Ok(_) => self.foreign(),
            Err(refusal) => Err(refusal),
        }
    }

    /// The answer of a function that tells a count: bytes written, or a list's strides.
    pub fn counted(self) -> Result<u32, Refusal> {
        match (self.0 as u32, self.count()) {
            (0, count) => Ok(count),
            (_, 0) => Err(self.refusal()),
            _ => self.foreign(),
        }
    }

    /// The answer of a call for windows: how many there are and the strides, or a refusal, which tells neither.
    pub fn windowed(self) -> Result<(u16, u32), Refusal> {
        match (self.0 as u8, self.detail()) {
            (0, 0) => Ok((self.place(), self.count())),
            (0, _) => self.foreign(),
            _ => self.counted().map(|count| (0, count)),
        }
    }

    /// The answer of a call for a pass: whether there is one, with what comes back; or a refusal.
    pub fn passed(self) -> Result<Option<Found>, Refusal> {
        match (self.0 as u8, self.detail(), self.place(), self.count()) {
            (0, 0, 0, 0) => Ok(None),
            (0, 0, place @ (1 | 3 | 5 | 7), left) => {
                Ok(Some(Found { begun: place & 2 != 0, still: place & 4 != 0, left }))
            }
            (0, ..) => self.foreign(),
            _ => self.counted().map(|_| None),
        }
    }

    /// The answer of a look.
    pub fn seen(self) -> Result<(), Unseen> {
        match self.0 {
            6 => Err(Unseen::Outside),
            _ => self.plain().map_err(Unseen::Refused),
        }
    }

    /// The answer of a comparison: bytes written, or why there are none; None where it is no such answer.
    pub fn compared(self) -> Option<Result<u32, Uncompared>> {
        match (self.0 as u32, self.count()) {
            (0, count) => Some(Ok(count)),
            (0x116, 0) => Some(Err(Uncompared::NoRoster(Which::First))),
            (0x216, 0) => Some(Err(Uncompared::NoRoster(Which::Second))),
            (17, 0) => Some(Err(Uncompared::Room)),
            _ => None,
        }
    }

    /// The answer of a move or a date.
    pub fn moved(self) -> Result<(), Unmoved> {
        match self.0 {
            0 => Ok(()),
            6 => Err(Unmoved::Outside),
            9 => Err(Unmoved::TooFar),
            _ => self.foreign(),
        }
    }

    /// The answer of an award plan.
    pub fn checked(self) -> Result<(), PlanRefusal> {
        let place = self.place();
        let refusal = match self.0 as u8 {
            0 if self.0 == 0 => return Ok(()),
            18 => PlanRefusal::TooMany,
            27 => PlanRefusal::Unsound { offer: place },
            28 => PlanRefusal::NoSuchOffer { entry: place },
            29 => PlanRefusal::NamedTwice { entry: place },
            30 => PlanRefusal::Clash { entry: place },
            31 => PlanRefusal::WrongTotal,
            _ => self.foreign(),
        };
        match refusal.number() as u64 | (refusal.place().unwrap_or(0) as u64) << 16 {
            answer if answer == self.0 => Err(refusal),
            _ => self.foreign(),
        }
    }

    /// The answer to one time: Kepler rounds or a refusal, and the strides.
    pub fn asked(self) -> (Result<u8, Refusal>, u32) {
        let row = match (self.0 as u8, self.place()) {
            (0, 0) => Ok(self.detail()),
            (0, _) => self.foreign(),
            _ => Err(self.refusal()),
        };
        (row, self.count())
    }

    fn refusal(self) -> Refusal {
        match self.decoded() {
            Some(refusal) if refusal.packed() == self.0 as u32 => refusal,
            _ => self.foreign(),
        }
    }

    fn decoded(self) -> Option<Refusal> {
        let line = match self.detail() {
            1 => Some(Line::One),
            2 => Some(Line::Two),
            _ => None,
        };
        Some(match self.0 as u8 {
            1 => Refusal::Length { line: line? },
            2 => Refusal::Start { line: line? },
            3 => Refusal::Column { line: line?, column: self.place().try_into().ok()? },
            4 => Refusal::Checksum { line: line? },
            5 => Refusal::Catalogue,
            6 => Refusal::Range { field: field(self.place())? },
            7 => Refusal::PerigeeBelowSurface,
            8 => Refusal::RecordNotFinite,
            9 => Refusal::Time,
            10 => Refusal::MeanMotion,
            11 => Refusal::MeanEccentricity,
            12 => Refusal::Eccentricity,
            13 => Refusal::SemiLatusRectum,
            14 => Refusal::Radius,
            15 => Refusal::StateNotFinite,
            16 => Refusal::Record,
            17 => Refusal::Room,
            18 => Refusal::List,
            19 => Refusal::Full,
            20 => Refusal::Older,
            21 => Refusal::Absent,
            22 => Refusal::NoRoster,
            23 => Refusal::Pairs,
            24 => Refusal::Odd,
            25 => Refusal::Station,
            26 => Refusal::Step,
            32 => Refusal::DeepSpace,
            33 => Refusal::ProfileTime,
            _ => return None,
        })
    }

    #[cold]
    fn foreign(self) -> ! {
        panic!("libsaddlekerf.a answered {:#018x}, which saddlekerf.h does not have", self.0)
    }
}

impl Refusal {
    /// The low 32 bits of its answer.
    fn packed(self) -> u32 {
        let (detail, place) = match self {
            Refusal::Length { line } | Refusal::Start { line } | Refusal::Checksum { line } => {
                (line as u32, 0)
            }
            Refusal::Column { line, column } => (line as u32, column as u32),
            Refusal::Range { field } => (0, field as u32),
            _ => (0, 0),
        };
        self.number() as u32 | detail << 8 | place << 16
    }

    /// The refusal of a row: 9 to 15, or the profile's 33, which come back with nothing.
    pub(crate) fn of_row(number: u8) -> Option<Refusal> {
        match number {
            9..=15 | 33 => Answer(number as u64).decoded(),
            _ => None,
        }
    }
}

fn field(number: u16) -> Option<Field> {
    Some(match number {
        1 => Field::Day,
        2 => Field::Inclination,
        3 => Field::Node,
        4 => Field::Perigee,
        5 => Field::Anomaly,
        6 => Field::Motion,
        _ => return None,
    })
}

#[cfg(test)]
mod tests {
    use super::*;

    /// Every refusal: its answer by the header's layout, its number, and what it says. Written out,
    /// so that no two can stand in each other's place.
    #[test]
    fn every_refusal_has_its_own_answer_number_and_text() {
        use Field::*;
        use Line::*;
        let table = [
            (0x0000_0101, 1, Refusal::Length { line: One }, "line 1 is not 69 bytes"),
            (0x0000_0201, 1, Refusal::Length { line: Two }, "line 2 is not 69 bytes"),
            (0x0000_0102, 2, Refusal::Start { line: One }, "column 1 of line 1 is not its number"),
            (0x0000_0202, 2, Refusal::Start { line: Two }, "column 1 of line 2 is not its number"),
            (0x0045_0103, 3, Refusal::Column { line: One, column: 69 }, "line 1, column 69"),
            (0x000c_0203, 3, Refusal::Column { line: Two, column: 12 }, "line 2, column 12"),
            (0x0000_0104, 4, Refusal::Checksum { line: One }, "checksum of line 1"),
            (0x0000_0204, 4, Refusal::Checksum { line: Two }, "checksum of line 2"),
            (0x0000_0005, 5, Refusal::Catalogue, "the catalogue numbers differ"),
            (0x0001_0006, 6, Refusal::Range { field: Day }, "day out of range"),
            (0x0002_0006, 6, Refusal::Range { field: Inclination }, "inclination out of range"),
            (0x0003_0006, 6, Refusal::Range { field: Node }, "node out of range"),
            (0x0004_0006, 6, Refusal::Range { field: Perigee }, "argument of perigee out of range"),
            (0x0005_0006, 6, Refusal::Range { field: Anomaly }, "mean anomaly out of range"),
            (0x0006_0006, 6, Refusal::Range { field: Motion }, "mean motion out of range"),
            (7, 7, Refusal::PerigeeBelowSurface, "perigee at epoch below one Earth radius"),
            (8, 8, Refusal::RecordNotFinite, "a number of the satellite is not finite"),
            (9, 9, Refusal::Time, "a time beyond 3,652 days"),
            (10, 10, Refusal::MeanMotion, "mean motion at most 0"),
            (11, 11, Refusal::MeanEccentricity, "mean eccentricity or axis out of bounds"),
            (12, 12, Refusal::Eccentricity, "perturbed eccentricity below 0 or above 1"),
            (13, 13, Refusal::SemiLatusRectum, "semi-latus rectum below 0"),
            (14, 14, Refusal::Radius, "radius below one Earth radius"),
            (15, 15, Refusal::StateNotFinite, "a number of the state is not finite"),
            (16, 16, Refusal::Record, "a record outside layout or ranges"),
            (17, 17, Refusal::Room, "lent room too short"),
            (18, 18, Refusal::List, "more than 1,024 times or samples"),
            (19, 19, Refusal::Full, "all 64 places hold other numbers"),
            (20, 20, Refusal::Older, "an epoch older than that of the roster's pair"),
            (21, 21, Refusal::Absent, "no pair of this number"),
            (22, 22, Refusal::NoRoster, "the buffer is no roster"),
            (23, 23, Refusal::Pairs, "a text of more than 4,096 pairs"),
            (24, 24, Refusal::Odd, "a text with an odd number of lines"),
            (25, 25, Refusal::Station, "a station that is zero, not finite or out of range"),
            (26, 26, Refusal::Step, "a step of 0 or more than 86,400 s"),
            (32, 32, Refusal::DeepSpace, "deep space"),
            (33, 33, Refusal::ProfileTime, "a negative time, or one beyond 30 days"),
        ];
        for (answer, number, refusal, text) in table {
            assert_eq!(Answer(answer).plain(), Err(refusal));
            assert_eq!(Answer(answer).counted(), Err(refusal));
            assert_eq!(Answer(answer | 7 << 32).asked(), (Err(refusal), 7));
            assert_eq!(refusal.number(), number);
            assert_eq!(refusal.to_string(), format!("refusal {number}: {text}"));
            let of_row = ((9..=15).contains(&number) || number == 33).then_some(refusal);
            assert_eq!(Refusal::of_row(number), of_row);
        }
    }

    #[test]
    fn values_stand_where_the_header_puts_them() {
        assert_eq!(Answer(0).plain(), Ok(()));
        assert_eq!(Answer(0x0000_0007_0000_0400).asked(), (Ok(4), 7));
        assert_eq!(Answer(0x0000_0007_0000_0000).counted(), Ok(7));
        assert_eq!(Answer(0x0000_0007_0003_0000).windowed(), Ok((3, 7)));
        assert_eq!(Answer(26).windowed(), Err(Refusal::Step));
    }

    #[test]
    fn answers_of_passes_and_looks() {
        let found = |begun, still, left| Ok(Some(Found { begun, still, left }));
        assert_eq!(Answer(0).passed(), Ok(None));
        assert_eq!(Answer(0x0000_0007_0001_0000).passed(), found(false, false, 7));
        assert_eq!(Answer(0x0000_0000_0003_0000).passed(), found(true, false, 0));
        assert_eq!(Answer(0xffff_ffff_0005_0000).passed(), found(false, true, u32::MAX));
        assert_eq!(Answer(0x0000_0000_0007_0000).passed(), found(true, true, 0));
        assert_eq!(Answer(25).passed(), Err(Refusal::Station));
        for answer in [1 << 32, 2 << 16, 9 << 16, 1 << 8, 25 | 1 << 16, 17 | 1 << 32] {
            assert!(std::panic::catch_unwind(|| Answer(answer).passed()).is_err(), "{answer:#x}");
        }
        assert_eq!(Answer(0).seen(), Ok(()));
        assert_eq!(Answer(6).seen(), Err(Unseen::Outside));
        assert_eq!(Answer(14).seen(), Err(Unseen::Refused(Refusal::Radius)));
        for answer in [1 << 32, 6 | 1 << 32, 14 | 1 << 32] {
            assert!(std::panic::catch_unwind(|| Answer(answer).seen()).is_err(), "{answer:#x}");
        }
    }

    /// Every refusal of an award plan: its answer by the header's layout, its number and its place.
    #[test]
    fn answers_of_a_plan() {
        let table = [
            (18, PlanRefusal::TooMany),
            (0x0000_001b, PlanRefusal::Unsound { offer: 0 }),
            (0x00ff_001b, PlanRefusal::Unsound { offer: 255 }),
            (0x0001_001c, PlanRefusal::NoSuchOffer { entry: 1 }),
            (0x0002_001d, PlanRefusal::NamedTwice { entry: 2 }),
            (0x0003_001e, PlanRefusal::Clash { entry: 3 }),
            (31, PlanRefusal::WrongTotal),
        ];
        assert_eq!(Answer(0).checked(), Ok(()));
        for (answer, refusal) in table {
            assert_eq!(Answer(answer).checked(), Err(refusal));
        }
        for answer in [26, 32, 1 << 32, 1 << 16, 0x0001_0012, 0x0001_001f, 27 | 1 << 8, 27 | 1 << 32] {
            assert!(std::panic::catch_unwind(|| Answer(answer).checked()).is_err(), "{answer:#x}");
        }
    }

    /// Numbers, lines, columns, fields and values that belong to no answer of the header.
    #[test]
    fn another_answer_is_no_refusal() {
        let told = |ask: fn(Answer) -> bool, answer| std::panic::catch_unwind(|| ask(Answer(answer))).is_ok();
        let plain = |answer: Answer| answer.plain().is_ok();
        for answer in [27, 1, 0x0301, 0x0001_0101, 0x0100_0103, 0x0006, 0x0007_0006, 0x0107, 0x0001_0009] {
            assert!(!told(plain, answer), "{answer:#x}");
        }
        for answer in [1 << 32, 4 << 8, 1 << 16, 9 | 1 << 32] {
            assert!(!told(plain, answer), "{answer:#x}");
        }
        for answer in [4 << 8, 17 | 1 << 32] {
            assert!(!told(|answer| answer.counted().is_ok(), answer), "{answer:#x}");
        }
        for answer in [1 << 8, 25 | 1 << 16, 26 | 1 << 32] {
            assert!(!told(|answer| answer.windowed().is_ok(), answer), "{answer:#x}");
        }
        for answer in [1 << 16, 14 | 4 << 8] {
            assert!(!told(|answer| answer.asked().0.is_ok(), answer), "{answer:#x}");
        }
    }
}
