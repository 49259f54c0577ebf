//! The record of a pair: read from two lines, written as two lines.

use crate::ffi;
use crate::refusal::{Answer as Packed, Line, Refusal};

/// A signed mantissa of five digits, the point understood before them, and a power of ten: the number
/// is mantissa × 10^(exponent − 5). A zero mantissa has exponent 0.
#[derive(Clone, Copy, Debug, Default, PartialEq, Eq, Hash)]
pub struct Exponential {
    /// -99999 to 99999.
    pub mantissa: i32,
    /// -9 to 9.
    pub exponent: i8,
}

/// The fields of a two-line element set, each a whole number in its last decimal place.
///
/// ```
/// use saddlekerf::{Record, Refusal};
///
/// # fn main() -> Result<(), Refusal> {
/// let line1 = b"1 00005U 58002B   00179.78495062  .00000023  00000-0  28098-4 0  4753";
/// let line2 = b"2 00005  34.2682 348.7242 1859667 331.7664  19.3264 10.82419157413667";
/// let mut record = Record::read(line1, line2)?;
/// assert_eq!((record.inclination, record.bstar.mantissa), (34_2682, 28098));
/// assert_eq!(record.write()?, [*line1, *line2]);
///
/// // Catalogue numbers from 100000 on have a letter in their first place (Alpha-5): 10 is A, 33 is Z.
/// record.number = 339_999;
/// let [line1, line2] = record.write()?;
/// assert_eq!((&line1[2..8], &line2[2..7]), (b"Z9999U".as_slice(), b"Z9999".as_slice()));
/// assert_eq!(Record::read(&line1, &line2)?.number, 339_999);
///
/// // 2000 has a day 366, 2001 has none.
/// record.day = 366_5000_0000;
/// assert!(record.write().is_ok());
/// record.year = 2001;
/// assert_eq!(record.write(), Err(Refusal::Record));
/// # Ok(())
/// # }
/// ```
#[derive(Clone, Copy, Debug, PartialEq, Eq, Hash)]
pub struct Record {
    /// Catalogue number, at most 339999. A line has five digits of it, or from 100000 on a letter A-Z
    /// without I and O, standing for 10 to 33, and four digits.
    pub number: u32,
    /// Classification: `b'U'`, `b'C'` or `b'S'`.
    pub class: u8,
    /// International designator: launch year and number as five digits (58002), and the piece, one to
    /// three letters from the left with blanks after them. A blank designator is 0 and three blanks.
    pub launch: u32,
    pub piece: [u8; 3],
    /// 1957 to 2056.
    pub year: u16,
    /// Day of the year in 10⁻⁸ days: 1 0000 0000 is January 1, 0h. A common year ends at 365 9999 9999,
    /// a year that 4 divides, 2000 among them, at 366 9999 9999.
    pub day: u64,
    /// Half the first derivative of mean motion, in 10⁻⁸ revolutions per day², eight digits.
    pub ndot: i32,
    /// A sixth of the second derivative of mean motion, in revolutions per day³.
    pub nddot: Exponential,
    /// B*, in inverse Earth radii.
    pub bstar: Exponential,
    /// Ephemeris type, a digit.
    pub ephemeris_type: u8,
    /// Element number, at most 9999.
    pub set: u16,
    /// In 10⁻⁴ degrees, at most 180 0000.
    pub inclination: u32,
    /// Right ascension of the node, in 10⁻⁴ degrees, below 360 0000.
    pub node: u32,
    /// In 10⁻⁷, seven digits.
    pub eccentricity: u32,
    /// Argument of perigee, in 10⁻⁴ degrees, below 360 0000.
    pub perigee: u32,
    /// Mean anomaly, in 10⁻⁴ degrees, below 360 0000.
    pub anomaly: u32,
    /// Mean motion, in 10⁻⁸ revolutions per day, from 1 to 99 9999 9999.
    pub motion: u64,
    /// Revolution number at epoch, at most 99999.
    pub revolution: u32,
}

impl Record {
    /// Bytes of a line.
    pub const LINE: usize = 69;

    /// Reads a pair; or a refusal 1 to 6.
    pub fn read(line1: &[u8], line2: &[u8]) -> Result<Record, Refusal> {
        let mut fields = [0; ffi::FIELDS];
        Packed(ffi::record(line1, line2, &mut fields)).plain()?;
        Ok(Record::of(&fields).unwrap_or_else(|| foreign(&fields)))
    }

    /// Both lines, which read as this record again; or refusal 16, where it is outside layout or
    /// ranges.
    pub fn write(&self) -> Result<[[u8; Record::LINE]; 2], Refusal> {
        let mut lines = [[0; Record::LINE]; 2];
        self.write_line(Line::One, &mut lines[0])?;
        self.write_line(Line::Two, &mut lines[1])?;
        Ok(lines)
    }

    /// Writes a line at the front of `out` and returns the 69 bytes written; or refusal 16, where the
    /// record as a whole is outside layout or ranges, or 17, where `out` is too short: then nothing is
    /// written. What lies past the line stays.
    pub fn write_line<'a>(&self, line: Line, out: &'a mut [u8]) -> Result<&'a mut [u8], Refusal> {
        let written = Packed(ffi::write(&self.fields(), line as u32, out)).counted()?;
        Ok(&mut out[..written as usize])
    }

    /// The numbers in the order of include/saddlekerf.h. What no i64 holds becomes the largest, which
    /// no range has either.
    fn fields(&self) -> [i64; ffi::FIELDS] {
        let long = |number: u64| i64::try_from(number).unwrap_or(i64::MAX);
        let [a, b, c] = self.piece.map(i64::from);
        [
            self.number.into(),
            self.class.into(),
            self.launch.into(),
            a,
            b,
            c,
            self.year.into(),
            long(self.day),
            self.ndot.into(),
            self.nddot.mantissa.into(),
            self.nddot.exponent.into(),
            self.bstar.mantissa.into(),
            self.bstar.exponent.into(),
            self.ephemeris_type.into(),
            self.set.into(),
            self.inclination.into(),
            self.node.into(),
            self.eccentricity.into(),
            self.perigee.into(),
            self.anomaly.into(),
            long(self.motion),
            self.revolution.into(),
        ]
    }

    fn of(fields: &[i64; ffi::FIELDS]) -> Option<Record> {
        let small = |at: usize| u8::try_from(fields[at]).ok();
        let whole = |at: usize| u32::try_from(fields[at]).ok();
        let long = |at: usize| u64::try_from(fields[at]).ok();
        let signed = |at: usize| i32::try_from(fields[at]).ok();
        let exponential = |at: usize| {
            Some(Exponential { mantissa: signed(at)?, exponent: i8::try_from(fields[at + 1]).ok()? })
        };
        Some(Record {
            number: whole(0)?,
            class: small(1)?,
            launch: whole(2)?,
            piece: [small(3)?, small(4)?, small(5)?],
            year: fields[6].try_into().ok()?,
            day: long(7)?,
            ndot: signed(8)?,
            nddot: exponential(9)?,
            bstar: exponential(11)?,
            ephemeris_type: small(13)?,
            set: fields[14].try_into().ok()?,
            inclination: whole(15)?,
            node: whole(16)?,
            eccentricity: whole(17)?,
            perigee: whole(18)?,
            anomaly: whole(19)?,
            motion: long(20)?,
            revolution: whole(21)?,
        })
    }
}

/// What the form of a pair yields: the fields of a record, held to no range. What takes a record does
/// not take them; [`Fields::judge`] makes the record.
///
/// ```
/// use saddlekerf::{Field, Fields, Refusal};
///
/// let line1 = b"1 00005U 58002B   00179.78495062  .00000023  00000-0  28098-4 0  4753";
/// let line2 = b"2 00005 934.2682 348.7242 1859667 331.7664  19.3264 10.82419157413666";
/// // The line is well formed, the angle is impossible.
/// let fields = Fields::read(line1, line2).unwrap();
/// assert_eq!(fields.unjudged().inclination, 934_2682);
/// assert_eq!(fields.judge(), Err(Refusal::Range { field: Field::Inclination }));
/// ```
#[derive(Clone, Copy, Debug, PartialEq, Eq, Hash)]
pub struct Fields(Record);

impl Fields {
    /// How many numbers fields are in lent memory ([`form`], [`meaning`]).
    pub const NUMBERS: usize = ffi::FIELDS;

    /// Judges the form of a pair; or a refusal 1 to 5.
    pub fn read(line1: &[u8], line2: &[u8]) -> Result<Fields, Refusal> {
        let mut numbers = [0; Fields::NUMBERS];
        form(line1, line2, &mut numbers)?;
        Ok(Fields(Record::of(&numbers).unwrap_or_else(|| foreign(&numbers))))
    }

    /// Fields to be judged, whoever gives them.
    pub fn of(record: Record) -> Fields {
        Fields(record)
    }

    /// The fields as they are, to be shown. No range was held to.
    pub fn unjudged(&self) -> &Record {
        &self.0
    }

    /// Judges their meaning: the record; or refusal 16, where no accepted form yields such fields, and
    /// then 6 with the first field out of its range.
    pub fn judge(self) -> Result<Record, Refusal> {
        meaning(&self.0.fields())?;
        Ok(self.0)
    }
}

/// Judges the form of a pair alone. Its fields, in their ranges or not, go as 22 numbers to the front of
/// `numbers`, in the order and units of include/saddlekerf.h (`enum saddlekerf_record_field`), and what
/// lies past them stays; or a refusal 1 to 5, or 17, where `numbers` is too short: then nothing is
/// written.
///
/// ```
/// use saddlekerf::{form, meaning, Field, Fields, Refusal};
///
/// let line1 = b"1 00005U 58002B   00179.78495062  .00000023  00000-0  28098-4 0  4753";
/// let line2 = b"2 00005  34.2682 348.7242 1859667 731.7664  19.3264 10.82419157413661";
/// let mut numbers = [0; Fields::NUMBERS];
/// assert_eq!(form(line1, line2, &mut numbers), Ok(()));
/// assert_eq!(numbers[18], 731_7664); // the argument of perigee, in 0.0001 degrees
/// assert_eq!(meaning(&numbers), Err(Refusal::Range { field: Field::Perigee }));
/// numbers[18] -= 720_0000;
/// assert_eq!(meaning(&numbers), Ok(()));
/// ```
pub fn form(line1: &[u8], line2: &[u8], numbers: &mut [i64]) -> Result<(), Refusal> {
    Packed(ffi::form(line1, line2, numbers)).plain()
}

/// Judges the meaning alone of the fields whose numbers stand at the front of `numbers`, whoever wrote
/// them: they are a record's; or refusal 17, where there are fewer than 22, then 16, where no accepted
/// form yields such fields, then 6 with the first field out of its range.
pub fn meaning(numbers: &[i64]) -> Result<(), Refusal> {
    Packed(ffi::meaning(numbers)).plain()
}

/// Only an archive of another header reads such a record.
#[cold]
fn foreign(fields: &[i64; ffi::FIELDS]) -> ! {
    panic!("libsaddlekerf.a read the record {fields:?}, which saddlekerf.h does not have")
}
