//! Two-line element sets (document 01, "The two lines" and "One pair, printed"), with letters in
//! catalogue numbers and the days that a year has (document 02, wishes 1 and 3), and the form of a pair
//! and the meaning of its fields judged apart (wish 9).

use crate::instant;

pub const LENGTH: usize = 69;

/// A field whose range a pair may break, in column order.
#[derive(Clone, Copy, Debug, PartialEq, Eq)]
pub enum Field {
    Day,
    Inclination,
    Node,
    Perigee,
    Anomaly,
    Motion,
}

/// Why a pair is not read, with what comes back.
#[derive(Clone, Copy, Debug, PartialEq, Eq)]
pub enum Refusal {
    /// 1: a line isn't 69 bytes.
    Length { line: u8 },
    /// 2: column 1 wrong.
    FirstColumn { line: u8 },
    /// 3: a column breaks the layout.
    Layout { line: u8, column: u8 },
    /// 4: the checksum differs.
    Checksum { line: u8 },
    /// 5: the catalogue numbers differ.
    Numbers,
    /// 6: a range is broken.
    Range(Field),
}

impl Refusal {
    pub fn number(self) -> u8 {
        match self {
            Refusal::Length { .. } => 1,
            Refusal::FirstColumn { .. } => 2,
            Refusal::Layout { .. } => 3,
            Refusal::Checksum { .. } => 4,
            Refusal::Numbers => 5,
            Refusal::Range(_) => 6,
        }
    }
}

/// A signed five-digit mantissa, point understood before it, and an exponent of ten.
#[derive(Clone, Copy, Debug, PartialEq, Eq)]
pub struct Exponential {
    pub mantissa: i32,
    pub exponent: i8,
}

/// A pair as read: each field a whole number in its last decimal place.
#[derive(Clone, Copy, Debug, PartialEq, Eq)]
pub struct Record {
    pub number: u32,
    pub classification: u8,
    pub designator: [u8; 8],
    /// The year in full.
    pub year: u16,
    /// The day of the year, in 10^-8 days.
    pub day: u64,
    pub ndot: i32,
    pub nddot: Exponential,
    pub bstar: Exponential,
    pub ephemeris: u8,
    pub set: u16,
    pub inclination: u32,
    pub node: u32,
    pub eccentricity: u32,
    pub perigee: u32,
    pub anomaly: u32,
    pub motion: u64,
    pub revolution: u32,
}

/// Letters that stand for no first place of a catalogue number.
const LEFT_OUT: [u8; 2] = [b'I', b'O'];

/// What the first place of a catalogue number stands for: a digit itself, A-Z without I and O 10 to 33.
fn first_place(byte: u8) -> Option<u32> {
    match byte {
        b'0'..=b'9' => Some((byte - b'0') as u32),
        b'A'..=b'Z' if !LEFT_OUT.contains(&byte) => {
            let earlier = LEFT_OUT.iter().filter(|&&letter| letter < byte).count() as u32;
            Some(10 + (byte - b'A') as u32 - earlier)
        }
        _ => None,
    }
}

// ---------------------------------------------------------------- reading

/// Walks a line from the left and remembers the first column that breaks the layout.
struct Columns<'a> {
    line: &'a [u8],
    which: u8,
    next: usize,
}

impl<'a> Columns<'a> {
    fn refuse(&self) -> Refusal {
        Refusal::Layout { line: self.which, column: self.next as u8 + 1 }
    }

    fn take(&mut self, lawful: impl Fn(u8) -> bool) -> Result<u8, Refusal> {
        let byte = self.line[self.next];
        if !lawful(byte) {
            return Err(self.refuse());
        }
        self.next += 1;
        Ok(byte)
    }

    fn one(&mut self, byte: u8) -> Result<(), Refusal> {
        self.take(|b| b == byte).map(|_| ())
    }

    fn blank(&mut self) -> Result<(), Refusal> {
        self.one(b' ')
    }

    fn digit(&mut self) -> Result<u64, Refusal> {
        self.take(|b| b.is_ascii_digit()).map(|b| (b - b'0') as u64)
    }

    /// Digits after those already read.
    fn digits(&mut self, count: usize, before: u64) -> Result<u64, Refusal> {
        (0..count).try_fold(before, |n, _| Ok(10 * n + self.digit()?))
    }

    /// A first place and four digits.
    fn catalogue(&mut self) -> Result<u32, Refusal> {
        let first = first_place(self.line[self.next]).ok_or_else(|| self.refuse())?;
        self.next += 1;
        Ok(self.digits(4, first as u64)? as u32)
    }

    /// Right-set places: blanks, then digits to the last place.
    fn right_set(&mut self, width: usize) -> Result<u64, Refusal> {
        let last = self.next + width - 1;
        while self.next < last && self.line[self.next] == b' ' {
            self.next += 1;
        }
        let left = last + 1 - self.next;
        self.digits(left, 0)
    }

    fn sign(&mut self) -> Result<i32, Refusal> {
        Ok(if self.take(|b| matches!(b, b' ' | b'+' | b'-'))? == b'-' { -1 } else { 1 })
    }

    /// Right-set places, a point, and decimals.
    fn decimal(&mut self, width: usize, decimals: usize) -> Result<u64, Refusal> {
        let whole = self.right_set(width)?;
        self.one(b'.')?;
        self.digits(decimals, whole)
    }

    fn exponential(&mut self) -> Result<Exponential, Refusal> {
        let sign = self.sign()?;
        let mantissa = sign * self.digits(5, 0)? as i32;
        let negative = self.take(|b| matches!(b, b'+' | b'-'))? == b'-';
        let exponent = self.digit()? as i8;
        Ok(match (mantissa, negative) {
            (0, _) => Exponential { mantissa, exponent: 0 },
            (_, true) => Exponential { mantissa, exponent: -exponent },
            (_, false) => Exponential { mantissa, exponent },
        })
    }

    /// Eight blanks, or five digits, a letter, and two places of letters, then blanks.
    fn designator(&mut self) -> Result<[u8; 8], Refusal> {
        let mut text = [b' '; 8];
        if self.line[self.next] == b' ' {
            for _ in 0..8 {
                self.blank()?;
            }
            return Ok(text);
        }
        for place in &mut text[..5] {
            *place = self.take(|b| b.is_ascii_digit())?;
        }
        text[5] = self.take(|b| b.is_ascii_uppercase())?;
        text[6] = self.take(|b| b == b' ' || b.is_ascii_uppercase())?;
        let after_blank = text[6] == b' ';
        text[7] = self.take(|b| b == b' ' || (!after_blank && b.is_ascii_uppercase()))?;
        Ok(text)
    }
}

/// Columns 1-68: a digit adds itself, `-` adds 1, modulo 10.
pub fn checksum(line: &[u8]) -> u8 {
    checksum_of(&line[..LENGTH - 1])
}

/// The same of any bytes.
pub fn checksum_of(bytes: &[u8]) -> u8 {
    let sum: u32 = bytes
        .iter()
        .map(|&b| match b {
            b'0'..=b'9' => (b - b'0') as u32,
            b'-' => 1,
            _ => 0,
        })
        .sum();
    (sum % 10) as u8
}

fn columns(line: &[u8], which: u8) -> Result<Columns<'_>, Refusal> {
    if line.len() != LENGTH {
        return Err(Refusal::Length { line: which });
    }
    if line[0] != b'0' + which {
        return Err(Refusal::FirstColumn { line: which });
    }
    Ok(Columns { line, which, next: 1 })
}

fn close(mut columns: Columns<'_>) -> Result<(), Refusal> {
    let written = columns.digit()?;
    if checksum(columns.line) as u64 != written {
        return Err(Refusal::Checksum { line: columns.which });
    }
    Ok(())
}

/// Line 1's part of a record.
fn read_line_1(line: &[u8], record: &mut Record) -> Result<(), Refusal> {
    let mut c = columns(line, 1)?;
    c.blank()?;
    record.number = c.catalogue()?;
    record.classification = c.take(|b| matches!(b, b'U' | b'C' | b'S'))?;
    c.blank()?;
    record.designator = c.designator()?;
    c.blank()?;
    let year = c.digits(2, 0)? as u16;
    record.year = if year < 57 { 2000 + year } else { 1900 + year };
    let day = c.digits(3, 0)?;
    c.one(b'.')?;
    record.day = c.digits(8, day)?;
    c.blank()?;
    let sign = c.sign()?;
    c.one(b'.')?;
    record.ndot = sign * c.digits(8, 0)? as i32;
    c.blank()?;
    record.nddot = c.exponential()?;
    c.blank()?;
    record.bstar = c.exponential()?;
    c.blank()?;
    record.ephemeris = c.digit()? as u8;
    c.blank()?;
    record.set = c.right_set(4)? as u16;
    close(c)
}

/// Line 2's part of a record, and its catalogue number.
fn read_line_2(line: &[u8], record: &mut Record) -> Result<u32, Refusal> {
    let mut c = columns(line, 2)?;
    c.blank()?;
    let number = c.catalogue()?;
    c.blank()?;
    record.inclination = c.decimal(3, 4)? as u32;
    c.blank()?;
    record.node = c.decimal(3, 4)? as u32;
    c.blank()?;
    record.eccentricity = c.digits(7, 0)? as u32;
    c.blank()?;
    record.perigee = c.decimal(3, 4)? as u32;
    c.blank()?;
    record.anomaly = c.decimal(3, 4)? as u32;
    c.blank()?;
    record.motion = c.decimal(2, 8)?;
    record.revolution = c.right_set(5)? as u32;
    close(c)?;
    Ok(number)
}

/// The first field out of range, in column order.
fn broken_range(record: &Record) -> Option<Field> {
    let faults = [
        (Field::Day, !instant::days_of(record.year as i64).contains(&(record.day as i64))),
        (Field::Inclination, record.inclination > 180_0000),
        (Field::Node, record.node >= 360_0000),
        (Field::Perigee, record.perigee >= 360_0000),
        (Field::Anomaly, record.anomaly >= 360_0000),
        (Field::Motion, record.motion == 0),
    ];
    faults.into_iter().find(|(_, broken)| *broken).map(|(field, _)| field)
}

/// The form of a pair of lines: its fields, in their ranges or not; or a refusal 1 to 5.
pub fn form(line1: &[u8], line2: &[u8]) -> Result<Record, Refusal> {
    let mut fields = EMPTY;
    read_line_1(line1, &mut fields)?;
    let number = read_line_2(line2, &mut fields)?;
    if number != fields.number {
        return Err(Refusal::Numbers);
    }
    Ok(fields)
}

/// Reads a pair of lines.
pub fn read(line1: &[u8], line2: &[u8]) -> Result<Record, Refusal> {
    let fields = form(line1, line2)?;
    match broken_range(&fields) {
        Some(field) => Err(Refusal::Range(field)),
        None => Ok(fields),
    }
}

/// The numbers of fields in lent memory (include/saddlekerf.h).
pub const NUMBERS: usize = 22;

/// Why numbers are no record's: 17, fewer than 22; 16, no accepted form yields them; 6, a range.
#[derive(Clone, Copy, Debug, PartialEq, Eq)]
pub enum Unmeant {
    Short,
    NoForm,
    Range(Field),
}

/// What columns hold of each field but the class and the designator: its place among the numbers, the
/// least and the most. A sign is part of ndot, of a mantissa and of an exponent; all else is digits.
const HELD: [(usize, i64, i64); 17] = [
    (0, 0, 339_999),
    (6, 1957, 2056),
    (7, 0, 999_9999_9999),
    (8, -9999_9999, 9999_9999),
    (9, -99_999, 99_999),
    (10, -9, 9),
    (11, -99_999, 99_999),
    (12, -9, 9),
    (13, 0, 9),
    (14, 0, 9999),
    (15, 0, 999_9999),
    (16, 0, 999_9999),
    (17, 0, 999_9999),
    (18, 0, 999_9999),
    (19, 0, 999_9999),
    (20, 0, 99_9999_9999),
    (21, 0, 99_999),
];

/// Whether an accepted form yields these numbers.
fn yielded(numbers: &[i64]) -> bool {
    let byte = |n: i64, lawful: &[u8]| lawful.iter().any(|&b| n == b as i64);
    let letter = |n: i64| (b'A' as i64..=b'Z' as i64).contains(&n);
    let blank = |n: i64| byte(n, b" ");
    let [launch, a, b, c] = [2, 3, 4, 5].map(|at| numbers[at]);
    let none = launch == 0 && blank(a) && blank(b) && blank(c);
    let filled = if letter(c) { letter(b) } else { blank(c) && (letter(b) || blank(b)) };
    HELD.iter().all(|&(at, least, most)| (least..=most).contains(&numbers[at]))
        && byte(numbers[1], b"UCS")
        && (none || ((0..=99_999).contains(&launch) && letter(a) && filled))
        && [9, 11].iter().all(|&mantissa| numbers[mantissa] != 0 || numbers[mantissa + 1] == 0)
}

/// The meaning of the fields whose numbers these are.
pub fn meaning(numbers: &[i64]) -> Result<(), Unmeant> {
    if numbers.len() < NUMBERS {
        return Err(Unmeant::Short);
    }
    if !yielded(numbers) {
        return Err(Unmeant::NoForm);
    }
    let fields = Record {
        year: numbers[6] as u16,
        day: numbers[7] as u64,
        inclination: numbers[15] as u32,
        node: numbers[16] as u32,
        perigee: numbers[18] as u32,
        anomaly: numbers[19] as u32,
        motion: numbers[20] as u64,
        ..EMPTY
    };
    broken_range(&fields).map_or(Ok(()), |field| Err(Unmeant::Range(field)))
}

const EMPTY: Record = Record {
    number: 0,
    classification: b'U',
    designator: [b' '; 8],
    year: 0,
    day: 0,
    ndot: 0,
    nddot: Exponential { mantissa: 0, exponent: 0 },
    bstar: Exponential { mantissa: 0, exponent: 0 },
    ephemeris: 0,
    set: 0,
    inclination: 0,
    node: 0,
    eccentricity: 0,
    perigee: 0,
    anomaly: 0,
    motion: 0,
    revolution: 0,
};

// ---------------------------------------------------------------- writing

impl Exponential {
    fn lawful(self) -> bool {
        self.mantissa.unsigned_abs() <= 99_999
            && self.exponent.unsigned_abs() <= 9
            && (self.mantissa != 0 || self.exponent == 0)
    }
}

fn lawful_designator(text: &[u8; 8]) -> bool {
    if text == b"        " {
        return true;
    }
    let (digits, letters) = text.split_at(5);
    let filled = letters.iter().take_while(|b| b.is_ascii_uppercase()).count();
    digits.iter().all(u8::is_ascii_digit) && filled >= 1 && letters[filled..].iter().all(|&b| b == b' ')
}

impl Record {
    /// Inside layout and ranges; refusal 16 otherwise.
    pub fn lawful(&self) -> bool {
        self.number <= 339_999
            && matches!(self.classification, b'U' | b'C' | b'S')
            && lawful_designator(&self.designator)
            && (1957..=2056).contains(&self.year)
            && self.ndot.unsigned_abs() <= 9999_9999
            && self.nddot.lawful()
            && self.bstar.lawful()
            && self.ephemeris <= 9
            && self.set <= 9999
            && self.eccentricity <= 999_9999
            && self.motion <= 99_9999_9999
            && self.revolution <= 99_999
            && broken_range(self).is_none()
    }

    /// The numbers of the fields. A designator's first five columns are blanks or digits.
    pub fn numbers(&self) -> [i64; NUMBERS] {
        let (launch, piece) = self.designator.split_at(5);
        let launch = launch.iter().fold(0, |n, &byte| 10 * n + (byte & 15) as i64);
        [
            self.number as i64,
            self.classification as i64,
            launch,
            piece[0] as i64,
            piece[1] as i64,
            piece[2] as i64,
            self.year as i64,
            self.day as i64,
            self.ndot as i64,
            self.nddot.mantissa as i64,
            self.nddot.exponent as i64,
            self.bstar.mantissa as i64,
            self.bstar.exponent as i64,
            self.ephemeris as i64,
            self.set as i64,
            self.inclination as i64,
            self.node as i64,
            self.eccentricity as i64,
            self.perigee as i64,
            self.anomaly as i64,
            self.motion as i64,
            self.revolution as i64,
        ]
    }

    /// The epoch as an instant: every lawful record's lies inside the calendar.
    pub fn epoch(&self) -> i64 {
        instant::from_epoch(self.year as i64, self.day as i64).expect("a lawful record")
    }
}

fn sign_of(negative: bool) -> char {
    if negative {
        '-'
    } else {
        ' '
    }
}

fn exponential_text(x: Exponential) -> String {
    let exponent_sign = if x.exponent > 0 { '+' } else { '-' };
    format!(
        "{}{:05}{}{}",
        sign_of(x.mantissa < 0),
        x.mantissa.unsigned_abs(),
        exponent_sign,
        x.exponent.unsigned_abs()
    )
}

/// Five digits, or from 100000 on a letter for the first two.
fn catalogue_text(number: u32) -> String {
    let mut letters = (b'A'..=b'Z').filter(|letter| !LEFT_OUT.contains(letter));
    match number / 10_000 {
        0..=9 => format!("{number:05}"),
        first => {
            let letter = letters.nth(first as usize - 10).expect("a lawful record") as char;
            format!("{letter}{:04}", number % 10_000)
        }
    }
}

fn decimal_text(n: u64, width: usize, decimals: u32) -> String {
    let unit = 10u64.pow(decimals);
    format!("{:width$}.{:0places$}", n / unit, n % unit, places = decimals as usize)
}

fn angle_text(n: u32) -> String {
    decimal_text(n as u64, 3, 4)
}

/// Writes line 1 or 2 to the front of the room lent; refusals 16, 17.
pub fn write(record: &Record, which: u8, room: &mut [u8]) -> Result<(), u8> {
    if !record.lawful() {
        return Err(16);
    }
    if room.len() < LENGTH {
        return Err(17);
    }
    let text = if which == 1 {
        format!(
            "1 {}{} {} {:02}{:03}.{:08} {}.{:08} {} {} {} {:4}",
            catalogue_text(record.number),
            record.classification as char,
            String::from_utf8_lossy(&record.designator),
            record.year % 100,
            record.day / 1_0000_0000,
            record.day % 1_0000_0000,
            sign_of(record.ndot < 0),
            record.ndot.unsigned_abs(),
            exponential_text(record.nddot),
            exponential_text(record.bstar),
            record.ephemeris,
            record.set,
        )
    } else {
        format!(
            "2 {} {} {} {:07} {} {} {}{:5}",
            catalogue_text(record.number),
            angle_text(record.inclination),
            angle_text(record.node),
            record.eccentricity,
            angle_text(record.perigee),
            angle_text(record.anomaly),
            decimal_text(record.motion, 2, 8),
            record.revolution,
        )
    };
    room[..LENGTH - 1].copy_from_slice(text.as_bytes());
    room[LENGTH - 1] = b'0' + checksum(room);
    Ok(())
}

/// A line as an array.
pub fn written(record: &Record, which: u8) -> Result<[u8; LENGTH], u8> {
    let mut line = [0; LENGTH];
    write(record, which, &mut line).map(|_| line)
}

// --------------------------------------------------------------- printing

/// What the program prints for a pair.
pub fn print(line1: &[u8], line2: &[u8]) -> String {
    let record = match read(line1, line2) {
        Ok(record) => record,
        Err(refusal) => return format!("refused {}\n", refusal.number()),
    };
    let designator = String::from_utf8_lossy(&record.designator).trim_end().to_string();
    let shown = if designator.is_empty() { "-" } else { &designator };
    let Record { number, ndot, nddot, bstar, ephemeris, set, .. } = record;
    let Record { inclination, node, eccentricity, perigee, anomaly, motion, revolution, .. } = record;
    let class = record.classification as char;
    let (year, day) = (record.year, record.day / 1_0000_0000);
    let micros = record.day % 1_0000_0000 * 864;
    format!(
        "number {number}\nclass {class}\ndesignator {shown}\nepoch {year} {day} {micros}\n\
         ndot {ndot}\nnddot {} {}\nbstar {} {}\ntype {ephemeris}\nset {set}\n\
         inclination {inclination}\nnode {node}\neccentricity {eccentricity}\nperigee {perigee}\n\
         anomaly {anomaly}\nmotion {motion}\nrevolution {revolution}\n",
        nddot.mantissa, nddot.exponent, bstar.mantissa, bstar.exponent
    )
}

#[cfg(test)]
mod tests {
    use super::*;

    const LINE1: &[u8] = b"1 00005U 58002B   00179.78495062  .00000023  00000-0  28098-4 0  4753";
    const LINE2: &[u8] = b"2 00005  34.2682 348.7242 1859667 331.7664  19.3264 10.82419157413667";
    const PRINTED: &str = "number 5\nclass U\ndesignator 58002B\nepoch 2000 179 67819733568\nndot 23\n\
        nddot 0 0\nbstar 28098 -4\ntype 0\nset 475\ninclination 342682\nnode 3487242\n\
        eccentricity 1859667\nperigee 3317664\nanomaly 193264\nmotion 1082419157\nrevolution 41366\n";

    #[test]
    fn example_is_read_written_and_printed() {
        let record = read(LINE1, LINE2).unwrap();
        assert_eq!(written(&record, 1).unwrap(), LINE1);
        assert_eq!(written(&record, 2).unwrap(), LINE2);
        assert_eq!(print(LINE1, LINE2), PRINTED);
        assert_eq!(print(LINE1, &LINE2[..68]), "refused 1\n");
    }

    #[test]
    fn edges_of_document_01() {
        let mut comma = LINE2.to_vec();
        comma[11] = b',';
        assert_eq!(read(LINE1, &comma), Err(Refusal::Layout { line: 2, column: 12 }));
        assert_eq!(read(&LINE1[..68], LINE2), Err(Refusal::Length { line: 1 }));
        let record = read(LINE1, LINE2).unwrap();
        assert_eq!(written(&Record { inclination: 180_0001, ..record }, 1), Err(16));
        assert_eq!(written(&Record { year: 2057, ..record }, 2), Err(16));
        assert_eq!(write(&record, 1, &mut [0; 68]), Err(17));
        let zero = Exponential { mantissa: 0, exponent: 3 };
        assert!(!Record { bstar: zero, ..record }.lawful());
    }

    /// The example with other bytes from column 3 on, its checksums mended.
    fn numbered(text: &[u8]) -> [Vec<u8>; 2] {
        [LINE1, LINE2].map(|line| {
            let mut line = line.to_vec();
            line[2..2 + text.len()].copy_from_slice(text);
            line[LENGTH - 1] = b'0' + checksum(&line);
            line
        })
    }

    #[test]
    fn letters_in_catalogue_numbers() {
        let ends: [(&[u8], u32); 7] = [
            (b"99999", 99_999),
            (b"A0000", 100_000),
            (b"H9999", 179_999),
            (b"J0000", 180_000),
            (b"N9999", 229_999),
            (b"P0000", 230_000),
            (b"Z9999", 339_999),
        ];
        for (text, number) in ends {
            let [one, two] = numbered(text);
            let record = read(&one, &two).unwrap();
            assert_eq!(record.number, number);
            assert_eq!(
                (written(&record, 1).unwrap().to_vec(), written(&record, 2).unwrap().to_vec()),
                (one, two)
            );
        }
        for byte in *b"IOaioz @[" {
            let [one, two] = numbered(&[byte]);
            assert_eq!(read(&one, LINE2), Err(Refusal::Layout { line: 1, column: 3 }));
            assert_eq!(read(LINE1, &two), Err(Refusal::Layout { line: 2, column: 3 }));
        }
        let (letter, digits) = (numbered(b"A0000"), numbered(b"00000"));
        assert_eq!(read(&letter[0], &digits[1]), Err(Refusal::Numbers));
        let record = read(LINE1, LINE2).unwrap();
        assert_eq!(written(&Record { number: 340_000, ..record }, 1), Err(16));
    }

    /// Wish 9: the form of a pair with one field as long as its columns, whatever its range, and what its
    /// numbers mean; and one more than the columns hold.
    #[test]
    fn form_and_meaning() {
        let cases: [(usize, usize, &[u8], Option<Field>); 9] = [
            (0, 18, b"57000.00000000", Some(Field::Day)),
            (0, 18, b"56999.99999999", Some(Field::Day)),
            (0, 2, b"Z9999", None),
            (1, 8, b"999.9999", Some(Field::Inclination)),
            (1, 17, b"999.9999", Some(Field::Node)),
            (1, 26, b"9999999", None),
            (1, 34, b"999.9999", Some(Field::Perigee)),
            (1, 43, b"360.0000", Some(Field::Anomaly)),
            (1, 52, b" 0.00000000", Some(Field::Motion)),
        ];
        for (which, at, text, broken) in cases {
            let mut lines = [LINE1, LINE2].map(<[u8]>::to_vec);
            let both = if at == 2 { 0..2 } else { which..which + 1 };
            for line in &mut lines[both] {
                line[at..at + text.len()].copy_from_slice(text);
                line[LENGTH - 1] = b'0' + checksum(line);
            }
            let fields = form(&lines[0], &lines[1]).unwrap();
            let answer = broken.map_or(Ok(()), |field| Err(Unmeant::Range(field)));
            assert_eq!(meaning(&fields.numbers()), answer, "{fields:?}");
            assert_eq!(read(&lines[0], &lines[1]).err(), broken.map(Refusal::Range));
        }
        let example = form(LINE1, LINE2).unwrap().numbers();
        assert_eq!(meaning(&example[..21]), Err(Unmeant::Short));
        for (at, least, most) in HELD {
            for n in [least - 1, most + 1, i64::MIN, i64::MAX] {
                let mut numbers = example;
                numbers[15] = 180_0001; // 16 comes before 6
                numbers[at] = n;
                assert_eq!(meaning(&numbers), Err(Unmeant::NoForm), "{at}: {n}");
            }
        }
    }

    /// Wish 3: a pair and a record with day 366 of a common year.
    #[test]
    fn last_days_of_years() {
        let stamped = |epoch: &[u8; 14]| {
            let mut line = LINE1.to_vec();
            line[18..32].copy_from_slice(epoch);
            line[LENGTH - 1] = b'0' + checksum(&line);
            read(&line, LINE2)
        };
        let refused = Err(Refusal::Range(Field::Day));
        for epoch in [b"01366.50000000", b"57366.00000000", b"55366.99999999", b"00367.00000000"] {
            assert_eq!(stamped(epoch), refused);
        }
        for epoch in [b"00366.50000000", b"57365.99999999", b"56366.99999999"] {
            let record = stamped(epoch).unwrap();
            assert_eq!(instant::split(record.epoch()).0, record.year as i64);
            assert_eq!(written(&Record { year: 2055, day: 366_0000_0000, ..record }, 1), Err(16));
        }
    }
}
