//! Seeded random pairs, whole and damaged, over every branch of the model, and
//! random sequences of requests.

use crate::instant::{self, DAY, SPAN_LIMIT};
use crate::random::Random;
use crate::report::PAIRS;
use crate::request::{Saved, LIST_LIMIT, STRIDE};
use crate::roster::{spelt, PAIR, PLACES, SIZE};
use crate::sgp4::{RADIUSEARTHKM, XKE};
use crate::tle::{self, Exponential, Record, LENGTH};
use crate::windows::{Vector, Watch, SAMPLE_LIMIT, STEP_LIMIT};

pub type Line = [u8; LENGTH];

/// What a pair is drawn for. The drawing aims at the branch; what the model
/// then takes is counted after opening.
#[derive(Clone, Copy, Debug, PartialEq, Eq, PartialOrd, Ord)]
pub enum Aim {
    /// Near Earth, perigee above 220 km: the full drag equations.
    Near,
    /// Near Earth, perigee around 156 to 220, 98 to 156, and below 98 km.
    Perigee220,
    Perigee156,
    Perigee98,
    /// Eccentricity below, at and above 1E-4.
    Circular,
    Deep,
    OneDay,
    /// Eccentricity 0.5 and more, over the limits 0.65, 0.7 and 0.715.
    HalfDay,
    /// Periods around 225 minutes and mean motions around the resonances' limits.
    Limits,
    /// Deep space below 0.2 rad and below 3 degrees: Lyddane's form.
    LowInclination,
    HighEccentricity,
    /// 180.0000 degrees and just below.
    Retrograde,
    /// Heavy drag: most of the refusals 10-14.
    Decaying,
    /// Every field uniform over all that its columns can hold.
    Anything,
}

pub const AIMS: [Aim; 14] = [
    Aim::Near,
    Aim::Perigee220,
    Aim::Perigee156,
    Aim::Perigee98,
    Aim::Circular,
    Aim::Deep,
    Aim::OneDay,
    Aim::HalfDay,
    Aim::Limits,
    Aim::LowInclination,
    Aim::HighEccentricity,
    Aim::Retrograde,
    Aim::Decaying,
    Aim::Anything,
];

// ------------------------------------------------------------------ records

/// Mean motion in 10^-8 revolutions a day, from radians a minute.
fn motion(radians_per_minute: f64) -> u64 {
    let revolutions = radians_per_minute * 1440.0 / (2.0 * std::f64::consts::PI);
    ((revolutions * 1e8) as u64).clamp(1, 99_9999_9999)
}

/// The mean motion that puts the perigee at a height, for an eccentricity.
fn motion_for_perigee(kilometres: f64, eccentricity: u32) -> u64 {
    let e = eccentricity as f64 / 1e7;
    let a = (1.0 + kilometres / RADIUSEARTHKM) / (1.0 - e);
    motion(XKE / (a * a.sqrt()))
}

fn exponential(random: &mut Random, smallest: i64, largest: i64) -> Exponential {
    let mantissa = if random.one_in(10) { 0 } else { random.between(-99_999, 99_999) as i32 };
    let exponent = if mantissa == 0 { 0 } else { random.between(smallest, largest) as i8 };
    Exponential { mantissa, exponent }
}

fn designator(random: &mut Random) -> [u8; 8] {
    let mut text = [b' '; 8];
    if !random.one_in(8) {
        text[..5].fill_with(|| b'0' + random.below(10) as u8);
        let letters = 1 + random.below(3) as usize;
        text[5..5 + letters].fill_with(|| b'A' + random.below(26) as u8);
    }
    text
}

/// A lawful record with nothing said about its orbit.
fn anything(random: &mut Random) -> Record {
    let year = random.between(1957, 2056);
    let days = instant::days_of(year);
    let day = match random.below(12) {
        0 => days.start,
        1 => days.end - 1,
        2 => days.end - 1_0000_0000,
        _ => random.between(days.start, days.end - 1),
    };
    Record {
        number: random.below(340_000) as u32,
        classification: *random.pick(b"UCS"),
        designator: designator(random),
        year: year as u16,
        day: day as u64,
        ndot: random.between(-9999_9999, 9999_9999) as i32,
        nddot: exponential(random, -9, 9),
        bstar: exponential(random, -9, 9),
        ephemeris: random.below(10) as u8,
        set: random.below(10_000) as u16,
        inclination: random.below(180_0001) as u32,
        node: random.below(360_0000) as u32,
        eccentricity: random.below(1000_0000) as u32,
        perigee: random.below(360_0000) as u32,
        anomaly: random.below(360_0000) as u32,
        motion: 1 + random.below(99_9999_9999),
        revolution: random.below(100_000) as u32,
    }
}

/// One of the limits that the model compares with, give or take.
fn around(random: &mut Random, limit: f64, relative: f64) -> f64 {
    limit * (1.0 + random.uniform(-relative, relative))
}

pub fn record(random: &mut Random, aim: Aim) -> Record {
    let mut record = anything(random);
    if aim == Aim::Anything {
        return record;
    }
    // Drag as satellites have it: B* from 1E-6 to 1E-2, of either sign.
    record.bstar = exponential(random, -5, -1);
    match aim {
        Aim::Near => {
            record.eccentricity = random.below(2_000_000) as u32;
            record.motion = motion_for_perigee(random.uniform(225.0, 2500.0), record.eccentricity);
        }
        Aim::Decaying => {
            let top = *random.pick(&[10_000, 500_000, 5_000_000]);
            record.eccentricity = random.below(top) as u32;
            record.motion = motion_for_perigee(random.uniform(100.0, 600.0), record.eccentricity);
            record.bstar = exponential(random, -4, 4);
        }
        Aim::Perigee220 | Aim::Perigee156 | Aim::Perigee98 => {
            let (low, high) = match aim {
                Aim::Perigee220 => (150.0, 226.0),
                Aim::Perigee156 => (92.0, 162.0),
                _ => (-20.0, 104.0),
            };
            let top = if random.one_in(3) { 9_000_000 } else { 300_000 };
            record.eccentricity = random.below(top) as u32;
            record.motion = motion_for_perigee(random.uniform(low, high), record.eccentricity);
        }
        Aim::Circular => {
            record.eccentricity = random.below(1200) as u32;
            record.motion = motion_for_perigee(random.uniform(150.0, 1500.0), record.eccentricity);
        }
        Aim::Deep => {
            record.eccentricity = random.below(8_000_000) as u32;
            record.motion = motion(random.uniform(0.0002, 0.0279));
        }
        Aim::OneDay => {
            let top = *random.pick(&[10_000, 100_000, 8_000_000]);
            record.eccentricity = random.below(top) as u32;
            record.motion = motion(random.uniform(0.0034, 0.0053));
        }
        Aim::HalfDay => {
            record.eccentricity = match random.below(5) {
                0 => *random
                    .pick(&[5_000_000, 4_999_999, 6_500_000, 6_500_001, 7_000_000, 6_999_999, 7_150_000]),
                _ => random.between(4_900_000, 7_600_000) as u32,
            };
            record.motion = motion(random.uniform(8.2e-3, 9.3e-3));
        }
        Aim::Limits => {
            record.eccentricity = random.between(4_000_000, 7_600_000) as u32;
            let limits = [2.0 * std::f64::consts::PI / 225.0, 8.26e-3, 9.24e-3, 0.0034906585, 0.0052359877];
            let limit = *random.pick(&limits);
            let relative = *random.pick(&[1e-2, 1e-4, 1e-6]);
            record.motion = motion(around(random, limit, relative));
            if random.one_in(2) {
                record.eccentricity = random.below(1_000_000) as u32;
            }
        }
        Aim::LowInclination => {
            let top = *random.pick(&[2, 100, 30_0000, 12_0000]);
            record.inclination = random.below(top) as u32;
            record.eccentricity = random.below(7_500_000) as u32;
            record.motion = match random.below(3) {
                0 => motion(random.uniform(0.0035, 0.0052)),
                1 => motion(random.uniform(8.26e-3, 9.24e-3)),
                _ => motion(random.uniform(0.001, 0.0279)),
            };
        }
        Aim::HighEccentricity => {
            let lowest = *random.pick(&[8_000_000, 9_900_000, 9_999_900]);
            record.eccentricity = random.between(lowest, 9_999_999) as u32;
            record.motion = motion_for_perigee(random.uniform(0.0, 40_000.0), record.eccentricity);
        }
        Aim::Retrograde => {
            let off = *random.pick(&[0, 1, 2, 20, 30_0000]);
            record.inclination = 180_0000 - random.below(off + 1) as u32;
            record.eccentricity = random.below(6_000_000) as u32;
            record.motion = match random.below(3) {
                0 => motion_for_perigee(random.uniform(150.0, 1500.0), record.eccentricity),
                1 => motion(random.uniform(0.0034, 0.0053)),
                _ => motion(random.uniform(0.001, 0.0279)),
            };
        }
        Aim::Anything => unreachable!(),
    }
    record
}

/// A record of which some fields may be outside layout and ranges: each at, beside or far from a limit.
pub fn any_record(random: &mut Random) -> Record {
    let mut record = anything(random);
    for _ in 0..random.below(3) {
        spoil(random, &mut record);
    }
    record
}

/// One field put at, beside or far from one of its limits.
fn spoil(random: &mut Random, record: &mut Record) {
    let off = *random.pick(&[-1, 0, 1, 1_000_000_007]);
    let near = |limit: i64| limit + off;
    let small = |limit: i64| near(limit).clamp(0, 255) as u8;
    let short = |limit: i64| near(limit).clamp(0, 65_535) as u16;
    let whole = |limit: i64| near(limit).clamp(0, u32::MAX as i64) as u32;
    let long = |limit: i64| near(limit).max(0) as u64;
    let signed = |limit: i64| near(limit).clamp(i32::MIN as i64, i32::MAX as i64) as i32;
    let exponent = |limit: i64| near(limit).clamp(-128, 127) as i8;
    let side = *random.pick(&[-1, 1]);
    match random.below(17) {
        0 => record.number = *random.pick(&[whole(99_999), whole(339_999)]),
        1 => record.classification = random.next_u64() as u8,
        2 => {
            record.designator[..5].copy_from_slice(b"58002");
            record.designator[5 + random.below(3) as usize] = *random.pick(b" AZ@[a0\0");
        }
        3 => record.designator = *random.pick(&[*b"        ", *b"00001   ", *b"99999A A", *b"00000A  "]),
        4 => record.year = *random.pick(&[short(1957), short(2056), 0, 57, 65_535]),
        5 => {
            let limits = [long(1_0000_0000), long(366_0000_0000), long(367_0000_0000), 0, u64::MAX];
            record.day = *random.pick(&limits);
        }
        6 => record.ndot = side * signed(9999_9999),
        7 => record.nddot.mantissa = side * signed(99_999),
        8 => record.nddot.exponent = *random.pick(&[exponent(9), exponent(-9), exponent(0)]),
        9 => record.bstar.mantissa = *random.pick(&[side * signed(99_999), 0]),
        10 => record.bstar.exponent = *random.pick(&[exponent(9), exponent(-9), exponent(0)]),
        11 => record.ephemeris = small(9),
        12 => record.set = short(9999),
        13 => record.inclination = whole(180_0000),
        14 => {
            let angle = whole(360_0000);
            let angles = [&mut record.node, &mut record.perigee, &mut record.anomaly];
            *angles.into_iter().nth(random.below(3) as usize).expect("one of three") = angle;
        }
        15 => record.eccentricity = whole(999_9999),
        _ => match random.below(3) {
            0 => record.revolution = whole(99_999),
            1 => record.motion = long(0),
            _ => record.motion = *random.pick(&[long(99_9999_9999), u64::MAX]),
        },
    }
}

/// Numbers of fields, some of them put at, beside or far from a limit of their columns or of their range, or
/// to anything; at times fewer of them.
pub fn numbers(random: &mut Random, numbers: &[i64]) -> Vec<i64> {
    let mut numbers = numbers.to_vec();
    let powers: Vec<i64> = (0..12).map(|n| 10i64.pow(n)).collect();
    for _ in 0..random.below(4) {
        let at = random.below(22) as usize;
        let limits = [0, 1957, 2056, 340_000, 180_0000, 360_0000, 1_0000_0000, 366_0000_0000, 367_0000_0000];
        let limit = if random.one_in(2) { *random.pick(&powers) } else { *random.pick(&limits) };
        let other = numbers[random.below(numbers.len() as u64) as usize];
        let small = random.between(-130, 130);
        let any = random.next_u64() as i64;
        numbers[at] = *random.pick(&[limit, limit - 1, limit + 1, -limit, other, small, any]);
    }
    if random.one_in(20) {
        numbers.truncate(random.below(22) as usize);
    }
    numbers
}

// -------------------------------------------------------------------- lines

fn mend(line: &mut Line) {
    line[LENGTH - 1] = b'0' + tle::checksum(line);
}

/// The places of a line where a blank may also be a zero (right-set fields) or
/// a plus, as first and last column.
const RIGHT_SET: [&[(usize, usize)]; 2] =
    [&[(65, 67)], &[(9, 10), (18, 19), (35, 36), (44, 45), (53, 53), (64, 67)]];
const SIGNS: [usize; 3] = [34, 45, 54];

/// The same record written another lawful way: zeros for blanks, plus signs,
/// `+0` for `-0`, another exponent beside a zero mantissa.
fn vary(random: &mut Random, lines: &mut (Line, Line)) {
    for (which, line) in [&mut lines.0, &mut lines.1].into_iter().enumerate() {
        for &(first, last) in RIGHT_SET[which] {
            let zeros_from = random.between(first as i64, last as i64 + 2) as usize;
            for column in zeros_from..=last {
                if line[column - 1] == b' ' {
                    line[column - 1] = b'0';
                }
            }
        }
    }
    let line1 = &mut lines.0;
    for column in SIGNS {
        if line1[column - 1] == b' ' && random.one_in(3) {
            line1[column - 1] = b'+';
        }
    }
    for first in [45, 54] {
        let zero_mantissa = line1[first..first + 5].iter().all(|&b| b == b'0');
        if zero_mantissa && random.one_in(2) {
            line1[first - 1] = *random.pick(b" +-");
            line1[first + 5] = *random.pick(b"+-");
            line1[first + 6] = b'0' + random.below(10) as u8;
        } else if line1[first + 6] == b'0' && random.one_in(2) {
            line1[first + 5] = *random.pick(b"+-");
        }
    }
    mend(&mut lines.0);
    mend(&mut lines.1);
}

/// A lawful pair of lines.
pub fn pair(random: &mut Random, aim: Aim) -> (Line, Line) {
    let record = record(random, aim);
    let written = |which| tle::written(&record, which).expect("a lawful record");
    let mut lines = (written(1), written(2));
    if random.one_in(2) {
        vary(random, &mut lines);
    }
    lines
}

/// A pair whose mean perigee is above one Earth radius, and its radius there often below.
pub fn grazing_pair(random: &mut Random) -> (Line, Line) {
    let mut record = anything(random);
    record.bstar = Exponential { mantissa: 0, exponent: 0 };
    record.inclination = random.below(30_0000) as u32;
    record.eccentricity = random.between(100_000, 2_000_000) as u32;
    record.motion = motion_for_perigee(random.uniform(-3.0, 8.0), record.eccentricity);
    let written = |which| tle::written(&record, which).expect("a lawful record");
    (written(1), written(2))
}

/// First places of a catalogue number, and I, O, lower case and other bytes that are none.
const FIRST_PLACES: &[u8] = b"019ABHIJKNOPQZabhijkopz @[";

/// Bytes that look lawful somewhere, and others that never are.
const LAYOUT_BYTES: &[u8] = b"0123456789 +-.UCSABIJOZaioz";

fn damage_once(random: &mut Random, line: &mut Vec<u8>) {
    let column = random.below(line.len().max(1) as u64) as usize;
    match random.below(24) {
        0 => line.truncate(random.below(LENGTH as u64 + 1) as usize),
        1 => line.extend((0..1 + random.below(90)).map(|_| b' ')),
        2 => {
            if !line.is_empty() {
                line.remove(column);
            }
        }
        3 => line.insert(column.min(line.len()), *random.pick(LAYOUT_BYTES)),
        4 => {
            // Any byte but a newline, which would end the line.
            let byte = random.below(255) as u8;
            if !line.is_empty() {
                line[column] = if byte >= b'\n' { byte + 1 } else { byte };
            }
        }
        _ => {
            if !line.is_empty() {
                line[column] = *random.pick(LAYOUT_BYTES);
            }
        }
    }
}

/// Values at and past the limits of the ranges: line, first column, text.
const AT_LIMITS: [(usize, usize, &[u8]); 17] = [
    (0, 21, b"000.99999999"),
    (0, 21, b"001.00000000"),
    (0, 21, b"365.99999999"),
    (0, 21, b"366.00000000"),
    (0, 21, b"366.50000000"),
    (0, 21, b"366.99999999"),
    (0, 21, b"367.00000000"),
    (1, 9, b"180.0000"),
    (1, 9, b"180.0001"),
    (1, 18, b"359.9999"),
    (1, 18, b"360.0000"),
    (1, 35, b"359.9999"),
    (1, 35, b"360.0000"),
    (1, 44, b"359.9999"),
    (1, 44, b"360.0000"),
    (1, 53, b" 0.00000000"),
    (1, 53, b" 0.00000001"),
];

fn put_at_limit(random: &mut Random, lines: &mut [Vec<u8>; 2]) {
    let (which, first, text) = *random.pick(&AT_LIMITS);
    lines[which][first - 1..first - 1 + text.len()].copy_from_slice(text);
}

/// A pair with up to four damages, fields put at the limits of their ranges, or
/// another catalogue number; its checksums mostly mended again.
pub fn damaged_pair(random: &mut Random) -> (Vec<u8>, Vec<u8>) {
    let aim = *random.pick(&AIMS);
    let (one, two) = pair(random, aim);
    let mut lines = [one.to_vec(), two.to_vec()];
    while random.one_in(4) {
        put_at_limit(random, &mut lines);
    }
    if random.one_in(16) {
        let which = random.below(2) as usize;
        lines[which][2 + random.below(5) as usize] = b'0' + random.below(10) as u8;
    }
    if random.one_in(16) {
        let which = random.below(2) as usize;
        lines[which][2] = *random.pick(FIRST_PLACES);
    }
    if !random.one_in(8) {
        for _ in 0..1 + random.below(4) * random.below(2) {
            let which = random.below(2) as usize;
            damage_once(random, &mut lines[which]);
        }
    }
    if random.one_in(40) {
        lines.swap(0, 1);
    }
    for line in &mut lines {
        if line.len() == LENGTH && !random.one_in(6) {
            line[LENGTH - 1] = b'0' + tle::checksum(line);
        }
    }
    let [one, two] = lines;
    (one, two)
}

// ------------------------------------------------------------------ rosters

/// A call on a roster.
#[derive(Clone, Debug)]
pub enum Call {
    Lodge(Vec<u8>, Vec<u8>),
    Withdraw(u64),
    Fill,
}

fn packed(records: &[Record]) -> Vec<u8> {
    let mut bytes: Vec<u8> = records.iter().flat_map(spelt).collect();
    bytes.resize(SIZE, 0);
    bytes
}

/// The records of a roster, often none or all of its places, with their bytes.
pub fn roster(random: &mut Random) -> (Vec<Record>, Vec<u8>) {
    let count = *random.pick(&[0, 1, 2, 5, 20, 62, PLACES - 1, PLACES, PLACES, PLACES]);
    let mut records: Vec<Record> = (0..4 * count).map(|_| anything(random)).collect();
    // The instant 0, which a row has past the last pair, too.
    for record in &mut records {
        if random.one_in(8) {
            (record.year, record.day) = (1957, 1_0000_0000);
        }
    }
    records.sort_by_key(|record| record.number);
    records.dedup_by_key(|record| record.number);
    while records.len() > count {
        records.remove(random.below(records.len() as u64) as usize);
    }
    let bytes = packed(&records);
    (records, bytes)
}

/// A pair to be lodged: of a number that is there, with an epoch that is equal, a little earlier or
/// later, or any; of another number; or lines that are damaged.
fn lodging(random: &mut Random, records: &[Record]) -> Call {
    if random.one_in(10) {
        let (line1, line2) = damaged_pair(random);
        return Call::Lodge(line1, line2);
    }
    let mut record = anything(random);
    if !records.is_empty() && !random.one_in(3) {
        let held = random.pick(records);
        record.number = held.number;
        if !random.one_in(4) {
            let day = held.day as i64 + random.between(-1, 1);
            let days = instant::days_of(held.year as i64);
            (record.year, record.day) = (held.year, day.clamp(days.start, days.end - 1) as u64);
        }
    }
    let written = |which| tle::written(&record, which).expect("a lawful record");
    let mut lines = (written(1), written(2));
    if random.one_in(2) {
        vary(random, &mut lines);
    }
    Call::Lodge(lines.0.to_vec(), lines.1.to_vec())
}

/// A call: of the numbers of the records, or of others.
pub fn call(random: &mut Random, records: &[Record]) -> Call {
    match random.below(4) {
        3 if random.one_in(3) => Call::Fill,
        0 if records.is_empty() || random.one_in(4) => {
            Call::Withdraw(*random.pick(&[0, 5, 99_999, 100_000, 1 << 32, u64::MAX]))
        }
        0 => Call::Withdraw(random.pick(records).number as u64 + (random.one_in(6) as u64) * (1 << 32)),
        _ => lodging(random, records),
    }
}

/// How two rosters are related, by name.
pub const RELATIONS: [&str; 7] =
    ["equal", "none in common", "all in common", "one field each", "some in common", "both full", "any"];

/// A record with one field of another, or all but the number.
fn with_field(a: &Record, b: &Record, field: u64) -> Record {
    let mut changed = *a;
    match field {
        0 => changed.classification = b.classification,
        1 => changed.designator = b.designator,
        2 => (changed.year, changed.day) = (b.year, b.day),
        3 => changed.ndot = b.ndot,
        4 => changed.ndot = -a.ndot,
        5 => changed.nddot = b.nddot,
        6 => changed.bstar = b.bstar,
        7 => changed.bstar.mantissa = -a.bstar.mantissa,
        8 => changed.ephemeris = b.ephemeris,
        9 => changed.set = b.set,
        10 => changed.inclination = b.inclination,
        11 => changed.node = b.node,
        12 => changed.eccentricity = b.eccentricity,
        13 => changed.perigee = b.perigee,
        14 => changed.anomaly = b.anomaly,
        15 => changed.motion = b.motion,
        16 => changed.revolution = b.revolution,
        _ => changed = Record { number: a.number, ..*b },
    }
    changed
}

fn rising(mut records: Vec<Record>) -> Vec<Record> {
    records.sort_by_key(|record| record.number);
    records.dedup_by_key(|record| record.number);
    records.truncate(PLACES);
    records
}

/// The records of two rosters, related so, with their bytes.
pub fn two_rosters(random: &mut Random, relation: &str) -> [(Vec<Record>, Vec<u8>); 2] {
    let (mut first, _) = roster(random);
    if relation == "both full" {
        first.extend((0..4 * PLACES).map(|_| anything(random)));
        first = rising(first);
    }
    let changed = |random: &mut Random, record: &Record, fields: u64| {
        let (other, field) = (anything(random), random.below(fields));
        with_field(record, &other, field)
    };
    let second: Vec<Record> = match relation {
        "equal" => first.clone(),
        "none in common" => {
            let numbers: Vec<u32> = first.iter().map(|record| record.number).collect();
            (0..first.len())
                .map(|_| anything(random))
                .filter(|record| !numbers.contains(&record.number))
                .collect()
        }
        "all in common" | "both full" => first.iter().map(|record| changed(random, record, 20)).collect(),
        "one field each" => first.iter().map(|record| changed(random, record, 17)).collect(),
        "some in common" => {
            let mut second: Vec<Record> = Vec::new();
            for record in &first {
                match random.below(3) {
                    0 => second.push(changed(random, record, 20)),
                    1 => second.push(anything(random)),
                    _ => {}
                }
            }
            second
        }
        _ => roster(random).0,
    };
    [first, rising(second)].map(|records| {
        let bytes = packed(&records);
        (records, bytes)
    })
}

/// What may have happened to a buffer, by name. What comes out is now and then still a roster.
pub const DAMAGES: [&str; 9] = [
    "another length",
    "a blank for a zero",
    "a byte after the end",
    "a pair out of order",
    "a number twice",
    "another spelling",
    "a byte of a pair",
    "a place of zeros",
    "a pair moved by a byte",
];

/// The buffer of these records, damaged; None where it has too few of them for that.
pub fn damaged_roster(random: &mut Random, records: &[Record], damage: &str) -> Option<Vec<u8>> {
    let (mut bytes, count) = (packed(records), records.len());
    let used = count * PAIR;
    let place = |random: &mut Random, places: usize| random.below(places as u64) as usize * PAIR;
    match damage {
        "another length" => {
            let length = *random.pick(&[0, 1, PAIR, SIZE - PAIR, SIZE - 1, SIZE + 1, SIZE + PAIR]);
            bytes.resize(length, 0);
        }
        "a blank for a zero" if count < PLACES => {
            *bytes[used..].iter_mut().nth(random.below((SIZE - used) as u64) as usize)? = b' ';
        }
        "a byte after the end" if count < PLACES => {
            let at = *random.pick(&[used, used + PAIR - 1, SIZE - 1]);
            bytes[at] = 1 + random.below(255) as u8;
        }
        "a pair out of order" if count > 1 => {
            let at = place(random, count - 1);
            bytes[at..at + 2 * PAIR].rotate_left(PAIR);
        }
        "a number twice" if count > 1 => {
            let at = place(random, count - 1);
            bytes.copy_within(at..at + PAIR, at + PAIR);
        }
        "another spelling" if count > 0 => {
            let at = place(random, count);
            let line = |from: usize| bytes[from..from + LENGTH].try_into().expect("a line");
            let mut lines = (line(at), line(at + LENGTH));
            vary(random, &mut lines);
            bytes[at..at + PAIR].copy_from_slice(&[lines.0, lines.1].concat());
        }
        "a byte of a pair" if count > 0 => {
            let at = random.below(used as u64) as usize;
            bytes[at] = if random.one_in(2) { random.next_u64() as u8 } else { *random.pick(LAYOUT_BYTES) };
        }
        "a place of zeros" if count > 1 => {
            let at = place(random, count - 1);
            bytes[at..at + PAIR].fill(0);
        }
        "a pair moved by a byte" if count > 0 => {
            let at = place(random, count);
            bytes[at..].rotate_right(1);
        }
        _ => return None,
    }
    Some(bytes)
}

/// What may have happened to a row, by name. What comes out is now and then still the roster's.
pub const ROW_DAMAGES: [&str; 7] = [
    "row: another length",
    "row: an instant off",
    "row: a zero for an instant",
    "row: an instant after the end",
    "row: instants exchanged",
    "row: moved by a place",
    "row: anything",
];

/// The row of so many pairs, damaged; None where there are too few of them for that.
pub fn damaged_row(random: &mut Random, row: &[u64], pairs: usize, damage: &str) -> Option<Vec<u64>> {
    let mut row = row.to_vec();
    let place = |random: &mut Random, from: usize, to: usize| {
        (from < to).then(|| from + random.below((to - from) as u64) as usize)
    };
    match damage {
        "row: another length" => {
            row.resize(*random.pick(&[0, 1, pairs, PLACES - 1, PLACES + 1, 2 * PLACES]), 0);
        }
        "row: an instant off" => {
            let at = place(random, 0, pairs)?;
            row[at] = row[at].wrapping_add_signed(*random.pick(&[1, -1, 864, -864, i64::MAX, i64::MIN]));
        }
        "row: a zero for an instant" => row[place(random, 0, pairs)?] = 0,
        "row: an instant after the end" => {
            let at = place(random, pairs, PLACES)?;
            row[at] = *random.pick(&[1, 864, u64::MAX, row[0]]);
        }
        "row: instants exchanged" => {
            let at = place(random, 1, pairs)?;
            row.swap(at - 1, at);
        }
        "row: moved by a place" if random.one_in(2) => row.rotate_left(1),
        "row: moved by a place" => row.rotate_right(1),
        _ => row.fill_with(|| random.next_u64()),
    }
    Some(row)
}

// ----------------------------------------------------------------- requests

/// A single time, a list with the room lent for its rows, or windows with the places lent for firsts and
/// for lasts.
#[derive(Clone, Debug)]
pub enum Ask {
    One(i64),
    List { times: Vec<i64>, room: usize },
    Windows { watch: Watch, places: (usize, usize), kinds: Vec<&'static str> },
}

/// A time in microseconds; far ones are rare, for a resonant satellite takes
/// thousands of strides to them.
pub fn time(random: &mut Random) -> i64 {
    match random.below(64) {
        0 => *random.pick(&[SPAN_LIMIT, -SPAN_LIMIT, SPAN_LIMIT + 1, -SPAN_LIMIT - 1, i64::MAX, i64::MIN]),
        1 => random.between(-SPAN_LIMIT, SPAN_LIMIT),
        2..=9 => random.between(-12, 12) * STRIDE + random.between(-1, 1),
        10..=12 => 0,
        13..=24 => random.between(-100 * DAY, 100 * DAY),
        _ => random.between(-4 * DAY, 4 * DAY),
    }
}

fn list(random: &mut Random) -> Ask {
    let length = match random.below(100) {
        0 => LIST_LIMIT as u64 + random.below(3),
        1..=5 => 0,
        _ => random.below(12),
    };
    let mut times: Vec<i64> = (0..length).map(|_| time(random)).collect();
    if length > 20 {
        times.iter_mut().for_each(|t| *t = random.between(-4 * DAY, 4 * DAY));
    }
    match random.below(4) {
        0 => times.sort(),
        1 => times.sort_by_key(|t| t.unsigned_abs()),
        _ => {}
    }
    let room = match random.below(10) {
        0 => random.below(length + 1),
        1..=4 => length + random.below(4),
        _ => length,
    };
    Ask::List { times, room: room as usize }
}

/// A sequence of requests of the three kinds to one satellite with this epoch.
pub fn sequence(random: &mut Random, epoch: u64) -> Vec<Ask> {
    let count = 2 + random.below(7);
    let one = |random: &mut Random| match random.below(9) {
        0..=2 => list(random),
        3..=4 => windows(random, epoch),
        _ => Ask::One(time(random)),
    };
    (0..count).map(|_| one(random)).collect()
}

/// What stations are drawn: those up to "longer" are stations, the others refused with 25.
pub const STATIONS: [&str; 13] = [
    "on the ground",
    "at a pole",
    "on the equator",
    "in space",
    "near the centre",
    "far away",
    "longer",
    "zero",
    "minus zero",
    "not a number",
    "infinite",
    "too short",
    "empty",
];

/// A direction, its height above the equator's plane uniform, scaled.
fn direction(random: &mut Random, length: f64) -> Vector {
    let (z, turn) = (random.uniform(-1.0, 1.0), random.uniform(0.0, 6.3));
    let rest = (1.0 - z * z).sqrt();
    [rest * turn.cos(), rest * turn.sin(), z].map(|x| length * x)
}

pub fn station(random: &mut Random, kind: &str) -> Vec<f64> {
    let zero = *random.pick(&[0.0, -0.0]);
    let ground = RADIUSEARTHKM + random.uniform(-20.0, 5.0);
    let mut place = direction(random, ground);
    let bad = match kind {
        "not a number" => Some(*random.pick(&[f64::NAN, f64::from_bits(0xfff8_0000_0000_0777)])),
        "infinite" => Some(*random.pick(&[f64::INFINITY, f64::NEG_INFINITY])),
        _ => None,
    };
    match kind {
        "on the ground" => {}
        "at a pole" => place = [zero, -zero, *random.pick(&[ground, -ground])],
        "on the equator" if random.one_in(2) => {
            place = *random.pick(&[
                [ground, 0.0, zero],
                [-ground, -0.0, zero],
                [zero, ground, 0.0],
                [zero, -ground, -0.0],
            ])
        }
        "on the equator" => {
            let turn = random.uniform(0.0, 6.3);
            place = [ground * turn.cos(), ground * turn.sin(), zero];
        }
        "in space" => {
            let height = *random.pick(&[6_800.0, 8_000.0, 20_000.0, 42_164.0, 400_000.0]);
            place = direction(random, height);
        }
        "near the centre" => {
            let length = *random.pick(&[1.0, 1e-9, 1e-160, 1e-310]);
            place = direction(random, length);
        }
        "far away" => {
            let length = *random.pick(&[1e9, 1e100, 1e154, 1e200, 1e308]);
            place = direction(random, length);
        }
        "zero" => place = [0.0; 3],
        "minus zero" => place = *random.pick(&[[-0.0; 3], [0.0, -0.0, 0.0], [-0.0, 0.0, 0.0]]),
        "longer" | "too short" | "empty" => {}
        _ => {
            place[random.below(3) as usize] = bad.expect("a number that is none");
            if random.one_in(4) {
                place[random.below(3) as usize] = 0.0;
            }
        }
    }
    match kind {
        "longer" => place.iter().copied().chain([f64::NAN, f64::INFINITY]).collect(),
        "too short" => place[..1 + random.below(2) as usize].to_vec(),
        "empty" => vec![],
        _ => place.to_vec(),
    }
}

/// Where starts are drawn, from the epoch and the calendar.
pub const STARTS: [&str; 9] = [
    "near the epoch",
    "before the epoch",
    "through the epoch",
    "ten years after the epoch",
    "ten years before the epoch",
    "the calendar's end",
    "the calendar's first instants",
    "u64's end",
    "any instant",
];

fn start(random: &mut Random, kind: &str, epoch: u64, span: u64) -> u64 {
    let end = instant::END as u64;
    let limit = SPAN_LIMIT as u64;
    let day = DAY as u64;
    let back = random.below(span.saturating_add(2));
    match kind {
        "near the epoch" => epoch.saturating_add(random.below(4 * day)),
        "before the epoch" => epoch.saturating_sub(1 + random.below(40 * day)),
        "through the epoch" => epoch.saturating_sub(back),
        "ten years after the epoch" => epoch.saturating_add(limit).saturating_add(1).saturating_sub(back),
        "ten years before the epoch" => epoch.saturating_sub(limit).saturating_sub(back),
        "the calendar's end" => (end + 1).saturating_sub(back),
        "the calendar's first instants" => random.below(3),
        "u64's end" => u64::MAX.saturating_sub(back),
        _ => random.below(end),
    }
}

/// Steps in seconds, the lawful ones first.
const STEPS: [u64; 12] = [
    60,
    60,
    1,
    300,
    3600,
    43_200,
    STEP_LIMIT,
    0,
    STEP_LIMIT + 1,
    u64::MAX,
    u64::MAX / 1_000_000 + 1,
    1 << 32,
];

/// A call for windows, most of it lawful; `kinds` tells what was drawn.
pub fn windows(random: &mut Random, epoch: u64) -> Ask {
    // Now and then several faults at once.
    let spoilt = random.one_in(16);
    let station_kind = match random.below(8) {
        0..=3 if spoilt => *random.pick(&STATIONS[7..]),
        4 => *random.pick(&STATIONS),
        _ => *random.pick(&[STATIONS[0], STATIONS[0], STATIONS[0], STATIONS[1], STATIONS[2], STATIONS[3]]),
    };
    let step = match random.below(16) {
        0..=7 if spoilt => *random.pick(&STEPS[7..]),
        8 => *random.pick(&STEPS),
        9..=12 => *random.pick(&STEPS[..7]),
        13 => 1 + random.below(STEP_LIMIT),
        _ => 1 + random.below(4000),
    };
    let samples = match random.below(64) {
        0..=31 if spoilt => *random.pick(&[SAMPLE_LIMIT + 1, 1 << 32, usize::MAX]),
        32 => SAMPLE_LIMIT,
        33 => *random.pick(&[SAMPLE_LIMIT + 1, 1 << 32, usize::MAX]),
        34 | 35 => 0,
        36..=39 => 1,
        40..=50 => 2 + random.below(5) as usize,
        _ => 2 + random.below(60) as usize,
    };
    let start_kind = if random.one_in(3) { *random.pick(&STARTS) } else { "near the epoch" };
    let span = samples.min(SAMPLE_LIMIT) as u64 * step.min(STEP_LIMIT) * 1_000_000;
    let start = start(random, start_kind, epoch, span);
    let watch = Watch { station: station(random, station_kind), start, step, samples };
    let (places, places_kind) = places(random, samples);
    Ask::Windows { watch, places, kinds: vec![station_kind, start_kind, places_kind] }
}

/// What places are drawn.
pub const PLACES_LENT: [&str; 5] =
    ["places enough", "places exactly enough", "a first too few", "a last too few", "fewer places"];

fn places(random: &mut Random, samples: usize) -> ((usize, usize), &'static str) {
    let needed = samples.min(SAMPLE_LIMIT + 2).div_ceil(2);
    let more = random.below(4) as usize;
    match random.below(12) {
        0 if needed > 0 => ((needed - 1, needed + more), PLACES_LENT[2]),
        1 if needed > 0 => ((needed + more, needed - 1), PLACES_LENT[3]),
        2 if needed > 0 => {
            let fewer = |random: &mut Random| random.below(needed as u64) as usize;
            ((fewer(random), fewer(random)), PLACES_LENT[4])
        }
        3..=8 => ((needed, needed), PLACES_LENT[1]),
        _ => ((needed + 1 + more, needed + 1 + random.below(4) as usize), PLACES_LENT[0]),
    }
}

/// A number of an integrated pair: one that strides give, or any f64 at all.
fn integrated(random: &mut Random, low: f64, high: f64) -> f64 {
    match random.below(8) {
        0 => f64::from_bits(random.next_u64()),
        1 => *random.pick(&[0.0, -0.0, f64::INFINITY, f64::NEG_INFINITY, f64::NAN, f64::MAX, 5e-324]),
        _ => random.uniform(low, high),
    }
}

/// Any saved position, whether or not requests lead to it.
pub fn saved(random: &mut Random) -> Saved {
    let stride = match random.below(4) {
        0 => 0,
        1 => random.below(u32::MAX as u64 + 1),
        _ => random.below(14),
    };
    Saved {
        forward: random.one_in(2),
        stride,
        xli: integrated(random, -7.0, 7.0),
        xni: integrated(random, 0.003, 0.01),
    }
}

/// Any epoch instant, whether or not lines lead to it.
pub fn any_epoch(random: &mut Random, epoch: u64) -> u64 {
    let end = instant::END as u64;
    match random.below(6) {
        0 => random.next_u64(),
        1 => *random.pick(&[0, 1, end - 1, end, end + SPAN_LIMIT as u64, u64::MAX]),
        2 => end - random.below(4 * DAY as u64),
        _ => epoch.wrapping_add_signed(random.between(-DAY, DAY)),
    }
}

// ------------------------------------------------------------------ texts

/// What may have happened to a text, by name.
pub const TEXTS: [&str; 7] = [
    "nothing",
    "no last newline",
    "carriage returns",
    "a line left over",
    "a byte less",
    "a newline more",
    "bytes of any kind",
];

/// Pairs, whole and damaged, two lines each: mostly few, now and then as many as a report takes.
fn text(random: &mut Random) -> Vec<u8> {
    let mut text = Vec::new();
    for _ in 0..random.below(9) * random.below(5) {
        let aim = *random.pick(&AIMS);
        let (one, two) = match random.below(3) {
            0 => damaged_pair(random),
            _ => {
                let (one, two) = pair(random, aim);
                (one.to_vec(), two.to_vec())
            }
        };
        // a damage may be a newline
        for line in [one, two] {
            text.extend(line);
            text.push(b'\n');
        }
    }
    if random.one_in(40) && !text.is_empty() {
        let lines = text.iter().filter(|&&byte| byte == b'\n').count();
        text = text.repeat((2 * PAIRS).div_ceil(lines));
    }
    text
}

/// A text to which the named thing has happened.
pub fn damaged_text(random: &mut Random, damage: &str) -> Vec<u8> {
    let mut text = text(random);
    let place = random.below(text.len() as u64 + 1) as usize;
    match damage {
        "nothing" => {}
        "no last newline" => drop(text.pop()),
        "carriage returns" => {
            text = text.split(|&byte| byte == b'\n').collect::<Vec<_>>().join(&b"\r\n"[..]);
        }
        "a line left over" => text.extend(&b"1 \n"[..1 + random.below(3) as usize]),
        "a byte less" => text.truncate(text.len().saturating_sub(place % 3)),
        "a newline more" => text.insert(place, b'\n'),
        "bytes of any kind" => {
            for _ in 0..random.below(300) {
                let byte = random.below(256) as u8;
                text.push(if random.one_in(9) { b'\n' } else { byte });
            }
        }
        _ => unreachable!("{damage}"),
    }
    text
}
