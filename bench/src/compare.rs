//! Two libraries held against each other, bit for bit, over random pairs and
//! random sequences of requests. A case is found again by its seed and number.

use crate::changes::Lent;
use crate::elementary::Document;
use crate::generate::{self, Aim, Ask, Call, AIMS, DAMAGES, RELATIONS, ROW_DAMAGES, TEXTS};
use crate::instant::{self, DAY, END, SPAN_LIMIT};
use crate::library::{Library, Opened, Unopened};
use crate::random::Random;
use crate::report;
use crate::request::{Row, Satellite, Saved};
use crate::roster;
use crate::sgp4::{self, Elements};
use crate::tle::{self, Field, Record, Refusal};
use crate::windows::{self, Vector, Watch, SAMPLE_LIMIT, STEP_LIMIT};
use std::collections::BTreeMap;

/// How often each thing was met, by name.
#[derive(Clone, Debug, Default)]
pub struct Tally(pub BTreeMap<String, u64>);

impl Tally {
    fn add(&mut self, name: impl Into<String>, count: u64) {
        *self.0.entry(name.into()).or_default() += count;
    }

    pub fn count(&mut self, name: impl Into<String>) {
        self.add(name, 1);
    }

    pub fn of(&self, name: &str) -> u64 {
        self.0.get(name).copied().unwrap_or(0)
    }
}

impl std::fmt::Display for Tally {
    fn fmt(&self, f: &mut std::fmt::Formatter<'_>) -> std::fmt::Result {
        for (name, count) in &self.0 {
            writeln!(f, "{count:>10}  {name}")?;
        }
        Ok(())
    }
}

/// Where the two differ.
#[derive(Debug)]
pub struct Difference {
    pub case: String,
    pub line1: String,
    pub line2: String,
    pub what: String,
}

impl std::fmt::Display for Difference {
    fn fmt(&self, f: &mut std::fmt::Formatter<'_>) -> std::fmt::Result {
        write!(f, "{}\n{}\n{}\n{}", self.case, self.line1, self.line2, self.what)
    }
}

/// A source of random numbers for one case, so that a case can be run alone.
fn case_random(seed: u64, kind: u64, index: u64) -> Random {
    let mut mixed = Random::new(seed ^ kind.rotate_left(56));
    let start = mixed.next_u64();
    Random::new(start ^ index.wrapping_mul(0x9e37_79b9_7f4a_7c15))
}

const WHOLE: u64 = 1;
const DAMAGED: u64 = 2;
const HANDED: u64 = 3;
const RECORD: u64 = 4;
const ROSTER: u64 = 5;
const REPORT: u64 = 6;
const CHANGES: u64 = 7;
const WINDOWS: u64 = 8;

/// A room for every listing.
const LISTING_ROOM: usize = 24_448;

/// A state that no library writes, to see what it leaves alone: NaNs with bits of their own among it.
const UNTOUCHED: [f64; 6] = [
    f64::from_bits(0x7ff8_0000_dead_beef),
    f64::from_bits(0xfff8_1234_5678_9abc),
    3.0,
    f64::from_bits(0x7ff8_0000_0000_0001),
    -0.0,
    6.0,
];

/// The same as a row.
const MARK: Row = {
    let [x, y, z, vx, vy, vz] = UNTOUCHED;
    Row { refusal: 255, r: [x, y, z], v: [vx, vy, vz], rounds: 77 }
};

fn bits(numbers: &[f64; 6]) -> [u64; 6] {
    numbers.map(f64::to_bits)
}

fn same_or(
    what: &str,
    same: bool,
    one: &dyn std::fmt::Debug,
    other: &dyn std::fmt::Debug,
) -> Result<(), String> {
    if same {
        Ok(())
    } else {
        Err(format!("{what}:\n  {one:?}\n  {other:?}"))
    }
}

/// The branches of the model that a pair takes, by the port.
fn branches(line1: &[u8], line2: &[u8], tally: &mut Tally) {
    let Ok(record) = tle::read(line1, line2) else { return };
    let Ok(satellite) = Satellite::<Document>::open(&record) else { return };
    let satrec = &satellite.satrec;
    let elements = Elements::of(&record);
    let rp = sgp4::initl::<Document>(elements.ecco, elements.epoch, elements.inclo, elements.no).rp;
    let height = (rp - 1.0) * sgp4::RADIUSEARTHKM;
    let kind = match (satrec.deep, satrec.irez) {
        (false, _) => "near Earth",
        (true, 0) => "deep space, no resonance",
        (true, 1) => "deep space, one-day",
        (true, _) => "deep space, half-day",
    };
    tally.add(format!("branch: {kind}"), 1);
    let perigee = match height {
        h if h < 98.0 => "perigee below 98 km",
        h if h < 156.0 => "perigee 98 to 156 km",
        h if h < 220.0 => "perigee 156 to 220 km",
        _ => "perigee above 220 km",
    };
    tally.add(format!("branch: {perigee}"), 1);
    if satrec.ecco <= 1.0e-4 {
        tally.add("branch: e at most 1E-4", 1);
    }
    if satrec.ecco > 0.9 {
        tally.add("branch: e above 0.9", 1);
    }
    if record.inclination >= 179_9900 {
        tally.add("branch: inclination 179.99 or more", 1);
    }
    if satrec.deep && satrec.inclo < 0.2 {
        tally.add("branch: deep space, inclination below 0.2", 1);
    }
    if satrec.irez == 2 {
        let range = match satrec.ecco {
            e if e <= 0.65 => "to 0.65",
            e if e < 0.7 => "0.65 to 0.7",
            e if e <= 0.715 => "0.7 to 0.715",
            _ => "above 0.715",
        };
        tally.add(format!("branch: half-day, e {range}"), 1);
    }
}

/// Neighbouring times, a microsecond apart, at which the refusal changes: where
/// one differing bit would show as another refusal.
fn edges(random: &mut Random, line1: &[u8], line2: &[u8]) -> Vec<Ask> {
    let Ok(record) = tle::read(line1, line2) else { return vec![] };
    let Ok(satellite) = Satellite::<Document>::open(&record) else { return vec![] };
    let refusal = |micros| satellite.request_restarting(micros).refusal;
    let reach = *random.pick(&[DAY / 4, 4 * DAY, 40 * DAY]);
    let mut times: Vec<i64> = (0..12).map(|_| random.between(-reach, reach)).collect();
    times.sort();
    let mut asks = vec![];
    for pair in times.windows(2) {
        let (mut low, mut high) = (pair[0], pair[1]);
        let before = refusal(low);
        if before == refusal(high) {
            continue;
        }
        while high - low > 1 {
            let middle = low + (high - low) / 2;
            if refusal(middle) == before {
                low = middle;
            } else {
                high = middle;
            }
        }
        asks.extend([Ask::One(low), Ask::One(high)]);
    }
    asks
}

/// Times at which the port finds a number of the state not finite: in deep space where the perturbed
/// inclination is half a turn.
fn not_finite(random: &mut Random, line1: &[u8], line2: &[u8]) -> Vec<Ask> {
    let Ok(record) = tle::read(line1, line2) else { return vec![] };
    let Ok(satellite) = Satellite::<Document>::open(&record) else { return vec![] };
    if !satellite.satrec.deep || record.inclination < 179_9900 {
        return vec![];
    }
    let times = (0..200).map(|_| random.between(-20 * DAY, 20 * DAY));
    times.filter(|&time| satellite.request_restarting(time).refusal == 15).map(Ask::One).collect()
}

fn ask_both(
    ask: &Ask,
    one: &mut dyn Opened,
    other: &mut dyn Opened,
    tally: &mut Tally,
) -> Result<(), String> {
    match ask {
        Ask::One(micros) => {
            let (mut room, mut other_room) = (UNTOUCHED, UNTOUCHED);
            let (a, b) = (one.request(*micros, &mut room), other.request(*micros, &mut other_room));
            tally.add(format!("row: refusal {:>2}", a.refusal), 1);
            tally.add("strides", a.strides);
            let what = format!("time {micros}");
            same_or(&what, a == b && bits(&room) == bits(&other_room), &(a, room), &(b, other_room))?;
            let left = a.refusal == 0 || bits(&room) == bits(&UNTOUCHED);
            same_or(&format!("{what}: the state lent"), left, &room, &UNTOUCHED)
        }
        Ask::List { times, room } => {
            let (mut rows, mut others) = (vec![MARK; *room], vec![MARK; *room]);
            let (a, b) = (one.list(times, &mut rows), other.list(times, &mut others));
            match a {
                Ok(strides) => {
                    tally.add("strides", strides);
                    tally.add("list: answered", 1);
                    for row in &rows[..times.len()] {
                        tally.add(format!("row: refusal {:>2}", row.refusal), 1);
                    }
                }
                Err(refusal) => tally.add(format!("list: refusal {refusal}"), 1),
            }
            same_or(&format!("list {times:?}, room {room}"), a == b, &a, &b)?;
            for (place, (x, y)) in rows.iter().zip(&others).enumerate() {
                same_or(&format!("list {times:?}, row {place}"), x.same(y), x, y)?;
            }
            let written = if a.is_ok() { times.len() } else { 0 };
            let left = rows[written..].iter().all(|row| row.same(&MARK));
            same_or(&format!("list {times:?}: rows past the last"), left, &rows, &MARK)
        }
        Ask::Windows { watch, places, kinds } => {
            kinds.iter().for_each(|kind| tally.add(format!("windows: {kind}"), 1));
            windows_both(watch, *places, one, other, tally)
        }
    }
}

/// Instants that no library writes.
fn untouched(places: usize, from: u64) -> Vec<u64> {
    (0..places as u64).map(|place| from + place).collect()
}

/// A call for windows put to both: what they answer, and every place lent.
fn windows_both(
    watch: &Watch,
    places: (usize, usize),
    one: &mut dyn Opened,
    other: &mut dyn Opened,
    tally: &mut Tally,
) -> Result<(), String> {
    let lent = (untouched(places.0, 1 << 63), untouched(places.1, 3 << 62));
    let (mut mine, mut theirs) = (lent.clone(), lent.clone());
    let a = one.windows(watch, &mut mine.0, &mut mine.1);
    let b = other.windows(watch, &mut theirs.0, &mut theirs.1);
    let what = format!("windows {watch:?}, places {places:?}, epoch {}", one.epoch());
    same_or(&what, a == b, &a, &b)?;
    same_or(&format!("{what}: firsts and lasts"), mine == theirs, &mine, &theirs)?;
    let count = a.map_or(0, |(count, _)| count);
    let left = mine.0[count..] == lent.0[count..] && mine.1[count..] == lent.1[count..];
    same_or(&format!("{what}: places past the windows"), left, &mine, &lent)?;
    asked_for_windows(watch, places, a.err(), tally);
    if let Ok((count, strides)) = a {
        tally.add("strides", strides);
        tally.add("windows: strides", strides);
        let windows: Vec<(u64, u64)> = mine.0.into_iter().zip(mine.1).take(count).collect();
        windows_met(watch, one.epoch(), &windows, tally);
    }
    Ok(())
}

/// What was asked of steps, samples and places; and where faults are several, which was told.
fn asked_for_windows(watch: &Watch, places: (usize, usize), refusal: Option<u8>, tally: &mut Tally) {
    match watch.step {
        0 | 1 | 60 | STEP_LIMIT => tally.add(format!("windows: step {}", watch.step), 1),
        step if step == STEP_LIMIT + 1 => tally.add(format!("windows: step {step}"), 1),
        step if step > 1 << 31 => tally.add("windows: step huge", 1),
        _ => {}
    }
    match watch.samples {
        0 | 1 | SAMPLE_LIMIT => tally.add(format!("windows: samples {}", watch.samples), 1),
        samples if samples == SAMPLE_LIMIT + 1 => tally.add(format!("windows: samples {samples}"), 1),
        samples if samples > 1 << 31 => tally.add("windows: samples huge", 1),
        _ => {}
    }
    let faults = [
        (25, watch.place().is_none()),
        (26, watch.step == 0 || watch.step > STEP_LIMIT),
        (18, watch.samples > SAMPLE_LIMIT),
        (17, places.0.min(places.1) < watch.places()),
    ];
    let told = refusal.unwrap_or(0);
    tally.add(format!("windows: refusal {told:>2}"), 1);
    for (fault, _) in faults.into_iter().filter(|&(fault, found)| found && fault != told) {
        tally.add(format!("windows: refusal {told}, {fault} at fault too"), 1);
    }
}

/// What windows came of an answered call.
fn windows_met(watch: &Watch, epoch: u64, found: &[(u64, u64)], tally: &mut Tally) {
    let step = watch.step * 1_000_000;
    let seen: u64 = found.iter().map(|(first, last)| (last - first) / step + 1).sum();
    let mut met = |name: &str, count: u64| tally.add(format!("windows: {name}"), count);
    met("windows", found.len() as u64);
    met("none", (watch.samples > 0 && found.is_empty()) as u64);
    met("all", (watch.samples > 1 && seen == watch.samples as u64) as u64);
    met("two or more", (found.len() > 1) as u64);
    met("as many as there can be", (watch.samples > 2 && found.len() == watch.places()) as u64);
    let several = if watch.samples > 1 { found } else { &[] };
    let last = |window: &(u64, u64)| window.1 as u128 == watch.instant(watch.samples.max(1) - 1);
    met("of one sample", several.iter().filter(|window| window.0 == window.1).count() as u64);
    met("at the first sample", several.iter().filter(|window| window.0 == watch.start).count() as u64);
    met("at the last sample", several.iter().filter(|window| last(window)).count() as u64);
    let (outside, far): (Vec<_>, Vec<_>) =
        (0..watch.samples).map(|sample| watch.instant(sample)).partition(|&instant| instant >= END as u128);
    let limit = SPAN_LIMIT as u128;
    let far = far.iter().filter(|&&instant| instant.abs_diff(epoch as u128) > limit).count();
    met("samples refused with 6", outside.len() as u64);
    met("samples refused with 9", far as u64);
    met("samples beyond u64", outside.iter().filter(|&&instant| instant > u64::MAX as u128).count() as u64);
    let ends = |end: u128| {
        let after = |window: &&(u64, u64)| (window.1 as u128) < end && (window.1 + step) as u128 >= end;
        found.iter().filter(after).count() as u64
    };
    let inner = |end: u128| if ends(end) > 0 && watch.instant(watch.samples - 1) >= end { 1 } else { 0 };
    met("ended by the calendar's end", inner(END as u128));
    met("ended by ten years", inner(epoch as u128 + limit + 1));
    let begun =
        |window: &&(u64, u64)| window.0 > watch.start && epoch.abs_diff(window.0 - step) as u128 > limit;
    met("begun by ten years", found.iter().filter(begun).count() as u64);
    met("on both sides of the epoch", found.iter().filter(|w| w.0 < epoch && w.1 > epoch).count() as u64);
}

/// The epochs of both, and their saved positions, where both keep one. All NaNs count as one.
fn same_saved(one: &dyn Opened, other: &dyn Opened) -> Result<(), String> {
    let (a, b) = (one.epoch(), other.epoch());
    same_or("epoch kept", a == b, &a, &b)?;
    match (one.saved(), other.saved()) {
        (Some(a), Some(b)) => same_or("saved position", a.same(&b), &a, &b),
        _ => Ok(()),
    }
}

fn ask_all(
    asks: &[Ask],
    one: &mut dyn Opened,
    other: &mut dyn Opened,
    tally: &mut Tally,
) -> Result<(), String> {
    same_saved(one, other)?;
    for ask in asks {
        ask_both(ask, one, other, tally)?;
        same_saved(one, other).map_err(|what| format!("{what}\nafter {ask:?}"))?;
    }
    Ok(())
}

/// Both lines of a record, into rooms of any length: what is written, what lies past it, and what a
/// refused call leaves. Lines written read as the record again.
fn write_both(
    random: &mut Random,
    record: &Record,
    libraries: (&dyn Library, &dyn Library),
    tally: &mut Tally,
) -> Result<(), String> {
    let (one, other) = libraries;
    let mut lines = vec![];
    for which in [1, 2] {
        let length = if random.one_in(8) { random.below(69) } else { 69 + random.below(4) } as usize;
        let (mut room, mut other_room) = (vec![b'#'; length], vec![b'#'; length]);
        let (a, b) = (one.write(record, which, &mut room), other.write(record, which, &mut other_room));
        match a {
            Ok(()) => tally.add("write: written", 1),
            Err(refusal) => tally.add(format!("write: refusal {refusal}"), 1),
        }
        let text = |room: &[u8]| String::from_utf8_lossy(room).into_owned();
        let shown = ((a, text(&room)), (b, text(&other_room)));
        same_or(&format!("writing {record:?}"), shown.0 == shown.1, &shown.0, &shown.1)?;
        if a.is_ok() {
            room.truncate(69);
            lines.push(room);
        }
    }
    if let [line1, line2] = &lines[..] {
        let again = other.record(line1, line2);
        same_or("writing and reading again", again == Ok(*record), &again, record)?;
    }
    Ok(())
}

/// How a pair's form or numbers were judged, in the tally's words.
fn judged(what: &str, answer: &Result<(), Unopened>, tally: &mut Tally) {
    let number = answer.err().map_or(0, Unopened::number);
    tally.add(format!("{what}: refusal {number:>2}"), 1);
}

/// The form of a pair alone, into a room of any length, and what the numbers of its fields mean: as they
/// are, fewer of them, and with some put to any value. Form and meaning one after the other are reading.
fn judge_both(
    random: &mut Random,
    line1: &[u8],
    line2: &[u8],
    libraries: (&dyn Library, &dyn Library),
    tally: &mut Tally,
) -> Result<(), String> {
    let (one, other) = libraries;
    let length = if random.one_in(8) { random.below(22) } else { 22 + random.below(3) } as usize;
    let (mut room, mut other_room) = (vec![-77; length], vec![-77; length]);
    let (a, b) = (one.form(line1, line2, &mut room), other.form(line1, line2, &mut other_room));
    judged("form", &a, tally);
    same_or("form", (a, &room) == (b, &other_room), &(a, &room), &(b, &other_room))?;
    if a.is_err() {
        return same_or("form refused: the room", room.iter().all(|&n| n == -77), &room, &a);
    }
    let (a, read) = (other.meaning(&other_room), other.read(line1, line2).map_err(Unopened::Unread));
    judged("meaning", &a, tally);
    same_or("form, then meaning", a == read, &a, &read)?;
    for _ in 0..8 {
        let numbers = generate::numbers(random, &room);
        let (a, b) = (one.meaning(&numbers), other.meaning(&numbers));
        judged("meaning", &a, tally);
        same_or(&format!("meaning of {numbers:?}"), a == b, &a, &b)?;
    }
    Ok(())
}

fn compare_pair(
    random: &mut Random,
    line1: &[u8],
    line2: &[u8],
    libraries: (&dyn Library, &dyn Library),
    tally: &mut Tally,
) -> Result<(), String> {
    let (one, other) = libraries;
    let (a, b) = (one.read(line1, line2), other.read(line1, line2));
    match a {
        Ok(()) => tally.add("read: accepted", 1),
        Err(refusal) => tally.add(format!("read: refusal {}", refusal.number()), 1),
    }
    if let Err(Refusal::Layout { line, column: 3 }) = a {
        tally.add(format!("read: no catalogue number in line {line}"), 1);
    }
    if a == Err(Refusal::Range(Field::Day)) && line1[20..].starts_with(b"366") {
        tally.add("read: day 366 of a common year", 1);
    }
    same_or("reading", a == b, &a, &b)?;
    for line in [line1, line2] {
        let (a, b) = (one.checksum(line), other.checksum(line));
        same_or("checksum", a == b, &a, &b)?;
    }
    let (a, b) = (one.epoch(line1, line2), other.epoch(line1, line2));
    same_or("epoch", a == b, &a, &b)?;
    let (a, b) = (one.print(line1, line2), other.print(line1, line2));
    let text = |bytes: &[u8]| String::from_utf8_lossy(bytes).into_owned();
    same_or("printing", a == b, &text(&a), &text(&b))?;
    judge_both(random, line1, line2, libraries, tally)?;
    let (a, b) = (one.record(line1, line2), other.record(line1, line2));
    same_or("record", a == b, &a, &b)?;
    if let Ok(record) = a {
        if record.number >= 100_000 {
            tally.add("read: catalogue number with a letter", 1);
        }
        if record.day >= 366_0000_0000 {
            tally.add("read: day 366 of a leap year", 1);
        }
        write_both(random, &record, libraries, tally)?;
    }
    match (one.open(line1, line2), other.open(line1, line2)) {
        (Ok(mut a), Ok(mut b)) => {
            tally.add("open: opened", 1);
            branches(line1, line2, tally);
            let mut asks = generate::sequence(random, a.epoch());
            if random.one_in(3) {
                let edges = edges(random, line1, line2);
                tally.add("times at which the refusal changes", edges.len() as u64 / 2);
                asks.extend(edges);
            }
            asks.extend(not_finite(random, line1, line2));
            ask_all(&asks, a.as_mut(), b.as_mut(), tally)
        }
        (a, b) => {
            let (a, b) = (a.err(), b.err());
            if let Some(refusal) = a {
                tally.add(format!("open: refusal {}", refusal.number()), 1);
            }
            same_or("opening", a == b, &a, &b)
        }
    }
}

/// Case `index` of the whole pairs.
pub fn whole_case(
    seed: u64,
    index: u64,
    libraries: (&dyn Library, &dyn Library),
    tally: &mut Tally,
) -> Result<(), Difference> {
    let mut random = case_random(seed, WHOLE, index);
    let aim: Aim = AIMS[index as usize % AIMS.len()];
    let (line1, line2) = generate::pair(&mut random, aim);
    tally.add(format!("aim: {aim:?}"), 1);
    if line2[8..16] == *b"180.0000" {
        tally.add("pair: inclination 180.0000", 1);
    }
    compare_pair(&mut random, &line1, &line2, libraries, tally).map_err(|what| Difference {
        case: format!("seed {seed}, whole pair {index} ({aim:?})"),
        line1: line1.escape_ascii().to_string(),
        line2: line2.escape_ascii().to_string(),
        what,
    })
}

/// Case `index` of the damaged pairs.
pub fn damaged_case(
    seed: u64,
    index: u64,
    libraries: (&dyn Library, &dyn Library),
    tally: &mut Tally,
) -> Result<(), Difference> {
    let mut random = case_random(seed, DAMAGED, index);
    let (line1, line2) = generate::damaged_pair(&mut random);
    compare_pair(&mut random, &line1, &line2, libraries, tally).map_err(|what| Difference {
        case: format!("seed {seed}, damaged pair {index}"),
        line1: line1.escape_ascii().to_string(),
        line2: line2.escape_ascii().to_string(),
        what,
    })
}

/// Saved positions handed in, each followed by requests: "these rules hold for any satellite".
fn hand_and_ask(
    random: &mut Random,
    one: &mut dyn Opened,
    other: &mut dyn Opened,
    tally: &mut Tally,
) -> Result<(), String> {
    for _ in 0..4 {
        let saved: Saved = generate::saved(random);
        one.hand(saved);
        other.hand(saved);
        tally.add("handed: positions", 1);
        if random.one_in(2) {
            let epoch = generate::any_epoch(random, one.epoch());
            one.hand_epoch(epoch);
            other.hand_epoch(epoch);
            tally.add("handed: epochs", 1);
        }
        let asks = generate::sequence(random, one.epoch());
        ask_all(&asks, one, other, tally).map_err(|what| format!("{what}\nhanded in: {saved:?}"))?;
    }
    Ok(())
}

/// Case `index` of the positions handed in.
pub fn handed_case(
    seed: u64,
    index: u64,
    libraries: (&dyn Library, &dyn Library),
    tally: &mut Tally,
) -> Result<(), Difference> {
    let mut random = case_random(seed, HANDED, index);
    let aim: Aim = AIMS[index as usize % AIMS.len()];
    let (line1, line2) = generate::pair(&mut random, aim);
    let (one, other) = libraries;
    let (Ok(mut one), Ok(mut other)) = (one.open(&line1, &line2), other.open(&line1, &line2)) else {
        return Ok(());
    };
    hand_and_ask(&mut random, one.as_mut(), other.as_mut(), tally).map_err(|what| Difference {
        case: format!("seed {seed}, positions handed in {index} ({aim:?})"),
        line1: line1.escape_ascii().to_string(),
        line2: line2.escape_ascii().to_string(),
        what,
    })
}

/// Case `index` of the records to be written, inside layout and ranges or not.
pub fn record_case(
    seed: u64,
    index: u64,
    libraries: (&dyn Library, &dyn Library),
    tally: &mut Tally,
) -> Result<(), Difference> {
    let mut random = case_random(seed, RECORD, index);
    let record = generate::any_record(&mut random);
    let days = instant::days_of(record.year as i64);
    if (366_0000_0000..367_0000_0000).contains(&record.day) && !days.contains(&(record.day as i64)) {
        tally.add("record: day 366 of a common year", 1);
    }
    write_both(&mut random, &record, libraries, tally).map_err(|what| Difference {
        case: format!("seed {seed}, record {index}"),
        line1: String::new(),
        line2: String::new(),
        what,
    })
}

/// A roster's buffer and the row beside it.
#[derive(Clone, PartialEq, Eq)]
struct Kept {
    buffer: Vec<u8>,
    row: Vec<u64>,
}

impl Kept {
    fn of(buffer: &[u8], records: &[Record]) -> Kept {
        Kept { buffer: buffer.to_vec(), row: roster::row_of(records) }
    }

    fn lent(&self) -> Lent<'_> {
        (&self.buffer, &self.row)
    }
}

/// A call on the same roster by both: what they answer, and all of buffer and row afterwards.
fn call_both(
    call: &Call,
    kept: &Kept,
    libraries: (&dyn Library, &dyn Library),
    tally: &mut Tally,
) -> Result<Kept, String> {
    let (one, other) = libraries;
    let (mut first, mut second) = (kept.clone(), kept.clone());
    let (what, refusal, told) = match call {
        Call::Lodge(line1, line2) => {
            let a = one.lodge(&mut first.buffer, &mut first.row, line1, line2);
            let b = other.lodge(&mut second.buffer, &mut second.row, line1, line2);
            let lines = (line1.escape_ascii().to_string(), line2.escape_ascii().to_string());
            let refusal = a.err().map_or(0, |refusal| refusal.number());
            (format!("lodging {lines:?}"), refusal, same_or("answer", a == b, &a, &b))
        }
        Call::Withdraw(number) => {
            let a = one.withdraw(&mut first.buffer, &mut first.row, *number);
            let b = other.withdraw(&mut second.buffer, &mut second.row, *number);
            (format!("withdrawing {number}"), a.err().unwrap_or(0), same_or("answer", a == b, &a, &b))
        }
        Call::Fill => {
            let a = one.fill_row(&first.buffer, &mut first.row);
            let b = other.fill_row(&second.buffer, &mut second.row);
            ("filling".to_string(), a.err().unwrap_or(0), same_or("answer", a == b, &a, &b))
        }
    };
    let kind = what.split(' ').next().expect("a word");
    tally.add(format!("{kind}: refusal {refusal:>2}"), 1);
    told.map_err(|difference| format!("{what}: {difference}"))?;
    let text = |kept: &Kept| kept.buffer.escape_ascii().to_string();
    same_or(&format!("{what}: buffer"), first.buffer == second.buffer, &text(&first), &text(&second))?;
    same_or(&format!("{what}: row"), first.row == second.row, &first.row, &second.row)?;
    if refusal == 0 {
        lodged(call, &kept.buffer, tally);
    }
    let stays = refusal == 0 || first.buffer == kept.buffer;
    same_or(&format!("{what}: buffer after a refusal"), stays, &text(kept), &text(&first))?;
    let stays = refusal == 0 || first.row == kept.row;
    same_or(&format!("{what}: row after a refusal"), stays, &kept.row, &first.row)?;
    Ok(first)
}

/// How an accepted lodging came about, by the port.
fn lodged(call: &Call, before: &[u8], tally: &mut Tally) {
    let Call::Lodge(line1, line2) = call else { return };
    let Ok(record) = tle::read(line1, line2) else { return };
    tally.add(
        match roster::epoch_of(before, record.number) {
            None => "lodged: a new number",
            Some(epoch) if epoch == record.epoch() => "lodged: an equal epoch",
            Some(_) => "lodged: a later epoch",
        },
        1,
    );
}

/// Calls on one roster, one after the other, and on damaged forms of it and of its row.
fn call_all(
    random: &mut Random,
    libraries: (&dyn Library, &dyn Library),
    tally: &mut Tally,
) -> Result<(), String> {
    let (records, buffer) = generate::roster(random);
    tally.add(format!("roster: {:>2} pairs", records.len()), 1);
    let whole = Kept::of(&buffer, &records);
    let mut kept = whole.clone();
    for _ in 0..12 {
        let call = generate::call(random, &records);
        kept = call_both(&call, &kept, libraries, tally)?;
        let damage = *random.pick(&DAMAGES);
        let damaged = generate::damaged_roster(random, &records, damage);
        if let Some(buffer) = damaged {
            let damaged = Kept { buffer, ..whole.clone() };
            damaged_call(random, &records, &damaged, damage, libraries, tally)?;
        }
        let damage = *random.pick(&ROW_DAMAGES);
        let damaged = generate::damaged_row(random, &whole.row, records.len(), damage);
        if let Some(row) = damaged {
            let damaged = Kept { row, ..whole.clone() };
            damaged_call(random, &records, &damaged, damage, libraries, tally)?;
        }
    }
    Ok(())
}

/// A call on what was damaged.
fn damaged_call(
    random: &mut Random,
    records: &[Record],
    damaged: &Kept,
    damage: &str,
    libraries: (&dyn Library, &dyn Library),
    tally: &mut Tally,
) -> Result<(), String> {
    let call = generate::call(random, records);
    let after =
        call_both(&call, damaged, libraries, tally).map_err(|what| format!("{what}\nafter {damage}"))?;
    tally.add(format!("damage: {damage}"), (after == *damaged) as u64);
    if matches!(call, Call::Fill) && after != *damaged {
        tally.add("filled: another row", 1);
    }
    Ok(())
}

/// Case `index` of the rosters.
pub fn roster_case(
    seed: u64,
    index: u64,
    libraries: (&dyn Library, &dyn Library),
    tally: &mut Tally,
) -> Result<(), Difference> {
    let mut random = case_random(seed, ROSTER, index);
    call_all(&mut random, libraries, tally).map_err(|what| Difference {
        case: format!("seed {seed}, roster {index}"),
        line1: String::new(),
        line2: String::new(),
        what,
    })
}

/// What was met in a text: its refusal, and of its numbers those that are not 0.
fn reported(refusal: u8, numbers: &[u64], tally: &mut Tally) {
    tally.add(format!("report: refusal {refusal:>2}"), 1);
    if refusal == 0 {
        let names =
            ["accepted", "refused 1", "refused 2", "refused 3", "refused 4", "refused 5", "refused 6"];
        for (name, &count) in names.iter().chain(&["near", "deep", "unopened"]).zip(numbers) {
            tally.add(format!("report: {name}"), count);
        }
        tally.add("report: a span", (numbers[report::NUMBERS - 1] > 0) as u64);
    }
}

/// A text counted by both into rooms of the same length, with everything that is left of them.
fn report_both(
    random: &mut Random,
    libraries: (&dyn Library, &dyn Library),
    tally: &mut Tally,
) -> Result<(), String> {
    let damage = *random.pick(&TEXTS);
    let text = generate::damaged_text(random, damage);
    let length = *random.pick(&[0, 1, 16, 17, 17, 17, 18, 30]);
    let room: Vec<u64> = (0..length).map(|_| random.next_u64()).collect();
    let (mut first, mut second) = (room.clone(), room.clone());
    let a = libraries.0.report(&text, &mut first);
    let b = libraries.1.report(&text, &mut second);
    let what = format!("report of {} bytes, {damage}", text.len());
    same_or(&what, a == b, &a, &b)?;
    same_or(&format!("{what}: room"), first == second, &first, &second)?;
    same_or(&format!("{what}: room after a refusal"), a.is_ok() || first == room, &room, &first)?;
    tally.add(format!("text: {damage}"), 1);
    reported(a.err().unwrap_or(0), &first, tally);
    Ok(())
}

/// Case `index` of the texts.
pub fn report_case(
    seed: u64,
    index: u64,
    libraries: (&dyn Library, &dyn Library),
    tally: &mut Tally,
) -> Result<(), Difference> {
    let mut random = case_random(seed, REPORT, index);
    report_both(&mut random, libraries, tally).map_err(|what| Difference {
        case: format!("seed {seed}, report {index}"),
        line1: String::new(),
        line2: String::new(),
        what,
    })
}

/// Both list what changed, into rooms of the same size: what they answer, and every byte of the rooms.
fn list_both(
    rosters: (Lent, Lent),
    room: usize,
    libraries: (&dyn Library, &dyn Library),
    tally: &mut Tally,
) -> Result<(), String> {
    let (mut one, mut other) = (vec![b'#'; room], vec![b'#'; room]);
    let a = libraries.0.changes(rosters.0, rosters.1, &mut one);
    let b = libraries.1.changes(rosters.0, rosters.1, &mut other);
    let (refusal, which) = a.err().unwrap_or((0, 0));
    tally.add(format!("changes: refusal {refusal:>2} {which}"), 1);
    same_or("changes: answer", a == b, &a, &b)?;
    let text = |room: &[u8]| room.escape_ascii().to_string();
    same_or("changes: room", one == other, &text(&one), &text(&other))?;
    let written = a.unwrap_or(0);
    let stays = other[written..].iter().all(|&byte| byte == b'#');
    same_or("changes: room past the listing", stays, &true, &stays)
}

fn count_lines(text: &[u8], tally: &mut Tally) {
    for line in text.split(|&byte| byte == b'\n').filter(|line| !line.is_empty()) {
        let words: Vec<&[u8]> = line.split(|&byte| byte == b' ').collect();
        let kind = if words[0].is_ascii() && words[0][0].is_ascii_digit() { words[1] } else { words[0] };
        let sign = if words[0] != b"first" && words[2].starts_with(b"-") { ", minus" } else { "" };
        tally.add(format!("line: {}{sign}", kind.escape_ascii()), 1);
    }
}

/// Two rosters compared with room enough, exactly enough and a byte less, and damaged.
fn compare_all(
    random: &mut Random,
    relation: &str,
    libraries: (&dyn Library, &dyn Library),
    tally: &mut Tally,
) -> Result<(), String> {
    let [(records, first), (others, second)] = generate::two_rosters(random, relation);
    let (first, second) = (Kept::of(&first, &records), Kept::of(&second, &others));
    tally.add(format!("rosters: {relation}"), 1);
    let mut room = vec![0; LISTING_ROOM];
    let size = match libraries.1.changes(first.lent(), second.lent(), &mut room) {
        Ok(size) => size,
        Err(refusal) => return Err(format!("changes: {refusal:?} in {LISTING_ROOM} bytes")),
    };
    count_lines(&room[..size], tally);
    for room in
        [LISTING_ROOM, size + 1, size, size.saturating_sub(1), random.below(size as u64 + 1) as usize, 0]
    {
        list_both((first.lent(), second.lent()), room, libraries, tally)?;
        list_both((second.lent(), first.lent()), room, libraries, tally)?;
    }
    let damage = *random.pick(&DAMAGES);
    let with = |buffer, kept: &Kept| Kept { buffer, ..kept.clone() };
    let damaged = generate::damaged_roster(random, &records, damage).map(|buffer| with(buffer, &first));
    let other = generate::damaged_roster(random, &others, damage).map(|buffer| with(buffer, &second));
    list_damaged((&first, &second), (damaged, other), size, libraries, tally)
        .map_err(|what| format!("{what}\nafter {damage}"))?;
    let damage = *random.pick(&ROW_DAMAGES);
    let with = |row, kept: &Kept| Kept { row, ..kept.clone() };
    let damaged =
        generate::damaged_row(random, &first.row, records.len(), damage).map(|row| with(row, &first));
    let other =
        generate::damaged_row(random, &second.row, others.len(), damage).map(|row| with(row, &second));
    list_damaged((&first, &second), (damaged, other), size, libraries, tally)
        .map_err(|what| format!("{what}\nafter {damage}"))
}

/// The first damaged, the second, and both.
fn list_damaged(
    whole: (&Kept, &Kept),
    damaged: (Option<Kept>, Option<Kept>),
    size: usize,
    libraries: (&dyn Library, &dyn Library),
    tally: &mut Tally,
) -> Result<(), String> {
    let (first, second) = (damaged.0.as_ref(), damaged.1.as_ref());
    for (a, b) in [(first, Some(whole.1)), (Some(whole.0), second), (first, second)] {
        if let (Some(a), Some(b)) = (a, b) {
            list_both((a.lent(), b.lent()), size, libraries, tally)?;
        }
    }
    Ok(())
}

/// Case `index` of the comparisons of two rosters.
pub fn changes_case(
    seed: u64,
    index: u64,
    libraries: (&dyn Library, &dyn Library),
    tally: &mut Tally,
) -> Result<(), Difference> {
    let mut random = case_random(seed, CHANGES, index);
    let relation = RELATIONS[index as usize % RELATIONS.len()];
    compare_all(&mut random, relation, libraries, tally).map_err(|what| Difference {
        case: format!("seed {seed}, two rosters {index} ({relation})"),
        line1: String::new(),
        line2: String::new(),
        what,
    })
}

// ------------------------------------------------------------------ windows

/// A row of the port and its instant, for a satellite newly opened.
fn row_at(satellite: &Satellite<Document>, instant: u128) -> Option<(u64, Row)> {
    let instant = windows::inside(instant)?;
    Some((instant, satellite.request_restarting(windows::since(instant, satellite.epoch))))
}

fn for_windows(watch: Watch, kind: &'static str) -> Ask {
    let places = watch.places();
    Ask::Windows { watch, places: (places, places + 1), kinds: vec![kind] }
}

/// Two stations that differ by the last bit of one number, from one of which a sample is visible and from
/// the other not: where one differing bit of state, angle or rotation would show.
fn last_bit(random: &mut Random, satellite: &Satellite<Document>) -> Option<[Ask; 2]> {
    let start = satellite.epoch as u128 + random.below(3 * DAY as u64) as u128;
    let (instant, row) = row_at(satellite, start).filter(|(_, row)| row.refusal == 0)?;
    let fixed = windows::earth_fixed::<Document>(row.r, instant);
    let tilt = generate::station(random, "on the ground");
    let part = random.uniform(0.2, 0.9);
    let base: Vector = std::array::from_fn(|k| part * fixed[k] + 0.05 * tilt[k]);
    let axis = (0..3).max_by(|&i, &j| fixed[i].abs().total_cmp(&fixed[j].abs()))?;
    let station = |bits: u64| {
        let mut station = base;
        station[axis] = f64::from_bits(bits);
        station
    };
    let seen = |bits: u64| windows::above(fixed, station(bits)) > 0.0;
    let (mut low, mut high) = (base[axis].to_bits(), (3.0 * fixed[axis]).to_bits());
    if !seen(low) || seen(high) || low >= high {
        return None;
    }
    while high - low > 1 {
        let middle = low + (high - low) / 2;
        if seen(middle) {
            low = middle;
        } else {
            high = middle;
        }
    }
    let asked = |bits, kind| {
        let watch = Watch { station: station(bits).to_vec(), start: instant, step: 60, samples: 1 };
        for_windows(watch, kind)
    };
    let kind =
        if windows::above(fixed, station(high)) == 0.0 { "exactly at the horizon" } else { "just below" };
    Some([asked(low, "just above"), asked(high, kind)])
}

/// A refused sample between visible ones: a satellite that comes too low, seen from a station beneath.
fn refused_between(random: &mut Random, satellite: &Satellite<Document>) -> Option<Ask> {
    let step = *random.pick(&[60, 300, 600]);
    let apart = step as u128 * 1_000_000;
    for _ in 0..60 {
        let middle = satellite.epoch as u128 + apart + random.below(2 * DAY as u64) as u128;
        let rows = [middle - apart, middle, middle + apart].map(|instant| row_at(satellite, instant));
        let [Some((before, row)), Some((_, refused)), Some((_, after))] = rows else { continue };
        if row.refusal != 0 || refused.refusal == 0 || after.refusal != 0 {
            continue;
        }
        let station = windows::earth_fixed::<Document>(row.r, before).map(|x| x / 1000.0).to_vec();
        let watch = Watch { station, start: before, step, samples: 3 };
        let kind = if refused.refusal == 14 { "14 between" } else { "another refusal between" };
        return Some(for_windows(watch, kind));
    }
    None
}

/// Calls that are aimed: at the last bit, at refused samples, at many windows and at long ones.
fn aimed(random: &mut Random, satellite: &Satellite<Document>) -> Vec<Ask> {
    let epoch = satellite.epoch;
    let mut asks: Vec<Ask> = (0..3).filter_map(|_| last_bit(random, satellite)).flatten().collect();
    asks.extend(refused_between(random, satellite));
    // Half a revolution a step: every other sample is on the station's side.
    let half = (std::f64::consts::PI * 60.0 / satellite.satrec.no) as u64;
    let start = epoch + random.below(DAY as u64);
    if let Some((instant, row)) = row_at(satellite, start as u128).filter(|(_, row)| row.refusal == 0) {
        let station = windows::earth_fixed::<Document>(row.r, instant).map(|x| x / 1e4).to_vec();
        let watch = |step, samples| Watch { station: station.clone(), start, step, samples };
        asks.push(for_windows(watch(half.clamp(1, STEP_LIMIT), 5), "half a revolution a step"));
        asks.push(for_windows(watch(1 + random.below(3), 20), "a station beneath"));
    }
    asks
}

/// Random and aimed calls for windows among single requests and lists.
pub fn windows_case(
    seed: u64,
    index: u64,
    libraries: (&dyn Library, &dyn Library),
    tally: &mut Tally,
) -> Result<(), Difference> {
    let mut random = case_random(seed, WINDOWS, index);
    let aim: Aim = AIMS[index as usize % AIMS.len()];
    let (line1, line2) =
        if index % 8 == 0 { generate::grazing_pair(&mut random) } else { generate::pair(&mut random, aim) };
    let (one, other) = (libraries.0.open(&line1, &line2), libraries.1.open(&line1, &line2));
    let (Ok(mut one), Ok(mut other)) = (one, other) else { return Ok(()) };
    let record = tle::read(&line1, &line2).expect("a pair that opens");
    let mut port = Satellite::<Document>::open(&record).expect("a pair that opens");
    if random.one_in(8) {
        port.epoch = END as u64 - 1 - random.below(2 * DAY as u64);
        one.hand_epoch(port.epoch);
        other.hand_epoch(port.epoch);
    }
    let mut asks = aimed(&mut random, &port);
    asks.extend((0..4).map(|_| generate::windows(&mut random, port.epoch)));
    asks.extend(generate::sequence(&mut random, port.epoch));
    random.shuffle(&mut asks);
    ask_all(&asks, one.as_mut(), other.as_mut(), tally).map_err(|what| Difference {
        case: format!("seed {seed}, windows {index} ({aim:?})"),
        line1: line1.escape_ascii().to_string(),
        line2: line2.escape_ascii().to_string(),
        what,
    })
}
