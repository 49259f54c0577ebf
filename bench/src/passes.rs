//! Passes over a station, and where a satellite stands in its sky: the rules of docs/DECISIONS.md,
//! "Passes over a station", the proved library held against them.

use crate::compare::Tally;
use crate::elementary::{Document, Elementary, PI};
use crate::generate::{self, Aim, AIMS};
use crate::instant::{DAY, END};
use crate::library::Timed;
use crate::random::Random;
use crate::request::{Row, Satellite};
use crate::tle;
use crate::windows::{earth_fixed, since, Vector, STEP_LIMIT};
use saddlekerf::Instant;
use std::hint::black_box;
use std::ops::RangeInclusive;

const SECOND: u64 = 1_000_000;
/// Numbers of a pass and of a look in lent memory.
pub const INSTANTS: usize = 4;
pub const ANGLES: usize = 3;

fn dot(a: Vector, b: Vector) -> f64 {
    a[0] * b[0] + a[1] * b[1] + a[2] * b[2]
}

/// A station's Earth-fixed position in km, and east, north and up there.
struct Site {
    position: Vector,
    axes: [Vector; 3],
}

/// Latitude, longitude and height of a station on the WGS-84 ellipsoid, of an array lent; 25.
fn site<E: Elementary>(lent: &[f64]) -> Result<Site, u8> {
    let Some(&[latitude, longitude, height]) = lent.first_chunk() else { return Err(25) };
    let ranges: [(f64, RangeInclusive<f64>); 3] =
        [(latitude, -90.0..=90.0), (longitude, -180.0..=360.0), (height, -10_000.0..=100_000.0)];
    if !ranges.iter().all(|(x, range)| range.contains(x)) {
        return Err(25);
    }
    let (sin_phi, cos_phi) = E::sin_cos(radians(latitude));
    let (sin_lambda, cos_lambda) = E::sin_cos(radians(longitude));
    let flattening = 1.0 / 298.257223563;
    let e2 = flattening * (2.0 - flattening);
    let normal = 6378.137 / E::sqrt(1.0 - e2 * sin_phi * sin_phi);
    let h = height / 1000.0;
    Ok(Site {
        position: [
            (normal + h) * cos_phi * cos_lambda,
            (normal + h) * cos_phi * sin_lambda,
            (normal * (1.0 - e2) + h) * sin_phi,
        ],
        axes: [
            [-sin_lambda, cos_lambda, 0.0],
            [-(sin_phi * cos_lambda), -(sin_phi * sin_lambda), cos_phi],
            [cos_phi * cos_lambda, cos_phi * sin_lambda, sin_phi],
        ],
    })
}

fn radians(degrees: f64) -> f64 {
    degrees * (PI / 180.0)
}

fn degrees(radians: f64) -> f64 {
    radians * (180.0 / PI)
}

/// A single request to a copy: the row, or 6 where the instant or the epoch is outside the calendar.
fn row<E: Elementary>(satellite: &mut Satellite<E>, instant: u64) -> Row {
    let calendar = 0..END as u64;
    if calendar.contains(&instant) && calendar.contains(&satellite.epoch) {
        satellite.request(since(instant, satellite.epoch)).0
    } else {
        Row { refusal: 6, ..Row::EMPTY }
    }
}

impl Site {
    /// East, north and up of a row's position.
    fn sky<E: Elementary>(&self, row: &Row, instant: u64) -> Vector {
        let fixed = earth_fixed::<E>(row.r, instant);
        let away = [0, 1, 2].map(|k| fixed[k] - self.position[k]);
        self.axes.map(|axis| dot(axis, away))
    }

    /// The sine of the elevation; straight down where the row is refused.
    fn sine<E: Elementary>(&self, satellite: &mut Satellite<E>, instant: u64) -> f64 {
        let row = row(satellite, instant);
        if row.refusal != 0 {
            return -1.0;
        }
        let [east, north, up] = self.sky::<E>(&row, instant);
        up / E::sqrt(east * east + north * north + up * up)
    }
}

/// Azimuth, elevation and range to the front of the room; or 25, 17, the row's own.
pub fn look<E: Elementary + Copy>(
    satellite: &Satellite<E>,
    station: &[f64],
    instant: u64,
    room: &mut [f64],
) -> Result<(), u8> {
    let site = site::<E>(station)?;
    let room = room.get_mut(..ANGLES).ok_or(17)?;
    let row = row(&mut { *satellite }, instant);
    if row.refusal != 0 {
        return Err(row.refusal);
    }
    let [east, north, up] = site.sky::<E>(&row, instant);
    let azimuth = degrees(E::atan2(east, north));
    let flat = E::sqrt(east * east + north * north);
    let range = E::sqrt(east * east + north * north + up * up);
    let azimuth = if azimuth < 0.0 { azimuth + 360.0 } else { azimuth };
    room.copy_from_slice(&[azimuth, degrees(E::atan2(up, flat)), range]);
    Ok(())
}

/// What a call for a pass asks.
#[derive(Clone, Debug)]
pub struct Call {
    /// Latitude, longitude, height and least elevation, as they are lent.
    pub station: Vec<f64>,
    pub start: u64,
    /// Whole seconds.
    pub step: u64,
    pub samples: u32,
}

/// Whether it was above at the first sample, and at the last; the samples left.
#[derive(Clone, Copy, Debug, PartialEq, Eq)]
pub struct Found {
    pub begun: bool,
    pub still: bool,
    pub left: u32,
}

/// Halving between an instant that is not above and one that is, until they are neighbours: the one above.
fn edge(mut not: u64, mut is: u64, above: impl Fn(u64) -> bool) -> u64 {
    while not.abs_diff(is) > 1 {
        let middle = (not + is) / 2;
        *(if above(middle) { &mut is } else { &mut not }) = middle;
    }
    is
}

/// Thirds of a bracket, the lower side left out, until it is a millisecond wide: its middle.
fn climb(mut low: u64, mut high: u64, sine: impl Fn(u64) -> f64) -> u64 {
    for _ in 0..64 {
        let third = high.saturating_sub(low) / 3;
        if sine(low + third) < sine(high - third) {
            low += third;
        } else {
            high -= third;
        }
        if high <= low + 1000 {
            break;
        }
    }
    low + high.saturating_sub(low) / 2
}

/// Rise, highest point, set and the next call's start to the front of the room; or 25, 26, 17.
pub fn next_pass<E: Elementary + Copy>(
    satellite: &Satellite<E>,
    call: &Call,
    room: &mut [u64],
) -> Result<Option<Found>, u8> {
    let site = site::<E>(&call.station)?;
    let least = *call.station.get(3).filter(|least| (0.0..=90.0).contains(*least)).ok_or(25)?;
    if !(1..=STEP_LIMIT).contains(&call.step) {
        return Err(26);
    }
    let room = room.get_mut(..INSTANTS).ok_or(17)?;
    let (least, step) = (E::sin(radians(least)), call.step * SECOND);
    let inside = |k: u32| -> Option<u64> {
        let instant = call.start as u128 + k as u128 * step as u128;
        (instant < END as u128).then_some(instant as u64)
    };
    // The satellite as the sample before the rise leaves it.
    let (mut asked, mut first) = (*satellite, 0);
    let rising = loop {
        let Some(instant) = (first < call.samples).then(|| inside(first)).flatten() else { return Ok(None) };
        let mut next = asked;
        if site.sine(&mut next, instant) > least {
            break instant;
        }
        (asked, first) = (next, first + 1);
    };
    let sine = |instant| site.sine(&mut { asked }, instant);
    let above = |instant| sine(instant) > least;
    let (mut resumed, mut last, mut best) = (asked, first, (rising, -1.0));
    let set = loop {
        let Some(instant) = (last < call.samples).then(|| inside(last)).flatten() else { break None };
        let height = site.sine(&mut resumed, instant);
        if height <= least || height.is_nan() {
            break Some(instant);
        }
        if height > best.1 {
            best = (instant, height);
        }
        last += 1;
    };
    let before = |instant: u64, sample: u32| if sample == 0 { instant } else { instant - step };
    let rise = edge(before(rising, first), rising, above);
    let end = rising + (last - first - 1) as u64 * step;
    let down = edge(set.unwrap_or(end), end, above);
    let top = climb(rise.max(best.0.saturating_sub(step)), down.min(best.0 + step), sine);
    let top = if sine(top) > best.1 { top } else { best.0 };
    room.copy_from_slice(&[rise, top, down, end + step]);
    let left = if set.is_some() { call.samples - last } else { 0 };
    Ok(Some(Found { begun: first == 0, still: set.is_none(), left }))
}

// ------------------------------------------------------------------ timing

/// A call of a library for its own satellite.
type Asker = Box<dyn FnMut(&Call, &mut [u64]) -> Option<Found>>;

/// All passes over Greenwich above 10 degrees of a day of minutes.
pub struct Timing {
    start: u64,
    next: Asker,
}

impl Timing {
    pub const SAMPLES: u32 = 1440;

    pub fn proved(line1: &[u8], line2: &[u8]) -> Timing {
        let satellite = saddlekerf::Satellite::open(line1, line2).expect("a pair that opens");
        let start = satellite.epoch().0;
        let next = move |call: &Call, room: &mut [u64]| {
            let Call { station, start, step, samples } = call;
            let found = satellite.next_pass_into(station, Instant(*start), *step, *samples, room);
            found.expect("a lawful call").map(|f| Found { begun: f.begun, still: f.still, left: f.left })
        };
        Timing { start, next: Box::new(next) }
    }

    pub fn port<E: Elementary + Copy + 'static>(line1: &[u8], line2: &[u8]) -> Timing {
        let record = tle::read(line1, line2).expect("a published pair");
        let satellite = Satellite::<E>::open(&record).expect("a pair that opens");
        let next =
            move |call: &Call, room: &mut [u64]| next_pass(&satellite, call, room).expect("a lawful call");
        Timing { start: satellite.epoch, next: Box::new(next) }
    }
}

impl Timed for Timing {
    fn renew(&mut self) {}

    fn run(&mut self) {
        let station = vec![51.4779, -0.0015, 46.0, 10.0];
        let mut call = Call { station, start: self.start, step: 60, samples: Timing::SAMPLES };
        let mut room = [0; INSTANTS];
        while let Some(found) = (self.next)(black_box(&call), &mut room) {
            (call.start, call.samples) = (black_box(room[3]), found.left);
        }
    }
}

// ------------------------------------------------------------------ the comparison

/// Both calls of a library, for a satellite of the port.
pub trait Sky {
    fn next_pass(&self, satellite: &Held, call: &Call, room: &mut [u64]) -> Result<Option<Found>, u8>;
    fn look(&self, satellite: &Held, station: &[f64], instant: u64, room: &mut [f64]) -> Result<(), u8>;
}

/// A satellite in the port's form and in the library's memory.
pub struct Held {
    pub port: Satellite<Document>,
    pub proved: saddlekerf::Satellite,
}

pub struct Port;

impl Sky for Port {
    fn next_pass(&self, satellite: &Held, call: &Call, room: &mut [u64]) -> Result<Option<Found>, u8> {
        next_pass(&satellite.port, call, room)
    }

    fn look(&self, satellite: &Held, station: &[f64], instant: u64, room: &mut [f64]) -> Result<(), u8> {
        look(&satellite.port, station, instant, room)
    }
}

pub struct Proved;

impl Sky for Proved {
    fn next_pass(&self, satellite: &Held, call: &Call, room: &mut [u64]) -> Result<Option<Found>, u8> {
        let Call { station, start, step, samples } = call;
        let found = satellite.proved.next_pass_into(station, Instant(*start), *step, *samples, room);
        found
            .map(|found| found.map(|f| Found { begun: f.begun, still: f.still, left: f.left }))
            .map_err(|refusal| refusal.number())
    }

    fn look(&self, satellite: &Held, station: &[f64], instant: u64, room: &mut [f64]) -> Result<(), u8> {
        satellite.proved.look_into(station, Instant(instant), room).map_err(|unseen| unseen.number())
    }
}

/// What may be wrong with a station that is lent.
const FAULTS: [&str; 8] =
    ["latitude", "longitude", "height", "least elevation", "not a number", "too short", "empty", "longer"];

fn station(random: &mut Random, fault: Option<&str>) -> Vec<f64> {
    let latitude = *random.pick(&[90.0, -90.0, 0.0, -0.0]);
    let mut station = vec![
        if random.one_in(8) { latitude } else { random.uniform(-90.0, 90.0) },
        *random.pick(&[random.clone().uniform(-180.0, 360.0), 0.0, -180.0, 360.0]),
        *random.pick(&[0.0, -430.0, 8848.0, 100_000.0, -10_000.0]),
        *random.pick(&[0.0, 0.0, 5.0, 10.0, 37.25, 90.0]),
    ];
    let beyond = |random: &mut Random, low: f64, high: f64| {
        *random.pick(&[low.next_down(), high.next_up(), f64::INFINITY, f64::NEG_INFINITY, 1e300])
    };
    match fault {
        Some("latitude") => station[0] = beyond(random, -90.0, 90.0),
        Some("longitude") => station[1] = beyond(random, -180.0, 360.0),
        Some("height") => station[2] = beyond(random, -10_000.0, 100_000.0),
        Some("least elevation") => station[3] = beyond(random, 0.0, 90.0),
        Some("not a number") => station[random.below(4) as usize] = f64::NAN,
        Some("too short") => station.truncate(1 + random.below(3) as usize),
        Some("empty") => station.clear(),
        Some("longer") => station.extend([f64::NAN, 1.0]),
        _ => {}
    }
    station
}

fn instant(random: &mut Random, epoch: u64) -> u64 {
    match random.below(16) {
        0 => random.next_u64(),
        1 => *random.pick(&[0, END as u64 - 1, END as u64, u64::MAX]),
        2 => END as u64 - random.below(DAY as u64),
        3 => epoch.saturating_add(crate::instant::SPAN_LIMIT as u64 - random.below(DAY as u64)),
        4 => epoch.saturating_sub(random.below(4 * DAY as u64)),
        _ => epoch.saturating_add(random.below(4 * DAY as u64)),
    }
}

fn call(random: &mut Random, epoch: u64) -> Call {
    let fault = random.one_in(8).then(|| *random.pick(&FAULTS));
    let step = match random.below(16) {
        0 => *random.pick(&[0, STEP_LIMIT + 1, 1 << 32, u64::MAX]),
        1 => *random.pick(&[1, STEP_LIMIT, 3600]),
        _ => *random.pick(&[10, 30, 60, 60, 120, 300]),
    };
    let samples = match random.below(8) {
        0 => random.below(3) as u32,
        1 => *random.pick(&[300, u32::MAX]),
        _ => 2 + random.below(400) as u32,
    };
    let start = instant(random, epoch);
    // No call goes through more than some hundred samples before it ends.
    let samples = if start < END as u64 - 3 * DAY as u64 { samples.min(700) } else { samples };
    Call {
        station: station(random, fault),
        start,
        step: if samples > 1000 { step.max(60) } else { step },
        samples,
    }
}

fn opened(random: &mut Random, aim: Aim) -> Option<Held> {
    let (line1, line2) = generate::pair(random, aim);
    let mut port = Satellite::open(&tle::read(&line1, &line2).ok()?).ok()?;
    let mut proved = saddlekerf::Satellite::open(&line1, &line2).ok()?;
    if random.one_in(6) {
        use crate::library::Opened;
        port.saved = generate::saved(random);
        port.saved.stride %= 20;
        proved.hand(port.saved);
        port.epoch = generate::any_epoch(random, port.epoch);
        proved.hand_epoch(port.epoch);
    }
    Some(Held { port, proved })
}

fn compared<T: PartialEq + std::fmt::Debug>(what: &str, a: &T, b: &T) -> Result<(), String> {
    if a == b {
        Ok(())
    } else {
        Err(format!("{what}:\n  {a:?}\n  {b:?}"))
    }
}

/// A satellite's passes, one call after the other, each with a room of any length.
fn passes_both(
    random: &mut Random,
    held: &Held,
    skies: (&dyn Sky, &dyn Sky),
    tally: &mut Tally,
) -> Result<Vec<u64>, String> {
    let mut call = call(random, held.port.epoch);
    let mut met = vec![];
    for _ in 0..4 {
        let length = if random.one_in(8) { random.below(4) } else { 4 + random.below(3) } as usize;
        let lent: Vec<u64> = (0..length as u64).map(|place| (1 << 63) + place).collect();
        let (mut mine, mut theirs) = (lent.clone(), lent.clone());
        let a = skies.0.next_pass(held, &call, &mut mine);
        let b = skies.1.next_pass(held, &call, &mut theirs);
        let what = format!("{call:?}, room {length}, epoch {}", held.port.epoch);
        compared(&what, &(a, &mine), &(b, &theirs))?;
        let written = if matches!(a, Ok(Some(_))) { INSTANTS } else { 0 };
        compared(&format!("{what}: past the pass"), &mine[written..].to_vec(), &lent[written..].to_vec())?;
        match a {
            Err(refusal) => tally.count(format!("passes: refusal {refusal}")),
            Ok(None) => tally.count("passes: none"),
            Ok(Some(found)) => {
                let kind = ["", " begun"][found.begun as usize];
                let still = ["", " still"][found.still as usize];
                tally.count(format!("passes: found{kind}{still}"));
                met.extend(&mine[..3]);
                (call.start, call.samples) = (mine[3], found.left);
                continue;
            }
        }
        break;
    }
    Ok(met)
}

/// A look at a pass's instants, and at others.
fn looks_both(
    random: &mut Random,
    held: &Held,
    met: &[u64],
    skies: (&dyn Sky, &dyn Sky),
    tally: &mut Tally,
) -> Result<(), String> {
    let fault = random.one_in(8).then(|| *random.pick(&FAULTS));
    let station = station(random, fault);
    let others = [0; 4].map(|_| instant(random, held.port.epoch));
    for &at in met.iter().chain(&others) {
        let length = if random.one_in(8) { random.below(3) } else { 3 + random.below(3) } as usize;
        let lent: Vec<f64> = (0..length).map(|place| -7.0 - place as f64).collect();
        let (mut mine, mut theirs) = (lent.clone(), lent.clone());
        let a = skies.0.look(held, &station, at, &mut mine);
        let b = skies.1.look(held, &station, at, &mut theirs);
        let bits = |room: &[f64]| room.iter().map(|x| x.to_bits()).collect::<Vec<_>>();
        let what = format!("look of {station:?} at {at}, room {length}, epoch {}", held.port.epoch);
        compared(&what, &(a, bits(&mine)), &(b, bits(&theirs)))?;
        let written = if a.is_ok() { ANGLES } else { 0 };
        compared(&format!("{what}: past the look"), &bits(&mine[written..]), &bits(&lent[written..]))?;
        tally.count(format!("look: refusal {:>2}", a.err().unwrap_or(0)));
    }
    Ok(())
}

/// Case `index`: a random satellite, its saved position and its epoch handed in now and then, asked for
/// passes and looks by both.
pub fn case(seed: u64, index: u64, skies: (&dyn Sky, &dyn Sky), tally: &mut Tally) -> Result<(), String> {
    let mut random = Random::new(seed ^ index.wrapping_mul(0x9e37_79b9_7f4a_7c15) ^ 29 << 56);
    let aim = AIMS[index as usize % AIMS.len()];
    let Some(held) = opened(&mut random, aim) else { return Ok(()) };
    tally.count("satellites");
    let tell = |what| format!("seed {seed}, passes {index} ({aim:?})\n{what}");
    let met = passes_both(&mut random, &held, skies, tally).map_err(tell)?;
    looks_both(&mut random, &held, &met, skies, tally).map_err(tell)
}

#[cfg(test)]
mod tests {
    use super::*;
    use crate::published;

    fn satellite(catalogue: &[u8]) -> Satellite<Document> {
        let pair = published::pairs().into_iter().find(|(line1, _)| &line1[2..7] == catalogue);
        let (line1, line2) = pair.expect("a published pair");
        Satellite::open(&tle::read(&line1, &line2).unwrap()).unwrap()
    }

    const GREENWICH: [f64; 4] = [51.4779, -0.0015, 46.0, 10.0];

    /// All passes of two days: what they are in words, by single requests that start at the epoch.
    #[test]
    fn passes_in_words() {
        let satellite = satellite(b"06251");
        let site = site::<Document>(&GREENWICH).unwrap();
        let least = radians(10.0).sin();
        let above = |instant| site.sine(&mut { satellite }, instant) > least;
        let (mut start, mut samples) = (satellite.epoch, 2880);
        let grid: Vec<u64> = (0..2880).map(|k| satellite.epoch + k * 60 * SECOND).collect();
        let mut inside = 0;
        let mut count = 0;
        loop {
            let call = Call { station: GREENWICH.to_vec(), start, step: 60, samples };
            let mut room = [0; 4];
            let Some(found) = next_pass(&satellite, &call, &mut room).unwrap() else { break };
            let [rise, highest, set, next] = room;
            assert!(above(rise) && above(set) && rise <= highest && highest <= set);
            assert!(found.begun || !above(rise - 1));
            assert!(found.still || !above(set + 1));
            for away in [1, 5, 20] {
                let sine = |instant| site.sine(&mut { satellite }, instant);
                assert!(sine(highest) + 1e-12 > sine(highest + away * SECOND));
                assert!(sine(highest) + 1e-12 > sine(highest - away * SECOND));
            }
            inside += grid.iter().filter(|&&instant| rise <= instant && instant <= set).count();
            (start, samples, count) = (next, found.left, count + 1);
        }
        assert_eq!(count, 11);
        assert_eq!(inside, grid.iter().filter(|&&instant| above(instant)).count());
    }

    /// Straight above a station by its own normal.
    #[test]
    fn straight_up() {
        for (latitude, longitude) in [(0.0, 0.0), (90.0, 0.0), (-33.3, 151.2), (51.4779, -0.0015)] {
            let lent = [latitude, longitude, 100.0];
            let site = site::<Document>(&lent).unwrap();
            let phi: f64 = radians(latitude);
            let row = Row { r: [0, 1, 2].map(|k| site.position[k] + 500.0 * site.axes[2][k]), ..Row::EMPTY };
            let fixed = [0, 1, 2].map(|k| row.r[k] - site.position[k]);
            let [east, north, up] = site.axes.map(|axis| dot(axis, fixed));
            assert!(east.abs() < 1e-9 && north.abs() < 1e-9 && (up - 500.0).abs() < 1e-9);
            let radius = dot(site.position, site.position).sqrt();
            let wanted = 6378.137 - 21.3847 * phi.sin().powi(2);
            assert!((radius - wanted - 0.1).abs() < 0.1, "{radius} {wanted}");
        }
    }
}
