//! Times put in the best order (document 02, wish 14), the proved library held against the port: the order
//! itself, and lists asked in it.

use crate::compare::Tally;
use crate::elementary::Document;
use crate::instant::{DAY, SPAN_LIMIT};
use crate::library::Timed;
use crate::published;
use crate::random::Random;
use crate::request::{Row, Satellite, LIST_LIMIT, STRIDE};
use crate::tle;
use saddlekerf::{Microseconds, Rooms, State};

/// Puts times in order, in place.
pub type Orderer = fn(&mut [i64]);

/// The port's: the zeros, the times after the epoch by distance, those before it by distance.
pub fn best_order(times: &mut [i64]) {
    let taken = |wanted: fn(&i64) -> bool| {
        let mut some: Vec<i64> = times.iter().copied().filter(wanted).collect();
        some.sort_by_key(|time| time.unsigned_abs());
        some
    };
    let parts = [taken(|&time| time == 0), taken(|&time| time > 0), taken(|&time| time < 0)];
    times.copy_from_slice(&parts.concat());
}

/// The proved library's.
pub fn proved(times: &mut [i64]) {
    let mut lent: Vec<Microseconds> = times.iter().copied().map(Microseconds).collect();
    saddlekerf::best_order(&mut lent);
    times.iter_mut().zip(lent).for_each(|(time, lent)| *time = lent.0);
}

fn any_time(random: &mut Random) -> i64 {
    match random.below(10) {
        0 => 0,
        1 => random.next_u64() as i64,
        2 => *random.pick(&[
            1,
            -1,
            SPAN_LIMIT,
            -SPAN_LIMIT,
            SPAN_LIMIT + 1,
            -SPAN_LIMIT - 1,
            i64::MIN,
            i64::MAX,
        ]),
        3 => random.between(-SPAN_LIMIT, SPAN_LIMIT),
        4 | 5 => random.between(-6, 6) * STRIDE + random.between(-1, 1),
        _ => random.between(-100 * DAY, 100 * DAY),
    }
}

fn any_list(random: &mut Random) -> Vec<i64> {
    let most = *random.pick(&[0, 1, 2, 3, 8, 40, 40, 40, 200, LIST_LIMIT as u64]);
    let mut times: Vec<i64> = (0..most).map(|_| any_time(random)).collect();
    for _ in 0..most / 4 {
        let again = *random.pick(&times);
        *times.last_mut().expect("a time") = again;
        random.shuffle(&mut times);
    }
    times
}

/// The strides to the farthest time on each side, added.
fn least(times: &[i64]) -> u64 {
    let farthest = |wanted: fn(&i64) -> bool| {
        let side =
            times.iter().filter(|time| time.unsigned_abs() <= SPAN_LIMIT as u64).filter(|&time| wanted(time));
        side.map(|time| time.unsigned_abs() / STRIDE as u64).max().unwrap_or(0)
    };
    farthest(|&time| time > 0) + farthest(|&time| time < 0)
}

/// The rows of the proved library for a list that it asks in the best order, with the strides.
fn proved_rows(line1: &[u8], line2: &[u8], times: &[i64]) -> Result<(Vec<Row>, u64), u8> {
    let mut satellite = saddlekerf::Satellite::open(line1, line2).map_err(|refusal| refusal.number())?;
    let times: Vec<Microseconds> = times.iter().copied().map(Microseconds).collect();
    let (mut refusals, mut rounds) = (vec![0; times.len()], vec![0; times.len()]);
    let mut states = vec![State::default(); times.len()];
    let mut rooms = Rooms { refusals: &mut refusals, states: &mut states, rounds: &mut rounds };
    let strides =
        satellite.list_in_best_order(&times, &mut rooms).map_err(|refusal| refusal.number())?.strides();
    let row = |place: usize| Row {
        refusal: refusals[place],
        r: states[place].position,
        v: states[place].velocity,
        rounds: rounds[place] as u32,
    };
    Ok(((0..times.len()).map(row).collect(), strides.0 as u64))
}

/// Case `index`: a list put in order by both; and, for one in sixteen, asked of a published pair as it
/// comes by the port and in the best order by the library.
pub fn case(seed: u64, index: u64, orderers: (Orderer, Orderer), tally: &mut Tally) -> Result<(), String> {
    let mut random = Random::new(seed ^ index.wrapping_mul(0x9e37_79b9_7f4a_7c15) ^ 14 << 56);
    let times = any_list(&mut random);
    let what = format!("seed {seed}, order {index}: {times:?}");
    let (mut a, mut b) = (times.clone(), times.clone());
    orderers.0(&mut a);
    orderers.1(&mut b);
    if a != b {
        return Err(format!("{what}\n  {a:?}\n  {b:?}"));
    }
    tally.count("lists put in order");
    if index.is_multiple_of(16) {
        let pairs = published::pairs();
        let (line1, line2) = random.pick(&pairs);
        asked(line1, line2, &times, &a, tally).map_err(|found| format!("{what}\n  {found}"))?;
    }
    Ok(())
}

/// The rows as the port has them for the list as it comes, and the strides of either order.
fn asked(line1: &[u8], line2: &[u8], times: &[i64], best: &[i64], tally: &mut Tally) -> Result<(), String> {
    let opened = tle::read(line1, line2).ok().and_then(|record| Satellite::<Document>::open(&record).ok());
    let Some(fresh) = opened else { return Ok(()) };
    let mut rows = vec![Row::EMPTY; times.len()];
    let came = { fresh }.list(times, &mut rows).map_err(|number| format!("refused {number}"))?;
    let mut ordered = vec![Row::EMPTY; times.len()];
    let strides = { fresh }.list(best, &mut ordered).map_err(|number| format!("refused {number}"))?;
    let (proved, taken) = proved_rows(line1, line2, times).map_err(|number| format!("refused {number}"))?;
    let wanted = if fresh.satrec.irez == 0 { 0 } else { least(times) };
    if (strides, taken) != (wanted, wanted) || wanted > came {
        return Err(format!("strides {came} as it comes, {strides} and {taken} in order, least {wanted}"));
    }
    if let Some(place) = (0..times.len()).find(|&place| !rows[place].same(&proved[place])) {
        return Err(format!("row {place}: {:?}, {:?}", rows[place], proved[place]));
    }
    let fewer = if wanted < came { "fewer" } else { "as many" };
    tally.count(format!("lists asked in order: {fewer} strides"));
    Ok(())
}

/// For timing: a list asked of a newly opened satellite, put in order before where `best` says so.
pub struct Timing {
    pub fresh: saddlekerf::Satellite,
    pub times: Vec<Microseconds>,
    pub best: bool,
    pub satellite: saddlekerf::Satellite,
    pub rooms: (Vec<u8>, Vec<State>, Vec<u8>),
}

impl Timing {
    pub fn of(line1: &[u8], line2: &[u8], times: &[i64], best: bool) -> Timing {
        let fresh = saddlekerf::Satellite::open(line1, line2).expect("a pair that opens");
        let rooms = (vec![0; times.len()], vec![State::default(); times.len()], vec![0; times.len()]);
        let times = times.iter().copied().map(Microseconds).collect();
        Timing { satellite: fresh.clone(), fresh, times, best, rooms }
    }

    /// The strides that the list takes.
    pub fn strides(&mut self) -> u32 {
        let (refusals, states, rounds) = &mut self.rooms;
        let mut rooms = Rooms { refusals, states, rounds };
        let rows = match self.best {
            true => self.satellite.list_in_best_order(&self.times, &mut rooms),
            false => self.satellite.list(&self.times, &mut rooms),
        };
        rows.expect("a list that is answered").strides().0
    }
}

impl Timed for Timing {
    fn renew(&mut self) {
        self.satellite = self.fresh.clone();
    }

    fn run(&mut self) {
        std::hint::black_box(self.strides());
    }
}

/// For timing: a list put in order by itself, from where it was each time.
pub struct Ordering {
    pub shuffled: Vec<i64>,
    pub times: Vec<Microseconds>,
}

impl Timed for Ordering {
    fn renew(&mut self) {
        self.times = self.shuffled.iter().copied().map(Microseconds).collect();
    }

    fn run(&mut self) {
        saddlekerf::best_order(std::hint::black_box(&mut self.times));
    }
}

/// LIST_LIMIT times of both sides over so many days, in no order.
pub fn shuffled(days: i64) -> Vec<i64> {
    let step = days * DAY / LIST_LIMIT as i64;
    let mut times: Vec<i64> = (0..LIST_LIMIT as i64).map(|i| i * step - days * DAY / 2).collect();
    Random::new(1957).shuffle(&mut times);
    times
}
