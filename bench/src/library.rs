//! What the comparison and the benchmark need of a library: the proved one,
//! called over its C boundary, or one of the port's own.

use crate::changes::{self, Lent};
use crate::elementary::{Document, Elementary};
use crate::instant::{self, SPAN_LIMIT};
use crate::report::{self, NUMBERS};
use crate::request::{list_by, Row, Satellite, Saved, STRIDE};
use crate::roster;
use crate::tle::{self, Record, Refusal, Unmeant, NUMBERS as FIELDS};
use crate::windows::{windows_by, Watch};
use std::hint::black_box;
use std::marker::PhantomData;

/// Why a pair is not opened, or its form not taken: it is not read (1-6), or refused by number.
#[derive(Clone, Copy, Debug, PartialEq, Eq)]
pub enum Unopened {
    Unread(Refusal),
    Refused(u8),
}

impl Unopened {
    pub fn number(self) -> u8 {
        match self {
            Unopened::Unread(refusal) => refusal.number(),
            Unopened::Refused(number) => number,
        }
    }
}

pub trait Library {
    fn name(&self) -> String;
    /// Reads a pair: accepted, or a refusal 1-6 with its values.
    fn read(&self, line1: &[u8], line2: &[u8]) -> Result<(), Refusal>;
    /// The checksum digit of any bytes.
    fn checksum(&self, bytes: &[u8]) -> u8;
    /// The epoch of a pair, in microseconds from 1957; or as `read`.
    fn epoch(&self, line1: &[u8], line2: &[u8]) -> Result<u64, Refusal>;
    /// What the program prints for a pair.
    fn print(&self, line1: &[u8], line2: &[u8]) -> Vec<u8>;
    /// The form of a pair: the numbers of its fields at the front of the room lent; or 1-5, 17.
    fn form(&self, line1: &[u8], line2: &[u8], room: &mut [i64]) -> Result<(), Unopened>;
    /// The meaning of numbers: a record's; or 17, 16, 6 with the field.
    fn meaning(&self, numbers: &[i64]) -> Result<(), Unopened>;
    /// The record of a pair; or as `read`.
    fn record(&self, line1: &[u8], line2: &[u8]) -> Result<Record, Refusal>;
    /// Writes line 1 or 2 of a record at the front of the room lent; or 16, 17.
    fn write(&self, record: &Record, which: u8, room: &mut [u8]) -> Result<(), u8>;
    /// Lodges a pair in the roster lent with its row; or a refusal, and both stay.
    fn lodge(
        &self,
        roster: &mut [u8],
        row: &mut [u64],
        line1: &[u8],
        line2: &[u8],
    ) -> Result<(), roster::Refusal>;
    /// Withdraws a number from the roster lent with its row; or 22, 21, and both stay.
    fn withdraw(&self, roster: &mut [u8], row: &mut [u64], number: u64) -> Result<(), u8>;
    /// Fills the row of the roster lent; or 22, and the row stays.
    fn fill_row(&self, roster: &[u8], row: &mut [u64]) -> Result<(), u8>;
    /// Counts the pairs of a text into the room lent; or 23, 24, 17, and the room stays.
    fn report(&self, text: &[u8], room: &mut [u64]) -> Result<(), u8>;
    /// Lists what changed between two rosters at the front of the room lent: its bytes; or 22 and which,
    /// 17, and the room stays.
    fn changes(&self, first: Lent, second: Lent, room: &mut [u8]) -> Result<usize, (u8, u8)>;
    /// Reads and opens a pair.
    fn open(&self, line1: &[u8], line2: &[u8]) -> Result<Box<dyn Opened>, Unopened>;
    /// For timing: reads a pair.
    fn reader(&self, line1: &[u8], line2: &[u8]) -> Box<dyn Timed>;
    /// For timing: lodges a pair in a roster.
    fn lodger(&self, roster: &[u8], line1: &[u8], line2: &[u8]) -> Box<dyn Timed>;
    /// For timing: counts the pairs of a text.
    fn reporter(&self, text: &[u8]) -> Box<dyn Timed>;
    /// For timing: the pairs of a roster by age.
    fn ager(&self, roster: &[u8]) -> Box<dyn Timed>;
    /// For timing: lists what changed between two rosters, into a room made ready before.
    fn comparer(&self, first: &[u8], second: &[u8]) -> Box<dyn Timed>;
    /// For timing: reads and opens a pair into memory made ready before.
    fn opener(&self, line1: &[u8], line2: &[u8]) -> Box<dyn Timed>;
    /// For timing: asks a newly opened satellite for the times, its rooms made ready before.
    fn lister(&self, line1: &[u8], line2: &[u8], times: &[i64]) -> Box<dyn Timed>;
    /// For timing: asks a newly opened satellite for windows, call after call, places made ready before.
    fn watcher(&self, line1: &[u8], line2: &[u8], watches: &[Watch]) -> Box<dyn Timed>;
}

/// What a single request tells beside its state.
#[derive(Clone, Copy, Debug, PartialEq, Eq)]
pub struct Told {
    /// 0 where the time is answered.
    pub refusal: u8,
    pub rounds: u32,
    pub strides: u64,
}

pub trait Opened {
    /// One time: position and velocity go into the room lent, which stays where the time is refused.
    fn request(&mut self, micros: i64, room: &mut [f64; 6]) -> Told;
    /// Rows to the front of the room lent, and the strides reported; or 18, 17.
    fn list(&mut self, times: &[i64], rows: &mut [Row]) -> Result<u64, u8>;
    /// Instants of windows to the front of the places lent, how many they are and the strides reported;
    /// or 25, 26, 18, 17.
    fn windows(&mut self, watch: &Watch, firsts: &mut [u64], lasts: &mut [u64]) -> Result<(usize, u64), u8>;
    /// The epoch instant that the satellite keeps.
    fn epoch(&self) -> u64;
    /// The saved position, where the library keeps one.
    fn saved(&self) -> Option<Saved>;
    /// Another saved position is handed in.
    fn hand(&mut self, saved: Saved);
    /// Another epoch instant is handed in.
    fn hand_epoch(&mut self, epoch: u64);
}

/// A row told as a single request tells it.
fn tell((row, strides): (Row, u64), room: &mut [f64; 6]) -> Told {
    if row.refusal == 0 {
        let ([x, y, z], [vx, vy, vz]) = (row.r, row.v);
        *room = [x, y, z, vx, vy, vz];
    }
    Told { refusal: row.refusal, rounds: row.rounds, strides }
}

/// One call to be timed. All it needs is made ready outside of `run`.
pub trait Timed {
    /// Puts everything back to where it was before the first run. Not timed.
    fn renew(&mut self);
    fn run(&mut self);
}

/// The port, resuming from its saved position.
pub struct Port<E>(PhantomData<E>);

impl<E> Port<E> {
    pub const fn new() -> Port<E> {
        Port(PhantomData)
    }
}

impl<E> Default for Port<E> {
    fn default() -> Self {
        Port::new()
    }
}

impl<E: Elementary + Copy + 'static> Library for Port<E> {
    fn name(&self) -> String {
        format!("port ({})", E::NAME)
    }

    fn read(&self, line1: &[u8], line2: &[u8]) -> Result<(), Refusal> {
        tle::read(line1, line2).map(|_| ())
    }

    fn checksum(&self, bytes: &[u8]) -> u8 {
        tle::checksum_of(bytes)
    }

    fn print(&self, line1: &[u8], line2: &[u8]) -> Vec<u8> {
        tle::print(line1, line2).into_bytes()
    }

    fn form(&self, line1: &[u8], line2: &[u8], room: &mut [i64]) -> Result<(), Unopened> {
        let fields = tle::form(line1, line2).map_err(Unopened::Unread)?;
        let front = room.get_mut(..FIELDS).ok_or(Unopened::Refused(17))?;
        front.copy_from_slice(&fields.numbers());
        Ok(())
    }

    fn meaning(&self, numbers: &[i64]) -> Result<(), Unopened> {
        tle::meaning(numbers).map_err(|why| match why {
            Unmeant::Short => Unopened::Refused(17),
            Unmeant::NoForm => Unopened::Refused(16),
            Unmeant::Range(field) => Unopened::Unread(Refusal::Range(field)),
        })
    }

    fn record(&self, line1: &[u8], line2: &[u8]) -> Result<Record, Refusal> {
        tle::read(line1, line2)
    }

    fn write(&self, record: &Record, which: u8, room: &mut [u8]) -> Result<(), u8> {
        tle::write(record, which, room)
    }

    fn lodge(
        &self,
        roster: &mut [u8],
        row: &mut [u64],
        line1: &[u8],
        line2: &[u8],
    ) -> Result<(), roster::Refusal> {
        roster::lodge(roster, row, line1, line2)
    }

    fn withdraw(&self, roster: &mut [u8], row: &mut [u64], number: u64) -> Result<(), u8> {
        roster::withdraw(roster, row, number)
    }

    fn report(&self, text: &[u8], room: &mut [u64]) -> Result<(), u8> {
        report::report::<E>(text, room)
    }

    fn fill_row(&self, roster: &[u8], row: &mut [u64]) -> Result<(), u8> {
        roster::fill_row(roster, row)
    }

    fn changes(&self, first: Lent, second: Lent, room: &mut [u8]) -> Result<usize, (u8, u8)> {
        changes::changes(first, second, room)
    }

    fn epoch(&self, line1: &[u8], line2: &[u8]) -> Result<u64, Refusal> {
        let record = tle::read(line1, line2)?;
        let micros = instant::from_epoch(record.year as i64, record.day as i64);
        Ok(micros.expect("an epoch that can be read lies in the calendar") as u64)
    }

    fn open(&self, line1: &[u8], line2: &[u8]) -> Result<Box<dyn Opened>, Unopened> {
        Ok(Box::new(opened::<E>(line1, line2)?))
    }

    fn reader(&self, line1: &[u8], line2: &[u8]) -> Box<dyn Timed> {
        Box::new(Reader { line1: line1.to_vec(), line2: line2.to_vec(), read: tle::read })
    }

    fn lodger(&self, roster: &[u8], line1: &[u8], line2: &[u8]) -> Box<dyn Timed> {
        Box::new(Lodger {
            roster: roster.to_vec(),
            row: filled(roster),
            line1: line1.to_vec(),
            line2: line2.to_vec(),
            lodge: roster::lodge,
        })
    }

    fn reporter(&self, text: &[u8]) -> Box<dyn Timed> {
        Box::new(Reporter { text: text.to_vec(), room: [0; NUMBERS], report: report::report::<E> })
    }

    fn ager(&self, roster: &[u8]) -> Box<dyn Timed> {
        Box::new(Ager { roster: roster.to_vec() })
    }

    fn comparer(&self, first: &[u8], second: &[u8]) -> Box<dyn Timed> {
        Box::new(Comparer {
            first: (first.to_vec(), filled(first)),
            second: (second.to_vec(), filled(second)),
            room: vec![0; COMPARER_ROOM],
            changes: changes::changes,
        })
    }

    fn opener(&self, line1: &[u8], line2: &[u8]) -> Box<dyn Timed> {
        Box::new(Opener::<E> { line1: line1.to_vec(), line2: line2.to_vec(), satellite: None })
    }

    fn lister(&self, line1: &[u8], line2: &[u8], times: &[i64]) -> Box<dyn Timed> {
        let fresh = opened::<E>(line1, line2).expect("a pair that opens");
        Box::new(Lister {
            satellite: fresh,
            fresh,
            times: times.to_vec(),
            rows: vec![Row::EMPTY; times.len()],
        })
    }

    fn watcher(&self, line1: &[u8], line2: &[u8], watches: &[Watch]) -> Box<dyn Timed> {
        Box::new(Watcher::of(opened::<E>(line1, line2).expect("a pair that opens"), watches))
    }
}

fn opened<E: Elementary>(line1: &[u8], line2: &[u8]) -> Result<Satellite<E>, Unopened> {
    let record = tle::read(line1, line2).map_err(Unopened::Unread)?;
    Satellite::open(&record).map_err(Unopened::Refused)
}

/// Two lines to be read, and what reads them.
pub struct Reader<R> {
    pub line1: Vec<u8>,
    pub line2: Vec<u8>,
    pub read: fn(&[u8], &[u8]) -> R,
}

impl<R> Timed for Reader<R> {
    fn renew(&mut self) {}

    fn run(&mut self) {
        let _ = black_box((self.read)(black_box(&self.line1), black_box(&self.line2)));
    }
}

/// The row of a roster.
pub fn filled(roster: &[u8]) -> Vec<u64> {
    let mut row = vec![0; roster::PLACES];
    roster::fill_row(roster, &mut row).expect("a roster");
    row
}

/// A roster, two lines to be lodged in it, and what lodges them.
pub struct Lodger<R> {
    pub roster: Vec<u8>,
    pub row: Vec<u64>,
    pub line1: Vec<u8>,
    pub line2: Vec<u8>,
    pub lodge: fn(&mut [u8], &mut [u64], &[u8], &[u8]) -> R,
}

impl<R> Timed for Lodger<R> {
    fn renew(&mut self) {}

    fn run(&mut self) {
        let _ = black_box((self.lodge)(
            black_box(&mut self.roster),
            black_box(&mut self.row),
            black_box(&self.line1),
            black_box(&self.line2),
        ));
    }
}

/// A text to be counted, the room for its numbers, and what counts.
pub struct Reporter<R> {
    pub text: Vec<u8>,
    pub room: [u64; NUMBERS],
    pub report: fn(&[u8], &mut [u64]) -> R,
}

impl<R> Timed for Reporter<R> {
    fn renew(&mut self) {}

    fn run(&mut self) {
        let _ = black_box((self.report)(black_box(&self.text), black_box(&mut self.room)));
    }
}

/// A roster whose pairs are put in order by age without a row: each is read for its epoch.
struct Ager {
    roster: Vec<u8>,
}

impl Timed for Ager {
    fn renew(&mut self) {}

    fn run(&mut self) {
        let mut records = roster::records(black_box(&self.roster)).expect("a roster");
        records.sort_by_key(|record| record.epoch());
        black_box(records);
    }
}

/// The room of a comparison that is timed: more than any listing has.
pub const COMPARER_ROOM: usize = 30_000;

/// Two rosters, a room, and what lists the changes there.
pub struct Comparer<C> {
    pub first: (Vec<u8>, Vec<u64>),
    pub second: (Vec<u8>, Vec<u64>),
    pub room: Vec<u8>,
    pub changes: C,
}

impl<R, C: FnMut(Lent, Lent, &mut [u8]) -> R> Timed for Comparer<C> {
    fn renew(&mut self) {}

    fn run(&mut self) {
        let _ = black_box((self.changes)(
            black_box((&self.first.0, &self.first.1)),
            black_box((&self.second.0, &self.second.1)),
            black_box(&mut self.room),
        ));
    }
}

struct Opener<E> {
    line1: Vec<u8>,
    line2: Vec<u8>,
    satellite: Option<Satellite<E>>,
}

impl<E: Elementary> Timed for Opener<E> {
    fn renew(&mut self) {}

    fn run(&mut self) {
        self.satellite = opened(black_box(&self.line1), black_box(&self.line2)).ok();
        black_box(&mut self.satellite);
    }
}

struct Lister<S> {
    fresh: S,
    satellite: S,
    times: Vec<i64>,
    rows: Vec<Row>,
}

impl<S: Opened + Copy> Timed for Lister<S> {
    fn renew(&mut self) {
        self.satellite = self.fresh;
    }

    fn run(&mut self) {
        let strides = self.satellite.list(black_box(&self.times), &mut self.rows);
        black_box((strides.expect("a lawful list"), &mut self.rows));
    }
}

/// A satellite asked for windows, call after call.
pub struct Watcher<S> {
    fresh: S,
    satellite: S,
    watches: Vec<Watch>,
    firsts: Vec<u64>,
    lasts: Vec<u64>,
}

impl<S: Clone> Watcher<S> {
    pub fn of(fresh: S, watches: &[Watch]) -> Watcher<S> {
        let places = watches.iter().map(Watch::places).max().unwrap_or(0);
        Watcher {
            satellite: fresh.clone(),
            fresh,
            watches: watches.to_vec(),
            firsts: vec![0; places],
            lasts: vec![0; places],
        }
    }
}

impl<S: Opened + Clone> Timed for Watcher<S> {
    fn renew(&mut self) {
        self.satellite.clone_from(&self.fresh);
    }

    fn run(&mut self) {
        for watch in &self.watches {
            let windows = self.satellite.windows(black_box(watch), &mut self.firsts, &mut self.lasts);
            black_box((windows.expect("a lawful call"), &mut self.firsts, &mut self.lasts));
        }
    }
}

impl<E: Elementary> Opened for Satellite<E> {
    fn request(&mut self, micros: i64, room: &mut [f64; 6]) -> Told {
        tell(Satellite::request(self, micros), room)
    }

    fn list(&mut self, times: &[i64], rows: &mut [Row]) -> Result<u64, u8> {
        Satellite::list(self, times, rows)
    }

    fn windows(&mut self, watch: &Watch, firsts: &mut [u64], lasts: &mut [u64]) -> Result<(usize, u64), u8> {
        Satellite::windows(self, watch, firsts, lasts)
    }

    fn epoch(&self) -> u64 {
        self.epoch
    }

    fn saved(&self) -> Option<Saved> {
        Some(self.saved)
    }

    fn hand(&mut self, saved: Saved) {
        self.saved = saved;
    }

    fn hand_epoch(&mut self, epoch: u64) {
        self.epoch = epoch;
    }
}

/// The port in 002's own way: its integrator starts at the epoch for every
/// time, and the strides are counted from the times alone, as document 01 says.
pub struct Restarting<E = Document>(Port<E>);

impl<E> Restarting<E> {
    pub const fn new() -> Restarting<E> {
        Restarting(Port::new())
    }
}

impl<E> Default for Restarting<E> {
    fn default() -> Self {
        Restarting::new()
    }
}

#[derive(Clone, Copy)]
struct RestartingSatellite<E> {
    satellite: Satellite<E>,
    /// The last in-range time of the sequence so far.
    last: Option<i64>,
}

impl<E: Elementary + Copy + 'static> Library for Restarting<E> {
    fn name(&self) -> String {
        format!("port restarting ({})", E::NAME)
    }

    fn read(&self, line1: &[u8], line2: &[u8]) -> Result<(), Refusal> {
        self.0.read(line1, line2)
    }

    fn checksum(&self, bytes: &[u8]) -> u8 {
        self.0.checksum(bytes)
    }

    fn print(&self, line1: &[u8], line2: &[u8]) -> Vec<u8> {
        self.0.print(line1, line2)
    }

    fn form(&self, line1: &[u8], line2: &[u8], room: &mut [i64]) -> Result<(), Unopened> {
        self.0.form(line1, line2, room)
    }

    fn meaning(&self, numbers: &[i64]) -> Result<(), Unopened> {
        self.0.meaning(numbers)
    }

    fn record(&self, line1: &[u8], line2: &[u8]) -> Result<Record, Refusal> {
        self.0.record(line1, line2)
    }

    fn write(&self, record: &Record, which: u8, room: &mut [u8]) -> Result<(), u8> {
        self.0.write(record, which, room)
    }

    fn lodge(
        &self,
        roster: &mut [u8],
        row: &mut [u64],
        line1: &[u8],
        line2: &[u8],
    ) -> Result<(), roster::Refusal> {
        self.0.lodge(roster, row, line1, line2)
    }

    fn withdraw(&self, roster: &mut [u8], row: &mut [u64], number: u64) -> Result<(), u8> {
        self.0.withdraw(roster, row, number)
    }

    fn report(&self, text: &[u8], room: &mut [u64]) -> Result<(), u8> {
        self.0.report(text, room)
    }

    fn fill_row(&self, roster: &[u8], row: &mut [u64]) -> Result<(), u8> {
        self.0.fill_row(roster, row)
    }

    fn changes(&self, first: Lent, second: Lent, room: &mut [u8]) -> Result<usize, (u8, u8)> {
        self.0.changes(first, second, room)
    }

    fn epoch(&self, line1: &[u8], line2: &[u8]) -> Result<u64, Refusal> {
        self.0.epoch(line1, line2)
    }

    fn open(&self, line1: &[u8], line2: &[u8]) -> Result<Box<dyn Opened>, Unopened> {
        Ok(Box::new(RestartingSatellite { satellite: opened::<E>(line1, line2)?, last: None }))
    }

    fn reader(&self, line1: &[u8], line2: &[u8]) -> Box<dyn Timed> {
        self.0.reader(line1, line2)
    }

    fn ager(&self, roster: &[u8]) -> Box<dyn Timed> {
        self.0.ager(roster)
    }

    fn lodger(&self, roster: &[u8], line1: &[u8], line2: &[u8]) -> Box<dyn Timed> {
        self.0.lodger(roster, line1, line2)
    }

    fn reporter(&self, text: &[u8]) -> Box<dyn Timed> {
        self.0.reporter(text)
    }

    fn comparer(&self, first: &[u8], second: &[u8]) -> Box<dyn Timed> {
        self.0.comparer(first, second)
    }

    fn opener(&self, line1: &[u8], line2: &[u8]) -> Box<dyn Timed> {
        self.0.opener(line1, line2)
    }

    fn lister(&self, line1: &[u8], line2: &[u8], times: &[i64]) -> Box<dyn Timed> {
        let satellite = opened::<E>(line1, line2).expect("a pair that opens");
        let fresh = RestartingSatellite { satellite, last: None };
        Box::new(Lister {
            satellite: fresh,
            fresh,
            times: times.to_vec(),
            rows: vec![Row::EMPTY; times.len()],
        })
    }

    fn watcher(&self, line1: &[u8], line2: &[u8], watches: &[Watch]) -> Box<dyn Timed> {
        let satellite = opened::<E>(line1, line2).expect("a pair that opens");
        Box::new(Watcher::of(RestartingSatellite { satellite, last: None }, watches))
    }
}

impl<E: Elementary> RestartingSatellite<E> {
    fn strides_to(&self, micros: i64) -> u64 {
        if self.satellite.satrec.irez == 0 {
            0
        } else {
            micros.unsigned_abs() / STRIDE as u64
        }
    }

    /// m less the m of the last in-range time, if that is no larger and either
    /// is 0 or belongs to a time on the same side; otherwise m.
    fn count(&mut self, micros: i64) -> u64 {
        if !(-SPAN_LIMIT..=SPAN_LIMIT).contains(&micros) {
            return 0;
        }
        let m = self.strides_to(micros);
        let saved = match self.last.replace(micros) {
            Some(last) => {
                let before = self.strides_to(last);
                let same_side = (last < 0) == (micros < 0);
                if before <= m && (before == 0 || same_side) {
                    before
                } else {
                    0
                }
            }
            None => 0,
        };
        m - saved
    }

    fn row(&mut self, micros: i64) -> (Row, u64) {
        (self.satellite.request_restarting(micros), self.count(micros))
    }
}

impl<E: Elementary> Opened for RestartingSatellite<E> {
    fn request(&mut self, micros: i64, room: &mut [f64; 6]) -> Told {
        tell(self.row(micros), room)
    }

    fn list(&mut self, times: &[i64], rows: &mut [Row]) -> Result<u64, u8> {
        list_by(times, rows, |micros| self.row(micros))
    }

    fn windows(&mut self, watch: &Watch, firsts: &mut [u64], lasts: &mut [u64]) -> Result<(usize, u64), u8> {
        let epoch = self.satellite.epoch;
        windows_by::<E>(watch, epoch, firsts, lasts, |micros| self.row(micros))
    }

    fn epoch(&self) -> u64 {
        self.satellite.epoch
    }

    fn saved(&self) -> Option<Saved> {
        None
    }

    fn hand(&mut self, _: Saved) {
        unreachable!("it keeps no position")
    }

    fn hand_epoch(&mut self, epoch: u64) {
        self.satellite.epoch = epoch;
    }
}
