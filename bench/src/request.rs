//! Satellites and requests (document 01, "Steps of the model" and "Refusal numbers").

use crate::elementary::{Document, Elementary};
use crate::instant::{self, SPAN_LIMIT};
use crate::sgp4::{self, Elements, Position, Satrec, State};
use crate::tle::Record;
use crate::windows::{self, Watch};
use std::marker::PhantomData;

/// Microseconds in a stride.
pub const STRIDE: i64 = 43_200_000_000;
/// A list has at most this many times.
pub const LIST_LIMIT: usize = 1024;

/// A side of the epoch, a stride number and the integrated pair.
#[derive(Clone, Copy, Debug)]
pub struct Saved {
    pub forward: bool,
    pub stride: u64,
    pub xli: f64,
    pub xni: f64,
}

impl Saved {
    fn at(&self) -> Position {
        let minutes = self.stride as f64 * sgp4::STEPP;
        Position { atime: if self.forward { minutes } else { -minutes }, xli: self.xli, xni: self.xni }
    }

    /// All NaNs count as one.
    pub fn same(&self, other: &Saved) -> bool {
        let same = |a: f64, b: f64| a.to_bits() == b.to_bits() || (a.is_nan() && b.is_nan());
        self.forward == other.forward
            && self.stride == other.stride
            && same(self.xli, other.xli)
            && same(self.xni, other.xni)
    }
}

/// A refusal number, or 0 with position, velocity and Kepler rounds.
#[derive(Clone, Copy, Debug, PartialEq)]
pub struct Row {
    pub refusal: u8,
    pub r: [f64; 3],
    pub v: [f64; 3],
    pub rounds: u32,
}

impl Row {
    pub const EMPTY: Row = Row { refusal: 0, r: [0.0; 3], v: [0.0; 3], rounds: 0 };

    fn of(state: Result<State, u8>) -> Row {
        match state {
            Ok(State { r, v, rounds }) => Row { refusal: 0, r, v, rounds },
            Err(refusal) => Row { refusal, ..Row::EMPTY },
        }
    }

    /// Equal bit for bit.
    pub fn same(&self, other: &Row) -> bool {
        let bits = |row: &Row| {
            let [x, y, z] = row.r.map(f64::to_bits);
            let [vx, vy, vz] = row.v.map(f64::to_bits);
            (row.refusal, row.rounds, [x, y, z, vx, vy, vz])
        };
        bits(self) == bits(other)
    }
}

/// An opened satellite, computing with the elementary functions of E.
#[derive(Clone, Copy, Debug)]
pub struct Satellite<E = Document> {
    pub satrec: Satrec,
    /// The epoch instant.
    pub epoch: u64,
    pub saved: Saved,
    mode: PhantomData<E>,
}

impl<E: Elementary> Satellite<E> {
    /// Opens a record, or refuses with 16, 7, 8.
    pub fn open(record: &Record) -> Result<Satellite<E>, u8> {
        if !record.lawful() {
            return Err(16);
        }
        let satrec = sgp4::sgp4init::<E>(&Elements::of(record))?;
        let mut satellite = Satellite {
            satrec,
            epoch: record.epoch() as u64,
            saved: Saved { forward: true, stride: 0, xli: 0.0, xni: 0.0 },
            mode: PhantomData,
        };
        satellite.saved = satellite.epoch_position();
        Ok(satellite)
    }

    fn epoch_position(&self) -> Saved {
        let Position { xli, xni, .. } = self.satrec.at_epoch();
        Saved { forward: true, stride: 0, xli, xni }
    }

    /// The strides a time needs: the whole number of them in its distance.
    fn strides_to(&self, micros: i64) -> u64 {
        if self.satrec.irez == 0 {
            0
        } else {
            micros.unsigned_abs() / STRIDE as u64
        }
    }

    /// Brings the saved position to that of the time; gives the strides taken.
    fn advance(&mut self, micros: i64) -> u64 {
        let m = self.strides_to(micros);
        let forward = m == 0 || micros > 0;
        let resumes = (self.saved.stride == 0 || self.saved.forward == forward) && m >= self.saved.stride;
        let start = if resumes { self.saved } else { self.epoch_position() };
        let mut at = start.at();
        for _ in start.stride..m {
            at = sgp4::stride::<E>(&self.satrec, &at, forward);
        }
        self.saved = Saved { forward, stride: m, xli: at.xli, xni: at.xni };
        m - start.stride
    }

    /// One time: its row, and the strides taken.
    pub fn request(&mut self, micros: i64) -> (Row, u64) {
        if !(-SPAN_LIMIT..=SPAN_LIMIT).contains(&micros) {
            return (Row::of(Err(9)), 0);
        }
        let strides = self.advance(micros);
        let state = sgp4::sgp4::<E>(&self.satrec, instant::minutes(micros), &self.saved.at());
        (Row::of(state), strides)
    }

    /// A list of times: a row for each, and the strides taken; or 18, 17.
    pub fn list(&mut self, times: &[i64], rows: &mut [Row]) -> Result<u64, u8> {
        list_by(times, rows, |micros| self.request(micros))
    }

    /// Windows above a station: how many, and the strides taken; or 25, 26, 18, 17.
    pub fn windows(
        &mut self,
        watch: &Watch,
        firsts: &mut [u64],
        lasts: &mut [u64],
    ) -> Result<(usize, u64), u8> {
        windows::windows_by::<E>(watch, self.epoch, firsts, lasts, |micros| self.request(micros))
    }

    /// 002's own way: the integrator starts at the epoch for every time.
    pub fn request_restarting(&self, micros: i64) -> Row {
        if !(-SPAN_LIMIT..=SPAN_LIMIT).contains(&micros) {
            return Row::of(Err(9));
        }
        let t = instant::minutes(micros);
        let at = sgp4::epoch_restart::<E>(&self.satrec, t);
        Row::of(sgp4::sgp4::<E>(&self.satrec, t, &at))
    }
}

/// A list, time by time: a row for each, and the strides of all; or 18, 17.
pub fn list_by(times: &[i64], rows: &mut [Row], mut one: impl FnMut(i64) -> (Row, u64)) -> Result<u64, u8> {
    if times.len() > LIST_LIMIT {
        return Err(18);
    }
    if rows.len() < times.len() {
        return Err(17);
    }
    let mut sum = 0;
    for (row, &micros) in rows.iter_mut().zip(times) {
        let (answer, strides) = one(micros);
        *row = answer;
        sum += strides;
    }
    Ok(sum)
}
