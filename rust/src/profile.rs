//! The dish controller's profile: near-Earth satellites, from the epoch to 30 days after it.
//!
//! What it answers has the same bits as the full library's answer. It comes from an archive of its own,
//! which `./archive saddlekerf_profile` writes; the package's feature `profile` links it.

use crate::ffi::profile as ffi;
use crate::refusal::{Answer as Packed, Refusal};
use crate::{Microseconds, Rooms, Row, Rows, State, Strides};

/// The latest time: 30 days.
pub const TIME_LIMIT: Microseconds = Microseconds(2_592_000_000_000);

/// A near-Earth satellite, in 312 bytes.
#[derive(Clone, Debug)]
pub struct Satellite {
    numbers: [f64; ffi::NUMBERS],
    marks: [u32; ffi::MARKS],
}

impl Satellite {
    /// Elements of a satellite's memory: the front of a [`crate::Satellite`]'s.
    pub const NUMBERS: usize = ffi::NUMBERS;
    pub const MARKS: usize = ffi::MARKS;

    /// Reads and opens two lines; or a refusal 1 to 7, 32 for a period of 225 minutes or more, or 8.
    ///
    /// ```
    /// use saddlekerf::{profile, Microseconds, Refusal};
    ///
    /// # fn main() -> Result<(), Refusal> {
    /// let line1 = b"1 00005U 58002B   00179.78495062  .00000023  00000-0  28098-4 0  4753";
    /// let line2 = b"2 00005  34.2682 348.7242 1859667 331.7664  19.3264 10.82419157413667";
    /// let mut satellite = profile::Satellite::open(line1, line2)?;
    /// let mut full = saddlekerf::Satellite::open(line1, line2)?;
    /// let time = Microseconds::from_minutes(360);
    /// assert_eq!(satellite.at(time), full.at(time));
    /// assert_eq!(satellite.at(Microseconds(-1)), Err(Refusal::ProfileTime));
    ///
    /// let line1 = b"1 24208U 96044A   06177.04061740 -.00000094  00000-0  10000-3 0  1600";
    /// let line2 = b"2 24208   3.8536  80.0121 0026640 311.0977  48.3000  1.00778054 36119";
    /// assert_eq!(profile::Satellite::open(line1, line2).unwrap_err(), Refusal::DeepSpace);
    /// # Ok(())
    /// # }
    /// ```
    pub fn open(line1: &[u8], line2: &[u8]) -> Result<Satellite, Refusal> {
        let mut satellite = Satellite { numbers: [0.0; ffi::NUMBERS], marks: [0; ffi::MARKS] };
        satellite.reopen(line1, line2)?;
        Ok(satellite)
    }

    /// Opens other lines in this satellite's memory. Where they are refused it stays as it was.
    pub fn reopen(&mut self, line1: &[u8], line2: &[u8]) -> Result<(), Refusal> {
        Packed(ffi::open(line1, line2, &mut self.numbers, &mut self.marks)).plain()
    }

    /// The satellite that numbers and marks hold, whoever wrote them: the front of a full satellite's, too.
    /// One that is deep space or resonant refuses every request with 32.
    pub fn from_memory(numbers: [f64; ffi::NUMBERS], marks: [u32; ffi::MARKS]) -> Satellite {
        Satellite { numbers, marks }
    }

    /// Its numbers and marks.
    pub fn memory(&self) -> (&[f64; ffi::NUMBERS], &[u32; ffi::MARKS]) {
        (&self.numbers, &self.marks)
    }

    /// Position and velocity at a time since the epoch; or a refusal 32, 33 or 10 to 15.
    pub fn at(&mut self, time: Microseconds) -> Result<State, Refusal> {
        self.request(time).map(|row| row.state)
    }

    /// Asks for one time.
    pub fn request(&mut self, time: Microseconds) -> Result<Row, Refusal> {
        let mut state = State::default();
        let rounds = self.request_into(time, &mut state)?;
        Ok(Row { state, rounds })
    }

    /// Asks for one time, with memory lent for its state: the Kepler rounds, or a refusal, which leaves the
    /// memory as it was, but for the bits of a NaN.
    pub fn request_into(&mut self, time: Microseconds, state: &mut State) -> Result<u8, Refusal> {
        let mut room = [0.0; 6];
        let answer = Packed(ffi::request(&mut self.numbers, &mut self.marks, time, &mut room));
        let (rounds, strides) = answer.asked();
        assert_eq!(strides, 0, "the profile takes no strides");
        if rounds.is_ok() {
            let [x, y, z, vx, vy, vz] = room;
            *state = State { position: [x, y, z], velocity: [vx, vy, vz] };
        }
        rounds
    }

    /// Asks for a list of times, in order: a row for each to the front of the rooms. A row of 33 is refused as
    /// others are, and the list goes on. The list as a whole is refused with 32, 18 and 17, in this order.
    pub fn list<'r>(
        &mut self,
        times: &[Microseconds],
        rooms: &'r mut Rooms<'_>,
    ) -> Result<Rows<'r>, Refusal> {
        let Rooms { refusals, states, rounds } = rooms;
        let answer =
            Packed(ffi::request_list(&mut self.numbers, &mut self.marks, times, refusals, states, rounds));
        answer.plain()?;
        Ok(Rows::of(rooms, times.len(), Strides(0)))
    }
}
