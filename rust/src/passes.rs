//! Passes of a satellite over a station, and where it stands in the station's sky.

use crate::ffi;
use crate::refusal::{Answer as Packed, Refusal};
use crate::{Instant, Satellite};
use std::fmt;
use std::iter::FusedIterator;

/// A station on the WGS-84 ellipsoid.
#[derive(Clone, Copy, Debug, PartialEq)]
pub struct Station {
    /// Geodetic latitude in degrees, -90 to 90, positive to the north.
    pub latitude: f64,
    /// Longitude in degrees, -180 to 360, positive to the east.
    pub longitude: f64,
    /// Height above the ellipsoid in metres, -10,000 to 100,000.
    pub height: f64,
}

/// A pass: a run of samples above a least elevation, its edges refined to the microsecond.
#[derive(Clone, Copy, Debug, PartialEq, Eq)]
pub struct Pass {
    /// Above, and a microsecond before not; the first sample where the pass had `begun`.
    pub rise: Instant,
    /// The highest point, sought to a millisecond.
    pub highest: Instant,
    /// Above, and a microsecond after not; the last sample where the pass was `still` going on.
    pub set: Instant,
    /// Whether it was above at the first sample of all.
    pub begun: bool,
    /// Whether it was above at the last.
    pub still: bool,
    /// Where the next call goes on, and with how many samples.
    pub next: Instant,
    pub left: u32,
}

/// Where a satellite stands, seen from a station.
#[derive(Clone, Copy, Debug, PartialEq)]
pub struct Look {
    /// Degrees from north by east, 0 to 360.
    pub azimuth: f64,
    /// Degrees above the plane across the ellipsoid's normal, without refraction.
    pub elevation: f64,
    /// Distance in km.
    pub range: f64,
}

/// Why there is no [`Look`].
#[derive(Clone, Copy, Debug, PartialEq, Eq, Hash)]
pub enum Unseen {
    /// 6: the instant, or the epoch that the satellite keeps, lies outside 1957-2056.
    Outside,
    /// 25, 17, or the refusal of the row, 9 to 15.
    Refused(Refusal),
}

impl Unseen {
    /// The refusal's number.
    pub const fn number(self) -> u8 {
        match self {
            Unseen::Outside => 6,
            Unseen::Refused(refusal) => refusal.number(),
        }
    }
}

impl fmt::Display for Unseen {
    fn fmt(&self, f: &mut fmt::Formatter<'_>) -> fmt::Result {
        match self {
            Unseen::Outside => f.write_str("refusal 6: an instant outside 1957-2056"),
            Unseen::Refused(refusal) => refusal.fmt(f),
        }
    }
}

impl std::error::Error for Unseen {}

/// What a pass has beside its instants.
#[derive(Clone, Copy, Debug, PartialEq, Eq)]
pub struct Found {
    pub begun: bool,
    pub still: bool,
    pub left: u32,
}

impl Satellite {
    /// Instants of a pass in lent memory: rise, highest point, set, and where the next call goes on.
    pub const PASS: usize = 4;

    /// Numbers of a look in lent memory: azimuth, elevation, range.
    pub const LOOK: usize = 3;

    /// The first pass above a least elevation in degrees, among samples a step of whole seconds apart;
    /// none where no sample is above. The satellite stays as it was. Up is the ellipsoid's normal; a pass
    /// that falls between two samples is not seen. A sample that is refused is not above, and samples end
    /// with the calendar.
    ///
    /// Refused with 25 where the station is none or the least elevation is not from 0 to 90, and with 26
    /// where the step is 0 or more than [`STEP_LIMIT`](Self::STEP_LIMIT).
    pub fn next_pass(
        &self,
        station: Station,
        least: f64,
        start: Instant,
        step: u64,
        samples: u32,
    ) -> Result<Option<Pass>, Refusal> {
        let Station { latitude, longitude, height } = station;
        let mut instants = [0; Self::PASS];
        let lent = [latitude, longitude, height, least];
        let found = self.next_pass_into(&lent, start, step, samples, &mut instants)?;
        let [rise, highest, set, next] = instants.map(Instant);
        Ok(found.map(|Found { begun, still, left }| Pass { rise, highest, set, begun, still, next, left }))
    }

    /// The same with lent memory: the station as latitude, longitude, height and least elevation, a room
    /// for the instants, [`PASS`](Self::PASS) at its front; it stays where there is no pass. Refused with
    /// 25 where the station has fewer than four elements, and with 17, last, where the room is too short.
    pub fn next_pass_into(
        &self,
        station: &[f64],
        start: Instant,
        step: u64,
        samples: u32,
        pass: &mut [u64],
    ) -> Result<Option<Found>, Refusal> {
        let (numbers, marks) = self.memory();
        Packed(ffi::next_pass(numbers, marks, station, start.0, step, samples, pass)).passed()
    }

    /// All passes among the samples, one after the other; refused as [`next_pass`](Self::next_pass) is.
    ///
    /// ```
    /// use saddlekerf::{Date, Instant, Refusal, Satellite, Station};
    ///
    /// # fn main() -> Result<(), Refusal> {
    /// let line1 = b"1 06251U 62025E   06176.82412014  .00008885  00000-0  12808-3 0  3985";
    /// let line2 = b"2 06251  58.0579  54.0425 0030035 139.1568 221.1854 15.56387291  6774";
    /// let satellite = Satellite::open(line1, line2)?;
    /// let greenwich = Station { latitude: 51.4779, longitude: -0.0015, height: 46.0 };
    /// // Two days of minutes, above 10 degrees.
    /// let passes: Vec<_> = satellite.passes(greenwich, 10.0, satellite.epoch(), 60, 2880)?.collect();
    /// assert_eq!(passes.len(), 11);
    /// let rise = Instant::from_date(Date { year: 2006, day: 177, microseconds: 41_048_489_641 });
    /// assert_eq!(Some(passes[0].rise), rise);
    /// let look = satellite.look(greenwich, passes[0].highest).unwrap();
    /// assert!(look.elevation > 10.0);
    /// assert_eq!(satellite.passes(greenwich, 91.0, satellite.epoch(), 60, 2880).err(), Some(Refusal::Station));
    /// # Ok(())
    /// # }
    /// ```
    pub fn passes(
        &self,
        station: Station,
        least: f64,
        start: Instant,
        step: u64,
        samples: u32,
    ) -> Result<Passes<'_>, Refusal> {
        self.next_pass(station, least, start, step, 0)?;
        Ok(Passes { satellite: self, station, least, step, next: start, left: samples })
    }

    /// Azimuth, elevation and range at an instant. The satellite stays as it was.
    pub fn look(&self, station: Station, instant: Instant) -> Result<Look, Unseen> {
        let Station { latitude, longitude, height } = station;
        let mut look = [0.0; Self::LOOK];
        self.look_into(&[latitude, longitude, height], instant, &mut look)?;
        let [azimuth, elevation, range] = look;
        Ok(Look { azimuth, elevation, range })
    }

    /// The same with lent memory: the station as latitude, longitude and height, a room with
    /// [`LOOK`](Self::LOOK) numbers at its front; it stays where the look is refused. Refused with 25
    /// where the station has fewer than three elements, then with 17 where the room is too short.
    pub fn look_into(&self, station: &[f64], instant: Instant, look: &mut [f64]) -> Result<(), Unseen> {
        let (numbers, marks) = self.memory();
        Packed(ffi::look(numbers, marks, station, instant.0, look)).seen()
    }
}

/// The passes of a satellite, each found as it is asked for.
#[derive(Clone, Debug)]
pub struct Passes<'a> {
    satellite: &'a Satellite,
    station: Station,
    least: f64,
    step: u64,
    next: Instant,
    left: u32,
}

impl Iterator for Passes<'_> {
    type Item = Pass;

    fn next(&mut self) -> Option<Pass> {
        let Passes { satellite, station, least, step, next, left } = *self;
        let found = satellite.next_pass(station, least, next, step, left);
        let pass = found.expect("a call that was not refused before");
        self.left = pass.map_or(0, |pass| pass.left);
        self.next = pass.map_or(next, |pass| pass.next);
        pass
    }
}

impl FusedIterator for Passes<'_> {}
