//! An opened satellite, and requests to it.

use crate::ffi;
use crate::refusal::{Answer as Packed, Refusal};
use crate::{best_order, Instant, Microseconds, Strides};

/// Position and velocity in SGP4's own frame: true equator, mean equinox (TEME).
#[derive(Clone, Copy, Debug, Default, PartialEq)]
#[repr(C)]
pub struct State {
    /// x, y, z in km.
    pub position: [f64; 3],
    /// x, y, z in km/s.
    pub velocity: [f64; 3],
}

/// What a time that is not refused gives.
#[derive(Clone, Copy, Debug, PartialEq)]
pub struct Row {
    pub state: State,
    /// Rounds that Kepler's equation took, 1 to 10.
    pub rounds: u8,
}

/// The answer to one time.
#[derive(Clone, Copy, Debug, PartialEq)]
pub struct Answer {
    /// The row, or a refusal 9 to 15.
    pub row: Result<Row, Refusal>,
    /// Strides that the resonance integrator took for it, refused or not.
    pub strides: Strides,
}

/// Memory that a caller lends for the rows of a list: an element for each row in each of the three.
///
/// Row i of a list is `refusals[i]` (0 when answered), `states[i]` and `rounds[i]`; a refused row has
/// a zero state and no rounds. What lies past a list's last row, and all of it where the list is
/// refused, stays as it was, but for the bits of a NaN (see the [crate's notes](crate#memory)).
#[derive(Debug)]
pub struct Rooms<'a> {
    pub refusals: &'a mut [u8],
    pub states: &'a mut [State],
    pub rounds: &'a mut [u8],
}

/// The rows of a list that was answered, in the rooms lent for them. A list that is refused has none.
#[derive(Clone, Copy, Debug)]
pub struct Rows<'a> {
    refusals: &'a [u8],
    states: &'a [State],
    rounds: &'a [u8],
    strides: Strides,
}

impl<'a> Rows<'a> {
    /// The rows at the front of the rooms.
    pub(crate) fn of(rooms: &'a Rooms<'_>, count: usize, strides: Strides) -> Rows<'a> {
        Rows {
            refusals: &rooms.refusals[..count],
            states: &rooms.states[..count],
            rounds: &rooms.rounds[..count],
            strides,
        }
    }

    /// One for each time of the list.
    pub fn len(&self) -> usize {
        self.refusals.len()
    }

    pub fn is_empty(&self) -> bool {
        self.refusals.is_empty()
    }

    /// Strides that the resonance integrator took for all of them together.
    pub fn strides(&self) -> Strides {
        self.strides
    }

    /// The row of the list's time `index`; or its refusal, 9 to 15.
    ///
    /// # Panics
    ///
    /// Where the list has no such time.
    pub fn row(&self, index: usize) -> Result<Row, Refusal> {
        match self.refusals[index] {
            0 => Ok(Row { state: self.states[index], rounds: self.rounds[index] }),
            number => Err(Refusal::of_row(number).unwrap_or_else(|| foreign(number))),
        }
    }

    /// All rows, in the list's order.
    pub fn iter(&self) -> impl ExactSizeIterator<Item = Result<Row, Refusal>> + '_ {
        (0..self.len()).map(|index| self.row(index))
    }
}

/// Only an archive of another header writes such a row.
#[cold]
fn foreign(number: u8) -> ! {
    panic!("libsaddlekerf.a refused a row with {number}, which saddlekerf.h does not have")
}

/// A run of visible samples that cannot be made longer, as the instants of its first and its last sample.
#[derive(Clone, Copy, Debug, PartialEq, Eq)]
pub struct Window {
    pub first: Instant,
    pub last: Instant,
}

/// The windows of a satellite above a station, in time order.
#[derive(Clone, Debug, PartialEq, Eq)]
pub struct Windows {
    pub windows: Vec<Window>,
    /// Strides that the resonance integrator took for all samples together.
    pub strides: Strides,
}

/// A satellite opened from two lines.
///
/// It keeps the place of its resonance integrator between requests, which shortens the way and never
/// changes a number: every row is the one that a satellite newly opened and asked only that time
/// would give. A clone is asked on its own.
#[derive(Clone, Debug)]
pub struct Satellite {
    numbers: [f64; ffi::NUMBERS],
    marks: [u32; ffi::MARKS],
}

impl Satellite {
    /// Elements of a satellite's memory.
    pub const NUMBERS: usize = ffi::NUMBERS;
    pub const MARKS: usize = ffi::MARKS;

    /// The most times of one list.
    pub const LIST_LIMIT: usize = 1024;

    /// The most samples of one call for windows, and its longest step in seconds.
    pub const SAMPLES_LIMIT: usize = 1024;
    pub const STEP_LIMIT: u64 = 86_400;

    /// Reads and opens two lines; or a refusal 1 to 8.
    ///
    /// ```
    /// use saddlekerf::Satellite;
    ///
    /// let line1 = b"1 00005U 58002B   00179.78495062  .00000023  00000-0  28098-4 0  4753";
    /// let line2 = b"2 00005  34.2682 348.7242 1859667 331.7664  19.3264 10.82419157413667";
    /// assert!(Satellite::open(line1, line2).is_ok());
    /// assert_eq!(Satellite::open(line1, line1).unwrap_err().number(), 2);
    /// ```
    pub fn open(line1: &[u8], line2: &[u8]) -> Result<Satellite, Refusal> {
        let mut satellite = Satellite { numbers: [0.0; ffi::NUMBERS], marks: [0; ffi::MARKS] };
        satellite.reopen(line1, line2)?;
        Ok(satellite)
    }

    /// Opens other lines in this satellite's memory. Where they are refused it stays as it was.
    pub fn reopen(&mut self, line1: &[u8], line2: &[u8]) -> Result<(), Refusal> {
        Packed(ffi::open(line1, line2, &mut self.numbers, &mut self.marks)).plain()
    }

    /// Position and velocity at a time since the epoch; or a refusal 9 to 15.
    pub fn at(&mut self, time: Microseconds) -> Result<State, Refusal> {
        self.request(time).row.map(|row| row.state)
    }

    /// Asks for one time: its row and the strides taken.
    pub fn request(&mut self, time: Microseconds) -> Answer {
        let mut state = State::default();
        let (rounds, strides) = self.request_into(time, &mut state);
        Answer { row: rounds.map(|rounds| Row { state, rounds }), strides }
    }

    /// Asks for one time, with memory lent for its state: the Kepler rounds or a refusal, and the
    /// strides. A refused time leaves the memory as it was, but for the bits of a NaN.
    pub fn request_into(&mut self, time: Microseconds, state: &mut State) -> (Result<u8, Refusal>, Strides) {
        let answer = Packed(ffi::request(&mut self.numbers, &mut self.marks, time, state));
        let (rounds, strides) = answer.asked();
        (rounds, Strides(strides))
    }

    /// Asks for a list of times, in order: a row for each to the front of the rooms. Rows are refused
    /// one by one, and the list goes on.
    ///
    /// The list as a whole is refused with 18 where it has more than [`LIST_LIMIT`](Self::LIST_LIMIT)
    /// times and with 17 where a room is too short; then nothing is written and the satellite stays
    /// as it was.
    pub fn list<'r>(
        &mut self,
        times: &[Microseconds],
        rooms: &'r mut Rooms<'_>,
    ) -> Result<Rows<'r>, Refusal> {
        let Rooms { refusals, states, rounds } = rooms;
        let answer =
            Packed(ffi::request_list(&mut self.numbers, &mut self.marks, times, refusals, states, rounds));
        let strides = Strides(answer.counted()?);
        Ok(Rows::of(rooms, times.len(), strides))
    }

    /// Asks for a list of times in the best order ([`best_order`]) and hands the rows back in the
    /// list's own: of a satellite of lines the same rows, bit for bit, as [`list`](Self::list), and of
    /// one newly opened for the fewest strides that any order takes. The list is refused as by `list`.
    ///
    /// ```
    /// use saddlekerf::{Microseconds, Refusal, Rooms, Satellite, State, Strides};
    ///
    /// # fn main() -> Result<(), Refusal> {
    /// let line1 = b"1 08195U 75081A   06176.33215444  .00000099  00000-0  11873-3 0   813";
    /// let line2 = b"2 08195  64.1586 279.0717 6877146 264.7651  20.2257  2.00491383225656";
    /// let mut satellite = Satellite::open(line1, line2)?;
    /// let times = [2880, -720, 1440, 0].map(Microseconds::from_minutes);
    /// let mut rooms =
    ///     Rooms { refusals: &mut [0; 4], states: &mut [State::default(); 4], rounds: &mut [0; 4] };
    /// let rows = satellite.list_in_best_order(&times, &mut rooms)?;
    /// assert_eq!(rows.strides(), Strides(5));
    /// assert_eq!(rows.row(2)?.state, Satellite::open(line1, line2)?.at(times[2])?);
    /// # Ok(())
    /// # }
    /// ```
    pub fn list_in_best_order<'r>(
        &mut self,
        times: &[Microseconds],
        rooms: &'r mut Rooms<'_>,
    ) -> Result<Rows<'r>, Refusal> {
        let mut ordered = times.to_vec();
        best_order(&mut ordered);
        let strides = self.list(&ordered, rooms)?.strides();
        let Rooms { refusals, states, rounds } = rooms;
        let count = times.len();
        let rows: Vec<_> = (0..count).map(|place| (refusals[place], states[place], rounds[place])).collect();
        let side = |time: &Microseconds| (time.0 < 0, time.0.unsigned_abs());
        for (index, time) in times.iter().enumerate() {
            let place = ordered.binary_search_by_key(&side(time), side).expect("a time of the list");
            (refusals[index], states[index], rounds[index]) = rows[place];
        }
        Ok(Rows { refusals: &refusals[..count], states: &states[..count], rounds: &rounds[..count], strides })
    }

    /// The instant of the epoch, which the satellite keeps.
    pub fn epoch(&self) -> Instant {
        Instant((self.marks[5] as u64) << 32 | self.marks[4] as u64)
    }

    /// The windows above a station: its Earth-fixed position in km, the first sample's instant, the
    /// seconds from a sample to the next, and how many samples there are.
    ///
    /// A sample is visible where the satellite, turned into the Earth-fixed frame, stands above the
    /// plane through the station across its position. A sample that is refused ends a window: with 6
    /// outside 1957-2056, else as a row of a list.
    ///
    /// The call as a whole is refused with 25 where the station is zero or not finite, with 26 where
    /// the step is 0 or more than [`STEP_LIMIT`](Self::STEP_LIMIT), and with 18 where there are more
    /// than [`SAMPLES_LIMIT`](Self::SAMPLES_LIMIT) samples; then the satellite stays as it was.
    ///
    /// ```
    /// use saddlekerf::{Refusal, Satellite};
    ///
    /// # fn main() -> Result<(), Refusal> {
    /// # let line1 = b"1 00005U 58002B   00179.78495062  .00000023  00000-0  28098-4 0  4753";
    /// # let line2 = b"2 00005  34.2682 348.7242 1859667 331.7664  19.3264 10.82419157413667";
    /// let mut satellite = Satellite::open(line1, line2)?;
    /// let equator = [6378.135, 0.0, 0.0];
    /// let start = satellite.epoch();
    /// let day = satellite.windows(equator, start, 60, 1024)?;
    /// for window in &day.windows {
    ///     assert!(start <= window.first && window.first <= window.last);
    /// }
    /// assert_eq!(satellite.windows([0.0; 3], start, 60, 1024), Err(Refusal::Station));
    /// # Ok(())
    /// # }
    /// ```
    pub fn windows(
        &mut self,
        station: [f64; 3],
        start: Instant,
        step: u64,
        samples: usize,
    ) -> Result<Windows, Refusal> {
        let mut firsts = [0; Self::SAMPLES_LIMIT / 2];
        let mut lasts = [0; Self::SAMPLES_LIMIT / 2];
        let (count, strides) = self.windows_into(&station, start, step, samples, &mut firsts, &mut lasts)?;
        let pairs = firsts.iter().zip(&lasts).take(count);
        let windows =
            pairs.map(|(&first, &last)| Window { first: Instant(first), last: Instant(last) }).collect();
        Ok(Windows { windows, strides })
    }

    /// The same with memory lent for the windows: their first and last instants at the front of each,
    /// how many there are, and the strides. What lies past them stays. Half as many elements as
    /// samples, rounded up, are always enough; with fewer the call is refused with 17, after 18.
    pub fn windows_into(
        &mut self,
        station: &[f64],
        start: Instant,
        step: u64,
        samples: usize,
        firsts: &mut [u64],
        lasts: &mut [u64],
    ) -> Result<(usize, Strides), Refusal> {
        let Satellite { numbers, marks } = self;
        let answer = Packed(ffi::windows(numbers, marks, station, start.0, step, samples, firsts, lasts));
        let (count, strides) = answer.windowed()?;
        Ok((count as usize, Strides(strides)))
    }

    /// The satellite's memory: a copy of it is the same satellite, wherever it is kept. Requests
    /// change the saved place alone, which is the first two numbers (the integrated pair) and the
    /// first two marks (side of the epoch, 0 ahead; stride number). The last two marks are the low and
    /// the high half of the epoch's instant.
    pub fn memory(&self) -> (&[f64; ffi::NUMBERS], &[u32; ffi::MARKS]) {
        (&self.numbers, &self.marks)
    }

    /// A satellite of any memory. Only what [`open`](Self::open) wrote and requests changed is a
    /// satellite of lines; any other is asked by the same rules.
    pub fn from_memory(numbers: [f64; ffi::NUMBERS], marks: [u32; ffi::MARKS]) -> Satellite {
        Satellite { numbers, marks }
    }
}

#[cfg(test)]
mod tests {
    use super::*;

    const LINE1: &[u8] = b"1 00005U 58002B   00179.78495062  .00000023  00000-0  28098-4 0  4753";
    const LINE2: &[u8] = b"2 00005  34.2682 348.7242 1859667 331.7664  19.3264 10.82419157413667";

    /// Where `no` of the elements lies (crates/storage/specs/Storage.antt).
    const NO: usize = 7;

    fn bits(satellite: &Satellite) -> (Vec<u64>, [u32; ffi::MARKS]) {
        (satellite.numbers.iter().map(|x| x.to_bits()).collect(), satellite.marks)
    }

    /// No lines are known to lead to refusal 10; memory changed by hand does.
    #[test]
    fn no_mean_motion() {
        let mut satellite = Satellite::open(LINE1, LINE2).unwrap();
        assert!(satellite.numbers[NO] > 0.0);
        satellite.numbers[NO] = -satellite.numbers[NO];
        let times = [Microseconds(0), Microseconds(60_000_000), Microseconds(120_000_000)];
        assert_eq!(satellite.request(times[0]).row.unwrap_err().number(), 10);
        let before = State { position: [1.0; 3], velocity: [1.0; 3] };
        let (mut refusals, mut states, mut rounds) = ([7; 3], [before; 3], [7; 3]);
        let mut rooms = Rooms { refusals: &mut refusals, states: &mut states, rounds: &mut rounds };
        let rows = satellite.list(&times, &mut rooms).unwrap();
        assert!(rows.iter().all(|row| row == Err(Refusal::MeanMotion)));
        assert_eq!((refusals, states, rounds), ([10; 3], [State::default(); 3], [0; 3]));
    }

    /// A side mark that no call writes stays where the time is out of range, and only there.
    #[test]
    fn nothing_written_after_refusal_9() {
        let mut satellite = Satellite::open(LINE1, LINE2).unwrap();
        satellite.marks[0] = 7;
        let before = bits(&satellite);
        let late = Microseconds(315_532_800_000_001);
        assert_eq!(satellite.request(late).row.unwrap_err().number(), 9);
        assert_eq!(bits(&satellite), before);
        assert!(satellite.request(Microseconds(0)).row.is_ok());
        assert_ne!(bits(&satellite), before);
    }
}
