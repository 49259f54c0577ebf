//! The proved library, called over its C boundary by the safe wrapper in rust/.

use crate::changes::Lent;
use crate::library::{
    filled, Comparer, Library, Lodger, Opened, Reader, Reporter, Timed, Told, Unopened, Watcher,
    COMPARER_ROOM,
};
use crate::report::NUMBERS;
use crate::request::{Row, Saved};
use crate::roster;
use crate::tle::{self, Exponential};
use crate::windows::Watch;
use saddlekerf::{
    Field, Instant, Line, Microseconds, Record, Refusal, Rooms, Roster, Satellite, State, Uncompared,
};
use std::hint::black_box;

pub struct Proved;

fn line_number(line: Line) -> u8 {
    match line {
        Line::One => 1,
        Line::Two => 2,
    }
}

fn field(field: Field) -> tle::Field {
    match field {
        Field::Day => tle::Field::Day,
        Field::Inclination => tle::Field::Inclination,
        Field::Node => tle::Field::Node,
        Field::Perigee => tle::Field::Perigee,
        Field::Anomaly => tle::Field::Anomaly,
        Field::Motion => tle::Field::Motion,
    }
}

/// A refusal of reading or opening in the port's terms.
fn unopened(refusal: Refusal) -> Unopened {
    Unopened::Unread(match refusal {
        Refusal::Length { line } => tle::Refusal::Length { line: line_number(line) },
        Refusal::Start { line } => tle::Refusal::FirstColumn { line: line_number(line) },
        Refusal::Column { line, column } => tle::Refusal::Layout { line: line_number(line), column },
        Refusal::Checksum { line } => tle::Refusal::Checksum { line: line_number(line) },
        Refusal::Catalogue => tle::Refusal::Numbers,
        Refusal::Range { field: which } => tle::Refusal::Range(field(which)),
        other => return Unopened::Refused(other.number()),
    })
}

fn unread(refusal: Refusal) -> tle::Refusal {
    match unopened(refusal) {
        Unopened::Unread(refusal) => refusal,
        Unopened::Refused(number) => panic!("reading gives no refusal {number}"),
    }
}

fn unlodged(refusal: Refusal) -> roster::Refusal {
    match unopened(refusal) {
        Unopened::Unread(refusal) => roster::Refusal::Unread(refusal),
        Unopened::Refused(number) => roster::Refusal::Refused(number),
    }
}

fn exponential(x: saddlekerf::Exponential) -> Exponential {
    Exponential { mantissa: x.mantissa, exponent: x.exponent }
}

fn proved_exponential(x: Exponential) -> saddlekerf::Exponential {
    saddlekerf::Exponential { mantissa: x.mantissa, exponent: x.exponent }
}

const BLANK: [u8; 3] = *b"   ";

/// The library's record in the port's terms: the designator as its eight columns.
fn record(r: Record) -> tle::Record {
    let text = match (r.launch, r.piece) {
        (0, BLANK) => " ".repeat(8),
        (launch, piece) => format!("{launch:05}{}", piece.escape_ascii()),
    };
    tle::Record {
        number: r.number,
        classification: r.class,
        designator: text.as_bytes().try_into().expect("eight columns"),
        year: r.year,
        day: r.day,
        ndot: r.ndot,
        nddot: exponential(r.nddot),
        bstar: exponential(r.bstar),
        ephemeris: r.ephemeris_type,
        set: r.set,
        inclination: r.inclination,
        node: r.node,
        eccentricity: r.eccentricity,
        perigee: r.perigee,
        anomaly: r.anomaly,
        motion: r.motion,
        revolution: r.revolution,
    }
}

/// The port's record in the library's terms. A designator's first five columns are blank or digits.
fn proved_record(r: &tle::Record) -> Record {
    let (launch, piece) = r.designator.split_at(5);
    Record {
        number: r.number,
        class: r.classification,
        launch: launch.iter().fold(0, |n, &byte| 10 * n + (byte & 15) as u32),
        piece: piece.try_into().expect("three columns"),
        year: r.year,
        day: r.day,
        ndot: r.ndot,
        nddot: proved_exponential(r.nddot),
        bstar: proved_exponential(r.bstar),
        ephemeris_type: r.ephemeris,
        set: r.set,
        inclination: r.inclination,
        node: r.node,
        eccentricity: r.eccentricity,
        perigee: r.perigee,
        anomaly: r.anomaly,
        motion: r.motion,
        revolution: r.revolution,
    }
}

impl Library for Proved {
    fn name(&self) -> String {
        "proved library".to_string()
    }

    fn read(&self, line1: &[u8], line2: &[u8]) -> Result<(), tle::Refusal> {
        saddlekerf::read(line1, line2).map_err(unread)
    }

    fn checksum(&self, bytes: &[u8]) -> u8 {
        saddlekerf::checksum(bytes)
    }

    fn epoch(&self, line1: &[u8], line2: &[u8]) -> Result<u64, tle::Refusal> {
        saddlekerf::epoch(line1, line2).map(|instant| instant.0).map_err(unread)
    }

    fn print(&self, line1: &[u8], line2: &[u8]) -> Vec<u8> {
        saddlekerf::printed(line1, line2).into_bytes()
    }

    fn form(&self, line1: &[u8], line2: &[u8], room: &mut [i64]) -> Result<(), Unopened> {
        saddlekerf::form(line1, line2, room).map_err(unopened)
    }

    fn meaning(&self, numbers: &[i64]) -> Result<(), Unopened> {
        saddlekerf::meaning(numbers).map_err(unopened)
    }

    fn record(&self, line1: &[u8], line2: &[u8]) -> Result<tle::Record, tle::Refusal> {
        Record::read(line1, line2).map(record).map_err(unread)
    }

    fn write(&self, record: &tle::Record, which: u8, room: &mut [u8]) -> Result<(), u8> {
        let line = if which == 1 { Line::One } else { Line::Two };
        match proved_record(record).write_line(line, room) {
            Ok(written) => {
                assert_eq!(written.len(), Record::LINE);
                Ok(())
            }
            Err(refusal) => Err(refusal.number()),
        }
    }

    fn lodge(
        &self,
        roster: &mut [u8],
        row: &mut [u64],
        line1: &[u8],
        line2: &[u8],
    ) -> Result<(), roster::Refusal> {
        saddlekerf::lodge(roster, row, line1, line2).map_err(unlodged)
    }

    fn withdraw(&self, roster: &mut [u8], row: &mut [u64], number: u64) -> Result<(), u8> {
        saddlekerf::withdraw(roster, row, number).map_err(Refusal::number)
    }

    fn report(&self, text: &[u8], room: &mut [u64]) -> Result<(), u8> {
        saddlekerf::count_text(text, room).map_err(Refusal::number)
    }

    fn fill_row(&self, roster: &[u8], row: &mut [u64]) -> Result<(), u8> {
        saddlekerf::fill_row(roster, row).map_err(Refusal::number)
    }

    fn changes(&self, first: Lent, second: Lent, room: &mut [u8]) -> Result<usize, (u8, u8)> {
        let which = |refusal| match refusal {
            Uncompared::NoRoster(which) => (22, which as u8),
            Uncompared::Room => (17, 0),
        };
        saddlekerf::changes(first.0, first.1, second.0, second.1, room).map(|text| text.len()).map_err(which)
    }

    fn open(&self, line1: &[u8], line2: &[u8]) -> Result<Box<dyn Opened>, Unopened> {
        match Satellite::open(line1, line2) {
            Ok(satellite) => Ok(Box::new(satellite)),
            Err(refusal) => Err(unopened(refusal)),
        }
    }

    fn reader(&self, line1: &[u8], line2: &[u8]) -> Box<dyn Timed> {
        Box::new(Reader { line1: line1.to_vec(), line2: line2.to_vec(), read: saddlekerf::read })
    }

    fn lodger(&self, roster: &[u8], line1: &[u8], line2: &[u8]) -> Box<dyn Timed> {
        Box::new(Lodger {
            roster: roster.to_vec(),
            row: filled(roster),
            line1: line1.to_vec(),
            line2: line2.to_vec(),
            lodge: saddlekerf::lodge,
        })
    }

    fn reporter(&self, text: &[u8]) -> Box<dyn Timed> {
        Box::new(Reporter { text: text.to_vec(), room: [0; NUMBERS], report: saddlekerf::count_text })
    }

    fn ager(&self, roster: &[u8]) -> Box<dyn Timed> {
        let mut bytes = roster.to_vec();
        Box::new(Ager { roster: Roster::lent(&mut bytes).expect("a roster").copied() })
    }

    fn comparer(&self, first: &[u8], second: &[u8]) -> Box<dyn Timed> {
        Box::new(Comparer {
            first: (first.to_vec(), filled(first)),
            second: (second.to_vec(), filled(second)),
            room: vec![0; COMPARER_ROOM],
            changes: |first: Lent, second: Lent, room: &mut [u8]| {
                saddlekerf::changes(first.0, first.1, second.0, second.1, room).map(|text| text.len())
            },
        })
    }

    fn opener(&self, line1: &[u8], line2: &[u8]) -> Box<dyn Timed> {
        let satellite = Satellite::open(line1, line2).expect("a pair that opens");
        Box::new(Opener { line1: line1.to_vec(), line2: line2.to_vec(), satellite })
    }

    fn lister(&self, line1: &[u8], line2: &[u8], times: &[i64]) -> Box<dyn Timed> {
        let fresh = Satellite::open(line1, line2).expect("a pair that opens");
        Box::new(Lister {
            satellite: fresh.clone(),
            fresh,
            times: times.iter().copied().map(Microseconds).collect(),
            memory: Memory::of(&vec![Row::EMPTY; times.len()]),
        })
    }

    fn watcher(&self, line1: &[u8], line2: &[u8], watches: &[Watch]) -> Box<dyn Timed> {
        Box::new(Watcher::of(Satellite::open(line1, line2).expect("a pair that opens"), watches))
    }
}

/// The three rooms of a list's rows.
struct Memory {
    refusals: Vec<u8>,
    states: Vec<State>,
    rounds: Vec<u8>,
}

impl Memory {
    fn of(rows: &[Row]) -> Memory {
        Memory {
            refusals: rows.iter().map(|row| row.refusal).collect(),
            states: rows.iter().map(|row| State { position: row.r, velocity: row.v }).collect(),
            rounds: rows.iter().map(|row| row.rounds as u8).collect(),
        }
    }

    fn lend(&mut self) -> Rooms<'_> {
        Rooms { refusals: &mut self.refusals, states: &mut self.states, rounds: &mut self.rounds }
    }

    fn row(&self, place: usize) -> Row {
        let State { position, velocity } = self.states[place];
        Row { refusal: self.refusals[place], r: position, v: velocity, rounds: self.rounds[place] as u32 }
    }
}

/// Where the saved position lies in a satellite's memory (crates/storage/specs/Storage.antt).
const XLI: usize = 0;
const XNI: usize = 1;
const SIDE: usize = 0;
const STRIDE_NUMBER: usize = 1;
/// Where its epoch instant lies: the low 32 bits, then the high ones.
const EPOCH: usize = 4;

impl Opened for Satellite {
    /// The library's own memory throughout: the state lent to it is what comes back.
    fn request(&mut self, micros: i64, room: &mut [f64; 6]) -> Told {
        let [x, y, z, vx, vy, vz] = *room;
        let mut state = State { position: [x, y, z], velocity: [vx, vy, vz] };
        let (rounds, strides) = self.request_into(Microseconds(micros), &mut state);
        let ([x, y, z], [vx, vy, vz]) = (state.position, state.velocity);
        *room = [x, y, z, vx, vy, vz];
        let strides = strides.0 as u64;
        match rounds {
            Ok(rounds) => Told { refusal: 0, rounds: rounds as u32, strides },
            Err(refusal) => Told { refusal: refusal.number(), rounds: 0, strides },
        }
    }

    /// The rooms hold what the rows hold before and give all of them back, so that what is written
    /// past the last row, or by a list refused, is seen.
    fn list(&mut self, times: &[i64], rows: &mut [Row]) -> Result<u64, u8> {
        let times: Vec<Microseconds> = times.iter().copied().map(Microseconds).collect();
        let mut memory = Memory::of(rows);
        let answer = Satellite::list(self, &times, &mut memory.lend()).map(|listed| listed.strides());
        for (place, row) in rows.iter_mut().enumerate() {
            *row = memory.row(place);
        }
        answer.map(|strides| strides.0 as u64).map_err(Refusal::number)
    }

    fn windows(&mut self, watch: &Watch, firsts: &mut [u64], lasts: &mut [u64]) -> Result<(usize, u64), u8> {
        let Watch { station, start, step, samples } = watch;
        self.windows_into(station, Instant(*start), *step, *samples, firsts, lasts)
            .map(|(count, strides)| (count, strides.0 as u64))
            .map_err(Refusal::number)
    }

    fn epoch(&self) -> u64 {
        Satellite::epoch(self).0
    }

    fn saved(&self) -> Option<Saved> {
        let (numbers, marks) = self.memory();
        Some(Saved {
            forward: marks[SIDE] == 0,
            stride: marks[STRIDE_NUMBER] as u64,
            xli: numbers[XLI],
            xni: numbers[XNI],
        })
    }

    fn hand(&mut self, saved: Saved) {
        let (numbers, marks) = self.memory();
        let (mut numbers, mut marks) = (*numbers, *marks);
        (numbers[XLI], numbers[XNI]) = (saved.xli, saved.xni);
        marks[SIDE] = if saved.forward { 0 } else { 1 };
        marks[STRIDE_NUMBER] = saved.stride.try_into().expect("a stride number");
        *self = Satellite::from_memory(numbers, marks);
    }

    fn hand_epoch(&mut self, epoch: u64) {
        let (numbers, marks) = self.memory();
        let (numbers, mut marks) = (*numbers, *marks);
        (marks[EPOCH], marks[EPOCH + 1]) = (epoch as u32, (epoch >> 32) as u32);
        *self = Satellite::from_memory(numbers, marks);
    }
}

struct Opener {
    line1: Vec<u8>,
    line2: Vec<u8>,
    satellite: Satellite,
}

impl Timed for Opener {
    fn renew(&mut self) {}

    fn run(&mut self) {
        let _ = black_box(self.satellite.reopen(black_box(&self.line1), black_box(&self.line2)));
        black_box(&mut self.satellite);
    }
}

struct Lister {
    fresh: Satellite,
    satellite: Satellite,
    times: Vec<Microseconds>,
    memory: Memory,
}

impl Timed for Lister {
    fn renew(&mut self) {
        self.satellite.clone_from(&self.fresh);
    }

    fn run(&mut self) {
        let mut rooms = self.memory.lend();
        let rows = self.satellite.list(black_box(&self.times), &mut rooms);
        black_box(rows.expect("a lawful list").strides());
        black_box(&mut self.memory);
    }
}

/// A roster whose pairs are put in order by age, by its row.
struct Ager {
    roster: Roster<'static>,
}

impl Timed for Ager {
    fn renew(&mut self) {}

    fn run(&mut self) {
        black_box(black_box(&self.roster).by_age());
    }
}
