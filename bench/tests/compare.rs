//! The short run of the comparison; `cargo run --release --bin compare` is the long one.

use port::changes::Lent;
use port::compare::{
    changes_case, damaged_case, handed_case, record_case, report_case, roster_case, whole_case, windows_case,
    Tally,
};
use port::elementary::{Document, DocumentProcessor, Libm};
use port::generate;
use port::library::{Library, Opened, Port, Restarting, Timed, Told, Unopened};
use port::proved::Proved;
use port::request::{Row, Saved};
use port::roster;
use port::tle::{self, Field, Record, Refusal, LENGTH};
use port::windows::{self, Vector, Watch};
use std::io::Write;

const SEED: u64 = 72;

fn run(libraries: (&dyn Library, &dyn Library), whole: u64, damaged: u64) -> Tally {
    let (one, other) = (libraries.0.name(), libraries.1.name());
    let line = format!("{one} against {other}: seed {SEED}, {whole} whole pairs, {damaged} damaged pairs\n");
    // Not captured by the test: the seed is always shown.
    std::io::stdout().write_all(line.as_bytes()).unwrap();
    let mut tally = Tally::default();
    for index in 0..whole {
        whole_case(SEED, index, libraries, &mut tally).unwrap_or_else(|difference| panic!("{difference}"));
    }
    for index in 0..damaged {
        damaged_case(SEED, index, libraries, &mut tally).unwrap_or_else(|difference| panic!("{difference}"));
    }
    tally
}

#[test]
fn port_against_the_proved_library() {
    let tally = run((&Port::<Document>::new(), &Proved), 5600, 6000);
    println!("{tally}");
    for name in [
        "branch: near Earth",
        "branch: deep space, no resonance",
        "branch: deep space, one-day",
        "branch: deep space, half-day",
        "branch: perigee below 98 km",
        "branch: perigee 98 to 156 km",
        "branch: perigee 156 to 220 km",
        "branch: perigee above 220 km",
        "branch: e at most 1E-4",
        "branch: e above 0.9",
        "branch: inclination 179.99 or more",
        "pair: inclination 180.0000",
        "branch: deep space, inclination below 0.2",
        "branch: half-day, e to 0.65",
        "branch: half-day, e 0.65 to 0.7",
        "branch: half-day, e 0.7 to 0.715",
        "branch: half-day, e above 0.715",
        "open: refusal 7",
        "open: refusal 8",
        "read: refusal 1",
        "read: refusal 2",
        "read: refusal 3",
        "read: refusal 4",
        "read: refusal 5",
        "read: refusal 6",
        "form: refusal  0",
        "form: refusal  1",
        "form: refusal  2",
        "form: refusal  3",
        "form: refusal  4",
        "form: refusal  5",
        "form: refusal 17",
        "meaning: refusal  0",
        "meaning: refusal  6",
        "meaning: refusal 16",
        "meaning: refusal 17",
        "read: catalogue number with a letter",
        "read: no catalogue number in line 1",
        "read: no catalogue number in line 2",
        "read: day 366 of a leap year",
        "read: day 366 of a common year",
        "row: refusal  0",
        "row: refusal  9",
        "row: refusal 11",
        "row: refusal 12",
        "row: refusal 13",
        "row: refusal 14",
        "row: refusal 15",
        "list: answered",
        "list: refusal 17",
        "list: refusal 18",
        "windows: refusal  0",
        "windows: refusal 17",
        "windows: refusal 18",
        "windows: refusal 25",
        "windows: refusal 26",
        "windows: windows",
        "windows: strides",
        "write: written",
        "write: refusal 17",
    ] {
        assert!(tally.of(name) >= 5, "{name}: {}", tally.of(name));
    }
}

/// Records inside layout and ranges and outside, written.
#[test]
fn records_written() {
    let (port, mut tally) = (Port::<Document>::new(), Tally::default());
    for index in 0..20_000 {
        record_case(SEED, index, (&port, &Proved), &mut tally).unwrap_or_else(|found| panic!("{found}"));
    }
    println!("{tally}");
    for name in ["write: written", "write: refusal 16", "write: refusal 17"] {
        assert!(tally.of(name) >= 1000, "{name}: {}", tally.of(name));
    }
    assert!(tally.of("record: day 366 of a common year") >= 50, "{tally}");
}

/// Rosters of every size, and damaged ones: thousands of calls.
#[test]
fn rosters() {
    let (port, mut tally) = (Port::<Document>::new(), Tally::default());
    for index in 0..400 {
        roster_case(SEED, index, (&port, &Proved), &mut tally).unwrap_or_else(|found| panic!("{found}"));
    }
    println!("{tally}");
    for number in [0, 1, 3, 4, 5, 6, 19, 20, 22] {
        let name = format!("lodging: refusal {number:>2}");
        assert!(tally.of(&name) >= 5, "{name}: {}", tally.of(&name));
    }
    for number in [0, 21, 22] {
        let name = format!("withdrawing: refusal {number:>2}");
        assert!(tally.of(&name) >= 50, "{name}: {}", tally.of(&name));
    }
    for name in ["lodged: a new number", "lodged: an equal epoch", "lodged: a later epoch"] {
        assert!(tally.of(name) >= 50, "{name}: {}", tally.of(name));
    }
    for number in [0, 22] {
        let name = format!("filling: refusal {number:>2}");
        assert!(tally.of(&name) >= 50, "{name}: {}", tally.of(&name));
    }
    assert!(tally.of("filled: another row") >= 50, "{tally}");
    for damage in generate::DAMAGES.into_iter().chain(generate::ROW_DAMAGES) {
        let name = format!("damage: {damage}");
        assert!(tally.of(&name) >= 50, "{name}: {}", tally.of(&name));
    }
}

/// Texts of whole and damaged pairs, some as long as a report takes.
#[test]
fn reports() {
    let (port, mut tally) = (Port::<Document>::new(), Tally::default());
    for index in 0..1600 {
        report_case(SEED, index, (&port, &Proved), &mut tally).unwrap_or_else(|found| panic!("{found}"));
    }
    println!("{tally}");
    for number in [0, 17, 23, 24] {
        let name = format!("report: refusal {number:>2}");
        assert!(tally.of(&name) >= 3, "{name}: {}", tally.of(&name));
    }
    let counts = (1..7).map(|number| format!("refused {number}"));
    for name in counts.chain(["accepted", "near", "deep", "unopened", "a span"].map(str::to_string)) {
        let name = format!("report: {name}");
        assert!(tally.of(&name) >= 10, "{name}: {}", tally.of(&name));
    }
    for damage in generate::TEXTS {
        let name = format!("text: {damage}");
        assert!(tally.of(&name) >= 20, "{name}: {}", tally.of(&name));
    }
}

/// Rosters with none, some and all numbers in common, full ones, fields that differ alone, damaged ones;
/// rooms that are enough, exactly enough and a byte short.
#[test]
fn changes() {
    let (port, mut tally) = (Port::<Document>::new(), Tally::default());
    for index in 0..700 {
        changes_case(SEED, index, (&port, &Proved), &mut tally).unwrap_or_else(|found| panic!("{found}"));
    }
    println!("{tally}");
    for relation in generate::RELATIONS {
        let name = format!("rosters: {relation}");
        assert!(tally.of(&name) >= 100, "{name}: {}", tally.of(&name));
    }
    for answer in [" 0 0", "17 0", "22 1", "22 2"] {
        let name = format!("changes: refusal {answer}");
        assert!(tally.of(&name) >= 200, "{name}: {}", tally.of(&name));
    }
    let signed = ["epoch", "ndot", "nddot", "bstar", "type", "set", "inclination", "node", "eccentricity"];
    let signed = signed.into_iter().chain(["perigee", "anomaly", "motion", "revolution"]);
    let lines = signed.flat_map(|label| [label.to_string(), format!("{label}, minus")]);
    for label in ["first", "second", "class", "designator"].map(String::from).into_iter().chain(lines) {
        let name = format!("line: {label}");
        assert!(tally.of(&name) >= 50, "{name}: {}", tally.of(&name));
    }
}

/// What calls for windows have to have met, and how often at least.
fn windows_met(tally: &Tally) {
    for kind in generate::STATIONS.into_iter().chain(generate::STARTS).chain(generate::PLACES_LENT) {
        let name = format!("windows: {kind}");
        assert!(tally.of(&name) >= 20, "{name}: {}", tally.of(&name));
    }
    for name in [
        "refusal  0",
        "refusal 17",
        "refusal 18",
        "refusal 25",
        "refusal 26",
        "refusal 25, 26 at fault too",
        "refusal 25, 18 at fault too",
        "refusal 25, 17 at fault too",
        "refusal 26, 18 at fault too",
        "refusal 26, 17 at fault too",
        "refusal 18, 17 at fault too",
        "step 0",
        "step 1",
        "step 60",
        "step 86400",
        "step 86401",
        "step huge",
        "samples 0",
        "samples 1",
        "samples 1024",
        "samples 1025",
        "samples huge",
        "windows",
        "strides",
        "none",
        "all",
        "two or more",
        "as many as there can be",
        "of one sample",
        "at the first sample",
        "at the last sample",
        "samples refused with 6",
        "samples refused with 9",
        "samples beyond u64",
        "ended by the calendar's end",
        "ended by ten years",
        "begun by ten years",
        "on both sides of the epoch",
        "just above",
        "just below",
        "exactly at the horizon",
        "14 between",
        "half a revolution a step",
        "a station beneath",
    ] {
        let name = format!("windows: {name}");
        assert!(tally.of(&name) >= 5, "{name}: {}", tally.of(&name));
    }
}

/// Calls for windows among single requests and lists.
#[test]
fn windows() {
    let (port, mut tally) = (Port::<Document>::new(), Tally::default());
    for index in 0..2100 {
        windows_case(SEED, index, (&port, &Proved), &mut tally).unwrap_or_else(|found| panic!("{found}"));
    }
    println!("{tally}");
    windows_met(&tally);
}

/// The same by the port's two ways of integrating: the windows are those of rows of newly opened satellites.
#[test]
fn windows_of_newly_opened_satellites() {
    let (port, restarting) = (Port::<Document>::new(), Restarting::<Document>::new());
    for index in 0..280 {
        windows_case(SEED, index, (&port, &restarting), &mut Tally::default())
            .unwrap_or_else(|found| panic!("{found}"));
    }
}

/// The record of every published pair, written and read again.
#[test]
fn published_records_written() {
    let mut count = 0;
    for (line1, line2) in port::published::pairs() {
        let record = Proved.record(&line1, &line2);
        assert_eq!(record, tle::read(&line1, &line2));
        let Ok(record) = record else { continue };
        let mut lines = [[b'#'; LENGTH + 2]; 2];
        for (which, line) in [1, 2].into_iter().zip(&mut lines) {
            assert_eq!(Proved.write(&record, which, line), Ok(()));
            assert_eq!(line[..LENGTH], tle::written(&record, which).unwrap());
            assert_eq!(line[LENGTH..], *b"##");
        }
        assert_eq!(Proved.record(&lines[0][..LENGTH], &lines[1][..LENGTH]), Ok(record));
        count += 1;
    }
    assert!(count >= 28, "{count}");
}

/// Any saved position handed in, on the proved library too.
#[test]
fn positions_handed_in() {
    let (port, mut tally) = (Port::<Document>::new(), Tally::default());
    for index in 0..560 {
        handed_case(SEED, index, (&port, &Proved), &mut tally).unwrap_or_else(|found| panic!("{found}"));
    }
    println!("{tally}");
    for name in [
        "handed: positions",
        "handed: epochs",
        "row: refusal  0",
        "row: refusal 15",
        "list: answered",
        "strides",
        "windows: windows",
        "windows: strides",
        "windows: samples refused with 9",
    ] {
        assert!(tally.of(name) >= 20, "{name}: {}", tally.of(name));
    }
}

fn same_reading(lines: &[Vec<u8>; 2]) {
    let (port, [line1, line2]) = (Port::<Document>::new(), lines);
    let shown = || format!("{}\n{}", line1.escape_ascii(), line2.escape_ascii());
    assert_eq!(port.read(line1, line2), Proved.read(line1, line2), "{}", shown());
    assert_eq!(port.epoch(line1, line2), Proved.epoch(line1, line2), "{}", shown());
    assert_eq!(port.print(line1, line2), Proved.print(line1, line2), "{}", shown());
}

/// Every byte in every column of a pair, with the checksum as it was and mended; every length.
#[test]
fn every_byte_and_every_length() {
    let (line1, line2) = port::published::pairs().swap_remove(0);
    let lines = [line1, line2];
    for which in [0, 1] {
        for column in 0..LENGTH {
            for byte in 0..=255 {
                let mut changed = lines.clone();
                changed[which][column] = byte;
                same_reading(&changed);
                changed[which][LENGTH - 1] = b'0' + tle::checksum(&changed[which]);
                same_reading(&changed);
            }
        }
        for length in 0..300 {
            let mut changed = lines.clone();
            changed[which].resize(length, b' ');
            same_reading(&changed);
        }
    }
}

/// The port's two ways of integrating.
#[test]
fn resuming_against_restarting() {
    run((&Port::<Document>::new(), &Restarting::<Document>::new()), 1400, 0);
}

/// The processor's square root gives the same rows.
#[test]
fn either_square_root() {
    run((&Port::<Document>::new(), &Port::<DocumentProcessor>::new()), 700, 0);
}

/// Another library's sines are told apart.
#[test]
fn libm_is_told_apart() {
    let (document, libm) = (Port::<Document>::new(), Port::<Libm>::new());
    let found = (0..14)
        .filter_map(|index| whole_case(SEED, index, (&document, &libm), &mut Tally::default()).err())
        .count();
    assert!(found >= 10, "{found} of 14");
}

/// One thing that a library tells otherwise than it should.
#[derive(Clone, Copy, Debug)]
enum Slip {
    /// A bit of one of the six numbers of a row.
    Bit(usize, u32),
    Rounds,
    /// A negative zero in a refused row.
    Zero,
    Strides,
    /// A write past a list's last row.
    PastTheLast,
    /// A list's last row left unwritten.
    Unwritten,
    /// The state lent to a refused single request overwritten with zeros.
    StateOfRefused,
    /// Refusal 15 told as 14.
    NotFinite,
    /// A bit of the saved pair after a request.
    Place,
    /// The saved position lost after a time out of range.
    PlaceAfterNine,
    /// A position handed in ignored: the satellite asked as if newly opened.
    Handed,
    /// A position handed in taken up on either side of the epoch.
    EitherSide,
    Column,
    Line,
    Field,
    OpenColumn,
    /// A plus counted as 1 under the checksum.
    Plus,
    Epoch,
    Text,
    /// A field of a record read.
    RecordField,
    /// A form that refuses an impossible angle.
    FormAngle,
    /// A field of a form brought into its range.
    FormClipped,
    /// A number of the room after a refused form.
    FormRefused,
    /// A write past the numbers of a form.
    PastTheFields,
    /// 6 before 16.
    SixFirst,
    /// 16 for a broken range.
    Sixteen,
    /// A byte of a line written, its checksum as it was.
    Written,
    /// A write past the line.
    PastTheLine,
    /// A write into a room that is too short.
    ShortRoom,
    /// A record outside its ranges written as one inside.
    Unlawful,
    /// An older epoch taken.
    Older,
    /// A byte of a roster after a pair was lodged.
    Lodged,
    /// A byte of a buffer after a refused call.
    RosterRefused,
    /// The bytes of the last pair left behind the end.
    LeftBehind,
    /// A number that is not there withdrawn.
    Absent,
    /// A buffer with a blank for a zero taken for a roster.
    BlankForZero,
    /// Pairs that do not open counted as near.
    UnopenedAsNear,
    /// A span of a microsecond more.
    Span,
    /// 24 told before 23.
    OddFirst,
    /// A write past the numbers of a report.
    PastTheNumbers,
    /// A number of the room after a refused report.
    ReportRefused,
    /// The first's values less the second's.
    Exchanged,
    /// The other roster named.
    OtherRoster,
    /// A room of just the listing refused.
    ExactRoom,
    /// A byte of a room after a refused comparison.
    RoomRefused,
    /// The instant of the pair that was replaced, or the row before it, kept.
    RowKept,
    /// The row unshifted after a withdrawal.
    RowUnshifted,
    /// A row that disagrees with the pairs taken.
    RowNotJudged,
    /// An instant of the row after a refused call.
    RowRefused,
    /// What stood past the last pair left by filling.
    FilledEnd,
    /// The rotation into the Earth-fixed frame transposed.
    Transposed,
    /// The frame not turned at all.
    Unturned,
    /// Every sample turned by the angle at the start.
    AngleOfStart,
    /// The sidereal angle wrong in its last bit.
    AngleBit,
    /// A sample on the horizon visible.
    Horizon,
    /// A run that goes on through a refused sample.
    RunThrough,
    /// Windows as numbers of samples.
    Numbers,
    /// The sample after the last one of a window told.
    LastAfter,
    /// Strides counted for a sample that is refused with 6.
    StridesOfSix,
    /// A sample's instant that leaves u64 taken from the front again.
    Wrapped,
    /// 26 told before 25.
    StepFirst,
    /// A place asked for each sample.
    PlaceForEach,
    /// A write past the windows.
    PastTheWindows,
    /// A write into places of a refused call.
    WindowsRefused,
    /// The saved position before the call kept.
    WindowsUnsaved,
    /// The saved position lost by a refused call.
    PlaceAfterRefused,
    /// The epoch moved by a call.
    EpochMoved,
}

/// The proved library with a slip. Rows slip only once, after `at` others that could have.
struct Slipping {
    slip: Slip,
    at: u64,
}

struct SlippingSatellite {
    inner: Box<dyn Opened>,
    fresh: Saved,
    handed: bool,
    slip: Slip,
    left: u64,
}

impl Library for Slipping {
    fn name(&self) -> String {
        format!("proved library with {:?}", self.slip)
    }

    fn read(&self, line1: &[u8], line2: &[u8]) -> Result<(), Refusal> {
        Proved.read(line1, line2).map_err(|refusal| match (self.slip, refusal) {
            (Slip::Column, Refusal::Layout { line, column }) => Refusal::Layout { line, column: column + 1 },
            (Slip::Line, Refusal::Length { line }) => Refusal::Length { line: 3 - line },
            (Slip::Field, Refusal::Range(Field::Node)) => Refusal::Range(Field::Perigee),
            _ => refusal,
        })
    }

    fn checksum(&self, bytes: &[u8]) -> u8 {
        let plus = bytes.iter().filter(|&&byte| matches!(self.slip, Slip::Plus) && byte == b'+').count();
        (Proved.checksum(bytes) as usize + plus) as u8 % 10
    }

    fn epoch(&self, line1: &[u8], line2: &[u8]) -> Result<u64, Refusal> {
        let off = matches!(self.slip, Slip::Epoch) as u64;
        Proved.epoch(line1, line2).map(|instant| instant + off)
    }

    fn print(&self, line1: &[u8], line2: &[u8]) -> Vec<u8> {
        let mut text = Proved.print(line1, line2);
        if matches!(self.slip, Slip::Text) {
            text.pop();
        }
        text
    }

    fn form(&self, line1: &[u8], line2: &[u8], room: &mut [i64]) -> Result<(), Unopened> {
        let answer = Proved.form(line1, line2, room);
        match (self.slip, answer) {
            (Slip::FormAngle, Ok(())) if room[15] > 180_0000 => {
                room.fill(-77);
                return Err(Unopened::Unread(Refusal::Range(Field::Inclination)));
            }
            (Slip::FormClipped, Ok(())) => room[16] = room[16].min(359_9999),
            (Slip::FormRefused, Err(_)) if !room.is_empty() => room[0] = 0,
            (Slip::PastTheFields, Ok(())) if room.len() > 22 => room[22] = 0,
            _ => {}
        }
        answer
    }

    fn meaning(&self, numbers: &[i64]) -> Result<(), Unopened> {
        match (self.slip, Proved.meaning(numbers)) {
            (Slip::SixFirst, Err(Unopened::Refused(16))) if numbers[20] == 0 => {
                Err(Unopened::Unread(Refusal::Range(Field::Motion)))
            }
            (Slip::Sixteen, Err(Unopened::Unread(_))) => Err(Unopened::Refused(16)),
            (_, answer) => answer,
        }
    }

    fn record(&self, line1: &[u8], line2: &[u8]) -> Result<Record, Refusal> {
        let off = matches!(self.slip, Slip::RecordField) as i8;
        Proved.record(line1, line2).map(|mut record| {
            record.bstar.exponent ^= off;
            record
        })
    }

    fn write(&self, record: &Record, which: u8, room: &mut [u8]) -> Result<(), u8> {
        let mut answer = Proved.write(record, which, room);
        match (self.slip, answer) {
            (Slip::Written, Ok(())) => room[4] ^= 1,
            (Slip::PastTheLine, Ok(())) if room.len() > LENGTH => room[LENGTH] = 0,
            (Slip::ShortRoom, Err(17)) if !room.is_empty() => room[0] = b'1',
            (Slip::Unlawful, Err(16)) => {
                answer = Proved.write(&Record { node: record.node % 360_0000, ..*record }, which, room)
            }
            _ => {}
        }
        answer
    }

    fn lodge(
        &self,
        buffer: &mut [u8],
        row: &mut [u64],
        line1: &[u8],
        line2: &[u8],
    ) -> Result<(), roster::Refusal> {
        let before = row.to_vec();
        let answer = Proved.lodge(buffer, row, line1, line2);
        match (self.slip, answer) {
            (Slip::Older, Err(roster::Refusal::Refused(20))) => return Ok(()),
            (Slip::Lodged, Ok(())) => buffer[7] ^= 1,
            (Slip::RowKept, Ok(())) => row.copy_from_slice(&before),
            (Slip::RosterRefused, Err(_)) if !buffer.is_empty() => buffer[0] ^= 1,
            (Slip::RowRefused, Err(_)) if !row.is_empty() => row[0] ^= 1,
            (Slip::RowNotJudged, Err(roster::Refusal::Refused(22)))
                if Proved.fill_row(buffer, row).is_ok() =>
            {
                return Proved.lodge(buffer, row, line1, line2);
            }
            (Slip::BlankForZero, Err(roster::Refusal::Refused(22))) if buffer.contains(&b' ') => {
                let mut mended = buffer.to_vec();
                let end = mended.iter().rposition(|&byte| byte > b' ').map_or(0, |last| last + 1);
                mended[end..].fill(0);
                if Proved.lodge(&mut mended, row, line1, line2).is_ok() {
                    buffer.copy_from_slice(&mended);
                    return Ok(());
                }
            }
            _ => {}
        }
        answer
    }

    fn withdraw(&self, buffer: &mut [u8], row: &mut [u64], number: u64) -> Result<(), u8> {
        let before = (buffer.to_vec(), row.to_vec());
        let answer = Proved.withdraw(buffer, row, number);
        match (self.slip, answer) {
            (Slip::LeftBehind, Ok(())) => {
                let used = buffer.iter().rposition(|&byte| byte != 0).map_or(0, |last| last + 1);
                buffer[used..].copy_from_slice(&before.0[used..]);
            }
            (Slip::RowUnshifted, Ok(())) => row.copy_from_slice(&before.1),
            (Slip::Absent, Err(21)) => return Ok(()),
            _ => {}
        }
        answer
    }

    fn report(&self, text: &[u8], room: &mut [u64]) -> Result<(), u8> {
        let answer = Proved.report(text, room);
        match (self.slip, answer) {
            (Slip::UnopenedAsNear, Ok(())) => room[7] += std::mem::take(&mut room[9]),
            (Slip::Span, Ok(())) if room[0] > 0 => room[16] += 1,
            (Slip::PastTheNumbers, Ok(())) if room.len() > 17 => room[17] = 0,
            (Slip::ReportRefused, Err(_)) if !room.is_empty() => room[0] = 0,
            (Slip::OddFirst, Err(23)) => return Err(24),
            _ => {}
        }
        answer
    }

    fn fill_row(&self, buffer: &[u8], row: &mut [u64]) -> Result<(), u8> {
        let last = row.last().copied();
        let answer = Proved.fill_row(buffer, row);
        if let (Slip::FilledEnd, Ok(()), Some(last)) = (self.slip, answer, last) {
            *row.last_mut().unwrap() = last;
        }
        answer
    }

    fn changes(&self, first: Lent, second: Lent, room: &mut [u8]) -> Result<usize, (u8, u8)> {
        if matches!(self.slip, Slip::Exchanged) {
            return Proved.changes(second, first, room);
        }
        let answer = Proved.changes(first, second, room);
        match (self.slip, answer) {
            (Slip::OtherRoster, Err((22, which))) => return Err((22, 3 - which)),
            (Slip::ExactRoom, Ok(size)) if size == room.len() && size > 0 => return Err((17, 0)),
            (Slip::RoomRefused, Err(_)) if !room.is_empty() => room[0] ^= 1,
            _ => {}
        }
        answer
    }

    fn reporter(&self, _: &[u8]) -> Box<dyn Timed> {
        unreachable!()
    }

    fn ager(&self, _: &[u8]) -> Box<dyn Timed> {
        unreachable!()
    }

    fn lodger(&self, _: &[u8], _: &[u8], _: &[u8]) -> Box<dyn Timed> {
        unreachable!()
    }

    fn comparer(&self, _: &[u8], _: &[u8]) -> Box<dyn Timed> {
        unreachable!()
    }

    fn open(&self, line1: &[u8], line2: &[u8]) -> Result<Box<dyn Opened>, Unopened> {
        match Proved.open(line1, line2) {
            Ok(inner) => {
                let fresh = inner.saved().unwrap();
                Ok(Box::new(SlippingSatellite {
                    inner,
                    fresh,
                    handed: false,
                    slip: self.slip,
                    left: self.at,
                }))
            }
            Err(Unopened::Unread(Refusal::Layout { line, column })) => {
                let off = matches!(self.slip, Slip::OpenColumn) as u8;
                Err(Unopened::Unread(Refusal::Layout { line, column: column + off }))
            }
            Err(refusal) => Err(refusal),
        }
    }

    fn reader(&self, _: &[u8], _: &[u8]) -> Box<dyn Timed> {
        unreachable!()
    }

    fn opener(&self, _: &[u8], _: &[u8]) -> Box<dyn Timed> {
        unreachable!()
    }

    fn lister(&self, _: &[u8], _: &[u8], _: &[i64]) -> Box<dyn Timed> {
        unreachable!()
    }

    fn watcher(&self, _: &[u8], _: &[u8], _: &[Watch]) -> Box<dyn Timed> {
        unreachable!()
    }
}

/// A position turned into the Earth-fixed frame, or not quite.
fn turned(slip: Slip, position: Vector, instant: u64, start: u64) -> Vector {
    let angle = windows::sidereal_angle(if matches!(slip, Slip::AngleOfStart) { start } else { instant });
    let angle = if matches!(slip, Slip::AngleBit) { angle.next_up() } else { angle };
    let rows = windows::rotation::<Document>(angle);
    let entry = |i: usize, j: usize| match slip {
        Slip::Transposed => rows[j][i],
        Slip::Unturned => (i == j) as u8 as f64,
        _ => rows[i][j],
    };
    let [x, y, z] = position;
    std::array::from_fn(|i| entry(i, 0) * x + entry(i, 1) * y + entry(i, 2) * z)
}

impl SlippingSatellite {
    /// True once: when all that `left` counts have gone by.
    fn now(&mut self) -> bool {
        self.left = self.left.wrapping_sub(1);
        self.left == u64::MAX
    }

    fn row(&mut self, row: &mut Row) {
        let flip = |x: &mut f64, bit: u32| *x = f64::from_bits(x.to_bits() ^ 1 << bit);
        match (self.slip, row.refusal) {
            (Slip::Bit(place, bit), 0) if self.now() => match place {
                0..=2 => flip(&mut row.r[place], bit),
                _ => flip(&mut row.v[place - 3], bit),
            },
            (Slip::Zero, 9..) if self.now() => flip(&mut row.v[1], 63),
            (Slip::Rounds, 0) if self.now() => row.rounds += 1,
            (Slip::NotFinite, 15) => row.refusal = 14,
            _ => {}
        }
    }

    /// What slips in a position handed in, when the next time is asked.
    fn taken(&mut self, micros: i64) {
        let saved = self.inner.saved().unwrap();
        match self.slip {
            Slip::Handed if std::mem::take(&mut self.handed) => self.inner.hand(self.fresh),
            Slip::EitherSide => self.inner.hand(Saved { forward: micros >= 0, ..saved }),
            _ => {}
        }
    }

    /// The windows of a call that was answered once more, row by row, with what slips in visibility.
    fn windows_again(&mut self, watch: &Watch, firsts: &mut [u64], lasts: &mut [u64]) -> usize {
        let (saved, station) = (self.inner.saved().unwrap(), watch.place().unwrap());
        let (mut samples, mut running) = (vec![], false);
        for sample in 0..watch.samples {
            let instant = watch.instant(sample);
            let wrapped = if matches!(self.slip, Slip::Wrapped) { instant as u64 as u128 } else { instant };
            let mut room = [0.0; 6];
            let row = windows::inside(wrapped).map(|instant| {
                let told = self.inner.request(windows::since(instant, self.inner.epoch()), &mut room);
                (instant, told.refusal)
            });
            let visible = match row {
                Some((instant, 0)) => {
                    let above = windows::above(
                        turned(self.slip, [room[0], room[1], room[2]], instant, watch.start),
                        station,
                    );
                    above > 0.0 || (matches!(self.slip, Slip::Horizon) && above == 0.0)
                }
                _ => matches!(self.slip, Slip::RunThrough) && running,
            };
            running = visible;
            samples.push((wrapped as u64, visible));
        }
        self.inner.hand(saved);
        windows::runs(samples.into_iter(), firsts, lasts)
    }

    /// What slips in an answered call for windows: how many there are afterwards.
    fn windows_slip(
        &mut self,
        watch: &Watch,
        count: usize,
        before: (&[u64], &[u64]),
        firsts: &mut [u64],
        lasts: &mut [u64],
    ) -> usize {
        let step = watch.step * 1_000_000;
        match self.slip {
            Slip::Transposed
            | Slip::Unturned
            | Slip::AngleOfStart
            | Slip::AngleBit
            | Slip::Horizon
            | Slip::RunThrough
            | Slip::Wrapped => {
                firsts.copy_from_slice(before.0);
                lasts.copy_from_slice(before.1);
                return self.windows_again(watch, firsts, lasts);
            }
            Slip::Numbers => {
                firsts[..count].iter_mut().for_each(|first| *first = (*first - watch.start) / step)
            }
            Slip::LastAfter => lasts[..count].iter_mut().for_each(|last| *last += step),
            Slip::PastTheWindows if count < lasts.len() => lasts[count] ^= 1,
            _ => {}
        }
        count
    }

    /// What slips in the saved position after a request.
    fn place(&mut self, refusal: u8) {
        let mut saved = self.inner.saved().unwrap();
        match (self.slip, refusal) {
            (Slip::Place, _) => saved.xni = f64::from_bits(saved.xni.to_bits() ^ 1),
            (Slip::PlaceAfterNine, 9) => saved = self.fresh,
            _ => return,
        }
        self.inner.hand(saved);
    }
}

impl Opened for SlippingSatellite {
    fn request(&mut self, micros: i64, room: &mut [f64; 6]) -> Told {
        self.taken(micros);
        let Told { refusal, rounds, mut strides } = self.inner.request(micros, room);
        let [x, y, z, vx, vy, vz] = *room;
        let mut row = Row { refusal, r: [x, y, z], v: [vx, vy, vz], rounds };
        self.row(&mut row);
        self.place(refusal);
        if matches!(self.slip, Slip::Strides) && self.now() {
            strides += 1;
        }
        let ([x, y, z], [vx, vy, vz]) = (row.r, row.v);
        *room = [x, y, z, vx, vy, vz];
        if matches!(self.slip, Slip::StateOfRefused) && refusal != 0 {
            *room = [0.0; 6];
        }
        Told { refusal: row.refusal, rounds: row.rounds, strides }
    }

    fn windows(&mut self, watch: &Watch, firsts: &mut [u64], lasts: &mut [u64]) -> Result<(usize, u64), u8> {
        let before = (firsts.to_vec(), lasts.to_vec());
        let saved = self.inner.saved().unwrap();
        let answer = self.inner.windows(watch, firsts, lasts);
        match (self.slip, answer) {
            (Slip::StepFirst, Err(25)) if watch.step == 0 => return Err(26),
            (Slip::WindowsRefused, Err(_)) if !firsts.is_empty() => firsts[0] ^= 1,
            (Slip::PlaceAfterRefused, Err(_)) => self.inner.hand(self.fresh),
            (Slip::PlaceForEach, Ok(_)) if firsts.len() < watch.samples => return Err(17),
            (Slip::WindowsUnsaved, Ok(_)) => self.inner.hand(saved),
            (Slip::EpochMoved, Ok(_)) => self.inner.hand_epoch(self.inner.epoch().wrapping_add(1)),
            _ => {}
        }
        let (count, mut strides) = answer?;
        if matches!(self.slip, Slip::StridesOfSix) {
            let outside = |&sample: &usize| windows::inside(watch.instant(sample)).is_none();
            strides += (0..watch.samples).filter(outside).count() as u64;
        }
        Ok((self.windows_slip(watch, count, (&before.0, &before.1), firsts, lasts), strides))
    }

    fn epoch(&self) -> u64 {
        self.inner.epoch()
    }

    fn saved(&self) -> Option<Saved> {
        self.inner.saved()
    }

    fn hand(&mut self, saved: Saved) {
        self.inner.hand(saved);
        self.handed = true;
    }

    fn hand_epoch(&mut self, epoch: u64) {
        self.inner.hand_epoch(epoch);
    }

    fn list(&mut self, times: &[i64], rows: &mut [Row]) -> Result<u64, u8> {
        let before = rows.to_vec();
        let strides = self.inner.list(times, rows)?;
        let count = times.len();
        match self.slip {
            Slip::PastTheLast if count < rows.len() => rows[count].rounds += 1,
            Slip::Unwritten if count > 0 => rows[count - 1] = before[count - 1],
            _ => rows[..count].iter_mut().for_each(|row| self.row(row)),
        }
        Ok(strides)
    }
}

/// The first difference between the port and the proved library with a slip.
fn found(slip: Slip, at: u64) -> String {
    let (port, slipping) = (Port::<Document>::new(), Slipping { slip, at });
    let libraries: (&dyn Library, &dyn Library) = (&port, &slipping);
    let mut tally = Tally::default();
    for index in 0..4000 {
        let whole = whole_case(SEED, index, libraries, &mut tally);
        let other = whole.and_then(|()| damaged_case(SEED, index, libraries, &mut tally));
        let other = other.and_then(|()| handed_case(SEED, index, libraries, &mut tally));
        let other = other.and_then(|()| roster_case(SEED, index, libraries, &mut tally));
        let other = other.and_then(|()| report_case(SEED, index, libraries, &mut tally));
        let other = other.and_then(|()| changes_case(SEED, index, libraries, &mut tally));
        let other = other.and_then(|()| windows_case(SEED, index, libraries, &mut tally));
        if let Err(difference) = other.and_then(|()| record_case(SEED, index, libraries, &mut tally)) {
            return difference.what;
        }
    }
    panic!("{slip:?} at {at}: not seen")
}

/// One bit of one number of one row is seen, in a single answer and in a list.
#[test]
fn a_single_bit_is_seen() {
    let mut seen = (0, 0);
    for place in 0..6 {
        for bit in [0, 1, 51, 52, 63] {
            for at in [0, 1, 7, 40] {
                let what = found(Slip::Bit(place, bit), at);
                seen.0 += what.starts_with("time ") as u32;
                seen.1 += what.starts_with("list ") as u32;
            }
        }
    }
    assert_eq!(seen.0 + seen.1, 120);
    assert!(seen.0 > 0 && seen.1 > 0, "{seen:?}");
}

#[test]
fn every_other_slip_is_seen() {
    for (slip, starts) in [
        (Slip::Rounds, ["time ", "list "]),
        (Slip::Zero, ["time ", "list "]),
        (Slip::Strides, ["time "; 2]),
        (Slip::StateOfRefused, ["time "; 2]),
        (Slip::NotFinite, ["time ", "list "]),
        (Slip::Place, ["saved "; 2]),
        (Slip::PlaceAfterNine, ["saved "; 2]),
        (Slip::Handed, ["time ", "saved "]),
        (Slip::EitherSide, ["time ", "saved "]),
        (Slip::PastTheLast, ["list "; 2]),
        (Slip::Unwritten, ["list "; 2]),
        (Slip::Column, ["reading"; 2]),
        (Slip::Line, ["reading"; 2]),
        (Slip::Field, ["reading"; 2]),
        (Slip::OpenColumn, ["opening"; 2]),
        (Slip::Plus, ["checksum"; 2]),
        (Slip::Epoch, ["epoch"; 2]),
        (Slip::Text, ["printing"; 2]),
        (Slip::RecordField, ["record"; 2]),
        (Slip::FormAngle, ["form"; 2]),
        (Slip::FormClipped, ["form"; 2]),
        (Slip::FormRefused, ["form"; 2]),
        (Slip::PastTheFields, ["form"; 2]),
        (Slip::SixFirst, ["meaning of"; 2]),
        (Slip::Sixteen, ["form, then meaning", "meaning of"]),
        (Slip::Written, ["writing"; 2]),
        (Slip::PastTheLine, ["writing"; 2]),
        (Slip::ShortRoom, ["writing"; 2]),
        (Slip::Unlawful, ["writing"; 2]),
        (Slip::Older, ["lodging"; 2]),
        (Slip::Lodged, ["lodging"; 2]),
        (Slip::RosterRefused, ["lodging"; 2]),
        (Slip::LeftBehind, ["withdrawing"; 2]),
        (Slip::Absent, ["withdrawing"; 2]),
        (Slip::BlankForZero, ["lodging"; 2]),
        (Slip::UnopenedAsNear, ["report"; 2]),
        (Slip::Span, ["report"; 2]),
        (Slip::OddFirst, ["report"; 2]),
        (Slip::PastTheNumbers, ["report"; 2]),
        (Slip::ReportRefused, ["report"; 2]),
        (Slip::Exchanged, ["changes"; 2]),
        (Slip::OtherRoster, ["changes"; 2]),
        (Slip::ExactRoom, ["changes"; 2]),
        (Slip::RoomRefused, ["changes"; 2]),
        (Slip::RowKept, ["lodging"; 2]),
        (Slip::RowUnshifted, ["withdrawing"; 2]),
        (Slip::RowNotJudged, ["lodging"; 2]),
        (Slip::RowRefused, ["lodging"; 2]),
        (Slip::FilledEnd, ["filling"; 2]),
        (Slip::Transposed, ["windows "; 2]),
        (Slip::Unturned, ["windows "; 2]),
        (Slip::AngleOfStart, ["windows "; 2]),
        (Slip::AngleBit, ["windows "; 2]),
        (Slip::Horizon, ["windows "; 2]),
        (Slip::RunThrough, ["windows "; 2]),
        (Slip::Numbers, ["windows "; 2]),
        (Slip::LastAfter, ["windows "; 2]),
        (Slip::StridesOfSix, ["windows "; 2]),
        (Slip::Wrapped, ["windows "; 2]),
        (Slip::StepFirst, ["windows "; 2]),
        (Slip::PlaceForEach, ["windows "; 2]),
        (Slip::PastTheWindows, ["windows "; 2]),
        (Slip::WindowsRefused, ["windows "; 2]),
        (Slip::WindowsUnsaved, ["saved "; 2]),
        (Slip::PlaceAfterRefused, ["saved "; 2]),
        (Slip::EpochMoved, ["epoch kept"; 2]),
    ] {
        let what = found(slip, 0);
        assert!(starts.iter().any(|start| what.starts_with(start)), "{slip:?}: {what}");
    }
}
