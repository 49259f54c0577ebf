//! Document 01's example, its cases at the edges, and what lent memory holds afterwards.

use saddlekerf::{checksum, epoch, print, printed, read};
use saddlekerf::{Field, Instant, Line, Microseconds, Refusal, Rooms, Satellite, State, Strides};

const LINE1: &[u8] = b"1 00005U 58002B   00179.78495062  .00000023  00000-0  28098-4 0  4753";
const LINE2: &[u8] = b"2 00005  34.2682 348.7242 1859667 331.7664  19.3264 10.82419157413667";

/// Resonant pairs of the published set: half-day and one-day.
const RESONANT: [[&[u8]; 2]; 2] = [
    [
        b"1 08195U 75081A   06176.33215444  .00000099  00000-0  11873-3 0   813",
        b"2 08195  64.1586 279.0717 6877146 264.7651  20.2257  2.00491383225656",
    ],
    [
        b"1 24208U 96044A   06177.04061740 -.00000094  00000-0  10000-3 0  1600",
        b"2 24208   3.8536  80.0121 0026640 311.0977  48.3000  1.00778054 36119",
    ],
];

const LIMIT: i64 = Microseconds::LIMIT.0;
const STRIDE: i64 = 43_200_000_000;

/// A line with other text from a column on, its checksum mended.
fn with(line: &[u8], column: usize, text: &[u8]) -> Vec<u8> {
    let mut line = line.to_vec();
    line[column - 1..column - 1 + text.len()].copy_from_slice(text);
    let sum: u32 = line[..68]
        .iter()
        .map(|&byte| match byte {
            b'0'..=b'9' => (byte - b'0') as u32,
            b'-' => 1,
            _ => 0,
        })
        .sum();
    line[68] = b'0' + (sum % 10) as u8;
    line
}

fn open_resonant() -> impl Iterator<Item = Satellite> {
    RESONANT.iter().map(|[line1, line2]| Satellite::open(line1, line2).unwrap())
}

fn strides(satellite: &mut Satellite, minutes: &[i32]) -> Vec<u32> {
    minutes.iter().map(|&t| satellite.request(Microseconds::from_minutes(t)).strides.0).collect()
}

fn bits(state: &State) -> [u64; 6] {
    let ([x, y, z], [vx, vy, vz]) = (state.position, state.velocity);
    [x, y, z, vx, vy, vz].map(f64::to_bits)
}

#[test]
fn checksum_of_each_byte() {
    for byte in 0..=255 {
        let expected = match b"0123456789".iter().position(|&digit| digit == byte) {
            Some(value) => value as u8,
            None => u8::from(byte == b'-'),
        };
        assert_eq!(checksum(&[byte]), expected, "byte {byte}");
    }
}

#[test]
fn checksum_of_many_bytes() {
    assert_eq!(checksum(b""), 0);
    // document 01's example: 133 and 217
    assert_eq!(checksum(&LINE1[..68]), 3);
    assert_eq!(checksum(&LINE2[..68]), 7);
    // sums past 16 bits
    for length in [6_999, 7_000, 7_001, 8_191, 65_536, 100_003] {
        assert_eq!(checksum(&vec![b'9'; length]) as usize, 9 * length % 10);
        assert_eq!(checksum(&vec![b'-'; length]) as usize, length % 10);
    }
}

#[test]
fn the_example_printed_whole() {
    let expected = "\
number 5
class U
designator 58002B
epoch 2000 179 67819733568
ndot 23
nddot 0 0
bstar 28098 -4
type 0
set 475
inclination 342682
node 3487242
eccentricity 1859667
perigee 3317664
anomaly 193264
motion 1082419157
revolution 41366
";
    assert_eq!(printed(LINE1, LINE2), expected);
    assert_eq!(read(LINE1, LINE2), Ok(()));
    let mut room = vec![b'#'; expected.len() + 3];
    assert_eq!(print(LINE1, LINE2, &mut room).unwrap(), expected.as_bytes());
    assert_eq!(&room[expected.len()..], b"###");
    let mut short = vec![b'#'; expected.len() - 1];
    assert_eq!(print(LINE1, LINE2, &mut short), Err(Refusal::Room));
    assert!(short.iter().all(|&byte| byte == b'#'));
}

#[test]
fn lines_refused() {
    let comma = with(LINE2, 12, b",");
    let cases: [(&[u8], &[u8], Refusal); 9] = [
        (LINE1, &comma, Refusal::Column { line: Line::Two, column: 12 }),
        (&LINE1[..68], LINE2, Refusal::Length { line: Line::One }),
        (LINE1, &LINE2[..68], Refusal::Length { line: Line::Two }),
        (LINE1, b"", Refusal::Length { line: Line::Two }),
        (LINE2, LINE1, Refusal::Start { line: Line::One }),
        (LINE1, LINE1, Refusal::Start { line: Line::Two }),
        (&[&LINE1[..68], b"4"].concat(), LINE2, Refusal::Checksum { line: Line::One }),
        (LINE1, &[&LINE2[..68], b"8"].concat(), Refusal::Checksum { line: Line::Two }),
        (LINE1, RESONANT[0][1], Refusal::Catalogue),
    ];
    for (line1, line2, refusal) in cases {
        assert_eq!(read(line1, line2), Err(refusal));
        assert_eq!(epoch(line1, line2), Err(refusal));
        assert_eq!(Satellite::open(line1, line2).unwrap_err(), refusal);
        assert_eq!(printed(line1, line2), format!("refused {}\n", refusal.number()));
    }
}

#[test]
fn ranges() {
    let cases: [(usize, usize, &[u8], Option<Field>); 10] = [
        (1, 21, b"000.99999999", Some(Field::Day)),
        (1, 21, b"001.00000000", None),
        (1, 21, b"366.99999999", None),
        (1, 21, b"367.00000000", Some(Field::Day)),
        (2, 9, b"180.0000", None),
        (2, 9, b"180.0001", Some(Field::Inclination)),
        (2, 18, b"359.9999", None),
        (2, 18, b"360.0000", Some(Field::Node)),
        (2, 53, b" 0.00000001", None),
        (2, 53, b" 0.00000000", Some(Field::Motion)),
    ];
    for (line, column, text, field) in cases {
        let (line1, line2) = match line {
            1 => (with(LINE1, column, text), LINE2.to_vec()),
            _ => (LINE1.to_vec(), with(LINE2, column, text)),
        };
        let expected = field.map_or(Ok(()), |field| Err(Refusal::Range { field }));
        assert_eq!(read(&line1, &line2), expected, "{}", text.escape_ascii());
    }
}

/// Wish 3 of document 02: a common year ends at day 365.99999999, and 2000 is a leap year.
#[test]
fn last_days_of_years() {
    let stamped = |year: u32, day: &str| with(LINE1, 19, format!("{:02}{day}", year % 100).as_bytes());
    for year in 1957..=2056 {
        let (last, next) = if year % 4 == 0 { (366, 367) } else { (365, 366) };
        let line1 = stamped(year, &format!("{last}.99999999"));
        assert_eq!(read(&line1, LINE2), Ok(()), "{year}");
        assert!(printed(&line1, LINE2).contains(&format!("\nepoch {year} {last} 86399999136\n")), "{year}");
        if year < 2056 {
            let january = epoch(&stamped(year + 1, "001.00000000"), LINE2).unwrap();
            assert_eq!(epoch(&line1, LINE2).unwrap().0 + 864, january.0, "{year}");
        }
        for fraction in ["00000000", "50000000", "99999999"] {
            let line1 = stamped(year, &format!("{next}.{fraction}"));
            let refusal = Refusal::Range { field: Field::Day };
            assert_eq!(read(&line1, LINE2), Err(refusal), "{year}");
            assert_eq!(epoch(&line1, LINE2), Err(refusal), "{year}");
            assert_eq!(printed(&line1, LINE2), "refused 6\n", "{year}");
            assert_eq!(Satellite::open(&line1, LINE2).unwrap_err(), refusal, "{year}");
        }
    }
}

#[test]
fn opening_refused() {
    // At 180 degrees 002's xlcof is 0/0.
    assert_eq!(Satellite::open(LINE1, &with(LINE2, 9, b"180.0000")).unwrap_err(), Refusal::RecordNotFinite);
    assert_eq!(
        Satellite::open(LINE1, &with(LINE2, 27, b"9859667")).unwrap_err(),
        Refusal::PerigeeBelowSurface
    );
}

#[test]
fn epochs() {
    let at = |year: &[u8], day: &[u8]| {
        let line1 = with(&with(LINE1, 19, year), 21, day);
        epoch(&line1, LINE2).unwrap()
    };
    assert_eq!(at(b"57", b"001.00000000"), Instant(0));
    assert_eq!(at(b"57", b"001.00000001"), Instant(864));
    // 100 years with 25 leap days, less a unit.
    assert_eq!(at(b"56", b"366.99999999"), Instant(36_525 * 86_400_000_000 - 864));
    let day = 43 * 365 + 10 + 178; // 1957 to 1999 with 10 leap days, then 178 whole days
    let example = epoch(LINE1, LINE2).unwrap();
    assert_eq!(example, Instant(day * 86_400_000_000 + 67_819_733_568));
    assert_eq!(Instant(example.0 + 7).since(example), Microseconds(7));
}

#[test]
fn strides_at_the_edges() {
    for fresh in open_resonant() {
        assert_eq!(strides(&mut fresh.clone(), &[1440, 2880, 1440, -720]), [2, 2, 2, 1]);
        assert_eq!(strides(&mut fresh.clone(), &[719, 720, 1440]), [0, 1, 1]);
        let mut satellite = fresh.clone();
        for far in [LIMIT + 1, -LIMIT - 1, i64::MAX, i64::MIN] {
            let answer = satellite.request(Microseconds(far));
            assert_eq!((answer.row, answer.strides), (Err(Refusal::Time), Strides(0)));
        }
        assert_eq!(satellite.request(Microseconds::LIMIT).strides, Strides(7304));
        assert_eq!(satellite.request(Microseconds(-LIMIT)).strides, Strides(7304));
        assert_eq!(satellite.request(Microseconds(-LIMIT)).strides, Strides(0));
    }
    let mut satellite = Satellite::open(LINE1, LINE2).unwrap();
    assert_eq!(strides(&mut satellite, &[1440, 2880, 1440, -720]), [0, 0, 0, 0]);
}

/// A row of a satellite asked before is that of one newly opened.
#[test]
fn the_saved_place_changes_no_bit() {
    for fresh in open_resonant() {
        let mut satellite = fresh.clone();
        for minutes in [1440, 2880, 1440, -720, -20_000, 7, -721, 100_000] {
            let time = Microseconds::from_minutes(minutes);
            let (one, other) = (satellite.at(time).unwrap(), fresh.clone().at(time).unwrap());
            assert_eq!(bits(&one), bits(&other), "{minutes} minutes");
        }
    }
}

/// NaNs with bits of their own: what stays is held to them bit for bit.
const MARK: State = State {
    position: [
        f64::from_bits(0x7ff8_0000_dead_beef),
        f64::from_bits(0xfff8_1234_5678_9abc),
        f64::from_bits(0x7fff_ffff_ffff_ffff),
    ],
    velocity: [f64::from_bits(0x7ff8_0000_0000_0001), 8.0, -0.0],
};

/// The satellite's memory, bit for bit.
fn memory(satellite: &Satellite) -> (Vec<u64>, Vec<u32>) {
    let (numbers, marks) = satellite.memory();
    (numbers.iter().map(|x| x.to_bits()).collect(), marks.to_vec())
}

/// Rooms of their own lengths, marked throughout.
struct Marked {
    refusals: Vec<u8>,
    states: Vec<State>,
    rounds: Vec<u8>,
}

impl Marked {
    fn new(refusals: usize, states: usize, rounds: usize) -> Marked {
        Marked { refusals: vec![77; refusals], states: vec![MARK; states], rounds: vec![99; rounds] }
    }

    fn lend(&mut self) -> Rooms<'_> {
        Rooms { refusals: &mut self.refusals, states: &mut self.states, rounds: &mut self.rounds }
    }

    fn untouched_from(&self, row: usize) -> bool {
        self.refusals[row..].iter().all(|&refusal| refusal == 77)
            && self.states[row..].iter().all(|state| bits(state) == bits(&MARK))
            && self.rounds[row..].iter().all(|&rounds| rounds == 99)
    }
}

/// A list's strides, or its refusal.
fn listed(satellite: &mut Satellite, times: &[Microseconds], room: &mut Marked) -> Result<Strides, Refusal> {
    satellite.list(times, &mut room.lend()).map(|rows| rows.strides())
}

#[test]
fn lists() {
    for fresh in open_resonant() {
        let mut times = [720, 1440, 0, -720, 0, 100].map(Microseconds::from_minutes);
        times[2] = Microseconds(LIMIT + 1);
        let mut room = Marked::new(9, 8, 7);
        let mut rooms = room.lend();
        let rows = fresh.clone().list(&times, &mut rooms).unwrap();
        assert_eq!((rows.len(), rows.strides()), (6, Strides(1 + 1 + 1)));
        for (row, &time) in rows.iter().zip(&times) {
            let alone = fresh.clone().request(time).row;
            match (row, alone) {
                (Ok(one), Ok(other)) => {
                    assert_eq!((bits(&one.state), one.rounds), (bits(&other.state), other.rounds))
                }
                (one, other) => assert_eq!(one, other),
            }
        }
        assert_eq!(rows.row(2), Err(Refusal::Time));
        assert_eq!((bits(&room.states[2]), room.rounds[2]), ([0; 6], 0));
        assert!(room.untouched_from(6));
    }
}

#[test]
fn lists_without_strides() {
    for mut satellite in open_resonant() {
        let mut room = Marked::new(2, 2, 2);
        assert_eq!(listed(&mut satellite, &[], &mut room), Ok(Strides(0)));
        assert!(room.untouched_from(0));
        assert_eq!(listed(&mut satellite, &[], &mut Marked::new(0, 0, 0)), Ok(Strides(0)));
        let far = [Microseconds(LIMIT + 1), Microseconds(i64::MIN)];
        assert_eq!(listed(&mut satellite, &far, &mut room), Ok(Strides(0)));
        assert_eq!(room.refusals, [9, 9]);
    }
}

#[test]
fn lists_refused_whole() {
    for fresh in open_resonant() {
        let mut satellite = fresh.clone();
        satellite.at(Microseconds(5 * STRIDE)).unwrap();
        let before = memory(&satellite);
        let long = vec![Microseconds(0); Satellite::LIST_LIMIT + 1];
        let mut room = Marked::new(0, 2000, 2000);
        assert_eq!(listed(&mut satellite, &long, &mut room), Err(Refusal::List));
        assert!(room.untouched_from(0));
        for (refusals, states, rounds) in [(2, 3, 3), (3, 2, 3), (3, 3, 2), (0, 0, 0)] {
            let mut room = Marked::new(refusals, states, rounds);
            assert_eq!(listed(&mut satellite, &[Microseconds(0); 3], &mut room), Err(Refusal::Room));
            assert!(room.untouched_from(0));
        }
        // The satellite is where it was: five strides out.
        assert_eq!(memory(&satellite), before);
        assert_eq!(satellite.request(Microseconds(6 * STRIDE)).strides, Strides(1));
        let mut room = Marked::new(1024, 1024, 1024);
        let longest = vec![Microseconds(2 * STRIDE); Satellite::LIST_LIMIT];
        assert_eq!(listed(&mut satellite, &longest, &mut room), Ok(Strides(2)));
        assert!(room.states.iter().all(|state| bits(state) == bits(&room.states[0])));
    }
}

/// A list that is refused has no rows, whatever its rooms hold; one that is answered has none past
/// its last time.
#[test]
fn no_rows_but_the_lists_own() {
    let mut satellite = Satellite::open(LINE1, LINE2).unwrap();
    let mut room = Marked::new(3, 3, 3);
    let mut rooms = room.lend();
    rooms.refusals.fill(0);
    assert_eq!(satellite.list(&[Microseconds(0); 4], &mut rooms).unwrap_err(), Refusal::Room);
    let rows = satellite.list(&[Microseconds(0); 2], &mut rooms).unwrap();
    assert_eq!((rows.len(), rows.iter().len(), rows.is_empty()), (2, 2, false));
    assert!(std::panic::catch_unwind(|| rows.row(2)).is_err());
}

/// Lines for each refusal of opening, 1 to 8.
fn unopened() -> Vec<(u8, Vec<u8>, Vec<u8>)> {
    let (line1, line2) = (LINE1.to_vec(), LINE2.to_vec());
    vec![
        (1, line1[..68].to_vec(), line2.clone()),
        (2, line1.clone(), line1.clone()),
        (3, line1.clone(), with(LINE2, 12, b",")),
        (4, line1.clone(), [&LINE2[..68], b"8"].concat()),
        (5, line1.clone(), RESONANT[0][1].to_vec()),
        (6, line1.clone(), with(LINE2, 9, b"180.0001")),
        (7, line1.clone(), with(LINE2, 27, b"9859667")),
        (8, line1, with(LINE2, 9, b"180.0000")),
    ]
}

/// Refused lines leave the satellite as it was, every bit of it, the saved place too.
#[test]
fn reopening_refused() {
    for mut satellite in open_resonant().chain(Satellite::open(LINE1, LINE2)) {
        satellite.at(Microseconds(5 * STRIDE)).unwrap();
        let (before, fresh) = (memory(&satellite), satellite.clone());
        for (number, line1, line2) in unopened() {
            assert_eq!(satellite.reopen(&line1, &line2).unwrap_err().number(), number);
            assert_eq!(memory(&satellite), before, "after refusal {number}");
        }
        for minutes in [0, -720, 10_000] {
            let time = Microseconds::from_minutes(minutes);
            let (one, other) = (satellite.request(time), fresh.clone().request(time));
            assert_eq!(bits(&one.row.unwrap().state), bits(&other.row.unwrap().state));
        }
    }
}

/// Memory of NaNs with bits of their own, and of anything else, stays where nothing is opened.
#[test]
fn reopening_refused_in_any_memory() {
    let numbers = std::array::from_fn(|i| f64::from_bits(0x7ff8_0000_0000_0000 | (i as u64) << 32 | 69));
    let mut satellite = Satellite::from_memory(numbers, [7, u32::MAX, 9, 5, 3, u32::MAX]);
    let before = memory(&satellite);
    for (number, line1, line2) in unopened() {
        assert_eq!(satellite.reopen(&line1, &line2).unwrap_err().number(), number);
        assert_eq!(memory(&satellite), before, "after refusal {number}");
    }
    let mut state = MARK;
    assert_eq!(satellite.request_into(Microseconds(LIMIT + 1), &mut state), (Err(Refusal::Time), Strides(0)));
    assert_eq!((memory(&satellite), bits(&state)), (before, bits(&MARK)));
}

/// A request changes the saved place alone; a refused one leaves the state's memory as it was.
#[test]
fn what_a_request_writes() {
    for mut satellite in open_resonant() {
        let before = memory(&satellite);
        let mut state = MARK;
        assert!(satellite.request_into(Microseconds(-3 * STRIDE), &mut state).0.is_ok());
        assert!(bits(&state).iter().zip(bits(&MARK)).all(|(one, other)| *one != other));
        let after = memory(&satellite);
        assert_eq!((&after.0[2..], &after.1[2..]), (&before.0[2..], &before.1[2..]));
        assert_eq!(after.1[..2], [1, 3]);
        // A pair that no stride gives: refusal 15, and the place of the time is saved all the same.
        let (numbers, marks) = satellite.memory();
        let (mut numbers, marks) = (*numbers, *marks);
        numbers[0] = f64::NAN;
        let mut spoiled = Satellite::from_memory(numbers, marks);
        let mut state = MARK;
        let answer = spoiled.request_into(Microseconds(-4 * STRIDE), &mut state);
        assert_eq!(answer, (Err(Refusal::StateNotFinite), Strides(1)));
        assert_eq!(bits(&state), bits(&MARK));
        assert_eq!(memory(&spoiled).1[..2], [1, 4]);
    }
}

#[test]
fn reopening() {
    let [line1, line2] = RESONANT[0];
    let mut satellite = Satellite::open(LINE1, LINE2).unwrap();
    assert_eq!(satellite.reopen(line1, line2), Ok(()));
    assert_eq!(memory(&satellite), memory(&Satellite::open(line1, line2).unwrap()));
    // Nothing of a deep-space satellite is left in one near Earth.
    assert_eq!(satellite.reopen(LINE1, LINE2), Ok(()));
    assert_eq!(memory(&satellite), memory(&Satellite::open(LINE1, LINE2).unwrap()));
}

#[test]
fn refusals_say_what_is_wrong() {
    let comma = with(LINE2, 12, b",");
    let refusal = read(LINE1, &comma).unwrap_err();
    assert_eq!(refusal.to_string(), "refusal 3: line 2, column 12");
    let refusal = read(LINE1, &with(LINE2, 9, b"180.0001")).unwrap_err();
    assert_eq!(refusal.to_string(), "refusal 6: inclination out of range");
}

/// A satellite is plain memory: it may go to another thread.
#[test]
fn threads() {
    let satellite = Satellite::open(LINE1, LINE2).unwrap();
    let ask = |mut satellite: Satellite| bits(&satellite.at(Microseconds::from_minutes(360)).unwrap());
    let here = ask(satellite.clone());
    let there = std::thread::spawn(move || ask(satellite)).join().unwrap();
    assert_eq!(here, there);
}
