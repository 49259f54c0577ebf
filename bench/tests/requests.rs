//! Requests: document 01's cases at the edges, and the saved position against
//! an integrator that starts at the epoch for every time.

use port::elementary::Document;
use port::generate::{self, Ask};
use port::instant::{DAY, SPAN_LIMIT};
use port::random::Random;
use port::request::{Row, Satellite, Saved, STRIDE};
use port::tle;
use port::windows;
use saddlekerf::{Instant, Microseconds, Rooms, State};

const MINUTE: i64 = 60_000_000;

fn published() -> Vec<Satellite<Document>> {
    port::published::pairs()
        .iter()
        .filter_map(|(line1, line2)| tle::read(line1, line2).ok())
        .filter_map(|record| Satellite::open(&record).ok())
        .collect()
}

fn with_irez(irez: u8) -> Satellite<Document> {
    published().into_iter().find(|satellite| satellite.satrec.irez == irez).unwrap()
}

fn strides(satellite: &mut Satellite<Document>, minutes: &[i64]) -> Vec<u64> {
    minutes.iter().map(|&t| satellite.request(t * MINUTE).1).collect()
}

#[test]
fn strides_at_the_edges() {
    for irez in [1, 2] {
        assert_eq!(strides(&mut with_irez(irez), &[1440, 2880, 1440, -720]), [2, 2, 2, 1]);
        assert_eq!(strides(&mut with_irez(irez), &[719, 720, 1440]), [0, 1, 1]);
        let mut satellite = with_irez(irez);
        assert_eq!(satellite.request(SPAN_LIMIT + 1).0.refusal, 9);
        assert_eq!(satellite.request(-SPAN_LIMIT - 1).0.refusal, 9);
        assert_eq!(satellite.request(SPAN_LIMIT).1, 7304);
        assert_eq!(satellite.request(-SPAN_LIMIT).1, 7304);
        assert_eq!(satellite.request(i64::MIN).1, 0);
        assert_eq!(satellite.saved.stride, 7304);
    }
    assert_eq!(strides(&mut with_irez(0), &[1440, 2880, 1440, -720]), [0, 0, 0, 0]);
}

#[test]
fn lists() {
    let mut satellite = with_irez(2);
    let mut rows = [Row::EMPTY; 1025];
    assert_eq!(satellite.list(&[], &mut rows), Ok(0));
    assert_eq!(satellite.list(&[SPAN_LIMIT + 1, i64::MIN], &mut rows), Ok(0));
    assert_eq!((rows[0].refusal, rows[1].refusal), (9, 9));
    assert_eq!(satellite.list(&[0; 1025], &mut []), Err(18));
    assert_eq!(satellite.list(&[0; 3], &mut rows[..2]), Err(17));
    assert_eq!(satellite.list(&[DAY; 1024], &mut rows), Ok(2));
    assert!(rows[1..1024].iter().all(|row| row.same(&rows[0])));
}

/// Whatever was asked before, a row is that of a newly opened satellite, and
/// the strides are those that document 01 counts from the times alone.
#[test]
fn saved_position_changes_no_bit() {
    let mut random = Random::new(720);
    for fresh in published() {
        let mut satellite = fresh;
        let mut last: Option<i64> = None;
        for _ in 0..400 {
            let time = match random.below(8) {
                0 => random.between(-SPAN_LIMIT - DAY, SPAN_LIMIT + DAY),
                1 => random.between(-8, 8) * STRIDE + random.between(-1, 1),
                _ => random.between(-20, 20) * DAY + random.between(-DAY, DAY),
            };
            let (row, strides) = satellite.request(time);
            assert!(row.same(&fresh.request_restarting(time)), "{time}");
            assert_eq!(strides, counted(fresh.satrec.irez, time, last), "{last:?} {time}");
            if time.abs() <= SPAN_LIMIT {
                last = Some(time);
            }
        }
    }
}

/// Document 01: m less the m of the last in-range time, if that is no larger
/// and either is 0 or belongs to a time on the same side; otherwise m.
fn counted(irez: u8, time: i64, last: Option<i64>) -> u64 {
    let m = |t: i64| if irez == 0 { 0 } else { t.unsigned_abs() / STRIDE as u64 };
    if time.abs() > SPAN_LIMIT {
        return 0;
    }
    match last {
        Some(l) if m(l) <= m(time) && (m(l) == 0 || (l < 0) == (time < 0)) => m(time) - m(l),
        _ => m(time),
    }
}

/// The rules hold for any satellite handed in.
#[test]
fn any_saved_position() {
    let mut satellite = with_irez(1);
    satellite.saved = Saved { forward: false, stride: 3, xli: f64::NAN, xni: f64::INFINITY };
    assert_eq!(satellite.request(-2 * STRIDE).1, 2);
    satellite.saved = Saved { forward: false, stride: 1, xli: f64::NAN, xni: 1.0 };
    let (row, strides) = satellite.request(-2 * STRIDE);
    assert_eq!((row.refusal, strides, satellite.saved.stride), (15, 1, 2));
    assert!(satellite.saved.xli.is_nan());
    assert_eq!(satellite.request(0).1, 0);
    assert!(satellite.saved.forward && satellite.saved.stride == 0);
    assert!(satellite.saved.xli.is_finite());
}

// ---------------------------------------------- the proved library, of any memory

type Memory = ([f64; 83], [u32; 6]);

/// Memory that no opening wrote: a published satellite's with some of it changed, or numbers at random.
fn any_memory(random: &mut Random, opened: &saddlekerf::Satellite) -> Memory {
    let (numbers, marks) = opened.memory();
    let (mut numbers, mut marks) = (*numbers, *marks);
    let odds = *random.pick(&[1, 4, 40]);
    for number in &mut numbers {
        if random.one_in(odds) {
            *number = match random.below(4) {
                0 => f64::from_bits(random.next_u64()),
                1 => *random.pick(&[0.0, -0.0, f64::NAN, f64::INFINITY, -1.0, f64::MAX]),
                _ => random.uniform(-2.0, 2.0),
            };
        }
    }
    for mark in &mut marks {
        if random.one_in(2) {
            *mark = *random.pick(&[0, 1, 2, 3, 5, 7304, u32::MAX]);
        }
    }
    (numbers, marks)
}

/// Bits, with one pattern for all NaNs.
fn one_nan(x: f64) -> u64 {
    if x.is_nan() {
        f64::NAN.to_bits()
    } else {
        x.to_bits()
    }
}

fn pattern((numbers, marks): (&[f64; 83], &[u32; 6])) -> ([u64; 83], [u32; 6]) {
    (numbers.map(one_nan), *marks)
}

/// The strides that document 01 counts from the saved position, and the position's side and number after.
fn expected(marks: &[u32; 6], time: i64) -> (u32, [u32; 2]) {
    let m = if marks[3] < 2 { 0 } else { (time.unsigned_abs() / STRIDE as u64) as u32 };
    let forward = m == 0 || time > 0;
    let resumes = (marks[1] == 0 || (marks[0] == 0) == forward) && m >= marks[1];
    (if resumes { m - marks[1] } else { m }, [if forward { 0 } else { 1 }, m])
}

/// One time put to any memory: what it tells, and what it writes.
fn ask_any(satellite: &mut saddlekerf::Satellite, time: i64) -> (u8, [u64; 6], u8, u32) {
    let mark = State { position: [f64::from_bits(0x7ff8_0000_0000_0777); 3], velocity: [-0.0; 3] };
    let bits = |s: &State| {
        let ([x, y, z], [vx, vy, vz]) = (s.position, s.velocity);
        [x, y, z, vx, vy, vz].map(f64::to_bits)
    };
    let (before, before_bits) = (satellite.clone(), satellite.memory().0.map(f64::to_bits));
    let mut state = mark;
    let (rounds, strides) = satellite.request_into(Microseconds(time), &mut state);
    let (was, is) = (before.memory(), satellite.memory());
    assert_eq!(
        (before_bits[2..].to_vec(), &was.1[2..]),
        (is.0[2..].iter().map(|x| x.to_bits()).collect(), &is.1[2..])
    );
    if time.unsigned_abs() > SPAN_LIMIT as u64 {
        assert_eq!((rounds.map_err(|r| r.number()), strides.0), (Err(9), 0));
        assert_eq!((is.0.map(f64::to_bits), is.1), (before_bits, was.1));
    } else {
        let (taken, place) = expected(was.1, time);
        assert_eq!((strides.0, &is.1[..2]), (taken, &place[..]), "{:?} {time}", was.1);
    }
    match rounds {
        Ok(rounds) => {
            assert!(
                bits(&state).iter().all(|&b| f64::from_bits(b).is_finite()) && (1..=10).contains(&rounds)
            );
            (0, bits(&state), rounds, strides.0)
        }
        Err(refusal) => {
            assert!((9..=15).contains(&refusal.number()));
            assert_eq!(bits(&state), bits(&mark));
            (refusal.number(), [0; 6], 0, strides.0)
        }
    }
}

/// The rules of requests for memory that holds anything, and a list beside its times one by one.
#[test]
fn any_satellite_handed_to_the_proved_library() {
    let mut random = Random::new(83);
    let mut refusals = [0u32; 16];
    for (line1, line2) in port::published::pairs() {
        let Ok(opened) = saddlekerf::Satellite::open(&line1, &line2) else { continue };
        for _ in 0..40 {
            let (numbers, marks) = any_memory(&mut random, &opened);
            let mut one_by_one = saddlekerf::Satellite::from_memory(numbers, marks);
            let mut listed = one_by_one.clone();
            let times: Vec<i64> = (0..6).map(|_| generate::time(&mut random)).collect();
            let told: Vec<_> = times.iter().map(|&time| ask_any(&mut one_by_one, time)).collect();
            let (mut numbers, mut states, mut rounds) = ([7; 6], [State::default(); 6], [7; 6]);
            let mut rooms = Rooms { refusals: &mut numbers, states: &mut states, rounds: &mut rounds };
            let times: Vec<Microseconds> = times.into_iter().map(Microseconds).collect();
            let strides = listed.list(&times, &mut rooms).unwrap().strides();
            assert_eq!(strides.0, told.iter().map(|row| row.3).sum::<u32>());
            for (place, row) in told.iter().enumerate() {
                let State { position: [x, y, z], velocity: [vx, vy, vz] } = states[place];
                let bits = [x, y, z, vx, vy, vz].map(f64::to_bits);
                assert_eq!((numbers[place], bits, rounds[place]), (row.0, row.1, row.2));
                refusals[row.0 as usize] += 1;
            }
            let (one, other) = (one_by_one.memory(), listed.memory());
            let reached = times.iter().any(|time| time.0.unsigned_abs() <= SPAN_LIMIT as u64);
            assert!(!reached || pattern(one) == pattern(other), "{marks:?} {times:?}");
        }
    }
    println!("{refusals:?}");
    for refusal in [0, 9, 10, 11, 12, 14, 15] {
        assert!(refusals[refusal] >= 10, "{refusals:?}");
    }
}

/// The same with the side as it is read: ahead of the epoch at 0, behind it at any other mark. A call that
/// reaches no time may write 1 for such a mark.
fn meaning(memory: (&[f64; 83], &[u32; 6])) -> ([u64; 83], bool, [u32; 5]) {
    let (numbers, [side, rest @ ..]) = pattern(memory);
    (numbers, side == 0, rest)
}

/// Windows of memory that holds anything are those of its own rows, asked one by one. The call leaves all
/// but the saved position, and where it is refused that too.
#[test]
fn windows_of_any_satellite_handed_to_the_proved_library() {
    let mut random = Random::new(1024);
    let (mut refusals, mut seen) = ([0u32; 27], 0);
    for (line1, line2) in port::published::pairs() {
        let Ok(opened) = saddlekerf::Satellite::open(&line1, &line2) else { continue };
        for _ in 0..60 {
            let (numbers, marks) = any_memory(&mut random, &opened);
            let mut one_by_one = saddlekerf::Satellite::from_memory(numbers, marks);
            let mut asked = one_by_one.clone();
            let epoch = marks[4] as u64 | (marks[5] as u64) << 32;
            assert_eq!(asked.epoch(), Instant(epoch));
            let Ask::Windows { watch, places, .. } = generate::windows(&mut random, epoch) else {
                unreachable!()
            };
            let (mut firsts, mut lasts) = (vec![7; places.0], vec![9; places.1]);
            let lent = (firsts.clone(), lasts.clone());
            let answer = asked.windows_into(
                &watch.station,
                Instant(watch.start),
                watch.step,
                watch.samples,
                &mut firsts,
                &mut lasts,
            );
            let answer = answer.map(|(count, strides)| (count, strides.0 as u64)).map_err(|r| r.number());
            let (mut first, mut last) = lent.clone();
            let expected = windows::windows_by::<Document>(&watch, epoch, &mut first, &mut last, |time| {
                let (refusal, bits, _, strides) = ask_any(&mut one_by_one, time);
                let [x, y, z, ..] = bits.map(f64::from_bits);
                (Row { refusal, r: [x, y, z], ..Row::EMPTY }, strides as u64)
            });
            assert_eq!(answer, expected, "{watch:?} {marks:?}");
            assert_eq!((&firsts, &lasts), (&first, &last), "{watch:?} {marks:?}");
            let (was, is) = ((&numbers, &marks), asked.memory());
            let bits = |numbers: &[f64]| numbers.iter().map(|x| x.to_bits()).collect::<Vec<_>>();
            assert_eq!((bits(&was.0[2..]), &was.1[2..]), (bits(&is.0[2..]), &is.1[2..]));
            if answer.is_err() {
                assert_eq!((bits(was.0), was.1), (bits(is.0), is.1));
            }
            assert!(meaning(one_by_one.memory()) == meaning(is), "{watch:?} {marks:?}");
            refusals[answer.err().unwrap_or(0) as usize] += 1;
            seen += answer.map_or(0, |(count, _)| count);
        }
    }
    println!("{refusals:?}, {seen} windows");
    assert!(seen >= 100 && [0, 17, 18, 25, 26].iter().all(|&r| refusals[r] >= 5), "{refusals:?}, {seen}");
}
