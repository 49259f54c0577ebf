//! The profile's archive against the port and against the full library, bit for bit: the published set and
//! random pairs, times at the edges of its range and random ones, single and in lists, on its own memory and
//! on memory that the full library opened.

use port::generate;
use port::instant::DAY;
use port::profile::{Satellite, LATEST};
use port::random::Random;
use port::request::Row;
use saddlekerf::{profile, Microseconds, Refusal, Rooms, State};

fn edges() -> Vec<i64> {
    vec![0, LATEST, LATEST + 1, -1, i64::MIN, i64::MAX, 1, LATEST - 1, -LATEST, 3652 * DAY, 3652 * DAY + 1]
}

fn times(random: &mut Random) -> Vec<i64> {
    let mut times = edges();
    times.extend((0..8).map(|_| random.between(0, LATEST)));
    times.extend((0..3).map(|_| random.between(-LATEST, 2 * LATEST)));
    random.shuffle(&mut times);
    times
}

fn row_of(answer: Result<saddlekerf::Row, Refusal>) -> Row {
    match answer {
        Ok(row) => {
            Row { refusal: 0, r: row.state.position, v: row.state.velocity, rounds: row.rounds as u32 }
        }
        Err(refusal) => Row { refusal: refusal.number(), ..Row::EMPTY },
    }
}

/// What is held against what, of one pair; how many rows were answered.
fn compare(line1: &[u8], line2: &[u8], times: &[i64]) -> usize {
    let ported = Satellite::open(line1, line2);
    let opened = profile::Satellite::open(line1, line2);
    let full = saddlekerf::Satellite::open(line1, line2);
    let number = |refusal: Refusal| refusal.number();
    assert_eq!(
        opened.as_ref().err().map(|&refusal| number(refusal)),
        ported.as_ref().err().map(|refusal| refusal.number())
    );
    let (Ok(mut ported), Ok(mut opened)) = (ported, opened) else {
        return 0;
    };
    let mut full = full.expect("what the profile opens, the full library opens");
    let before = opened.clone();
    let mut answered = 0;
    for &micros in times {
        let row = row_of(opened.request(Microseconds(micros)));
        assert!(row.same(&ported.request(micros)), "{micros}: {row:?}");
        if (0..=LATEST).contains(&micros) {
            let answer = full.request(Microseconds(micros));
            assert!(row.same(&row_of(answer.row)), "{micros}: {row:?}");
            assert_eq!(answer.strides.0, 0);
        } else {
            assert_eq!(row.refusal, 33);
        }
        answered += usize::from(row.refusal == 0);
    }
    lists(&mut opened, &mut ported, times);
    let same = |a: &[f64], b: &[f64]| a.iter().zip(b).all(|(x, y)| x.to_bits() == y.to_bits());
    assert!(same(opened.memory().0, before.memory().0) && opened.memory().1 == before.memory().1);
    answered
}

/// A list has the rows of its times; what lies past them stays.
fn lists(opened: &mut profile::Satellite, ported: &mut Satellite, times: &[i64]) {
    let count = times.len();
    let times: Vec<Microseconds> = times.iter().copied().map(Microseconds).collect();
    let (mut refusals, mut rounds) = (vec![77; count + 1], vec![77; count + 1]);
    let mut states = vec![State { position: [7.0; 3], velocity: [7.0; 3] }; count + 1];
    let mut rooms = Rooms { refusals: &mut refusals, states: &mut states, rounds: &mut rounds };
    let rows = opened.list(&times, &mut rooms).expect("a list that is not refused");
    assert_eq!(rows.strides().0, 0);
    for (index, time) in times.iter().enumerate() {
        assert!(row_of(rows.row(index)).same(&ported.request(time.0)));
    }
    for index in 0..count {
        if refusals[index] != 0 {
            let zero = |x: &f64| x.to_bits() == 0;
            assert!(states[index].position.iter().chain(&states[index].velocity).all(zero));
            assert_eq!(rounds[index], 0);
        }
    }
    assert_eq!((refusals[count], rounds[count]), (77, 77));
    assert_eq!(states[count].position, [7.0; 3]);
}

#[test]
fn published_set() {
    let mut random = Random::new(13);
    let mut answered = 0;
    for (line1, line2) in port::published::pairs() {
        let mut times = times(&mut random);
        times.extend((0..=120).map(|quarter| quarter * DAY / 4));
        answered += compare(&line1, &line2, &times);
    }
    assert!(answered > 500, "{answered}");
}

#[test]
fn random_pairs() {
    let mut random = Random::new(1313);
    let (mut answered, mut deep) = (0, 0);
    for _ in 0..4000 {
        let aim = *random.pick(&generate::AIMS);
        let (line1, line2) = generate::pair(&mut random, aim);
        answered += compare(&line1, &line2, &times(&mut random));
        deep += usize::from(profile::Satellite::open(&line1, &line2).err() == Some(Refusal::DeepSpace));
    }
    for _ in 0..1000 {
        let (line1, line2) = generate::damaged_pair(&mut random);
        compare(&line1, &line2, &[0]);
        let (line1, line2) = generate::grazing_pair(&mut random);
        answered += compare(&line1, &line2, &times(&mut random));
    }
    assert!(answered > 10_000 && deep > 300, "{answered} {deep}");
}

/// The front of memory that the full library opened: a near-Earth satellite answers, any other is refused
/// with 32 before all else, and nothing is written.
#[test]
fn memory_of_the_full_library() {
    let (mut near, mut deep) = (0, 0);
    for (line1, line2) in port::published::pairs() {
        let Ok(full) = saddlekerf::Satellite::open(&line1, &line2) else { continue };
        let (numbers, marks) = full.memory();
        let front: [f64; profile::Satellite::NUMBERS] = numbers[..36].try_into().unwrap();
        let mut handed = profile::Satellite::from_memory(front, *marks);
        match profile::Satellite::open(&line1, &line2) {
            Ok(opened) => {
                near += 1;
                let same = |a: &[f64], b: &[f64]| a.iter().zip(b).all(|(x, y)| x.to_bits() == y.to_bits());
                assert!(same(opened.memory().0, &front) && opened.memory().1 == marks);
                assert!(handed.request(Microseconds(0)).is_ok());
            }
            Err(refusal) => {
                deep += 1;
                assert_eq!(refusal, Refusal::DeepSpace);
                for time in [0, -1, LATEST + 1] {
                    assert_eq!(handed.request(Microseconds(time)), Err(Refusal::DeepSpace));
                }
                let mut nothing = Rooms { refusals: &mut [], states: &mut [], rounds: &mut [] };
                let long = vec![Microseconds(0); 1025];
                assert_eq!(handed.list(&long, &mut nothing).unwrap_err(), Refusal::DeepSpace);
                assert_eq!(handed.list(&long[..1], &mut nothing).unwrap_err(), Refusal::DeepSpace);
                let same = |a: &[f64], b: &[f64]| a.iter().zip(b).all(|(x, y)| x.to_bits() == y.to_bits());
                assert!(same(handed.memory().0, &front) && handed.memory().1 == marks);
            }
        }
    }
    assert!(near > 3 && deep > 10, "{near} {deep}");
}

/// 18 and 17 before any row, and with the satellite unchanged.
#[test]
fn refused_lists() {
    let (line1, line2) = port::published::pairs()[0].clone();
    let mut satellite = profile::Satellite::open(&line1, &line2).unwrap();
    let (mut refusals, mut rounds) = ([7; 2], [7; 2]);
    let mut states = [State { position: [7.0; 3], velocity: [7.0; 3] }; 2];
    let times = vec![Microseconds(-1); 1025];
    let mut rooms = Rooms { refusals: &mut refusals, states: &mut states, rounds: &mut rounds };
    assert_eq!(satellite.list(&times, &mut rooms).unwrap_err(), Refusal::List);
    assert_eq!(satellite.list(&times[..3], &mut rooms).unwrap_err(), Refusal::Room);
    let rows = satellite.list(&times[..2], &mut rooms).unwrap();
    assert_eq!(rows.row(0), Err(Refusal::ProfileTime));
    assert!(satellite.list(&[], &mut rooms).unwrap().is_empty());
}

/// Whether a row of the published near-Earth satellites is another than a request's.
fn differs(request: fn(&mut Satellite, i64) -> Row) -> bool {
    port::published::pairs().iter().any(|(line1, line2)| {
        let (Ok(mut ported), Ok(mut opened)) =
            (Satellite::open(line1, line2), profile::Satellite::open(line1, line2))
        else {
            return false;
        };
        edges()
            .iter()
            .any(|&time| !row_of(opened.request(Microseconds(time))).same(&request(&mut ported, time)))
    })
}

/// The rows are those of the port, and not those of ports that slip.
#[test]
fn slips_are_seen() {
    assert!(!differs(Satellite::request));
    let slips: [fn(&mut Satellite, i64) -> Row; 6] = [
        |_, _| Row { refusal: 33, ..Row::EMPTY },
        |ported, time| ported.request(if time == LATEST { time + 1 } else { time }),
        |ported, time| ported.request(if time == LATEST + 1 { LATEST } else { time }),
        |ported, time| ported.request(if time == -1 { 1 } else { time }),
        |ported, time| {
            let row = ported.request(time);
            Row { refusal: if row.refusal == 33 { 9 } else { row.refusal }, ..row }
        },
        |ported, time| {
            let row = ported.request(time);
            Row { rounds: row.rounds + 1, ..row }
        },
    ];
    for (number, slip) in slips.into_iter().enumerate() {
        assert!(differs(slip), "slip {number}");
    }
}
