//! Passes one after the other, looks, and what lent memory holds afterwards.

use saddlekerf::{Instant, Microseconds, Refusal, Satellite, Station, Unseen};

const LINE1: &[u8] = b"1 06251U 62025E   06176.82412014  .00008885  00000-0  12808-3 0  3985";
const LINE2: &[u8] = b"2 06251  58.0579  54.0425 0030035 139.1568 221.1854 15.56387291  6774";
const GREENWICH: Station = Station { latitude: 51.4779, longitude: -0.0015, height: 46.0 };
const SECOND: u64 = 1_000_000;
/// 2057 January 1, 0h.
const END: Instant = Instant(36_525 * 86_400 * SECOND);

fn satellite() -> Satellite {
    Satellite::open(LINE1, LINE2).unwrap()
}

#[test]
fn the_iterator_goes_on_where_a_pass_ended() {
    let satellite = satellite();
    let mut passes = satellite.passes(GREENWICH, 10.0, satellite.epoch(), 60, 2880).unwrap();
    let (mut start, mut left, mut count) = (satellite.epoch(), 2880, 0);
    while let Some(pass) = satellite.next_pass(GREENWICH, 10.0, start, 60, left).unwrap() {
        assert_eq!(passes.next(), Some(pass));
        assert!(!pass.begun && !pass.still && pass.rise <= pass.highest && pass.highest <= pass.set);
        assert!(pass.set < pass.next && pass.next.0 - pass.set.0 <= 60 * SECOND);
        assert_eq!(pass.next.0, satellite.epoch().0 + (2880 - pass.left as u64) * 60 * SECOND);
        for (edge, beside) in [(pass.rise, pass.rise.0 - SECOND), (pass.set, pass.set.0 + SECOND)] {
            assert!((satellite.look(GREENWICH, edge).unwrap().elevation - 10.0).abs() < 1e-6);
            assert!(satellite.look(GREENWICH, Instant(beside)).unwrap().elevation < 10.0);
        }
        (start, left, count) = (pass.next, pass.left, count + 1);
    }
    assert_eq!((count, passes.next(), passes.next()), (11, None, None));
}

#[test]
fn what_is_refused_writes_nothing() {
    let satellite = satellite();
    let (numbers, marks) = satellite.memory();
    let before = (numbers.map(f64::to_bits), *marks);
    let start = satellite.epoch();
    let mut pass = [7; 5];
    let mut ask = |station: &[f64], step, room: usize| {
        satellite.next_pass_into(station, start, step, 2880, &mut pass[..room]).map(|found| found.is_some())
    };
    let lawful = [51.4779, -0.0015, 46.0, 10.0];
    assert_eq!(ask(&lawful[..3], 0, 3), Err(Refusal::Station));
    assert_eq!(ask(&[51.4779, -0.0015, 46.0, f64::NAN], 60, 4), Err(Refusal::Station));
    assert_eq!(ask(&lawful, 86_401, 3), Err(Refusal::Step));
    assert_eq!(ask(&lawful, 60, 3), Err(Refusal::Room));
    assert_eq!(ask(&[51.4779, -0.0015, 46.0, 90.0], 60, 4), Ok(false));
    assert_eq!(pass, [7; 5]);
    let found = satellite.next_pass_into(&lawful, start, 60, 2880, &mut pass).unwrap();
    assert!(found.is_some() && pass[4] == 7 && pass[0] < pass[1] && pass[1] < pass[2] && pass[2] < pass[3]);

    let mut look = [7.0; 4];
    let mut ask = |station: &[f64], instant, room: usize| {
        satellite.look_into(station, instant, &mut look[..room]).map_err(Unseen::number)
    };
    assert_eq!(ask(&lawful[..2], END, 2), Err(25));
    assert_eq!(ask(&lawful, END, 2), Err(17));
    assert_eq!(ask(&lawful, END, 3), Err(6));
    assert_eq!(ask(&lawful, Instant(start.0 + Microseconds::LIMIT.0 as u64 + 1), 3), Err(9));
    assert_eq!(look, [7.0; 4]);
    assert_eq!(satellite.look_into(&lawful, start, &mut look), Ok(()));
    assert!(look[3] == 7.0 && look[2] > 100.0);
    assert_eq!((satellite.memory().0.map(f64::to_bits), *satellite.memory().1), before);
}

/// A calendar that ends, and a satellite asked before and past its ten years.
#[test]
fn where_samples_end() {
    let satellite = satellite();
    let last = Instant(END.0 - SECOND);
    assert_eq!(satellite.next_pass(GREENWICH, 0.0, last, 1, u32::MAX), Ok(None));
    assert_eq!(satellite.next_pass(GREENWICH, 0.0, Instant(u64::MAX), 1, u32::MAX), Ok(None));
    assert_eq!(satellite.look(GREENWICH, last), Err(Unseen::Refused(Refusal::Time)));
    assert_eq!(satellite.look(GREENWICH, END), Err(Unseen::Outside));
    assert_eq!(Unseen::Outside.to_string(), "refusal 6: an instant outside 1957-2056");
}
