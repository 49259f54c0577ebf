//! Times put in the best order, and lists asked in it.

use saddlekerf::{best_order, Microseconds, Refusal, Rooms, Satellite, State, Strides};

const DAY: i64 = 86_400_000_000;
const STRIDE: i64 = DAY / 2;
const LIMIT: i64 = Microseconds::LIMIT.0;

/// Near Earth, one-day and half-day resonant, of the published set.
const PAIRS: [[&[u8; 69]; 2]; 3] = [
    [
        b"1 00005U 58002B   00179.78495062  .00000023  00000-0  28098-4 0  4753",
        b"2 00005  34.2682 348.7242 1859667 331.7664  19.3264 10.82419157413667",
    ],
    [
        b"1 24208U 96044A   06177.04061740 -.00000094  00000-0  10000-3 0  1600",
        b"2 24208   3.8536  80.0121 0026640 311.0977  48.3000  1.00778054 36119",
    ],
    [
        b"1 08195U 75081A   06176.33215444  .00000099  00000-0  11873-3 0   813",
        b"2 08195  64.1586 279.0717 6877146 264.7651  20.2257  2.00491383225656",
    ],
];

/// Zeros, then the times after the epoch outward, then those before it.
fn expected(times: &[i64]) -> Vec<i64> {
    let mut after: Vec<i64> = times.iter().copied().filter(|&time| time >= 0).collect();
    let mut before: Vec<i64> = times.iter().copied().filter(|&time| time < 0).collect();
    after.sort();
    before.sort_by(|a, b| b.cmp(a));
    after.extend(before);
    after
}

fn ordered(times: &[i64]) -> Vec<i64> {
    let mut times: Vec<Microseconds> = times.iter().copied().map(Microseconds).collect();
    best_order(&mut times);
    times.into_iter().map(|time| time.0).collect()
}

/// Times of both sides over 100 days that follow no order, with zeros, equal times and some out of range.
fn mixed(count: i64) -> Vec<i64> {
    let time = |i: i64| match i % 16 {
        0 => 0,
        1 => LIMIT + i,
        2 => i64::MIN + i,
        3 => -STRIDE * (i % 7),
        _ => (i * 7919) % 2003 * DAY / 10 - 100 * DAY,
    };
    (0..count).map(time).collect()
}

#[test]
fn in_place() {
    for times in [&[][..], &[0], &[-1], &[0, 0], &[-1, 0], &[1, -1, 1], &[i64::MAX, i64::MIN, 0, i64::MIN]] {
        assert_eq!(ordered(times), expected(times));
    }
    // a list of times takes no more than 1,024; putting them in order takes any number
    for count in [2, 3, 100, 1023, 1024, 1025, 5000] {
        let times = mixed(count);
        assert_eq!(ordered(&times), expected(&times), "{count}");
        assert_eq!(ordered(&expected(&times)), expected(&times), "{count}");
    }
}

fn bits(state: State) -> [u64; 6] {
    let ([x, y, z], [vx, vy, vz]) = (state.position, state.velocity);
    [x, y, z, vx, vy, vz].map(f64::to_bits)
}

type Asked = (Vec<Result<([u64; 6], u8), Refusal>>, Strides);

/// The rows and strides of a list, as it comes or in the best order.
fn asked(satellite: &mut Satellite, times: &[i64], best: bool) -> Result<Asked, Refusal> {
    let times: Vec<Microseconds> = times.iter().copied().map(Microseconds).collect();
    let count = times.len();
    let (mut refusals, mut states, mut rounds) =
        (vec![7; count], vec![State::default(); count], vec![7; count]);
    let mut rooms = Rooms { refusals: &mut refusals, states: &mut states, rounds: &mut rounds };
    let rows = match best {
        true => satellite.list_in_best_order(&times, &mut rooms),
        false => satellite.list(&times, &mut rooms),
    }?;
    Ok((rows.iter().map(|row| row.map(|row| (bits(row.state), row.rounds))).collect(), rows.strides()))
}

/// The same bits, for the strides to the farthest time on each side, added, which are never more.
#[test]
fn same_rows_for_fewer_strides() {
    for (place, [line1, line2]) in PAIRS.into_iter().enumerate() {
        for count in [0, 1, 2, 50, 1024] {
            let times = mixed(count);
            let mut fresh = Satellite::open(line1, line2).unwrap();
            let mut again = fresh.clone();
            let (rows, strides) = asked(&mut fresh, &times, false).unwrap();
            let (best_rows, best_strides) = asked(&mut again, &times, true).unwrap();
            assert_eq!(rows, best_rows);
            let inside = || times.iter().copied().filter(|time| time.unsigned_abs() <= LIMIT as u64);
            let after = inside().max().unwrap_or(0).max(0) / STRIDE;
            let before = -inside().min().unwrap_or(0).min(0) / STRIDE;
            assert_eq!(best_strides.0 as i64, if place == 0 { 0 } else { after + before });
            assert!(best_strides <= strides);
            if place > 0 && count > 2 {
                assert!(best_strides < strides, "{strides:?}");
            }
            // a satellite that was asked before gives the same rows
            assert_eq!(asked(&mut fresh, &times, true).unwrap().0, rows);
        }
    }
}

#[test]
fn refused_as_a_list_is() {
    let [line1, line2] = PAIRS[2];
    let mut satellite = Satellite::open(line1, line2).unwrap();
    let before = satellite.memory().1.to_owned();
    assert_eq!(asked(&mut satellite, &mixed(1025), true).unwrap_err(), Refusal::List);
    let times = [2880, -720].map(Microseconds::from_minutes);
    let marked = State { position: [1.0; 3], velocity: [1.0; 3] };
    let (mut refusals, mut states, mut rounds) = ([7; 2], [marked; 1], [7; 3]);
    let mut rooms = Rooms { refusals: &mut refusals, states: &mut states, rounds: &mut rounds };
    assert_eq!(satellite.list_in_best_order(&times, &mut rooms).unwrap_err(), Refusal::Room);
    assert_eq!((refusals, states, rounds), ([7; 2], [marked; 1], [7; 3]));
    assert_eq!(satellite.memory().1, &before);
    // what lies past the last row stays
    let (mut refusals, mut states, mut rounds) = ([7; 3], [marked; 3], [7; 3]);
    let mut rooms = Rooms { refusals: &mut refusals, states: &mut states, rounds: &mut rounds };
    assert_eq!(satellite.list_in_best_order(&times, &mut rooms).unwrap().len(), 2);
    assert_eq!((refusals[2], states[2], rounds[2]), (7, marked, 7));
}
