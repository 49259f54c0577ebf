//! Times put in the best order and lists asked in it: the proved library against the port, the Python
//! program that counts strides by itself, and wrong orders, which the comparison must see.

use port::compare::Tally;
use port::elementary::Document;
use port::orders::{best_order, case, proved, Orderer};
use port::published;
use port::request::{Row, Satellite};
use port::tle;
use std::path::Path;
use std::process::Command;

const SEED: u64 = 1957;

#[test]
fn the_port_and_the_library() {
    let mut tally = Tally::default();
    for index in 0..5_000 {
        case(SEED, index, (best_order, proved), &mut tally).unwrap_or_else(|found| panic!("{found}"));
    }
    assert_eq!(tally.of("lists put in order"), 5_000);
    for name in ["fewer strides", "as many strides"] {
        let name = format!("lists asked in order: {name}");
        assert!(tally.of(&name) > 50, "{name}: {}", tally.of(&name));
    }
}

/// Of equal times one is kept, and zeros stand for the others.
fn drops_equal(times: &mut [i64]) {
    best_order(times);
    for place in (1..times.len()).rev() {
        if times[place] == times[place - 1] {
            times[place] = 0;
        }
    }
}

/// By distance alone: the sides in turns.
fn in_turns(times: &mut [i64]) {
    times.sort_by_key(|time| time.unsigned_abs());
}

/// The other side first.
fn back_first(times: &mut [i64]) {
    times.sort_by_key(|&time| (time > 0, time.unsigned_abs()));
}

/// Times out of range are left out of the order.
fn in_range_only(times: &mut [i64]) {
    let mut some: Vec<i64> = times.iter().copied().filter(|time| time.unsigned_abs() < 1 << 49).collect();
    best_order(&mut some);
    let mut some = some.into_iter();
    times
        .iter_mut()
        .filter(|time| time.unsigned_abs() < 1 << 49)
        .for_each(|time| *time = some.next().unwrap());
}

#[test]
fn wrong_orders_are_seen() {
    let wrong: [(&str, Orderer); 4] = [
        ("equal times dropped", drops_equal),
        ("the sides in turns", in_turns),
        ("back first", back_first),
        ("in range only", in_range_only),
    ];
    for (name, wrong) in wrong {
        let mut tally = Tally::default();
        assert!(
            (0..2_000).any(|index| case(SEED, index, (best_order, wrong), &mut tally).is_err()),
            "{name}"
        );
    }
}

/// The Python program orders times, counts strides and tries every order of short lists by itself.
#[test]
fn python() {
    let root = Path::new(env!("CARGO_MANIFEST_DIR")).parent().unwrap();
    let mut command = Command::new("python3");
    let output = command.current_dir(root).args(["tests/time_orders.py", "--random", "14", "2000"]).output();
    let text = String::from_utf8(output.expect("python3").stdout).unwrap();
    let half_day = published::pairs().into_iter().find(|(line1, _)| &line1[2..7] == b"08195");
    let (line1, line2) = half_day.expect("a published pair");
    let fresh = Satellite::<Document>::open(&tle::read(&line1, &line2).unwrap()).unwrap();
    let numbers = |line: &str| -> Vec<i64> {
        line.trim_start_matches("list").split_whitespace().map(|word| word.parse().unwrap()).collect()
    };
    let lines: Vec<Vec<i64>> = text.lines().map(numbers).collect();
    assert_eq!(lines.len(), 6_000);
    let mut fewer = 0;
    for found in lines.chunks(3) {
        let (times, wanted, counted) = (&found[0], &found[1], &found[2]);
        let mut ordered = times.clone();
        best_order(&mut ordered);
        assert_eq!(&ordered, wanted);
        proved(&mut ordered);
        assert_eq!(&ordered, wanted);
        let mut rows = vec![Row::EMPTY; times.len()];
        let strides = [times, wanted].map(|list| { fresh }.list(list, &mut rows).unwrap() as i64);
        assert_eq!(&strides[..], &counted[..], "{times:?}");
        fewer += (strides[1] < strides[0]) as usize;
    }
    assert!(fewer > 500, "{fewer}");
}
