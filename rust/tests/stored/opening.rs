//! The published test set opened. Printed are numbers of each satellite, as bit patterns, under the names and in
//! the order of bench/src/bin/open_numbers.rs, the independent port whose output is the expected one. They are read
//! from the satellite's memory: crates/storage/specs/Storage.antt says where each lies.

use crate::cases::{patterns, Stored};
use saddlekerf::{Record, Satellite};

/// no, con41, cc1, cc4, cc5, t2cof, mdot, argpdot, nodedot, xlcof, aycof
const NEAR: &[usize] = &[7, 28, 10, 11, 12, 15, 24, 25, 26, 31, 32];
/// zmol, zmos, e2 of the Sun and of the Moon, dedt, dmdt
const DEEP: &[usize] = &[66, 65, 41, 53, 36, 38];
/// xlamo, xfact, del1, del2, del3
const ONE_DAY: &[usize] = &[67, 68, 73, 74, 75];
/// xlamo, xfact, d2201, d2211, d3210, d5433
const HALF_DAY: &[usize] = &[67, 68, 73, 74, 75, 82];
const GSTO: usize = 72;
/// The mark that tells the kind.
const KIND: usize = 3;

/// The Greenwich angle at the epoch. A near-Earth satellite does not keep it, one of the same epoch in deep space
/// does.
fn gsto(line1: &[u8], line2: &[u8]) -> f64 {
    let record = Record::read(line1, line2).unwrap();
    let [line1, line2] = Record { motion: 1_0000_0000, ..record }.write().unwrap();
    Satellite::open(&line1, &line2).unwrap().memory().0[GSTO]
}

fn opened([line1, line2]: [&[u8]; 2]) -> String {
    let name = line1[2..7].escape_ascii();
    let satellite = match Satellite::open(line1, line2) {
        Ok(satellite) => satellite,
        Err(refusal) => return format!("{name} refused {}\n", refusal.number()),
    };
    let (numbers, marks) = satellite.memory();
    let at = |places: &[usize]| patterns(places.iter().map(|&place| numbers[place]));
    let near = |gsto| at(NEAR) + &patterns([gsto]);
    let deep = || near(numbers[GSTO]) + &at(DEEP);
    let (kind, text) = match marks[KIND] {
        0 => ("near", near(gsto(line1, line2))),
        1 => ("deep", deep()),
        2 => ("one-day", deep() + &at(ONE_DAY)),
        3 => ("half-day", deep() + &at(HALF_DAY)),
        other => panic!("{name}: the kind {other}"),
    };
    format!("{name} {kind}{text}\n")
}

#[test]
fn numbers_of_satellites() {
    let stored = Stored::cases("opening");
    stored.hold(stored.pairs().map(opened));
}
