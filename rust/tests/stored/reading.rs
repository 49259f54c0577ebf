//! Whole and damaged pairs, by the reader of tests/tle_pairs.py. Printed is of each `ok`, or `refused`, the number
//! and what comes back with it.

use crate::cases::{told, Stored};
use saddlekerf::{read, Fields};

fn answer([line1, line2]: [&[u8]; 2]) -> String {
    let answer = read(line1, line2);
    // the same in two operations
    assert_eq!(Fields::read(line1, line2).and_then(Fields::judge).map(drop), answer);
    told(answer)
}

#[test]
fn whole_and_damaged_pairs() {
    let stored = Stored::cases("reading");
    stored.hold(stored.pairs().map(answer));
}
