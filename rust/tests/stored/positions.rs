//! The published test set held against its published positions. The input, made by tests/verification.py, has for
//! each satellite its two lines and then, each on a line: `list`, a time in microseconds and the position published
//! for it, in units of 1E-8 km; and `one` and a time at which the published program stopped with an error instead.
//! A line that begins with `#` is printed as it stands. Printed is, for each satellite, why its lines are refused
//! if they are; every row that is refused, and every position more than 0.001 km off, with its time; what comes of
//! a time at which the published program stopped; and how many rows were compared, refused and off, and the largest
//! difference. All rows of a refused pair count as refused.

use crate::cases::{numbers, refused, Stored};
use saddlekerf::{Microseconds, Refusal, Satellite};
use std::iter::from_fn;

/// In kilometres, from a position in units of 1E-8 km.
fn difference(position: [f64; 3], published: &[i64]) -> f64 {
    let part = |k: usize| position[k] - published[k] as f64 / 100_000_000.0;
    let (x, y, z) = (part(0), part(1), part(2));
    (x * x + y * y + z * z).sqrt()
}

/// Document 01's 0.001 km. A NaN is off.
fn is_off(km: f64) -> bool {
    km > 0.001 || km.is_nan()
}

/// Whole micrometres, rounded down.
fn micrometres(km: f64) -> u64 {
    (km * 1_000_000_000.0) as u64
}

#[derive(Default)]
struct Tally {
    compared: u64,
    refused: u64,
    off: u64,
    largest: f64,
}

impl Tally {
    /// A published row, and what is printed of it.
    fn count(&mut self, time: i64, published: &[i64], row: Result<[f64; 3], Refusal>) -> String {
        let position = match row {
            Ok(position) => position,
            Err(refusal) => {
                self.refused += 1;
                return format!("at {time} refused {}\n", refusal.number());
            }
        };
        let km = difference(position, published);
        self.compared += 1;
        self.largest = if self.largest < km { km } else { self.largest };
        if !is_off(km) {
            return String::new();
        }
        self.off += 1;
        format!("at {time} off by micrometres {}\n", micrometres(km))
    }

    fn text(&self) -> String {
        let Tally { compared, refused, off, largest } = self;
        let most = micrometres(*largest);
        format!(
            "rows compared {compared}\nrows refused {refused}\npositions off {off}\n\
             largest difference in micrometres {most}\n"
        )
    }
}

/// What is printed of a satellite and the lines behind its pair.
fn verified(line1: &str, line2: &str, asked: &[&str]) -> String {
    let mut tally = Tally::default();
    let mut printed = format!("satellite {}\n", &line1[2..7]);
    match Satellite::open(line1.as_bytes(), line2.as_bytes()) {
        Err(refusal) => {
            tally.refused = asked.iter().filter(|line| line.starts_with("list ")).count() as u64;
            printed += &refused(refusal);
        }
        Ok(mut satellite) => {
            for line in asked {
                let (word, rest) = line.split_once(' ').expect(line);
                let published: Vec<i64> = numbers(rest);
                let time = published[0];
                let row = satellite.at(Microseconds(time)).map(|state| state.position);
                printed += &match (word, published.len()) {
                    ("list", 4) => tally.count(time, &published[1..], row),
                    ("one", 1) => {
                        let refusal = row.err().map_or(0, Refusal::number);
                        format!("published stop at {time} refused {refusal}\n")
                    }
                    _ => panic!("{line}"),
                };
            }
        }
    }
    printed + &tally.text()
}

#[test]
fn published_positions() {
    let stored = Stored::cases("positions");
    let mut lines = stored.lines().peekable();
    let mut printed = String::new();
    while let Some(line) = lines.next() {
        if line.starts_with('#') {
            printed += &format!("{line}\n");
            continue;
        }
        let second = lines.next().expect("a second line");
        let asked: Vec<&str> = from_fn(|| lines.next_if(|line| !line.starts_with(['1', '#']))).collect();
        printed += &verified(line, second, &asked);
    }
    stored.hold([printed]);
}
