//! The pairs of the published test set (SGP4-VER.TLE), the first 69 bytes of each line, and how
//! vectors/published-rows.txt has their rows.

use crate::request::{Row, Satellite};
use crate::tle::{self, Refusal, LENGTH};

pub type Pair = (Vec<u8>, Vec<u8>);

const TEXT: &[u8] = include_bytes!("../vectors/SGP4-VER.TLE");

pub fn pairs() -> Vec<Pair> {
    let lines: Vec<&[u8]> = TEXT
        .split(|&b| b == b'\n')
        .filter(|line| matches!(line.first(), Some(b'1' | b'2')))
        .map(|line| &line[..LENGTH])
        .collect();
    lines.chunks(2).map(|pair| (pair[0].to_vec(), pair[1].to_vec())).collect()
}

/// A bit pattern; every NaN is written nan.
pub fn shown(x: f64) -> String {
    if x.is_nan() {
        "nan".to_string()
    } else {
        format!("{:016x}", x.to_bits())
    }
}

pub fn row_text(micros: i64, row: &Row, strides: u64) -> String {
    let numbers: Vec<String> = row.r.iter().chain(&row.v).map(|&x| shown(x)).collect();
    format!("{micros} {} {} {} {strides}", row.refusal, numbers.join(" "), row.rounds)
}

/// The satellite of two lines, or the one line that the file has in the place of its rows.
pub fn opened(line1: &str, line2: &str) -> Result<Satellite, String> {
    let refused = |refusal| match refusal {
        Refusal::Layout { line, column } => format!("refused 3 line {line} column {column}"),
        Refusal::Checksum { line } => format!("refused 4 line {line}"),
        other => panic!("{other:?}"),
    };
    let record = tle::read(line1.as_bytes(), line2.as_bytes()).map_err(refused)?;
    Satellite::open(&record).map_err(|number| format!("refused {number} at opening"))
}
