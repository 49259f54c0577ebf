//! The report of a text of pairs (document 02, wish 4).

use crate::elementary::Elementary;
use crate::request::Satellite;
use crate::tle::{self, Record};

pub const PAIRS: usize = 4096;

/// Accepted, refused under 1 to 6, near, deep, unopened; earliest and latest as year, day and
/// microseconds; span. Zeros where nothing is accepted.
pub const NUMBERS: usize = 17;

fn lines(text: &[u8]) -> Vec<&[u8]> {
    let mut lines: Vec<&[u8]> = text.split(|&byte| byte == b'\n').collect();
    if lines.last().is_some_and(|last| last.is_empty()) {
        lines.pop();
    }
    lines
}

fn date(record: &Record) -> [u64; 3] {
    let day = record.day as u64;
    [record.year as u64, day / 100_000_000, day % 100_000_000 * 864]
}

/// The numbers of a text at the front of the room; or 23, 24, 17, and the room stays.
pub fn report<E: Elementary>(text: &[u8], room: &mut [u64]) -> Result<(), u8> {
    let lines = lines(text);
    if lines.len() / 2 > PAIRS {
        return Err(23);
    }
    if lines.len() % 2 == 1 {
        return Err(24);
    }
    let mut counts = [0; NUMBERS];
    let mut accepted = Vec::new();
    for pair in lines.chunks(2) {
        match tle::read(pair[0], pair[1]) {
            Err(refusal) => counts[refusal.number() as usize] += 1,
            Ok(record) => {
                let kind = match Satellite::<E>::open(&record) {
                    Ok(satellite) => 7 + satellite.satrec.deep as usize,
                    Err(_) => 9,
                };
                counts[0] += 1;
                counts[kind] += 1;
                accepted.push(record);
            }
        }
    }
    let earliest = accepted.iter().min_by_key(|record| record.epoch());
    let latest = accepted.iter().max_by_key(|record| record.epoch());
    if let (Some(earliest), Some(latest)) = (earliest, latest) {
        counts[10..13].copy_from_slice(&date(earliest));
        counts[13..16].copy_from_slice(&date(latest));
        counts[16] = (latest.epoch() - earliest.epoch()) as u64;
    }
    room.get_mut(..NUMBERS).ok_or(17)?.copy_from_slice(&counts);
    Ok(())
}
