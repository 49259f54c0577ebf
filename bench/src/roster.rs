//! A roster of pairs in a lent buffer, and the row of instants beside it (document 02, wishes 2 and 8).

use crate::tle::{self, Record, LENGTH};

pub const PLACES: usize = 64;
pub const PAIR: usize = 2 * LENGTH;
pub const SIZE: usize = PLACES * PAIR;

/// Why a pair is not lodged: it is not read (1-6), or refused by number (19, 20, 22).
#[derive(Clone, Copy, Debug, PartialEq, Eq)]
pub enum Refusal {
    Unread(tle::Refusal),
    Refused(u8),
}

impl Refusal {
    pub fn number(self) -> u8 {
        match self {
            Refusal::Unread(refusal) => refusal.number(),
            Refusal::Refused(number) => number,
        }
    }
}

/// A pair as we write it.
pub fn spelt(record: &Record) -> [u8; PAIR] {
    let mut pair = [0; PAIR];
    for (which, line) in [1, 2].into_iter().zip(pair.chunks_mut(LENGTH)) {
        tle::write(record, which, line).expect("a lawful record");
    }
    pair
}

/// The record of each pair, in their order; None where the buffer is no roster.
pub fn records(buffer: &[u8]) -> Option<Vec<Record>> {
    if buffer.len() != SIZE {
        return None;
    }
    let used = buffer.iter().rposition(|&byte| byte != 0).map_or(0, |last| last / PAIR + 1);
    let mut records: Vec<Record> = Vec::with_capacity(used);
    for place in buffer.chunks(PAIR).take(used) {
        let record = tle::read(&place[..LENGTH], &place[LENGTH..]).ok()?;
        let rising = records.last().is_none_or(|last| last.number < record.number);
        if !rising || spelt(&record) != place {
            return None;
        }
        records.push(record);
    }
    Some(records)
}

/// The epoch of a number's pair.
pub fn epoch_of(buffer: &[u8], number: u32) -> Option<i64> {
    records(buffer)?.into_iter().find(|record| record.number == number).map(|record| record.epoch())
}

/// The row that goes with these records: the instant of each, and 0 past the last.
pub fn row_of(records: &[Record]) -> Vec<u64> {
    let mut row: Vec<u64> = records.iter().map(|record| record.epoch() as u64).collect();
    row.resize(PLACES, 0);
    row
}

/// The records of a roster whose row this is.
pub fn with_row(buffer: &[u8], row: &[u64]) -> Option<Vec<Record>> {
    records(buffer).filter(|records| row == row_of(records))
}

/// Lodges a pair, or leaves buffer and row as they are.
pub fn lodge(buffer: &mut [u8], row: &mut [u64], line1: &[u8], line2: &[u8]) -> Result<(), Refusal> {
    let record = tle::read(line1, line2).map_err(Refusal::Unread)?;
    let records = with_row(buffer, row).ok_or(Refusal::Refused(22))?;
    let place = match records.binary_search_by_key(&record.number, |held| held.number) {
        Ok(place) if record.epoch() < records[place].epoch() => return Err(Refusal::Refused(20)),
        Ok(place) => place,
        Err(_) if records.len() == PLACES => return Err(Refusal::Refused(19)),
        Err(place) => {
            buffer.copy_within(place * PAIR..SIZE - PAIR, (place + 1) * PAIR);
            row.copy_within(place..PLACES - 1, place + 1);
            place
        }
    };
    buffer[place * PAIR..][..PAIR].copy_from_slice(&spelt(&record));
    row[place] = record.epoch() as u64;
    Ok(())
}

/// Withdraws the pair of a number, or leaves buffer and row as they are; refusals 22, 21.
pub fn withdraw(buffer: &mut [u8], row: &mut [u64], number: u64) -> Result<(), u8> {
    let records = with_row(buffer, row).ok_or(22)?;
    let place = records.iter().position(|record| record.number as u64 == number).ok_or(21)?;
    buffer.copy_within((place + 1) * PAIR.., place * PAIR);
    buffer[SIZE - PAIR..].fill(0);
    row.copy_within(place + 1.., place);
    row[PLACES - 1] = 0;
    Ok(())
}

/// Fills the row of a roster, or leaves it as it is; refusal 22.
pub fn fill_row(buffer: &[u8], row: &mut [u64]) -> Result<(), u8> {
    let records = records(buffer).filter(|_| row.len() == PLACES).ok_or(22)?;
    row.copy_from_slice(&row_of(&records));
    Ok(())
}
