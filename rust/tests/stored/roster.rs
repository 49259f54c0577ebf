//! Calls on a roster and the row beside it, by tests/roster_calls.py. Printed is after each what it answers, all
//! bytes of the buffer and all instants of the row. The input has two lines for each step:
//!
//! ```text
//! =N   and an empty line: the buffer becomes N zeros, and the row 64
//! @N   and some bytes: they go into the buffer from index N on, and nothing is printed
//! #N   and a number: it goes into place N of the row, and nothing is printed
//! *N   and an empty line: the row has N places, and nothing is printed
//! +    and an empty line: the row is filled
//! -N   and an empty line: the number N is withdrawn
//! any other two lines are lodged
//! ```

use crate::cases::{number, told, Stored};
use saddlekerf::{fill_row, lodge, withdraw, Refusal, Roster};

struct Desk {
    buffer: Vec<u8>,
    row: Vec<u64>,
}

impl Desk {
    /// One step, and what is printed of it.
    fn step(&mut self, [line1, line2]: [&[u8]; 2]) -> String {
        match line1 {
            [b'=', size @ ..] => {
                self.buffer = vec![0; number(size)];
                self.row = vec![0; Roster::PLACES];
            }
            [b'@', at @ ..] => self.buffer[number(at)..][..line2.len()].copy_from_slice(line2),
            [b'#', place @ ..] => self.row[number::<usize>(place)] = number(line2),
            [b'*', width @ ..] => self.row.resize(number(width), 0),
            [b'+'] => return self.after(|desk| fill_row(&desk.buffer, &mut desk.row)),
            [b'-', digits @ ..] => {
                return self.after(|desk| withdraw(&mut desk.buffer, &mut desk.row, number(digits)));
            }
            _ => return self.after(|desk| lodge(&mut desk.buffer, &mut desk.row, line1, line2)),
        }
        String::new()
    }

    /// What a call answers, and all that it leaves.
    fn after(&mut self, call: impl FnOnce(&mut Desk) -> Result<(), Refusal>) -> String {
        told(call(self)) + &shown_buffer(&self.buffer) + &shown_row(&self.row)
    }
}

/// By places of 138 bytes, and how many zeros are left.
fn shown_buffer(buffer: &[u8]) -> String {
    let used = buffer.iter().rposition(|&byte| byte != 0).map_or(0, |last| last + 1);
    let whole = used.next_multiple_of(Roster::PAIR).min(buffer.len());
    let places: String = buffer[..whole].chunks(Roster::PAIR).map(shown_place).collect();
    format!("{places}zeros {}\n", buffer.len() - whole)
}

/// A zero as a tilde; what is not printable, a tilde and a backslash by two hexadecimal digits.
fn shown_place(place: &[u8]) -> String {
    let byte = |&byte: &u8| match byte {
        0 => "~".to_string(),
        b' '..=b'}' if byte != b'\\' => char::from(byte).to_string(),
        _ => format!("\\{byte:02x}"),
    };
    place.iter().map(byte).collect::<String>() + "\n"
}

/// The instants, and how many zeros are left.
fn shown_row(row: &[u64]) -> String {
    let used = row.iter().rposition(|&instant| instant != 0).map_or(0, |last| last + 1);
    let instants: String = row[..used].iter().map(|instant| format!("instant {instant}\n")).collect();
    format!("{instants}after {}\n", row.len() - used)
}

#[test]
fn calls() {
    let stored = Stored::cases("roster");
    let mut desk = Desk { buffer: vec![0; Roster::SIZE], row: vec![0; Roster::PLACES] };
    stored.hold(stored.pairs().map(|step| desk.step(step)));
}
