//! Pairs written anew, by tests/written_lines.py: the cases of the program test_writing. Printed is, of each line of
//! each pair, what becomes of the rooms that are lent: the refusal, how many bytes are handed back, and the whole
//! room. The rooms are longer than a line, exactly a line, and a byte too short; then records that no line can
//! hold.

use crate::cases::Stored;
use saddlekerf::{Line, Record};

fn room(record: Record, line: Line, size: usize) -> String {
    let mut room = vec![b'#'; size];
    let (why, handed) = match record.write_line(line, &mut room) {
        Ok(part) => (0, part.len()),
        // all of it is the caller's again
        Err(refusal) => (refusal.number(), size),
    };
    format!("{why} {handed} {}\n", room.escape_ascii())
}

fn rooms(record: Record, line: Line) -> String {
    let outside = [
        Record { inclination: 180_0001, ..record },
        Record { number: 340_000, ..record },
        Record { year: 2001, day: 366_0000_0000, ..record },
        Record { year: 2055, day: 366_9999_9999, ..record },
        Record { year: 2000, day: 367_0000_0000, ..record },
    ];
    let lawful = [80, 69, 68].map(|size| room(record, line, size));
    lawful.concat() + &outside.map(|record| room(record, line, 80)).concat()
}

fn written([line1, line2]: [&[u8]; 2]) -> String {
    let record = Record::read(line1, line2).unwrap();
    rooms(record, Line::One) + &rooms(record, Line::Two)
}

#[test]
fn rooms_afterwards() {
    let stored = Stored::program("test_writing");
    stored.hold(stored.pairs().map(written));
}
