//! Records: read and written again, refused, and what the buffers hold afterwards.

use saddlekerf::{printed, Exponential, Field, Fields, Line, Record, Refusal};

const LINE1: &[u8] = b"1 00005U 58002B   00179.78495062  .00000023  00000-0  28098-4 0  4753";
const LINE2: &[u8] = b"2 00005  34.2682 348.7242 1859667 331.7664  19.3264 10.82419157413667";

/// Document 01's example, field by field.
const EXAMPLE: Record = Record {
    number: 5,
    class: b'U',
    launch: 58_002,
    piece: *b"B  ",
    year: 2000,
    day: 179_7849_5062,
    ndot: 23,
    nddot: Exponential { mantissa: 0, exponent: 0 },
    bstar: Exponential { mantissa: 28_098, exponent: -4 },
    ephemeris_type: 0,
    set: 475,
    inclination: 34_2682,
    node: 348_7242,
    eccentricity: 185_9667,
    perigee: 331_7664,
    anomaly: 19_3264,
    motion: 10_8241_9157,
    revolution: 41_366,
};

#[test]
fn the_example() {
    assert_eq!(Record::read(LINE1, LINE2), Ok(EXAMPLE));
    assert_eq!(EXAMPLE.write(), Ok([LINE1.try_into().unwrap(), LINE2.try_into().unwrap()]));
}

/// The writer's spelling: blanks for leading zeros and for plus, `-0` for the exponent 0, a letter for
/// the first two digits of a catalogue number that has six.
#[test]
fn the_writers_spelling() {
    let least = Record {
        number: 0,
        class: b'S',
        launch: 0,
        piece: *b"   ",
        year: 1957,
        day: 1_0000_0000,
        ndot: -1,
        nddot: Exponential { mantissa: -1, exponent: 9 },
        bstar: Exponential { mantissa: 99_999, exponent: 0 },
        ephemeris_type: 9,
        set: 0,
        inclination: 0,
        node: 1,
        eccentricity: 0,
        perigee: 9_9999,
        anomaly: 10_0000,
        motion: 1,
        revolution: 0,
    };
    let lines = [
        *b"1 00000S          57001.00000000 -.00000001 -00001+9  99999-0 9    02",
        *b"2 00000   0.0000   0.0001 0000000   9.9999  10.0000  0.00000001    00",
    ];
    let mended = lines.map(mend);
    assert_eq!(least.write(), Ok(mended));
    assert_eq!(Record::read(&mended[0], &mended[1]), Ok(least));
    let most = Record {
        number: 339_999,
        class: b'C',
        launch: 99_999,
        piece: *b"ZZZ",
        year: 2056,
        day: 366_9999_9999,
        ndot: -9999_9999,
        nddot: Exponential { mantissa: -99_999, exponent: -9 },
        bstar: Exponential { mantissa: 99_999, exponent: 9 },
        ephemeris_type: 0,
        set: 9999,
        inclination: 180_0000,
        node: 359_9999,
        eccentricity: 999_9999,
        perigee: 359_9999,
        anomaly: 359_9999,
        motion: 99_9999_9999,
        revolution: 99_999,
    };
    let lines = [
        *b"1 Z9999C 99999ZZZ 56366.99999999 -.99999999 -99999-9  99999+9 0 99990",
        *b"2 Z9999 180.0000 359.9999 9999999 359.9999 359.9999 99.99999999999990",
    ];
    let mended = lines.map(mend);
    assert_eq!(most.write(), Ok(mended));
    assert_eq!(Record::read(&mended[0], &mended[1]), Ok(most));
}

/// The example with another text from column 3 on, its checksum mended.
fn numbered(line: &[u8], text: &[u8]) -> [u8; 69] {
    let mut line: [u8; 69] = line.try_into().unwrap();
    line[2..2 + text.len()].copy_from_slice(text);
    mend(line)
}

/// Wish 1 of document 02: the letters that may stand in the first place, for 10 to 33.
const LETTERS: &[u8; 24] = b"ABCDEFGHJKLMNPQRSTUVWXYZ";

#[test]
fn letters_in_catalogue_numbers() {
    for (first, value) in b"0123456789".iter().chain(LETTERS).zip(0..) {
        for rest in [0, 5, 9999] {
            let text = format!("{}{rest:04}", *first as char);
            let lines = [LINE1, LINE2].map(|line| numbered(line, text.as_bytes()));
            let record = Record { number: value * 10_000 + rest, ..EXAMPLE };
            assert_eq!(Record::read(&lines[0], &lines[1]), Ok(record), "{text}");
            assert_eq!(record.write(), Ok(lines), "{text}");
            assert!(printed(&lines[0], &lines[1]).starts_with(&format!("number {}\n", record.number)));
        }
    }
    // Numbers that differ only by the letter.
    for (one, two) in [(b"A0000", b"00000"), (b"A0000", b"10000"), (b"H9999", b"J9999")] {
        assert_eq!(Record::read(&numbered(LINE1, one), &numbered(LINE2, two)), Err(Refusal::Catalogue));
    }
}

#[test]
fn no_letters_in_catalogue_numbers() {
    let refused = |line, column| Err(Refusal::Column { line, column });
    // Any other byte in column 3, of either line.
    for byte in 0..=255u8 {
        if !byte.is_ascii_digit() && !LETTERS.contains(&byte) {
            assert_eq!(Record::read(&numbered(LINE1, &[byte]), LINE2), refused(Line::One, 3), "{byte}");
            assert_eq!(Record::read(LINE1, &numbered(LINE2, &[byte])), refused(Line::Two, 3), "{byte}");
        }
    }
    for (text, column) in [(b"0A000", 4), (b"A0B00", 5), (b"000C0", 6), (b"0000Z", 7)] {
        assert_eq!(Record::read(&numbered(LINE1, text), LINE2), refused(Line::One, column));
    }
    // A letter adds nothing to the checksum.
    let [mut one, two] = [LINE1, LINE2].map(|line| numbered(line, b"A0000"));
    one[68] += 1;
    assert_eq!(Record::read(&one, &two), Err(Refusal::Checksum { line: Line::One }));
}

fn mend(mut line: [u8; 69]) -> [u8; 69] {
    let value = |&byte: &u8| match byte {
        b'0'..=b'9' => (byte - b'0') as u32,
        b'-' => 1,
        _ => 0,
    };
    line[68] = b'0' + (line[..68].iter().map(value).sum::<u32>() % 10) as u8;
    line
}

/// Wish 3 of document 02: records on the last day of every year, read and written again.
#[test]
fn last_days_of_years() {
    for year in 1957..=2056 {
        let last = if year % 4 == 0 { 366 } else { 365 };
        for day in [last * 1_0000_0000, last * 1_0000_0000 + 9999_9999] {
            let record = Record { year, day, ..EXAMPLE };
            let [line1, line2] = record.write().unwrap();
            assert_eq!(Record::read(&line1, &line2), Ok(record));
        }
        let record = Record { year, day: (last + 1) * 1_0000_0000, ..EXAMPLE };
        assert_eq!(record.write(), Err(Refusal::Record), "{year}");
    }
}

/// Every field a little outside: refusal 16, for both lines, and nothing written.
#[test]
fn records_outside_layout_or_ranges() {
    let e = EXAMPLE;
    let exponential = |mantissa, exponent| Exponential { mantissa, exponent };
    let outside = [
        Record { number: 340_000, ..e },
        Record { number: u32::MAX, ..e },
        Record { class: b'u', ..e },
        Record { class: 0, ..e },
        Record { launch: 100_000, ..e },
        Record { piece: *b"b  ", ..e },
        Record { piece: *b" B ", ..e },
        Record { piece: *b"A B", ..e },
        Record { piece: *b"   ", ..e },
        Record { piece: *b"AB1", ..e },
        Record { year: 1956, ..e },
        Record { year: 2057, ..e },
        Record { day: 9999_9999, ..e },
        Record { day: 367_0000_0000, ..e },
        Record { day: u64::MAX, ..e },
        Record { year: 1957, day: 366_0000_0000, ..e },
        Record { year: 2001, day: 366_5000_0000, ..e },
        Record { year: 2055, day: 366_9999_9999, ..e },
        Record { ndot: 1_0000_0000, ..e },
        Record { ndot: -1_0000_0000, ..e },
        Record { nddot: exponential(100_000, 0), ..e },
        Record { nddot: exponential(1, 10), ..e },
        Record { nddot: exponential(0, 1), ..e },
        Record { bstar: exponential(-100_000, 0), ..e },
        Record { bstar: exponential(1, -10), ..e },
        Record { bstar: exponential(0, -1), ..e },
        Record { ephemeris_type: 10, ..e },
        Record { set: 10_000, ..e },
        Record { inclination: 180_0001, ..e },
        Record { node: 360_0000, ..e },
        Record { eccentricity: 1000_0000, ..e },
        Record { perigee: 360_0000, ..e },
        Record { anomaly: 360_0000, ..e },
        Record { motion: 0, ..e },
        Record { motion: 100_0000_0000, ..e },
        Record { motion: u64::MAX, ..e },
        Record { revolution: 100_000, ..e },
    ];
    for record in outside {
        for line in [Line::One, Line::Two] {
            let mut out = [b'#'; 80];
            assert_eq!(record.write_line(line, &mut out), Err(Refusal::Record), "{record:?}");
            assert_eq!(record.write_line(line, &mut []), Err(Refusal::Record), "{record:?}");
            assert_eq!(out, [b'#'; 80]);
        }
        assert_eq!(record.write(), Err(Refusal::Record));
    }
}

/// 69 bytes at the front, and none past them; a room too short stays.
#[test]
fn rooms() {
    for (line, text) in [(Line::One, LINE1), (Line::Two, LINE2)] {
        for room in 69..=75 {
            let mut out = vec![b'#'; room];
            assert_eq!(EXAMPLE.write_line(line, &mut out).unwrap(), text);
            assert_eq!(out[..69], *text);
            assert!(out[69..].iter().all(|&byte| byte == b'#'));
        }
        for room in [0, 1, 68] {
            let mut out = vec![b'#'; room];
            assert_eq!(EXAMPLE.write_line(line, &mut out), Err(Refusal::Room));
            assert!(out.iter().all(|&byte| byte == b'#'));
        }
    }
}

/// A pair that is not read has no record, and the refusal is that of reading.
#[test]
fn lines_refused() {
    assert_eq!(Record::read(LINE1, LINE1), Err(Refusal::Start { line: Line::Two }));
    assert_eq!(Record::read(LINE1, b""), saddlekerf::read(LINE1, b"").map(|()| EXAMPLE));
}

/// Document 02, wish 9: form and meaning, one after the other.
fn judged(line1: &[u8], line2: &[u8]) -> Result<Record, Refusal> {
    Fields::read(line1, line2)?.judge()
}

/// A line with one byte changed and its checksum mended.
fn changed(line: &[u8], column: usize, byte: u8) -> Vec<u8> {
    let mut line = line.to_vec();
    line[column] = byte;
    let weight = |b: &u8| if b.is_ascii_digit() { (b - b'0') as u32 } else { (*b == b'-') as u32 };
    line[68] = b'0' + (line[..68].iter().map(weight).sum::<u32>() % 10) as u8;
    line
}

#[test]
fn form_then_meaning_is_reading() {
    assert_eq!(judged(LINE1, LINE2), Ok(EXAMPLE));
    for column in 0..68 {
        for byte in [b' ', b'0', b'9', b'-', b'A', b'.'] {
            let (one, two) = (changed(LINE1, column, byte), changed(LINE2, column, byte));
            assert_eq!(judged(&one, LINE2), Record::read(&one, LINE2));
            assert_eq!(judged(LINE1, &two), Record::read(LINE1, &two));
        }
    }
}

/// Refusals 1 to 5 are the form's; a broken range is none of them.
#[test]
fn forms_alone() {
    let impossible = changed(LINE2, 8, b'9');
    let fields = Fields::read(LINE1, &impossible).unwrap();
    assert_eq!(*fields.unjudged(), Record { inclination: 934_2682, ..EXAMPLE });
    assert_eq!(fields.judge(), Err(Refusal::Range { field: Field::Inclination }));
    assert_eq!(Fields::read(LINE1, &impossible[..68]), Err(Refusal::Length { line: Line::Two }));
    let other = changed(&impossible, 6, b'6');
    assert_eq!(Fields::read(LINE1, &other), Err(Refusal::Catalogue));
}

/// 16 comes before 6, and only for fields that no form yields.
#[test]
fn meanings_alone() {
    let range = |field| Err(Refusal::Range { field });
    let cases = [
        (EXAMPLE, Ok(EXAMPLE)),
        (Record { day: 0, ..EXAMPLE }, range(Field::Day)),
        (Record { day: 999_9999_9999, ..EXAMPLE }, range(Field::Day)),
        (Record { day: 1000_0000_0000, ..EXAMPLE }, Err(Refusal::Record)),
        (Record { inclination: 180_0001, ..EXAMPLE }, range(Field::Inclination)),
        (Record { node: 999_9999, motion: 0, ..EXAMPLE }, range(Field::Node)),
        (Record { node: 1000_0000, motion: 0, ..EXAMPLE }, Err(Refusal::Record)),
        (Record { perigee: 360_0000, ..EXAMPLE }, range(Field::Perigee)),
        (Record { anomaly: 360_0000, ..EXAMPLE }, range(Field::Anomaly)),
        (Record { motion: 0, ..EXAMPLE }, range(Field::Motion)),
        (Record { motion: 100_0000_0000, ..EXAMPLE }, Err(Refusal::Record)),
        (Record { number: 340_000, inclination: 999_9999, ..EXAMPLE }, Err(Refusal::Record)),
        (Record { class: b'T', ..EXAMPLE }, Err(Refusal::Record)),
    ];
    for (record, answer) in cases {
        assert_eq!(Fields::of(record).judge(), answer, "{record:?}");
    }
}
