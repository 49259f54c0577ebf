//! Rosters: lodged, replaced, refused, withdrawn, and every byte afterwards.

use saddlekerf::{
    changes, fill_row, lodge, withdraw, Field, Line, Record, Refusal, Roster, Uncompared, Which,
};

const LINE1: &[u8] = b"1 00005U 58002B   00179.78495062  .00000023  00000-0  28098-4 0  4753";
const LINE2: &[u8] = b"2 00005  34.2682 348.7242 1859667 331.7664  19.3264 10.82419157413667";

/// The same record spelt in another way than ours.
const OTHER1: &[u8] = b"1 00005U 58002B   00179.78495062 +.00000023 +00000+0 +28098-4 0 04752";
const OTHER2: &[u8] = b"2 00005 034.2682 348.7242 1859667 331.7664 019.3264 10.82419157413667";

const EMPTY: [u8; Roster::SIZE] = [0; Roster::SIZE];

fn record(number: u32, day: u64) -> Record {
    Record { number, day, ..Record::read(LINE1, LINE2).unwrap() }
}

fn pair(number: u32, day: u64) -> [[u8; 69]; 2] {
    record(number, day).write().unwrap()
}

/// The bytes of a roster, by the header's words.
fn packed(pairs: &[[[u8; 69]; 2]]) -> Vec<u8> {
    let mut bytes = pairs.concat().concat();
    bytes.resize(Roster::SIZE, 0);
    bytes
}

fn lodged(roster: &mut Roster, [line1, line2]: [[u8; 69]; 2]) -> Result<(), Refusal> {
    roster.lodge(&line1, &line2)
}

const DAY: u64 = 100_0000_0000;

const ZEROS: [u64; Roster::PLACES] = [0; Roster::PLACES];

/// The row of a roster, by the header's words: each pair's epoch as it is read.
fn row(pairs: &[[[u8; 69]; 2]]) -> Vec<u64> {
    let mut row: Vec<u64> =
        pairs.iter().map(|[line1, line2]| saddlekerf::epoch(line1, line2).unwrap().0).collect();
    row.resize(Roster::PLACES, 0);
    row
}

#[test]
fn our_spelling_by_rising_number() {
    let mut roster = Roster::new();
    assert!(roster.is_empty());
    for number in [30, 10, 99_999, 0, 20] {
        assert_eq!(lodged(&mut roster, pair(number, DAY)), Ok(()));
    }
    let numbers = [0, 10, 20, 30, 99_999];
    assert_eq!(roster.bytes(), packed(&numbers.map(|number| pair(number, DAY))));
    assert_eq!(roster.row(), row(&numbers.map(|number| pair(number, DAY))));
    assert_eq!(roster.len(), 5);
    assert!(roster.pairs().map(|pair| pair.record()).eq(numbers.map(|number| record(number, DAY))));
    assert!(roster.pairs().rev().map(|pair| pair.record().number).eq([99_999, 30, 20, 10, 0]));
    assert_eq!(roster.get(20).unwrap().record(), record(20, DAY));
    assert_eq!(roster.get(21), None);
    assert_eq!(roster.lodge(OTHER1, OTHER2), Ok(()));
    let found = roster.get(5).unwrap();
    assert_eq!((found.line1, found.line2), (LINE1, LINE2));
}

#[test]
fn the_later_epoch_stays() {
    let mut roster = Roster::new();
    assert_eq!(lodged(&mut roster, pair(7, DAY)), Ok(()));
    assert_eq!(lodged(&mut roster, pair(7, DAY - 1)), Err(Refusal::Older));
    assert_eq!(roster.bytes(), packed(&[pair(7, DAY)]));
    let equal = Record { set: 476, ..record(7, DAY) }.write().unwrap();
    assert_eq!(lodged(&mut roster, equal), Ok(()));
    assert_eq!(roster.bytes(), packed(&[equal]));
    assert_eq!(lodged(&mut roster, pair(7, DAY + 1)), Ok(()));
    assert_eq!(roster.bytes(), packed(&[pair(7, DAY + 1)]));
    assert_eq!(roster.row(), row(&[pair(7, DAY + 1)]));
}

#[test]
fn sixty_four_places() {
    let mut bytes = EMPTY;
    let mut roster = Roster::lent(&mut bytes).unwrap();
    for number in 0..64 {
        assert_eq!(lodged(&mut roster, pair(2 * (37 * number % 64), DAY)), Ok(()));
    }
    let full: Vec<_> = (0..64).map(|number| pair(2 * number, DAY)).collect();
    assert_eq!(roster.bytes(), packed(&full));
    for number in [1, 63, 127, 99_999] {
        assert_eq!(lodged(&mut roster, pair(number, DAY)), Err(Refusal::Full));
    }
    assert_eq!(lodged(&mut roster, pair(126, DAY - 1)), Err(Refusal::Older));
    assert_eq!(roster.bytes(), packed(&full));
    assert_eq!(lodged(&mut roster, pair(126, DAY + 1)), Ok(()));
    assert_eq!(roster.withdraw(0), Ok(()));
    assert_eq!(lodged(&mut roster, pair(99_999, DAY)), Ok(()));
    let mut expected = full[1..].to_vec();
    expected[62] = pair(126, DAY + 1);
    expected.push(pair(99_999, DAY));
    assert_eq!(roster.bytes(), packed(&expected));
    assert_eq!(roster.row(), row(&expected));
    assert_eq!(bytes[..], packed(&expected));
}

#[test]
fn the_gap_is_closed_with_zeros() {
    let pairs = [1, 2, 3, 4].map(|number| pair(number, DAY + u64::from(number)));
    for gone in 0..4 {
        let (mut bytes, mut instants) = (packed(&pairs), row(&pairs));
        assert_eq!(withdraw(&mut bytes, &mut instants, gone as u64 + 1), Ok(()));
        let mut left = pairs.to_vec();
        left.remove(gone);
        assert_eq!((&bytes, &instants), (&packed(&left), &row(&left)));
        assert_eq!(withdraw(&mut bytes, &mut instants, gone as u64 + 1), Err(Refusal::Absent));
        assert_eq!((bytes, instants), (packed(&left), row(&left)));
    }
    let (mut bytes, mut instants) = (packed(&pairs), row(&pairs));
    for number in [0, 5, 1 << 32 | 1, u64::MAX] {
        assert_eq!(withdraw(&mut bytes, &mut instants, number), Err(Refusal::Absent));
    }
    assert_eq!((bytes, instants), (packed(&pairs), row(&pairs)));
}

#[test]
fn reading_comes_first_and_with_its_values() {
    let mut damaged = vec![b'?'; 100];
    let mut whole = packed(&[pair(5, DAY)]);
    for buffer in [&mut damaged, &mut whole] {
        let before = buffer.clone();
        let instants = &mut row(&[pair(5, DAY)]);
        assert_eq!(lodge(buffer, instants, LINE1, b""), Err(Refusal::Length { line: Line::Two }));
        let comma = [&LINE2[..11], b",", &LINE2[12..]].concat();
        let column = Refusal::Column { line: Line::Two, column: 12 };
        assert_eq!(lodge(buffer, instants, LINE1, &comma), Err(column));
        let steep = b"2 00005 180.0001 348.7242 1859667 331.7664  19.3264 10.82419157413662";
        let range = Refusal::Range { field: Field::Inclination };
        assert_eq!(lodge(buffer, instants, LINE1, steep), Err(range));
        assert_eq!((&*buffer, &*instants), (&before, &row(&[pair(5, DAY)])));
    }
    assert_eq!(lodge(&mut damaged, &mut ZEROS.clone(), LINE1, LINE2), Err(Refusal::NoRoster));
}

/// A buffer that is no roster is refused by every call, and stays, with its row.
#[test]
fn damaged_buffers() {
    let pairs = [10, 20, 30].map(|number| pair(number, DAY));
    let whole = packed(&pairs);
    let with = |at: usize, byte: u8| {
        let mut bytes = whole.clone();
        bytes[at] = byte;
        bytes
    };
    let buffers = [
        vec![],
        whole[..Roster::SIZE - 1].to_vec(),
        [&whole[..], &[0]].concat(),
        with(3 * Roster::PAIR, b' '),
        with(Roster::SIZE - 1, 1),
        with(3 * Roster::PAIR - 1, b'x'),
        with(0, 0),
        packed(&[pairs[0], pairs[2], pairs[1]]),
        packed(&[pairs[0], pairs[0]]),
        packed(&[[OTHER1.try_into().unwrap(), OTHER2.try_into().unwrap()]]),
        [vec![0; Roster::PAIR], whole[..Roster::SIZE - Roster::PAIR].to_vec()].concat(),
    ];
    for mut bytes in buffers {
        let before = bytes.clone();
        let mut instants = row(&pairs);
        assert_eq!(lodge(&mut bytes, &mut instants, LINE1, LINE2), Err(Refusal::NoRoster));
        assert_eq!(withdraw(&mut bytes, &mut instants, 20), Err(Refusal::NoRoster));
        assert_eq!(fill_row(&bytes, &mut instants), Err(Refusal::NoRoster));
        assert_eq!(Roster::lent(&mut bytes).unwrap_err(), Refusal::NoRoster);
        assert_eq!((bytes, instants), (before, row(&pairs)));
    }
    assert!(Roster::lent(&mut whole.clone()).is_ok());
}

/// A row that is not the roster's is refused, and stays; filling mends every one of 64.
#[test]
fn damaged_rows() {
    let pairs = [10, 20, 30].map(|number| pair(number, DAY + u64::from(number)));
    let whole = packed(&pairs);
    let right = row(&pairs);
    let with = |place: usize, instant: u64| {
        let mut row = right.clone();
        row[place] = instant;
        row
    };
    let rows = [
        vec![],
        right[..63].to_vec(),
        [&right[..], &[0]].concat(),
        right[..3].to_vec(),
        with(0, right[0] + 1),
        with(1, right[1] - 1),
        with(2, 0),
        with(2, right[1]),
        with(3, 1),
        with(63, u64::MAX),
        ZEROS.to_vec(),
        [&[0], &right[..63]].concat(),
    ];
    for before in rows {
        let (mut bytes, mut row) = (whole.clone(), before.clone());
        assert_eq!(lodge(&mut bytes, &mut row, LINE1, LINE2), Err(Refusal::NoRoster));
        assert_eq!(withdraw(&mut bytes, &mut row, 20), Err(Refusal::NoRoster));
        assert_eq!(Roster::lent_with_row(&mut bytes, &mut row).unwrap_err(), Refusal::NoRoster);
        let mut out = [b'.'; 3];
        assert_eq!(changes(&bytes, &row, &bytes, &right, &mut out), Err(Uncompared::NoRoster(Which::First)));
        assert_eq!(changes(&bytes, &right, &bytes, &row, &mut out), Err(Uncompared::NoRoster(Which::Second)));
        assert_eq!((&bytes, &row, out), (&whole, &before, [b'.'; 3]));
        if row.len() == Roster::PLACES {
            assert_eq!(fill_row(&bytes, &mut row), Ok(()));
            assert_eq!(row, right);
        } else {
            assert_eq!(fill_row(&bytes, &mut row), Err(Refusal::NoRoster));
            assert_eq!(row, before);
        }
    }
    let (mut bytes, mut row) = (whole.clone(), right.clone());
    let mut roster = Roster::lent_with_row(&mut bytes, &mut row).unwrap();
    assert_eq!(roster.withdraw(10), Ok(()));
    assert_eq!((bytes, row), (packed(&pairs[1..]), self::row(&pairs[1..])));
}

/// 1957 January 1, 0h is the instant 0: its place is no empty one.
#[test]
fn the_instant_zero() {
    let zero = |number| Record { year: 1957, day: 1_0000_0000, ..record(number, DAY) }.write().unwrap();
    let mut roster = Roster::new();
    for pair in [zero(20), pair(10, DAY), zero(30), zero(5)] {
        assert_eq!(lodged(&mut roster, pair), Ok(()));
    }
    assert_eq!(roster.len(), 4);
    assert_eq!(roster.row()[..5], [0, row(&[pair(10, DAY)])[0], 0, 0, 0]);
    assert_eq!(roster.oldest().unwrap().record().number, 5);
    assert!(roster.by_age().iter().map(|pair| pair.record().number).eq([5, 20, 30, 10]));
    assert_eq!(lodged(&mut roster, zero(10)), Err(Refusal::Older));
    assert_eq!(lodged(&mut roster, zero(20)), Ok(()));
    for number in [5, 30, 20] {
        assert_eq!(roster.withdraw(number), Ok(()));
    }
    assert_eq!(roster.oldest().unwrap().record().number, 10);
    assert_eq!(roster.withdraw(10), Ok(()));
    assert_eq!((roster.len(), roster.oldest()), (0, None));
    assert_eq!(roster.row(), ZEROS);
}

/// The row alone tells the order by age.
#[test]
fn by_age() {
    let mut roster = Roster::new();
    for (number, days) in [(1, 5), (2, 3), (3, 9), (4, 3), (5, 1)] {
        assert_eq!(lodged(&mut roster, pair(number, DAY + days * 1_0000_0000)), Ok(()));
    }
    assert!(roster.by_age().iter().map(|pair| pair.record().number).eq([5, 2, 4, 1, 3]));
    assert_eq!(roster.oldest().unwrap().record().number, 5);
    assert!(roster.instants().map(|instant| instant.0).eq(roster.row()[..5].iter().copied()));
}

#[test]
fn a_copy_is_its_own() {
    let mut bytes = packed(&[pair(5, DAY)]);
    let mut roster = Roster::lent(&mut bytes).unwrap();
    let copy = roster.copied();
    assert_eq!(roster.withdraw(5), Ok(()));
    assert_eq!((roster.len(), copy.len()), (0, 1));
    assert_eq!(Roster::default().bytes(), EMPTY);
}

/// Two days of a roster: a pair gone, one new, one with other elements, one as it was; any room.
#[test]
fn what_changed() {
    let example = [LINE1.try_into().unwrap(), LINE2.try_into().unwrap()];
    let old = [example, pair(7, DAY), pair(9, DAY)];
    let later: [[u8; 69]; 2] = [
        *b"1 00005U 58002B   00180.78495062  .00000023  00000-0 -28100-4 0  4761",
        *b"2 00005  34.2682 348.7202 1859667 331.7664  19.3264 10.82419157413775",
    ];
    let new = [later, pair(8, DAY), pair(9, DAY)];
    let (first, second) = (packed(&old), packed(&new));
    let (row1, row2) = (row(&old), row(&new));
    let expected = format!(
        "5 epoch 86400000000\n5 bstar 28098 -4 -28100 -4\n5 set 1\n5 node -40\n5 revolution 11\nfirst {}\nsecond {}\n",
        String::from_utf8(old[1].concat()).unwrap(),
        String::from_utf8(new[1].concat()).unwrap(),
    );
    let size = expected.len();
    for room in [size + 9, size, Roster::CHANGES_ROOM] {
        let mut out = vec![b'.'; room];
        assert_eq!(changes(&first, &row1, &second, &row2, &mut out).unwrap(), expected.as_bytes());
        assert!(out[size..].iter().all(|&byte| byte == b'.'));
    }
    for room in [size - 1, 1, 0] {
        let mut out = vec![b'.'; room];
        assert_eq!(changes(&first, &row1, &second, &row2, &mut out), Err(Uncompared::Room));
        assert_eq!(out, vec![b'.'; room]);
    }
    let (mut first, mut second) = (first, second);
    let (yesterday, today) = (Roster::lent(&mut first).unwrap(), Roster::lent(&mut second).unwrap());
    assert_eq!(today.changes_since(&yesterday), expected);
    assert_eq!(today.changes_since(&today), "");
}

/// The first is looked at first, and both before the room.
#[test]
fn which_is_no_roster() {
    let whole = packed(&[pair(5, DAY)]);
    let bad = &whole[1..];
    let row = row(&[pair(5, DAY)]);
    let mut out = [b'.'; 3];
    assert_eq!(changes(bad, &row, &whole, &row, &mut out), Err(Uncompared::NoRoster(Which::First)));
    assert_eq!(changes(&whole, &row, bad, &row, &mut out), Err(Uncompared::NoRoster(Which::Second)));
    assert_eq!(changes(bad, &row, bad, &row, &mut out), Err(Uncompared::NoRoster(Which::First)));
    assert_eq!(changes(&whole, &row, &whole, &row, &mut []).unwrap(), b"");
    assert_eq!(out, [b'.'; 3]);
    assert_eq!([Uncompared::Room, Uncompared::NoRoster(Which::Second)].map(Uncompared::number), [17, 22]);
}
