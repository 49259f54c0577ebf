//! A roster of pairs in 8,832 bytes and the row of their instants, its own or lent.

use crate::ffi;
use crate::record::Record;
use crate::refusal::{Answer as Packed, Refusal};
use crate::time::Instant;
use std::fmt;

/// Fills the row of a roster that was kept without one, whatever the row held: the instant of each
/// pair, and 0 past the last. Refusal 22 where the buffer is no roster or has another length, or the
/// row has another length; it leaves the row as it was.
///
/// ```
/// use saddlekerf::{fill_row, lodge, Refusal, Roster};
///
/// # fn main() -> Result<(), Refusal> {
/// # let line1 = b"1 00005U 58002B   00179.78495062  .00000023  00000-0  28098-4 0  4753";
/// # let line2 = b"2 00005  34.2682 348.7242 1859667 331.7664  19.3264 10.82419157413667";
/// # let mut kept = [0; Roster::SIZE];
/// # lodge(&mut kept, &mut [0; Roster::PLACES], line1, line2)?;
/// let mut row = [0; Roster::PLACES];
/// fill_row(&kept, &mut row)?;
/// assert_eq!(row[..2], [1_372_359_019_733_568, 0]);
/// # Ok(())
/// # }
/// ```
pub fn fill_row(roster: &[u8], row: &mut [u64]) -> Result<(), Refusal> {
    Packed(ffi::fill_row(roster, row)).plain()
}

/// Lodges a pair in a buffer, written our way whatever way it is spelt, and its instant in the row
/// beside it. It replaces the pair of its number unless its epoch is older. Refusals 1 to 6, then 22
/// where the buffer is no roster or has another length, or the row has another length or disagrees with
/// the pairs, 20 where the epoch is older, 19 where all 64 places hold other numbers; each leaves buffer
/// and row as they were.
///
/// [`Roster`] is the same on a buffer that was judged before.
pub fn lodge(roster: &mut [u8], row: &mut [u64], line1: &[u8], line2: &[u8]) -> Result<(), Refusal> {
    Packed(ffi::lodge(roster, row, line1, line2)).plain()
}

/// Withdraws the pair of a number from a buffer, and its instant from the row beside it: the later ones
/// close the gap, and zeros follow. Refusal 22 as [`lodge`], then 21 where the roster has no such pair;
/// each leaves buffer and row as they were.
pub fn withdraw(roster: &mut [u8], row: &mut [u64], number: u64) -> Result<(), Refusal> {
    Packed(ffi::withdraw(roster, row, number)).plain()
}

/// One of the two rosters that are compared.
#[derive(Clone, Copy, Debug, PartialEq, Eq, Hash)]
pub enum Which {
    First = 1,
    Second = 2,
}

/// Why two buffers are not compared.
#[derive(Clone, Copy, Debug, PartialEq, Eq, Hash)]
pub enum Uncompared {
    /// 22: this buffer is no roster or has another length, or its row has another length or disagrees
    /// with the pairs.
    NoRoster(Which),
    /// 17: the listing is longer than the lent room.
    Room,
}

impl Uncompared {
    /// The refusal's number.
    pub const fn number(self) -> u8 {
        match self {
            Uncompared::NoRoster(_) => 22,
            Uncompared::Room => 17,
        }
    }
}

impl fmt::Display for Uncompared {
    fn fmt(&self, f: &mut fmt::Formatter<'_>) -> fmt::Result {
        f.write_str(match self {
            Uncompared::NoRoster(Which::First) => "refusal 22: the first buffer is no roster",
            Uncompared::NoRoster(Which::Second) => "refusal 22: the second buffer is no roster",
            Uncompared::Room => "refusal 17: the room is too short",
        })
    }
}

impl std::error::Error for Uncompared {}

/// Lists what changed from the first roster to the second, each with its row, at the front of `out`, and
/// returns the part written. Refusal 22 as [`lodge`] for either roster, the first looked at first, then
/// 17 where the room is too short; each leaves the room as it was. A room of [`Roster::CHANGES_ROOM`]
/// bytes is never too short.
///
/// [`Roster::changes_since`] has the lines.
pub fn changes<'o>(
    first: &[u8],
    row1: &[u64],
    second: &[u8],
    row2: &[u64],
    out: &'o mut [u8],
) -> Result<&'o mut [u8], Uncompared> {
    let answer = ffi::changes(first, row1, second, row2, out);
    let written =
        Packed(answer).compared().unwrap_or_else(|| panic!("libsaddlekerf.a answered {answer:#x}"))?;
    Ok(&mut out[..written as usize])
}

/// Up to 64 pairs, one a catalogue number, by rising number.
///
/// Its bytes are 138 for each pair, line 1 and line 2 as [`Record::write`] writes them, packed from
/// the front, and zeros after. Beside them it keeps the row of their instants, by which pairs are told
/// by age without looking at their lines. Both are its own, or lent; either way they are a roster and
/// its row at every moment, since each call keeps them so.
///
/// ```
/// use saddlekerf::{Refusal, Roster};
///
/// # fn main() -> Result<(), Refusal> {
/// # let line1 = b"1 00005U 58002B   00179.78495062  .00000023  00000-0  28098-4 0  4753";
/// # let line2 = b"2 00005  34.2682 348.7242 1859667 331.7664  19.3264 10.82419157413667";
/// let mut bytes = [0; Roster::SIZE];
/// let mut roster = Roster::lent(&mut bytes)?;
/// roster.lodge(line1, line2)?;
/// let numbers: Vec<u32> = roster.pairs().map(|pair| pair.record().number).collect();
/// assert_eq!(numbers, [5]);
///
/// bytes[Roster::SIZE - 1] = b' ';
/// assert_eq!(Roster::lent(&mut bytes).unwrap_err(), Refusal::NoRoster);
/// # Ok(())
/// # }
/// ```
pub struct Roster<'a> {
    bytes: Memory<'a, u8>,
    row: Memory<'a, u64>,
    /// How many pairs there are. The row does not tell: 0 is an instant, too.
    pairs: usize,
}

enum Memory<'a, T> {
    Own(Box<[T]>),
    Lent(&'a mut [T]),
}

impl<T> Memory<'_, T> {
    fn get(&self) -> &[T] {
        match self {
            Memory::Own(all) => all,
            Memory::Lent(all) => all,
        }
    }

    fn get_mut(&mut self) -> &mut [T] {
        match self {
            Memory::Own(all) => all,
            Memory::Lent(all) => all,
        }
    }
}

/// A pair of a roster, each line 69 bytes in our spelling.
#[derive(Clone, Copy, Debug, PartialEq, Eq, Hash)]
pub struct Pair<'a> {
    pub line1: &'a [u8],
    pub line2: &'a [u8],
}

impl Pair<'_> {
    /// The record of the pair: the one that was lodged.
    pub fn record(&self) -> Record {
        Record::read(self.line1, self.line2).expect("a pair of a roster")
    }
}

impl Roster<'static> {
    /// An empty roster in memory of its own.
    pub fn new() -> Roster<'static> {
        Roster::of(Memory::Own(vec![0; Roster::SIZE].into()), Memory::Own(vec![0; Roster::PLACES].into()))
    }
}

impl Default for Roster<'static> {
    fn default() -> Roster<'static> {
        Roster::new()
    }
}

impl<'a> Roster<'a> {
    /// Bytes of a roster, bytes of a pair, and how many pairs it has places for.
    pub const SIZE: usize = 8832;
    pub const PAIR: usize = 2 * Record::LINE;
    pub const PLACES: usize = 64;
    /// Bytes of a room for [`changes`] that is never too short.
    pub const CHANGES_ROOM: usize = 24448;

    /// The roster that lent bytes hold, kept without a row, with a row of its own; or refusal 22. All
    /// zeros are the empty roster.
    pub fn lent(bytes: &'a mut [u8]) -> Result<Roster<'a>, Refusal> {
        let mut row = vec![0; Roster::PLACES];
        fill_row(bytes, &mut row)?;
        Ok(Roster::of(Memory::Lent(bytes), Memory::Own(row.into())))
    }

    /// The roster that lent bytes hold with the row that is lent beside them; or refusal 22, also where
    /// the row has another length or disagrees with the pairs ([`fill_row`] mends one of 64).
    pub fn lent_with_row(bytes: &'a mut [u8], row: &'a mut [u64]) -> Result<Roster<'a>, Refusal> {
        // No pair has this number: the answer is 21 of a roster with its row and 22 of anything else.
        match withdraw(bytes, row, u64::MAX) {
            Err(Refusal::Absent) => Ok(Roster::of(Memory::Lent(bytes), Memory::Lent(row))),
            Err(refusal) => Err(refusal),
            Ok(()) => panic!("libsaddlekerf.a withdrew the number {}, which no pair has", u64::MAX),
        }
    }

    fn of(bytes: Memory<'a, u8>, row: Memory<'a, u64>) -> Roster<'a> {
        let mut roster = Roster { bytes, row, pairs: 0 };
        roster.count();
        roster
    }

    /// A place has a pair exactly if its first byte is not 0.
    fn count(&mut self) {
        self.pairs = self.bytes().chunks_exact(Roster::PAIR).take_while(|place| place[0] != 0).count();
    }

    /// Lodges a pair; or a refusal: 1 to 6, then 20 where the roster's pair of that number has a later
    /// epoch, 19 where all 64 places hold other numbers. An equal epoch replaces.
    pub fn lodge(&mut self, line1: &[u8], line2: &[u8]) -> Result<(), Refusal> {
        lodge(self.bytes.get_mut(), self.row.get_mut(), line1, line2)?;
        self.count();
        Ok(())
    }

    /// Withdraws the pair of a number; or refusal 21.
    pub fn withdraw(&mut self, number: u32) -> Result<(), Refusal> {
        withdraw(self.bytes.get_mut(), self.row.get_mut(), number.into())?;
        self.count();
        Ok(())
    }

    /// The pair of a number.
    pub fn get(&self, number: u32) -> Option<Pair<'_>> {
        self.pairs().find(|pair| pair.record().number == number)
    }

    /// The pair in a place.
    fn pair_at(&self, place: usize) -> Pair<'_> {
        let (line1, line2) = self.bytes()[place * Roster::PAIR..][..Roster::PAIR].split_at(Record::LINE);
        Pair { line1, line2 }
    }

    /// All pairs, by rising number.
    pub fn pairs(&self) -> impl ExactSizeIterator<Item = Pair<'_>> + DoubleEndedIterator {
        (0..self.pairs).map(|place| self.pair_at(place))
    }

    /// The row: the epoch of each pair, by rising number, as microseconds since 1957 January 1, 0h, and 0
    /// past the last.
    pub fn row(&self) -> &[u64] {
        self.row.get()
    }

    /// The epoch of each pair, by rising number.
    pub fn instants(&self) -> impl ExactSizeIterator<Item = Instant> + DoubleEndedIterator + '_ {
        self.row()[..self.pairs].iter().map(|&micros| Instant(micros))
    }

    /// The pair with the oldest epoch, of equal ones that of the least number. It is told by the row
    /// alone, in the loop that a screen has on every refresh:
    ///
    /// ```
    /// use saddlekerf::{Instant, Refusal, Roster};
    ///
    /// # fn main() -> Result<(), Refusal> {
    /// # let line1 = b"1 00005U 58002B   00179.78495062  .00000023  00000-0  28098-4 0  4753";
    /// # let line2 = b"2 00005  34.2682 348.7242 1859667 331.7664  19.3264 10.82419157413667";
    /// let mut roster = Roster::new();
    /// roster.lodge(line1, line2)?;
    /// roster.lodge(
    ///     b"1 00011U 59001A   57001.00000000  .00000023  00000-0  28098-4 0  4755",
    ///     b"2 00011  34.2682 348.7242 1859667 331.7664  19.3264 10.82419157413664",
    /// )?;
    ///
    /// let mut oldest: Option<(usize, Instant)> = None;
    /// for (place, epoch) in roster.instants().enumerate() {
    ///     if oldest.is_none_or(|(_, least)| epoch < least) {
    ///         oldest = Some((place, epoch));
    ///     }
    /// }
    /// assert_eq!(oldest, Some((1, Instant(0))));
    /// assert_eq!(roster.oldest().unwrap().record().number, 11);
    /// # Ok(())
    /// # }
    /// ```
    pub fn oldest(&self) -> Option<Pair<'_>> {
        let place = self.instants().enumerate().min_by_key(|&(_, epoch)| epoch)?.0;
        Some(self.pair_at(place))
    }

    /// All pairs from the oldest epoch on, of equal ones by rising number. The order is told by the row
    /// alone.
    pub fn by_age(&self) -> Vec<Pair<'_>> {
        let mut places: Vec<usize> = (0..self.pairs).collect();
        places.sort_by_key(|&place| self.row()[place]);
        places.into_iter().map(|place| self.pair_at(place)).collect()
    }

    /// What changed since an earlier roster: lines by rising number, each ended by a newline. A pair that
    /// only the earlier one has is `first` and its 138 bytes, one that only this one has `second`; of a
    /// pair in both, each field that differs has the number, the label that [`print`](crate::print) gives
    /// it, and this roster's value less the earlier one's in units of the field's last place, epochs in
    /// microseconds. Class, designator, nddot and bstar show the earlier value, then this one's.
    ///
    /// ```
    /// use saddlekerf::{Refusal, Roster};
    ///
    /// # fn main() -> Result<(), Refusal> {
    /// # let line1 = b"1 00005U 58002B   00179.78495062  .00000023  00000-0  28098-4 0  4753";
    /// # let line2 = b"2 00005  34.2682 348.7242 1859667 331.7664  19.3264 10.82419157413667";
    /// let mut roster = Roster::new();
    /// roster.lodge(line1, line2)?;
    /// let yesterday = roster.copied();
    /// roster.lodge(
    ///     b"1 00005U 58002B   00180.78495062  .00000023  00000-0 -28100-4 0  4761",
    ///     b"2 00005  34.2682 348.7202 1859667 331.7664  19.3264 10.82419157413775",
    /// )?;
    /// assert_eq!(
    ///     roster.changes_since(&yesterday),
    ///     "5 epoch 86400000000\n5 bstar 28098 -4 -28100 -4\n5 set 1\n5 node -40\n5 revolution 11\n",
    /// );
    /// assert_eq!(roster.changes_since(&roster), "");
    /// # Ok(())
    /// # }
    /// ```
    pub fn changes_since(&self, earlier: &Roster<'_>) -> String {
        let mut out = vec![0; Roster::CHANGES_ROOM];
        let size = changes(earlier.bytes(), earlier.row(), self.bytes(), self.row(), &mut out)
            .expect("two rosters with their rows")
            .len();
        out.truncate(size);
        String::from_utf8(out).expect("letters, digits, blanks and signs")
    }

    pub fn len(&self) -> usize {
        self.pairs
    }

    pub fn is_empty(&self) -> bool {
        self.pairs == 0
    }

    pub fn bytes(&self) -> &[u8] {
        self.bytes.get()
    }

    /// A copy in memory of its own.
    pub fn copied(&self) -> Roster<'static> {
        Roster {
            bytes: Memory::Own(self.bytes().into()),
            row: Memory::Own(self.row().into()),
            pairs: self.pairs,
        }
    }
}

impl fmt::Debug for Roster<'_> {
    fn fmt(&self, f: &mut fmt::Formatter<'_>) -> fmt::Result {
        f.debug_list().entries(self.pairs().map(|pair| pair.record())).finish()
    }
}
