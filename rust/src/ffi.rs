//! The functions of include/saddlekerf.h, and the only unsafe code of this package.
//!
//! Each safe function below lends slices, as their pointer and their number of elements. A slice's
//! pointer is aligned, never null and leads to that many initialised elements; a shared slice does
//! not change and a mutable one overlaps nothing else for the time of the call: these are the
//! header's rules of memory, and the library keeps nothing after the return.

use crate::{Microseconds, State};
use std::arch::asm;

#[cfg(not(all(target_arch = "x86_64", target_os = "linux")))]
compile_error!("libsaddlekerf.a is for Linux on x86-64");

/// Elements of a satellite's memory.
pub const NUMBERS: usize = 83;
pub const MARKS: usize = 6;

/// Numbers of a record.
pub const FIELDS: usize = 22;

/// The version of this package, as the header and the archive tell theirs.
#[cfg(test)]
pub const VERSION: u64 = 400;

/// f64s of one state.
const STATE: usize = 6;

// A state is lent as six f64s and a time as an i64.
const _: () = assert!(size_of::<State>() == STATE * size_of::<f64>());
const _: () = assert!(align_of::<State>() == align_of::<f64>());
const _: () = assert!(size_of::<Microseconds>() == size_of::<i64>());
const _: () = assert!(align_of::<Microseconds>() == align_of::<i64>());

mod c {
    extern "C" {
        pub fn saddlekerf_version() -> u64;

        pub fn saddlekerf_abi_3() -> u64;

        pub fn saddlekerf_read(
            line1: *const u8,
            line1_length: usize,
            line2: *const u8,
            line2_length: usize,
        ) -> u64;

        pub fn saddlekerf_checksum(bytes: *const u8, bytes_length: usize) -> u64;

        pub fn saddlekerf_print(
            line1: *const u8,
            line1_length: usize,
            line2: *const u8,
            line2_length: usize,
            out: *mut u8,
            out_length: usize,
        ) -> u64;

        pub fn saddlekerf_epoch(
            line1: *const u8,
            line1_length: usize,
            line2: *const u8,
            line2_length: usize,
            instant: *mut u64,
        ) -> u64;

        pub fn saddlekerf_record(
            line1: *const u8,
            line1_length: usize,
            line2: *const u8,
            line2_length: usize,
            fields: *mut i64,
            fields_length: usize,
        ) -> u64;

        pub fn saddlekerf_form(
            line1: *const u8,
            line1_length: usize,
            line2: *const u8,
            line2_length: usize,
            fields: *mut i64,
            fields_length: usize,
        ) -> u64;

        pub fn saddlekerf_meaning(fields: *const i64, fields_length: usize) -> u64;

        pub fn saddlekerf_write(
            fields: *const i64,
            fields_length: usize,
            line: u32,
            out: *mut u8,
            out_length: usize,
        ) -> u64;

        pub fn saddlekerf_fill_row(
            roster: *const u8,
            roster_length: usize,
            row: *mut u64,
            row_length: usize,
        ) -> u64;

        pub fn saddlekerf_lodge(
            roster: *mut u8,
            roster_length: usize,
            row: *mut u64,
            row_length: usize,
            line1: *const u8,
            line1_length: usize,
            line2: *const u8,
            line2_length: usize,
        ) -> u64;

        pub fn saddlekerf_withdraw(
            roster: *mut u8,
            roster_length: usize,
            row: *mut u64,
            row_length: usize,
            number: u64,
        ) -> u64;

        pub fn saddlekerf_report(
            text: *const u8,
            text_length: usize,
            counts: *mut u64,
            counts_length: usize,
        ) -> u64;

        pub fn saddlekerf_changes(
            first: *const u8,
            first_length: usize,
            row1: *const u64,
            row1_length: usize,
            second: *const u8,
            second_length: usize,
            row2: *const u64,
            row2_length: usize,
            out: *mut u8,
            out_length: usize,
        ) -> u64;

        pub fn saddlekerf_open(
            line1: *const u8,
            line1_length: usize,
            line2: *const u8,
            line2_length: usize,
            numbers: *mut f64,
            numbers_length: usize,
            marks: *mut u32,
            marks_length: usize,
        ) -> u64;

        pub fn saddlekerf_request(
            numbers: *mut f64,
            numbers_length: usize,
            marks: *mut u32,
            marks_length: usize,
            time: i64,
            state: *mut f64,
            state_length: usize,
        ) -> u64;

        pub fn saddlekerf_request_list(
            numbers: *mut f64,
            numbers_length: usize,
            marks: *mut u32,
            marks_length: usize,
            times: *const i64,
            times_length: usize,
            refusals: *mut u8,
            refusals_length: usize,
            states: *mut f64,
            states_length: usize,
            rounds: *mut u8,
            rounds_length: usize,
        ) -> u64;

        pub fn saddlekerf_best_order(times: *mut i64, times_length: usize) -> u64;

        pub fn saddlekerf_windows(
            numbers: *mut f64,
            numbers_length: usize,
            marks: *mut u32,
            marks_length: usize,
            station: *const f64,
            station_length: usize,
            start: u64,
            step: u64,
            samples: usize,
            firsts: *mut u64,
            firsts_length: usize,
            lasts: *mut u64,
            lasts_length: usize,
        ) -> u64;

        pub fn saddlekerf_next_pass(
            numbers: *const f64,
            numbers_length: usize,
            marks: *const u32,
            marks_length: usize,
            station: *const f64,
            station_length: usize,
            start: u64,
            step: u64,
            samples: u32,
            pass: *mut u64,
            pass_length: usize,
        ) -> u64;

        pub fn saddlekerf_look(
            numbers: *const f64,
            numbers_length: usize,
            marks: *const u32,
            marks_length: usize,
            station: *const f64,
            station_length: usize,
            instant: u64,
            look: *mut f64,
            look_length: usize,
        ) -> u64;

        pub fn saddlekerf_award(
            offers: *const u64,
            offers_length: usize,
            entries: *const u64,
            entries_length: usize,
            total: u64,
            turnaround: u64,
        ) -> u64;

        pub fn saddlekerf_move(instant: u64, span: i64, moved: *mut u64) -> u64;

        pub fn saddlekerf_date(instant: u64, date: *mut u64, date_length: usize) -> u64;

        pub fn saddlekerf_instant(year: u64, day: u64, micros: u64, instant: *mut u64) -> u64;
    }
}

/// An archive whose functions, answers or layouts of memory differ from those that are called here
/// does not link: the name of this symbol changes with them.
#[used]
static ABI: unsafe extern "C" fn() -> u64 = c::saddlekerf_abi_3;

pub fn version() -> u64 {
    // SAFETY: it takes nothing and touches nothing.
    unsafe { c::saddlekerf_version() }
}

/// The bits of MXCSR that change results or trap: denormals-are-zero (6), the six masks (7-12),
/// rounding (13-14), flush-to-zero (15); and what they are where a program starts.
pub const MXCSR_CONTROL: u32 = 0xffc0;
pub const MXCSR_DEFAULT: u32 = 0x1f80;

/// The control and status word of the processor's f64 arithmetic.
pub fn mxcsr() -> u32 {
    let mut word = 0u32;
    // SAFETY: stmxcsr writes the four bytes of `word` and nothing else.
    unsafe { asm!("stmxcsr [{}]", in(reg) &raw mut word, options(nostack, preserves_flags)) };
    word
}

pub fn read(line1: &[u8], line2: &[u8]) -> u64 {
    // SAFETY: both lines are slices, lent for reading.
    unsafe { c::saddlekerf_read(line1.as_ptr(), line1.len(), line2.as_ptr(), line2.len()) }
}

pub fn checksum(bytes: &[u8]) -> u64 {
    // SAFETY: the bytes are a slice, lent for reading.
    unsafe { c::saddlekerf_checksum(bytes.as_ptr(), bytes.len()) }
}

pub fn print(line1: &[u8], line2: &[u8], out: &mut [u8]) -> u64 {
    // SAFETY: all three are slices; `out` is mutable, so that it overlaps neither line.
    unsafe {
        c::saddlekerf_print(
            line1.as_ptr(),
            line1.len(),
            line2.as_ptr(),
            line2.len(),
            out.as_mut_ptr(),
            out.len(),
        )
    }
}

pub fn epoch(line1: &[u8], line2: &[u8], instant: &mut u64) -> u64 {
    // SAFETY: both lines are slices; `instant` is a mutable reference to one u64.
    unsafe { c::saddlekerf_epoch(line1.as_ptr(), line1.len(), line2.as_ptr(), line2.len(), instant) }
}

pub fn record(line1: &[u8], line2: &[u8], fields: &mut [i64]) -> u64 {
    // SAFETY: all three are slices; `fields` is mutable, so that it overlaps neither line.
    unsafe {
        c::saddlekerf_record(
            line1.as_ptr(),
            line1.len(),
            line2.as_ptr(),
            line2.len(),
            fields.as_mut_ptr(),
            fields.len(),
        )
    }
}

pub fn form(line1: &[u8], line2: &[u8], fields: &mut [i64]) -> u64 {
    // SAFETY: all three are slices; `fields` is mutable, so that it overlaps neither line.
    unsafe {
        c::saddlekerf_form(
            line1.as_ptr(),
            line1.len(),
            line2.as_ptr(),
            line2.len(),
            fields.as_mut_ptr(),
            fields.len(),
        )
    }
}

pub fn meaning(fields: &[i64]) -> u64 {
    // SAFETY: `fields` is a slice.
    unsafe { c::saddlekerf_meaning(fields.as_ptr(), fields.len()) }
}

pub fn write(fields: &[i64], line: u32, out: &mut [u8]) -> u64 {
    // SAFETY: both are slices; `out` is mutable, so that it does not overlap `fields`.
    unsafe { c::saddlekerf_write(fields.as_ptr(), fields.len(), line, out.as_mut_ptr(), out.len()) }
}

pub fn fill_row(roster: &[u8], row: &mut [u64]) -> u64 {
    // SAFETY: both are slices; `row` is mutable, so that it does not overlap `roster`.
    unsafe { c::saddlekerf_fill_row(roster.as_ptr(), roster.len(), row.as_mut_ptr(), row.len()) }
}

pub fn lodge(roster: &mut [u8], row: &mut [u64], line1: &[u8], line2: &[u8]) -> u64 {
    // SAFETY: all four are slices, the first two mutable, so that they overlap nothing.
    unsafe {
        c::saddlekerf_lodge(
            roster.as_mut_ptr(),
            roster.len(),
            row.as_mut_ptr(),
            row.len(),
            line1.as_ptr(),
            line1.len(),
            line2.as_ptr(),
            line2.len(),
        )
    }
}

pub fn withdraw(roster: &mut [u8], row: &mut [u64], number: u64) -> u64 {
    // SAFETY: both are mutable slices, so that they do not overlap.
    unsafe { c::saddlekerf_withdraw(roster.as_mut_ptr(), roster.len(), row.as_mut_ptr(), row.len(), number) }
}

pub fn report(text: &[u8], counts: &mut [u64]) -> u64 {
    // SAFETY: a shared slice and a mutable one.
    unsafe { c::saddlekerf_report(text.as_ptr(), text.len(), counts.as_mut_ptr(), counts.len()) }
}

pub fn changes(first: &[u8], row1: &[u64], second: &[u8], row2: &[u64], out: &mut [u8]) -> u64 {
    // SAFETY: all five are slices; `out` is mutable, so that it overlaps nothing.
    unsafe {
        c::saddlekerf_changes(
            first.as_ptr(),
            first.len(),
            row1.as_ptr(),
            row1.len(),
            second.as_ptr(),
            second.len(),
            row2.as_ptr(),
            row2.len(),
            out.as_mut_ptr(),
            out.len(),
        )
    }
}

pub fn open(line1: &[u8], line2: &[u8], numbers: &mut [f64], marks: &mut [u32]) -> u64 {
    // SAFETY: all four are slices, the last two mutable, so that they overlap nothing.
    unsafe {
        c::saddlekerf_open(
            line1.as_ptr(),
            line1.len(),
            line2.as_ptr(),
            line2.len(),
            numbers.as_mut_ptr(),
            numbers.len(),
            marks.as_mut_ptr(),
            marks.len(),
        )
    }
}

pub fn request(numbers: &mut [f64], marks: &mut [u32], time: Microseconds, state: &mut State) -> u64 {
    // SAFETY: two mutable slices, and a mutable state, which is six f64s (asserted above) in a
    // `repr(C)` struct of nothing else.
    unsafe {
        c::saddlekerf_request(
            numbers.as_mut_ptr(),
            numbers.len(),
            marks.as_mut_ptr(),
            marks.len(),
            time.0,
            std::ptr::from_mut(state).cast(),
            STATE,
        )
    }
}

pub fn request_list(
    numbers: &mut [f64],
    marks: &mut [u32],
    times: &[Microseconds],
    refusals: &mut [u8],
    states: &mut [State],
    rounds: &mut [u8],
) -> u64 {
    // SAFETY: slices, all but `times` mutable, so that none overlaps another. A time is an i64
    // (`repr(transparent)`) and a state six f64s (`repr(C)`); six times their number is no overflow,
    // for a slice has at most isize::MAX bytes. Any f64 and any u8 is a value of its place.
    unsafe {
        c::saddlekerf_request_list(
            numbers.as_mut_ptr(),
            numbers.len(),
            marks.as_mut_ptr(),
            marks.len(),
            times.as_ptr().cast(),
            times.len(),
            refusals.as_mut_ptr(),
            refusals.len(),
            states.as_mut_ptr().cast(),
            STATE * states.len(),
            rounds.as_mut_ptr(),
            rounds.len(),
        )
    }
}

pub fn best_order(times: &mut [Microseconds]) -> u64 {
    // SAFETY: a mutable slice. A time is an i64 (`repr(transparent)`), and any i64 is a time.
    unsafe { c::saddlekerf_best_order(times.as_mut_ptr().cast(), times.len()) }
}

#[allow(clippy::too_many_arguments)]
pub fn windows(
    numbers: &mut [f64],
    marks: &mut [u32],
    station: &[f64],
    start: u64,
    step: u64,
    samples: usize,
    firsts: &mut [u64],
    lasts: &mut [u64],
) -> u64 {
    // SAFETY: slices, all but `station` mutable, so that none overlaps another.
    unsafe {
        c::saddlekerf_windows(
            numbers.as_mut_ptr(),
            numbers.len(),
            marks.as_mut_ptr(),
            marks.len(),
            station.as_ptr(),
            station.len(),
            start,
            step,
            samples,
            firsts.as_mut_ptr(),
            firsts.len(),
            lasts.as_mut_ptr(),
            lasts.len(),
        )
    }
}

pub fn next_pass(
    numbers: &[f64],
    marks: &[u32],
    station: &[f64],
    start: u64,
    step: u64,
    samples: u32,
    pass: &mut [u64],
) -> u64 {
    // SAFETY: slices, `pass` mutable, so that none overlaps it.
    unsafe {
        c::saddlekerf_next_pass(
            numbers.as_ptr(),
            numbers.len(),
            marks.as_ptr(),
            marks.len(),
            station.as_ptr(),
            station.len(),
            start,
            step,
            samples,
            pass.as_mut_ptr(),
            pass.len(),
        )
    }
}

pub fn look(numbers: &[f64], marks: &[u32], station: &[f64], instant: u64, look: &mut [f64]) -> u64 {
    // SAFETY: slices, `look` mutable, so that none overlaps it.
    unsafe {
        c::saddlekerf_look(
            numbers.as_ptr(),
            numbers.len(),
            marks.as_ptr(),
            marks.len(),
            station.as_ptr(),
            station.len(),
            instant,
            look.as_mut_ptr(),
            look.len(),
        )
    }
}

pub fn award(offers: &[u64], entries: &[u64], total: u64, turnaround: u64) -> u64 {
    // SAFETY: both are slices, lent for reading.
    unsafe {
        c::saddlekerf_award(offers.as_ptr(), offers.len(), entries.as_ptr(), entries.len(), total, turnaround)
    }
}

pub fn move_by(instant: u64, span: i64, moved: &mut u64) -> u64 {
    // SAFETY: `moved` is a mutable reference to one u64.
    unsafe { c::saddlekerf_move(instant, span, moved) }
}

pub fn date(instant: u64, date: &mut [u64]) -> u64 {
    // SAFETY: a mutable slice.
    unsafe { c::saddlekerf_date(instant, date.as_mut_ptr(), date.len()) }
}

pub fn instant(year: u64, day: u64, micros: u64, instant: &mut u64) -> u64 {
    // SAFETY: `instant` is a mutable reference to one u64.
    unsafe { c::saddlekerf_instant(year, day, micros, instant) }
}

#[cfg(test)]
mod tests {
    use super::*;
    use crate::{Instant, Offer, Plan, Record, Report, Roster, Satellite, PRINT_ROOM};

    /// The numbers written here are the header's.
    #[test]
    fn numbers_of_the_header() {
        let header = include_str!("../../include/saddlekerf.h");
        let defined = |name: &str| {
            let start = format!("#define SADDLEKERF_{name} ");
            let value = header.lines().find_map(|line| line.strip_prefix(&start)).expect(name);
            value.trim_start_matches("INT64_C(").trim_end_matches(')').parse::<i64>().expect(name)
        };
        assert_eq!(defined("NUMBERS"), NUMBERS as i64);
        assert_eq!(defined("MARKS"), MARKS as i64);
        assert_eq!(defined("STATE"), STATE as i64);
        assert_eq!(defined("LIST_LIMIT"), Satellite::LIST_LIMIT as i64);
        assert_eq!(defined("SAMPLES_LIMIT"), Satellite::SAMPLES_LIMIT as i64);
        assert_eq!(defined("STEP_LIMIT"), Satellite::STEP_LIMIT as i64);
        assert_eq!(defined("PRINT_ROOM"), PRINT_ROOM as i64);
        assert_eq!(defined("TIME_LIMIT"), Microseconds::LIMIT.0);
        assert_eq!(defined("LINE"), Record::LINE as i64);
        assert_eq!(defined("FIELDS"), FIELDS as i64);
        assert_eq!(defined("ROSTER"), Roster::SIZE as i64);
        assert_eq!(defined("PAIR"), Roster::PAIR as i64);
        assert_eq!(defined("PLACES"), Roster::PLACES as i64);
        assert_eq!(defined("COUNTS"), Report::NUMBERS as i64);
        assert_eq!(defined("PAIRS_LIMIT"), Report::PAIRS_LIMIT as i64);
        assert_eq!(defined("ROW"), Roster::PLACES as i64);
        assert_eq!(defined("OFFER_NUMBERS"), Offer::NUMBERS as i64);
        assert_eq!(defined("PLAN_LIMIT"), Plan::LIMIT as i64);
        assert_eq!(defined("BID_LIMIT"), Offer::BID_LIMIT as i64);
        assert_eq!(defined("DATE"), Instant::DATE_NUMBERS as i64);
        assert_eq!(defined("VERSION"), VERSION as i64);
    }

    /// Header, archive and this package tell one version, and one number of the boundary.
    #[test]
    fn one_version() {
        assert_eq!(version(), VERSION);
        let words: Vec<u64> =
            env!("CARGO_PKG_VERSION").split('.').map(|word| word.parse().unwrap()).collect();
        assert_eq!(10_000 * words[0] + 100 * words[1] + words[2], VERSION);
        // SAFETY: it takes nothing and touches nothing.
        assert_eq!(unsafe { ABI() }, 3);
    }
}

/// The functions of include/saddlekerf_profile.h.
#[cfg(feature = "profile")]
pub mod profile {
    use super::STATE;
    use crate::{Microseconds, State};

    /// Elements of a satellite's memory.
    pub const NUMBERS: usize = 36;
    pub const MARKS: usize = 6;

    mod c {
        extern "C" {
            pub fn saddlekerf_profile_abi_1() -> u64;

            pub fn saddlekerf_profile_open(
                line1: *const u8,
                line1_length: usize,
                line2: *const u8,
                line2_length: usize,
                numbers: *mut f64,
                numbers_length: usize,
                marks: *mut u32,
                marks_length: usize,
            ) -> u64;

            pub fn saddlekerf_profile_request(
                numbers: *mut f64,
                numbers_length: usize,
                marks: *mut u32,
                marks_length: usize,
                time: i64,
                state: *mut f64,
                state_length: usize,
            ) -> u64;

            pub fn saddlekerf_profile_request_list(
                numbers: *mut f64,
                numbers_length: usize,
                marks: *mut u32,
                marks_length: usize,
                times: *const i64,
                times_length: usize,
                refusals: *mut u8,
                refusals_length: usize,
                states: *mut f64,
                states_length: usize,
                rounds: *mut u8,
                rounds_length: usize,
            ) -> u64;
        }
    }

    /// As the full library's: an archive of another boundary does not link.
    #[used]
    static ABI: unsafe extern "C" fn() -> u64 = c::saddlekerf_profile_abi_1;

    pub fn open(line1: &[u8], line2: &[u8], numbers: &mut [f64], marks: &mut [u32]) -> u64 {
        // SAFETY: all four are slices, the last two mutable, so that they overlap nothing.
        unsafe {
            c::saddlekerf_profile_open(
                line1.as_ptr(),
                line1.len(),
                line2.as_ptr(),
                line2.len(),
                numbers.as_mut_ptr(),
                numbers.len(),
                marks.as_mut_ptr(),
                marks.len(),
            )
        }
    }

    pub fn request(numbers: &mut [f64], marks: &mut [u32], time: Microseconds, state: &mut [f64]) -> u64 {
        // SAFETY: three mutable slices.
        unsafe {
            c::saddlekerf_profile_request(
                numbers.as_mut_ptr(),
                numbers.len(),
                marks.as_mut_ptr(),
                marks.len(),
                time.0,
                state.as_mut_ptr(),
                state.len(),
            )
        }
    }

    pub fn request_list(
        numbers: &mut [f64],
        marks: &mut [u32],
        times: &[Microseconds],
        refusals: &mut [u8],
        states: &mut [State],
        rounds: &mut [u8],
    ) -> u64 {
        // SAFETY: as the full library's function of this name.
        unsafe {
            c::saddlekerf_profile_request_list(
                numbers.as_mut_ptr(),
                numbers.len(),
                marks.as_mut_ptr(),
                marks.len(),
                times.as_ptr().cast(),
                times.len(),
                refusals.as_mut_ptr(),
                refusals.len(),
                states.as_mut_ptr().cast(),
                STATE * states.len(),
                rounds.as_mut_ptr(),
                rounds.len(),
            )
        }
    }
}
