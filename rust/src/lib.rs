//! Two-line element sets and SGP4, proved bit for bit.
//!
//! A safe wrapper of the proved library, which `./archive saddlekerf` writes as an archive for
//! x86-64 Linux. It adds types and borrows, no arithmetic: every number comes out of the archive.
//!
//! ```
//! use saddlekerf::{Microseconds, Refusal, Satellite};
//!
//! # fn main() -> Result<(), Refusal> {
//! let line1 = b"1 00005U 58002B   00179.78495062  .00000023  00000-0  28098-4 0  4753";
//! let line2 = b"2 00005  34.2682 348.7242 1859667 331.7664  19.3264 10.82419157413667";
//! let mut satellite = Satellite::open(line1, line2)?;
//! let state = satellite.at(Microseconds::from_minutes(360))?;
//! assert_eq!(state.position[0], -7154.031202015704);
//! # Ok(())
//! # }
//! ```
//!
//! A list of times goes into memory that the caller lends:
//!
//! ```
//! use saddlekerf::{Microseconds, Refusal, Rooms, Satellite, State};
//!
//! # fn main() -> Result<(), Refusal> {
//! # let line1 = b"1 00005U 58002B   00179.78495062  .00000023  00000-0  28098-4 0  4753";
//! # let line2 = b"2 00005  34.2682 348.7242 1859667 331.7664  19.3264 10.82419157413667";
//! let mut satellite = Satellite::open(line1, line2)?;
//! let times = [Microseconds::from_minutes(0), Microseconds(i64::MAX)];
//! let mut rooms =
//!     Rooms { refusals: &mut [0; 2], states: &mut [State::default(); 2], rounds: &mut [0; 2] };
//! let rows = satellite.list(&times, &mut rooms)?;
//! assert!(rows.row(0).is_ok());
//! assert_eq!(rows.row(1), Err(Refusal::Time));
//! # Ok(())
//! # }
//! ```
//!
//! Times of both sides of the epoch, in any order, are asked for the fewest strides by
//! [`Satellite::list_in_best_order`].
//!
//! The passes over a station, with their highest points and the way to look: [`Satellite::passes`],
//! [`Satellite::look`].
//!
//! A roster keeps up to 64 pairs, one a catalogue number, in 8,832 bytes, and their instants in a row:
//!
//! ```
//! use saddlekerf::{Refusal, Roster};
//!
//! # fn main() -> Result<(), Refusal> {
//! # let line1 = b"1 00005U 58002B   00179.78495062  .00000023  00000-0  28098-4 0  4753";
//! # let line2 = b"2 00005  34.2682 348.7242 1859667 331.7664  19.3264 10.82419157413667";
//! let mut roster = Roster::new();
//! roster.lodge(line1, line2)?;
//! assert_eq!(roster.get(5).unwrap().line1, line1);
//! assert_eq!(roster.oldest().unwrap().line1, line1);
//! roster.withdraw(5)?;
//! assert_eq!(roster.withdraw(5), Err(Refusal::Absent));
//! # Ok(())
//! # }
//! ```
//!
//! A report counts the pairs of a text, up to 4,096, and prints as the program `monday_report` does:
//!
//! ```
//! use saddlekerf::{Refusal, Report};
//!
//! # fn main() -> Result<(), Refusal> {
//! # let line1 = "1 00005U 58002B   00179.78495062  .00000023  00000-0  28098-4 0  4753";
//! # let line2 = "2 00005  34.2682 348.7242 1859667 331.7664  19.3264 10.82419157413667";
//! let report = Report::of(format!("{line1}\n{line2}\n").as_bytes())?;
//! assert_eq!((report.accepted, report.near, report.span), (1, 1, Some(0)));
//! assert!(report.to_string().ends_with("latest 2000 179 67819733568\nspan 0\n"));
//! # Ok(())
//! # }
//! ```
//!
//! The form of a pair and what its fields mean are judged apart, too: [`Fields`], [`form`], [`meaning`].
//!
//! The dish controller's profile, from an archive of its own, is the module `profile` (feature `profile`).
//!
//! An award plan that somebody else proposes is checked, and accepted only if it breaks no rule ([`Plan`]).
//!
//! Lines are any bytes at all, without a line end. They get an answer or exactly one [`Refusal`],
//! with the line, the first column that breaks the layout, or the field, where it has one.
//!
//! # The floating-point environment
//!
//! The proofs speak of f64 rounded to nearest, ties to even, with subnormal numbers and without
//! traps: the state in which a program starts, and which threads take over from their creator. Where
//! it was changed (the rounding mode, flush-to-zero, denormals-are-zero) other bits come out, and
//! where a trap is unmasked, a lawful line can end the process: lines that divide 0 by 0 on the way
//! to refusal 8 are lawful. [`environment_is_default`] tells, in a nanosecond or two.
//!
//! # Memory
//!
//! All NaNs are one value in the proofs: "stays" of an f64 in lent memory means the same number or
//! again a NaN. That a NaN keeps its own bits is tested, not proved.
//!
//! # Time and stack
//!
//! A request takes at most 7,304 integrator strides (1.5 ms or so) and a list at most 7,479,296: 1,024
//! times ten years from the epoch, each on the other side than the one before. Without resonance there
//! are none. A call for windows needs at most 69,632 bytes of stack, one for a list less than 12,288, any
//! other less than 8,192.

#![deny(unsafe_code, missing_debug_implementations)]

mod award;
#[allow(unsafe_code)]
mod ffi;
mod passes;
#[cfg(feature = "profile")]
pub mod profile;
mod record;
mod refusal;
mod report;
mod roster;
mod satellite;
mod time;

pub use award::{check_plan, Offer, Plan, PlanRefusal};
pub use passes::{Found, Look, Pass, Passes, Station, Unseen};
pub use record::{form, meaning, Exponential, Fields, Record};
pub use refusal::{Field, Line, Refusal};
pub use report::{count_text, Date, Report};
pub use roster::{changes, fill_row, lodge, withdraw, Pair, Roster, Uncompared, Which};
pub use satellite::{Answer, Rooms, Row, Rows, Satellite, State, Window, Windows};
pub use time::{best_order, Instant, Microseconds, Strides, Unmoved};

use refusal::Answer as Packed;

/// The bytes of a buffer for [`print`] that is never too short.
pub const PRINT_ROOM: usize = 900;

/// Reads a pair: accepted, or a refusal 1 to 6.
pub fn read(line1: &[u8], line2: &[u8]) -> Result<(), Refusal> {
    Packed(ffi::read(line1, line2)).plain()
}

/// The checksum digit of any bytes, 0 to 9: a digit adds itself, a minus sign 1, any other byte nothing,
/// and the sum is taken modulo 10. Of the first 68 bytes of a line it is what column 69 has to show.
///
/// ```
/// let line1 = b"1 00005U 58002B   00179.78495062  .00000023  00000-0  28098-4 0  4753";
/// assert_eq!(saddlekerf::checksum(&line1[..68]), 3);
/// ```
pub fn checksum(bytes: &[u8]) -> u8 {
    ffi::checksum(bytes) as u8
}

/// Prints the fields of a pair, one a line, at the front of `out`, and returns the part written; or
/// refusal 17. A pair that is not read prints `refused` and its number.
pub fn print<'a>(line1: &[u8], line2: &[u8], out: &'a mut [u8]) -> Result<&'a mut [u8], Refusal> {
    let written = Packed(ffi::print(line1, line2, out)).counted()?;
    Ok(&mut out[..written as usize])
}

/// What [`print`] prints, as a new string.
///
/// ```
/// assert_eq!(saddlekerf::printed(b"", b""), "refused 1\n");
/// ```
pub fn printed(line1: &[u8], line2: &[u8]) -> String {
    let mut out = [0; PRINT_ROOM];
    let text = print(line1, line2, &mut out).expect("a room that is never too short");
    String::from_utf8(text.to_vec()).expect("letters, digits, blanks and signs")
}

/// The epoch of a pair; or a refusal 1 to 6.
pub fn epoch(line1: &[u8], line2: &[u8]) -> Result<Instant, Refusal> {
    let mut instant = 0;
    Packed(ffi::epoch(line1, line2, &mut instant)).plain()?;
    Ok(Instant(instant))
}

/// The version of the archive: 10000 × major + 100 × minor + patch. An archive whose functions, answers
/// or layouts of memory are not those of this package does not link with it.
pub fn version() -> u64 {
    ffi::version()
}

/// Whether this thread's floating-point environment is the one that the proofs speak of: rounding to
/// nearest, subnormal numbers kept, every trap masked. Flags that earlier operations raised do not
/// count.
///
/// ```
/// assert!(saddlekerf::environment_is_default());
/// ```
pub fn environment_is_default() -> bool {
    ffi::mxcsr() & ffi::MXCSR_CONTROL == ffi::MXCSR_DEFAULT
}
