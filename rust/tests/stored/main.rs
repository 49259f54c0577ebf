//! The stored cases of tests/cases/, made from the papers by scripts of tests/ and by the independent port, put
//! to the library: what is printed of each input is held to the stored output, byte for byte. A module for each
//! folder.

mod award;
mod cases;
mod changes;
mod fields;
mod opening;
mod positions;
#[cfg(feature = "profile")]
mod profile;
mod reading;
mod roster;
mod writing;
