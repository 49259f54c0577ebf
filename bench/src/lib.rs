//! An independent port of documents 01, 02 and 002, written from the papers alone.
//!
//! The proved library is compared with it bit for bit, and timed against it.
//! To be of use for that it shares nothing with the proved code: neither text
//! nor order of work. Where the papers leave a point open, both follow
//! docs/DECISIONS.md.
//!
//! - [`elementary`]: document 01's functions, and the system's.
//! - [`instant`]: the calendar, minutes, Julian dates, the Greenwich angle.
//! - [`tle`]: reading, writing and printing two-line sets.
//! - [`roster`]: pairs lodged and withdrawn in a lent buffer.
//! - [`report`]: the pairs of a text counted.
//! - [`changes`]: what changed between two rosters.
//! - [`award`]: award plans checked.
//! - [`moves`]: instants moved twice, and dated.
//! - [`orders`]: times put in the best order, and lists asked in it.
//! - [`sgp4`]: 002's model.
//! - [`request`]: opening, single requests and lists, the saved position.
//! - [`profile`]: near-Earth satellites from 0 to 30 days.
//! - [`windows`]: the Earth-fixed frame, and when a satellite is above a station.
//! - [`passes`]: passes over a station, and where a satellite stands in its sky.
//! - [`published`]: the pairs of 002's test set.
//! - [`random`], [`generate`]: seeded random numbers, pairs and requests.
//! - [`library`], [`compare`]: libraries held against each other; [`proved`] is the proved one.

pub mod award;
pub mod changes;
pub mod compare;
pub mod elementary;
pub mod generate;
pub mod instant;
pub mod library;
pub mod moves;
pub mod orders;
pub mod passes;
pub mod profile;
pub mod proved;
pub mod published;
pub mod random;
pub mod report;
pub mod request;
pub mod roster;
pub mod sgp4;
pub mod tle;
pub mod windows;
