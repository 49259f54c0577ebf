//! The dish controller's profile (document 02, wish 13), from its words: the port's own satellites and
//! requests, with refusal 32 between 7 and 8 and first of all in a request, and 33 in place of 9.

use crate::elementary::Document;
use crate::instant::DAY;
use crate::library::Unopened;
use crate::request::{Row, Satellite as Full, LIST_LIMIT};
use crate::sgp4::{self, Elements};
use crate::tle;
use std::f64::consts::PI;

/// "times from 0 to 30 days"
pub const LATEST: i64 = 30 * DAY;

#[derive(Clone, Copy, Debug)]
pub struct Satellite(pub Full<Document>);

/// "element sets with a period below 225 minutes": of those that 7 does not refuse.
fn deep_space(elements: &Elements) -> bool {
    let at_start = sgp4::initl::<Document>(elements.ecco, elements.epoch, elements.inclo, elements.no);
    at_start.rp >= 1.0 && 2.0 * PI / at_start.no >= 225.0
}

impl Satellite {
    /// Refusals 1 to 6, 7, 32, 8.
    pub fn open(line1: &[u8], line2: &[u8]) -> Result<Satellite, Unopened> {
        let record = tle::read(line1, line2).map_err(Unopened::Unread)?;
        if deep_space(&Elements::of(&record)) {
            return Err(Unopened::Refused(32));
        }
        Full::open(&record).map(Satellite).map_err(Unopened::Refused)
    }

    fn beyond(&self) -> bool {
        2.0 * PI / self.0.satrec.no >= 225.0
    }

    /// The row of one time; 32 and 33 leave the satellite.
    pub fn request(&mut self, micros: i64) -> Row {
        let refused = |refusal| Row { refusal, ..Row::EMPTY };
        if self.beyond() {
            return refused(32);
        }
        if !(0..=LATEST).contains(&micros) {
            return refused(33);
        }
        let (row, strides) = self.0.request(micros);
        assert_eq!(strides, 0, "strides are always 0");
        row
    }

    /// A row for each time; or 32, 18, 17, in this order.
    pub fn list(&mut self, times: &[i64], rows: &mut [Row]) -> Result<(), u8> {
        if self.beyond() {
            return Err(32);
        }
        if times.len() > LIST_LIMIT {
            return Err(18);
        }
        if rows.len() < times.len() {
            return Err(17);
        }
        for (row, &micros) in rows.iter_mut().zip(times) {
            *row = self.request(micros);
        }
        Ok(())
    }
}
