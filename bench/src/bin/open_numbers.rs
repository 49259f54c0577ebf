//! Opens every pair of the published test set and prints numbers of the record,
//! as expected values for a program that opens the same pairs.
//!
//! One line per pair, in the file's order: catalogue number, kind, and the bit
//! patterns (16 hexadecimal digits) of
//!   no con41 cc1 cc4 cc5 t2cof mdot argpdot nodedot xlcof aycof gsto
//! for every kind; then, for deep, one-day and half-day,
//!   zmol zmos se2 ee2 dedt dmdt
//! then, for one-day, xlamo xfact del1 del2 del3, and for half-day,
//!   xlamo xfact d2201 d2211 d3210 d5433.
//! A pair that is not read or not opened has `refused` and the number.
//!
//! `--names` prints one number per line, with its name.

use port::elementary::Document;
use port::request::Satellite;
use port::sgp4::Satrec;
use port::{published, tle};

fn kind(satrec: &Satrec) -> &'static str {
    match (satrec.deep, satrec.irez) {
        (false, _) => "near",
        (true, 0) => "deep",
        (true, 1) => "one-day",
        (true, _) => "half-day",
    }
}

fn numbers(satrec: &Satrec) -> Vec<(&'static str, f64)> {
    let s = satrec;
    let p = &s.periodics;
    let r = &s.resonance;
    let mut numbers = vec![
        ("no", s.no),
        ("con41", s.con41),
        ("cc1", s.cc1),
        ("cc4", s.cc4),
        ("cc5", s.cc5),
        ("t2cof", s.t2cof),
        ("mdot", s.mdot),
        ("argpdot", s.argpdot),
        ("nodedot", s.nodedot),
        ("xlcof", s.xlcof),
        ("aycof", s.aycof),
        ("gsto", s.gsto),
    ];
    if s.deep {
        numbers.extend([
            ("zmol", p.zmol),
            ("zmos", p.zmos),
            ("se2", p.se2),
            ("ee2", p.ee2),
            ("dedt", r.dedt),
            ("dmdt", r.dmdt),
        ]);
    }
    match s.irez {
        1 => numbers.extend([
            ("xlamo", r.xlamo),
            ("xfact", r.xfact),
            ("del1", r.del1),
            ("del2", r.del2),
            ("del3", r.del3),
        ]),
        2 => numbers.extend([
            ("xlamo", r.xlamo),
            ("xfact", r.xfact),
            ("d2201", r.d2201),
            ("d2211", r.d2211),
            ("d3210", r.d3210),
            ("d5433", r.d5433),
        ]),
        _ => {}
    }
    numbers
}

fn main() {
    let names = std::env::args().any(|argument| argument == "--names");
    for (line1, line2) in published::pairs() {
        let catalogue = String::from_utf8_lossy(&line1[2..7]).into_owned();
        let opened = tle::read(&line1, &line2)
            .map_err(|refusal| refusal.number())
            .and_then(|record| Satellite::<Document>::open(&record));
        let satrec = match opened {
            Ok(satellite) => satellite.satrec,
            Err(refusal) => {
                println!("{catalogue} refused {refusal}");
                continue;
            }
        };
        print!("{catalogue} {}", kind(&satrec));
        for (name, value) in numbers(&satrec) {
            if names {
                print!("\n  {name} {:016x}", value.to_bits());
            } else {
                print!(" {:016x}", value.to_bits());
            }
        }
        println!();
    }
}
