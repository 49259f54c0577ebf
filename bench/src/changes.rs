//! What changed between two rosters, each with its row (document 02, wishes 7 and 8).

use crate::roster::{spelt, with_row};
use crate::tle::{Exponential, Record};

fn shown(designator: &[u8; 8]) -> &str {
    match std::str::from_utf8(designator).expect("letters and digits").trim_end() {
        "" => "-",
        text => text,
    }
}

/// A field with what the printing program calls it: a whole number, or what is printed of it.
enum Value {
    Count(i64),
    Shown(String),
}

fn fields(r: &Record) -> [(&'static str, Value); 15] {
    use Value::{Count, Shown};
    let scaled = |x: Exponential| Shown(format!("{} {}", x.mantissa, x.exponent));
    [
        ("class", Shown((r.classification as char).to_string())),
        ("designator", Shown(shown(&r.designator).to_string())),
        ("epoch", Count(r.epoch())),
        ("ndot", Count(r.ndot.into())),
        ("nddot", scaled(r.nddot)),
        ("bstar", scaled(r.bstar)),
        ("type", Count(r.ephemeris.into())),
        ("set", Count(r.set.into())),
        ("inclination", Count(r.inclination.into())),
        ("node", Count(r.node.into())),
        ("eccentricity", Count(r.eccentricity.into())),
        ("perigee", Count(r.perigee.into())),
        ("anomaly", Count(r.anomaly.into())),
        ("motion", Count(r.motion as i64)),
        ("revolution", Count(r.revolution.into())),
    ]
}

fn alone(word: &str, record: &Record) -> String {
    format!("{word} {}\n", std::str::from_utf8(&spelt(record)).expect("a pair is text"))
}

fn differing(a: &Record, b: &Record, text: &mut String) {
    for ((label, x), (_, y)) in fields(a).into_iter().zip(fields(b)) {
        let told = match (x, y) {
            (Value::Count(x), Value::Count(y)) if x != y => (y - x).to_string(),
            (Value::Shown(x), Value::Shown(y)) if x != y => format!("{x} {y}"),
            _ => continue,
        };
        text.push_str(&format!("{} {label} {told}\n", a.number));
    }
}

/// The lines of two lists of records by rising number.
pub fn listing(first: &[Record], second: &[Record]) -> String {
    let mut text = String::new();
    let (mut first, mut second) = (first.iter().peekable(), second.iter().peekable());
    loop {
        match (first.peek(), second.peek()) {
            (Some(a), Some(b)) if a.number == b.number => {
                differing(a, b, &mut text);
                (first.next(), second.next());
            }
            (Some(a), b) if b.is_none_or(|b| a.number < b.number) => {
                text.push_str(&alone("first", a));
                first.next();
            }
            (_, Some(b)) => {
                text.push_str(&alone("second", b));
                second.next();
            }
            _ => return text,
        }
    }
}

/// A roster's buffer and the row beside it.
pub type Lent<'a> = (&'a [u8], &'a [u64]);

/// Writes the listing of two rosters at the front of the room: its size; or a refusal and the roster it
/// names, (22, 1), (22, 2), (17, 0), and the room stays.
pub fn changes(first: Lent, second: Lent, room: &mut [u8]) -> Result<usize, (u8, u8)> {
    let first = with_row(first.0, first.1).ok_or((22, 1))?;
    let second = with_row(second.0, second.1).ok_or((22, 2))?;
    let text = listing(&first, &second);
    room.get_mut(..text.len()).ok_or((17, 0))?.copy_from_slice(text.as_bytes());
    Ok(text.len())
}
