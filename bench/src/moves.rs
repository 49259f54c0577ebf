//! Instants moved and dated (document 02, wish 12), the proved library held against the port.

use crate::compare::Tally;
use crate::instant::{self, DAY, END, SPAN_LIMIT};
use crate::random::Random;

/// An instant moved: the instant reached, or 9, 6.
pub type Mover = fn(u64, i64) -> Result<u64, u8>;

/// The port's move, of any 64 bits.
pub fn moved(at: u64, span: i64) -> Result<u64, u8> {
    if span.unsigned_abs() > SPAN_LIMIT as u64 {
        return Err(9);
    }
    let at = i64::try_from(at).map_err(|_| 6)?;
    instant::moved(at, span).map(|reached| reached as u64)
}

/// The proved library's.
pub fn proved(at: u64, span: i64) -> Result<u64, u8> {
    let reached = saddlekerf::Instant(at).moved(saddlekerf::Microseconds(span));
    reached.map(|reached| reached.0).map_err(saddlekerf::Unmoved::number)
}

fn any_instant(random: &mut Random) -> u64 {
    let end = END as u64;
    match random.below(8) {
        0 => random.next_u64(),
        1 => random.below(3),
        2 => end - 2 + random.below(4),
        3 => end - SPAN_LIMIT as u64 - 1 + random.below(3),
        _ => random.below(end),
    }
}

fn any_span(random: &mut Random) -> i64 {
    match random.below(8) {
        0 => random.next_u64() as i64,
        1 => random.between(-1, 1),
        2 => SPAN_LIMIT - 1 + random.between(0, 2),
        3 => -SPAN_LIMIT - 1 + random.between(0, 2),
        4 => random.between(-DAY, DAY),
        _ => random.between(-SPAN_LIMIT, SPAN_LIMIT),
    }
}

fn twice(mover: Mover, at: u64, first: i64, second: i64) -> Result<u64, u8> {
    mover(at, first).and_then(|middle| mover(middle, second))
}

/// The date of an instant, and back.
fn dated(at: u64) -> Result<(), String> {
    let date = saddlekerf::Instant(at).date();
    let known = (at < END as u64).then(|| instant::split(at as i64));
    if date.map(|date| (date.year as i64, date.day as i64, date.microseconds as i64)) != known {
        return Err(format!("the date of {at}: {date:?}, {known:?}"));
    }
    match date.map(saddlekerf::Instant::from_date) {
        Some(Some(back)) if back.0 == at => Ok(()),
        None => Ok(()),
        other => Err(format!("the date of {at} and back: {other:?}")),
    }
}

/// Case `index`: one move, two moves and one by their sum, there and back, and dates.
pub fn case(seed: u64, index: u64, movers: (Mover, Mover), tally: &mut Tally) -> Result<(), String> {
    let mut random = Random::new(seed ^ index.wrapping_mul(0x9e37_79b9_7f4a_7c15) ^ 12 << 56);
    let (at, first, second) = (any_instant(&mut random), any_span(&mut random), any_span(&mut random));
    let what = format!("seed {seed}, move {index}: {at} by {first} and {second}");
    let pairs = [
        (movers.0(at, first), movers.1(at, first)),
        (twice(movers.0, at, first, second), twice(movers.1, at, first, second)),
        (twice(movers.0, at, first, first.wrapping_neg()), twice(movers.1, at, first, first.wrapping_neg())),
    ];
    for (a, b) in pairs {
        if a != b {
            return Err(format!("{what}\n  {a:?}\n  {b:?}"));
        }
    }
    let number = pairs[1].0.err().unwrap_or(0);
    tally.count(format!("two moves: refusal {number}"));
    if let (Ok(reached), Some(sum)) = (pairs[1].0, first.checked_add(second)) {
        let once = movers.1(at, sum);
        let in_range = sum.unsigned_abs() <= SPAN_LIMIT as u64;
        if once != if in_range { Ok(reached) } else { Err(9) } {
            return Err(format!("{what}: once {once:?}, twice {reached}"));
        }
        tally.count(if in_range { "two moves: one by their sum" } else { "two moves: the sum too far" });
    }
    dated(at)
}
