//! Instants moved, once, twice, there and back, and dated: the proved library against the port, and wrong
//! moves, which the comparison must see.

use port::compare::Tally;
use port::instant::{END, SPAN_LIMIT};
use port::moves::{case, moved, proved, Mover};

const SEED: u64 = 1957;

#[test]
fn the_port_and_the_library() {
    let mut tally = Tally::default();
    for index in 0..20_000 {
        case(SEED, index, (moved, proved), &mut tally).unwrap_or_else(|found| panic!("{found}"));
    }
    let names = ["refusal 0", "refusal 6", "refusal 9", "one by their sum", "the sum too far"];
    for name in names.map(|name| format!("two moves: {name}")) {
        assert!(tally.of(&name) > 500, "{name}: {}", tally.of(&name));
    }
}

/// The instant reached is not judged.
fn unjudged(at: u64, span: i64) -> Result<u64, u8> {
    match moved(at, span) {
        Err(6) if at < END as u64 => Ok(at.wrapping_add_signed(span)),
        answer => answer,
    }
}

/// One microsecond more than a move may have.
fn too_far(at: u64, span: i64) -> Result<u64, u8> {
    match span {
        span if span == SPAN_LIMIT + 1 => moved(at, SPAN_LIMIT),
        span => moved(at, span),
    }
}

/// 6 before 9.
fn six_first(at: u64, span: i64) -> Result<u64, u8> {
    moved(at, 0).and_then(|_| moved(at, span))
}

#[test]
fn wrong_moves_are_seen() {
    for (name, wrong) in [("unjudged", unjudged as Mover), ("too far", too_far), ("6 before 9", six_first)] {
        let mut tally = Tally::default();
        assert!((0..20_000).any(|index| case(SEED, index, (moved, wrong), &mut tally).is_err()), "{name}");
    }
}
