//! Award plans: the proved library against the port over random plans, whole and damaged; the port against
//! tests/award_plans.py, which is written apart from it; and wrong checkers, which the comparison must see.

use port::award::{case, check, full_plan, proved, Answer, Checker};
use port::compare::Tally;
use std::path::Path;
use std::process::Command;

const SEED: u64 = 1957;

#[test]
fn the_port_and_the_library() {
    let mut tally = Tally::default();
    for index in 0..6_000 {
        case(SEED, index, (check, proved), &mut tally).unwrap_or_else(|found| panic!("{found}"));
    }
    for number in [0, 18, 27, 28, 29, 30, 31] {
        let name = format!("award: refusal {number:>2}");
        assert!(tally.of(&name) > 100, "{name}: {}", tally.of(&name));
    }
    assert!(tally.of("award: refusal  0") > 1_000);
    assert!(tally.of("award: at the last entry") > 20);
    assert_eq!(full_plan().put(proved), Ok(()));
}

fn numbers(line: &str) -> Vec<u64> {
    line.split_whitespace().map(|word| word.parse().unwrap()).collect()
}

fn shown(answer: Answer) -> String {
    match answer {
        Ok(()) => "accepted".to_string(),
        Err((number @ (18 | 31), _)) => format!("refused {number}"),
        Err((number, place)) => format!("refused {number} {place}"),
    }
}

/// The random plans of the Python program, by the port and by the library.
#[test]
fn the_python_program() {
    let script = Path::new(env!("CARGO_MANIFEST_DIR")).join("../tests/award_plans.py");
    let output = Command::new("python3").arg(script).args(["--random", "11", "600"]).output().unwrap();
    assert!(output.status.success());
    let text = String::from_utf8(output.stdout).unwrap();
    let lines: Vec<&str> = text.lines().collect();
    assert_eq!(lines.len(), 4 * 600);
    for plan in lines.chunks(4) {
        let (offers, entries, last) = (numbers(plan[0]), numbers(plan[1]), numbers(plan[2]));
        for checker in [check as Checker, proved] {
            assert_eq!(shown(checker(&offers, &entries, last[0], last[1])), plan[3], "{plan:?}");
        }
    }
}

/// Only neighbours in the list compared: no clash where each entry is apart from the one before it.
fn neighbours_only(offers: &[u64], entries: &[u64], total: u64, turnaround: u64) -> Answer {
    let answer = check(offers, entries, total, turnaround);
    if !matches!(answer, Err((30, _))) {
        return answer;
    }
    let clash = (1..entries.len())
        .find(|&i| matches!(check(offers, &entries[i - 1..=i], total, turnaround), Err((30, _))));
    match clash {
        Some(place) => Err((30, place as u16)),
        None => Ok(()),
    }
}

/// Offers that no entry names left unjudged.
fn named_only(offers: &[u64], entries: &[u64], total: u64, turnaround: u64) -> Answer {
    match check(offers, entries, total, turnaround) {
        Err((27, place)) if !entries.contains(&(place as u64)) => Ok(()),
        answer => answer,
    }
}

/// No turnaround at all.
fn no_turnaround(offers: &[u64], entries: &[u64], total: u64, _: u64) -> Answer {
    check(offers, entries, total, 0)
}

/// A turnaround whose microseconds wrap around.
fn wrapping(offers: &[u64], entries: &[u64], total: u64, turnaround: u64) -> Answer {
    check(offers, entries, total, turnaround.wrapping_mul(1_000_000) / 1_000_000)
}

/// The place counted from 1.
fn from_one(offers: &[u64], entries: &[u64], total: u64, turnaround: u64) -> Answer {
    check(offers, entries, total, turnaround).map_err(|(number, place)| match number {
        18 | 31 => (number, place),
        _ => (number, place + 1),
    })
}

/// Numbers left over taken for an offer.
fn left_over(offers: &[u64], entries: &[u64], total: u64, turnaround: u64) -> Answer {
    let mut offers = offers.to_vec();
    offers.resize(offers.len().div_ceil(4) * 4, 0);
    check(&offers, entries, total, turnaround)
}

/// The low 32 bits of the total alone.
fn short_total(offers: &[u64], entries: &[u64], total: u64, turnaround: u64) -> Answer {
    match check(offers, entries, total, turnaround) {
        Err((31, _)) => {
            let sum: u64 = entries.iter().map(|&entry| offers[4 * entry as usize + 3]).sum();
            if sum as u32 == total as u32 {
                Ok(())
            } else {
                Err((31, 0))
            }
        }
        answer => answer,
    }
}

#[test]
fn wrong_checkers_are_seen() {
    let wrong: [(&str, Checker); 7] = [
        ("neighbours only", neighbours_only),
        ("named only", named_only),
        ("no turnaround", no_turnaround),
        ("a turnaround that wraps", wrapping),
        ("places from 1", from_one),
        ("numbers left over", left_over),
        ("32 bits of the total", short_total),
    ];
    for (name, checker) in wrong {
        let mut tally = Tally::default();
        let seen = (0..6_000).any(|index| case(SEED, index, (check, checker), &mut tally).is_err());
        assert!(seen, "{name}");
    }
}
