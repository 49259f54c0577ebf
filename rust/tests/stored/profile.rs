//! The published test set put to the profile, by tests/profile_rows.py. Printed is of a pair `opened`, or `refused`
//! and the number, and then nothing of its requests; of a request (`one` and a time, `list` and times) a `row` line
//! for each row, with the refusal, the bits of the state and the rounds, or `refused` and the number for a list
//! refused whole, and a `strides` line. A line `deep` marks the satellite in memory as a resonant one.

use crate::cases::{numbers, patterns, refused, Stored};
use saddlekerf::{profile::Satellite, Microseconds, Refusal, Rooms, State};

/// A state that no row has.
const MARKED: State = State { position: [1.0; 3], velocity: [1.0; 3] };

fn row_line(refusal: u8, state: &State, rounds: u8) -> String {
    let numbers = state.position.into_iter().chain(state.velocity);
    format!("row {refusal}{} {rounds}\n", patterns(numbers))
}

/// The state of a time that is refused stays: zeros, as they were lent.
fn one(satellite: &mut Satellite, time: Microseconds) -> String {
    let mut state = State::default();
    match satellite.request_into(time, &mut state) {
        Ok(rounds) => row_line(0, &state, rounds),
        Err(refusal) => row_line(refusal.number(), &state, 0),
    }
}

/// The rows as they lie in the rooms.
fn list(satellite: &mut Satellite, times: &[Microseconds]) -> Result<String, Refusal> {
    let count = times.len();
    let (mut refusals, mut states, mut rounds) = (vec![7; count], vec![MARKED; count], vec![7; count]);
    let mut rooms = Rooms { refusals: &mut refusals, states: &mut states, rounds: &mut rounds };
    satellite.list(times, &mut rooms)?;
    Ok((0..count).map(|index| row_line(refusals[index], &states[index], rounds[index])).collect())
}

/// A request's line. The wrapper stops at an answer with strides.
fn answered(satellite: &mut Satellite, line: &str) -> String {
    let (word, rest) = line.split_once(' ').unwrap_or((line, ""));
    let times: Vec<Microseconds> = numbers(rest).into_iter().map(Microseconds).collect();
    let rows = match word {
        "one" => one(satellite, times[0]),
        "list" => list(satellite, &times).unwrap_or_else(refused),
        _ => panic!("{line}"),
    };
    rows + "strides 0\n"
}

fn resonant(satellite: &Satellite) -> Satellite {
    let (numbers, mut marks) = (*satellite.memory().0, *satellite.memory().1);
    marks[3] = 2;
    Satellite::from_memory(numbers, marks)
}

#[test]
fn published_rows() {
    let stored = Stored::cases("profile");
    let mut lines = stored.lines();
    let mut satellite = None;
    let mut printed = String::new();
    while let Some(line) = lines.next() {
        if line.starts_with("1 ") {
            let second = lines.next().expect("a second line");
            let opened = Satellite::open(line.as_bytes(), second.as_bytes());
            printed += &match &opened {
                Ok(_) => "opened\n".to_string(),
                Err(refusal) => format!("refused {}\n", refusal.number()),
            };
            satellite = opened.ok();
        } else if let Some(satellite) = &mut satellite {
            match line {
                "deep" => *satellite = resonant(satellite),
                _ => printed += &answered(satellite, line),
            }
        }
    }
    stored.hold([printed]);
}
