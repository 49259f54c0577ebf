//! Passes and looks: the proved library against the port, and wrong ones, which the comparison must see.

use port::compare::Tally;
use port::passes::{case, Call, Found, Held, Port, Proved, Sky};

const SEED: u64 = 1957;

#[test]
fn the_port_and_the_library() {
    let mut tally = Tally::default();
    for index in 0..2_500 {
        case(SEED, index, (&Port, &Proved), &mut tally).unwrap_or_else(|found| panic!("{found}"));
    }
    let passes = ["found", "found begun", "found still", "found begun still", "none"]
        .map(|name| format!("passes: {name}"));
    let refusals = [25, 26, 17].map(|number| format!("passes: refusal {number}"));
    let looks = [0, 6, 9, 11, 12, 17, 25].map(|number| format!("look: refusal {number:>2}"));
    for name in passes.iter().chain(&refusals).chain(&looks) {
        assert!(tally.of(name) > 10, "{name}: {}\n{tally}", tally.of(name));
    }
}

/// The port with one thing wrong.
struct Wrong(&'static str);

impl Sky for Wrong {
    fn next_pass(&self, satellite: &Held, call: &Call, room: &mut [u64]) -> Result<Option<Found>, u8> {
        let mut call = call.clone();
        match self.0 {
            "17 first" if room.len() < 4 => return Err(17),
            "26 before 25" if call.step == 0 => return Err(26),
            "a sample more" => call.samples = call.samples.saturating_add(1),
            "a least elevation in radians" if call.station.len() > 3 => {
                call.station[3] *= 0.017453292519943295
            }
            "height in km" if call.station.len() > 3 => call.station[2] *= 1.000001,
            "a step of a day refused" if call.step == 86_400 => return Err(26),
            _ => {}
        }
        let mut found = Port.next_pass(satellite, &call, room);
        let Ok(Some(found)) = &mut found else { return found };
        match self.0 {
            "a rise a microsecond late" if !found.begun => room[0] += 1,
            "a set a microsecond early" => room[2] -= 1,
            "the highest point in the middle" => room[1] = room[0] + (room[2] - room[0]) / 2,
            "the next call at the set" => room[3] = room[2],
            "begun and still swapped" => (found.begun, found.still) = (found.still, found.begun),
            "a sample too few left" => found.left = found.left.saturating_sub(1),
            "another element written" if room.len() > 4 => room[4] = 0,
            _ => {}
        }
        Ok(Some(*found))
    }

    fn look(&self, satellite: &Held, station: &[f64], instant: u64, room: &mut [f64]) -> Result<(), u8> {
        if self.0 == "17 before 25" && room.len() < 3 {
            return Err(17);
        }
        if self.0 == "straight down for a refusal" && Port.look(satellite, station, instant, room) == Err(9) {
            room[..3].copy_from_slice(&[0.0, -90.0, 0.0]);
            return Ok(());
        }
        Port.look(satellite, station, instant, room)?;
        match self.0 {
            "an azimuth from south" => room[0] = (room[0] + 180.0) % 360.0,
            "the elevation's last bit" => room[1] = room[1].next_up(),
            "a range in metres" => room[2] *= 1000.0,
            _ => {}
        }
        Ok(())
    }
}

#[test]
fn wrong_skies_are_seen() {
    let wrong = [
        "17 first",
        "26 before 25",
        "a sample more",
        "a least elevation in radians",
        "height in km",
        "a step of a day refused",
        "a rise a microsecond late",
        "a set a microsecond early",
        "the highest point in the middle",
        "the next call at the set",
        "begun and still swapped",
        "a sample too few left",
        "another element written",
        "17 before 25",
        "straight down for a refusal",
        "an azimuth from south",
        "the elevation's last bit",
        "a range in metres",
    ];
    for name in wrong {
        let mut tally = Tally::default();
        let seen = (0..1_000).any(|index| case(SEED, index, (&Port, &Wrong(name)), &mut tally).is_err());
        assert!(seen, "{name}");
    }
}
