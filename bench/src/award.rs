//! Award plans (document 02, wish 11): checked by the port, made at random, and two checkers held against
//! each other.

use crate::compare::Tally;
use crate::instant::{DAY, END};
use crate::library::Timed;
use crate::random::Random;
use std::collections::{BTreeMap, HashSet};
use std::hint::black_box;

pub const MOST: usize = 256;
pub const MOST_CENTS: u64 = 1_000_000_000;
const SECOND: u128 = 1_000_000;

/// A refusal's number with the offer or entry at fault, 0 where it has none.
pub type Answer = Result<(), (u8, u16)>;

/// Offers of four numbers, entries, total, turnaround.
pub type Checker = fn(&[u64], &[u64], u64, u64) -> Answer;

#[derive(Clone, Debug)]
pub struct Plan {
    pub offers: Vec<u64>,
    pub entries: Vec<u64>,
    pub total: u64,
    pub turnaround: u64,
}

impl Plan {
    pub fn put(&self, check: Checker) -> Answer {
        check(&self.offers, &self.entries, self.total, self.turnaround)
    }
}

fn sound(start: u64, end: u64, bid: u64) -> bool {
    start < end && end < END as u64 && bid <= MOST_CENTS
}

/// The slots taken on one antenna, end by start; none of them clash.
type Taken = BTreeMap<u64, u64>;

/// Takes a slot where those that start before and after it leave room.
fn take(taken: &mut Taken, start: u64, end: u64, turnaround: u128) -> bool {
    let apart = |end: u64, start: u64| end as u128 + turnaround * SECOND <= start as u128;
    let before = taken.range(..=start).next_back().is_none_or(|(_, &other)| apart(other, start));
    let after = taken.range(start..).next().is_none_or(|(&other, _)| apart(end, other));
    if before && after {
        taken.insert(start, end);
    }
    before && after
}

/// The port's check.
pub fn check(offers: &[u64], entries: &[u64], total: u64, turnaround: u64) -> Answer {
    let offers: Vec<&[u64]> = offers.chunks_exact(4).collect();
    if offers.len() > MOST || entries.len() > MOST {
        return Err((18, 0));
    }
    let at = |number, place: Option<usize>| place.map_or(Ok(()), |place| Err((number, place as u16)));
    at(27, offers.iter().position(|offer| !sound(offer[1], offer[2], offer[3])))?;
    at(28, entries.iter().position(|&entry| entry >= offers.len() as u64))?;
    let mut seen = HashSet::new();
    at(29, entries.iter().position(|&entry| !seen.insert(entry)))?;
    let named: Vec<&[u64]> = entries.iter().map(|&entry| offers[entry as usize]).collect();
    let mut antennas: BTreeMap<u64, Taken> = BTreeMap::new();
    at(
        30,
        named.iter().position(|offer| {
            !take(antennas.entry(offer[0]).or_default(), offer[1], offer[2], turnaround as u128)
        }),
    )?;
    match named.iter().map(|offer| offer[3] as u128).sum::<u128>() == total as u128 {
        true => Ok(()),
        false => Err((31, 0)),
    }
}

/// A plan that is acceptable unless it is too long: slots one after the other on a few antennas, as close
/// as the turnaround allows, some of them named, in any order.
pub fn plan(random: &mut Random) -> Plan {
    let count = *random.pick(&[0, 1, 2, 3, 8, 30, 100, 255, 256, 257]);
    let turnaround = *random.pick(&[0, 0, 1, 60, 3600]);
    let mut free: Vec<u64> = (0..1 + random.below(8)).map(|_| random.below(DAY as u64)).collect();
    let mut slots = Vec::new();
    for _ in 0..count {
        let antenna = random.below(free.len() as u64) as usize;
        let start = free[antenna] + *random.pick(&[0, 0, 1, 1_000_000]);
        let end = start + 1 + random.below(DAY as u64);
        free[antenna] = end + turnaround * 1_000_000;
        let bid = *random.pick(&[0, 1, 250_000, MOST_CENTS]);
        slots.push([antenna as u64, start, end, bid]);
    }
    shuffle(random, &mut slots);
    let mut entries: Vec<u64> = (0..count).collect();
    shuffle(random, &mut entries);
    entries.truncate(random.below(count + 1) as usize);
    let total = entries.iter().map(|&entry| slots[entry as usize][3]).sum();
    Plan { offers: slots.concat(), entries, total, turnaround }
}

fn shuffle<T>(random: &mut Random, items: &mut [T]) {
    for place in (1..items.len()).rev() {
        items.swap(place, random.below(place as u64 + 1) as usize);
    }
}

/// What is damaged in a plan, in the order of the refusals that it mostly leads to.
pub const DAMAGES: [&str; 10] = [
    "nothing",
    "numbers left over",
    "one entry more than there may be",
    "any number of an offer",
    "a bid too large",
    "an entry too large",
    "an entry again",
    "a slot moved onto another",
    "a longer turnaround",
    "another total",
];

pub fn damage(random: &mut Random, plan: &mut Plan, damage: &str) {
    let (offers, entries) = (plan.offers.len() as u64 / 4, plan.entries.len() as u64);
    match damage {
        "numbers left over" => {
            let left_over = 1 + random.below(3);
            plan.offers.extend((0..left_over).map(|_| random.next_u64()));
        }
        "one entry more than there may be" => plan.entries = (0..=MOST as u64).collect(),
        "any number of an offer" if offers > 0 => {
            let place = random.below(4 * offers) as usize;
            let end = END as u64;
            plan.offers[place] = *random.pick(&[0, 1, end - 1, end, end + 1, u64::MAX, 1 << 63]);
        }
        "a bid too large" if offers > 0 => {
            let place = 4 * random.below(offers) as usize + 3;
            plan.offers[place] = MOST_CENTS + 1;
        }
        "an entry too large" if entries > 0 => {
            let place = random.below(entries) as usize;
            plan.entries[place] = *random.pick(&[offers, offers + 1, 1 << 32, u64::MAX]);
        }
        "an entry again" if entries > 1 => {
            let (a, b) = (random.below(entries) as usize, random.below(entries) as usize);
            plan.entries[a] = plan.entries[b];
        }
        "a slot moved onto another" if offers > 1 => {
            let (a, b) = (4 * random.below(offers) as usize, 4 * random.below(offers) as usize);
            let (antenna, end) = (plan.offers[b], plan.offers[b + 2]);
            let start = end - *random.pick(&[0, 1, 2]);
            plan.offers[a..a + 3].copy_from_slice(&[antenna, start, end + 1]);
        }
        "a longer turnaround" => {
            let longer = plan.turnaround + 1;
            plan.turnaround = *random.pick(&[longer, 1 << 63, u64::MAX]);
        }
        "another total" => {
            plan.total = *random.pick(&[plan.total ^ 1, plan.total + (1 << 32), plan.total.wrapping_sub(1)]);
        }
        _ => {}
    }
}

/// Case `index`: a plan, whole or damaged, put to both.
pub fn case(seed: u64, index: u64, checkers: (Checker, Checker), tally: &mut Tally) -> Result<(), String> {
    let mut random = Random::new(seed ^ index.wrapping_mul(0x9e37_79b9_7f4a_7c15) ^ 11 << 56);
    let mut plan = plan(&mut random);
    let what = DAMAGES[index as usize % DAMAGES.len()];
    damage(&mut random, &mut plan, what);
    let (a, b) = (plan.put(checkers.0), plan.put(checkers.1));
    if a != b {
        return Err(format!("seed {seed}, plan {index} ({what}):\n  {a:?}\n  {b:?}\n{plan:?}"));
    }
    let number = a.err().map_or(0, |(number, _)| number);
    tally.count(format!("award: refusal {number:>2}"));
    if matches!(a, Err((28..=30, place)) if place as usize + 1 == plan.entries.len()) {
        tally.count("award: at the last entry".to_string());
    }
    Ok(())
}

/// 256 offers, all named, on two antennas, back to back: every pair of a kind has to be looked at.
pub fn full_plan() -> Plan {
    let slot = |k: u64| [k % 2, k / 2 * DAY as u64, (k / 2 + 1) * DAY as u64, 1000 + k];
    let offers: Vec<u64> = (0..MOST as u64).flat_map(slot).collect();
    let total = offers.chunks(4).map(|offer| offer[3]).sum();
    Plan { offers, entries: (0..MOST as u64).collect(), total, turnaround: 0 }
}

/// For timing: a plan and what checks it.
pub struct Timing {
    pub plan: Plan,
    pub check: Checker,
}

impl Timed for Timing {
    fn renew(&mut self) {}

    fn run(&mut self) {
        let _ = black_box(black_box(&self.plan).put(self.check));
    }
}

/// The proved library's check.
pub fn proved(offers: &[u64], entries: &[u64], total: u64, turnaround: u64) -> Answer {
    saddlekerf::check_plan(offers, entries, total, turnaround)
        .map_err(|refusal| (refusal.number(), refusal.place().unwrap_or(0)))
}
