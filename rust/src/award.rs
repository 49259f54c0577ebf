//! Award plans: which offers win, as somebody else proposes it, checked.

use crate::ffi;
use crate::refusal::Answer as Packed;
use crate::Instant;
use std::fmt;

/// An offer for a slot on an antenna.
#[derive(Clone, Copy, Debug, PartialEq, Eq, Hash)]
pub struct Offer {
    pub antenna: u64,
    pub start: Instant,
    /// The first instant past the slot.
    pub end: Instant,
    /// Whole cents.
    pub bid: u64,
}

impl Offer {
    /// Numbers of an offer in lent memory.
    pub const NUMBERS: usize = 4;
    /// The largest bid, in cents.
    pub const BID_LIMIT: u64 = 1_000_000_000;
}

/// A proposed award: offers, those of them that win, and what they bring.
///
/// ```
/// use saddlekerf::{Instant, Offer, Plan, PlanRefusal};
///
/// let slot = |start, end, bid| Offer { antenna: 1, start: Instant(start), end: Instant(end), bid };
/// let offers = [slot(0, 60_000_000, 500), slot(60_000_000, 120_000_000, 700), slot(30, 90, 900)];
/// let mut plan = Plan { offers: &offers, entries: &[0, 1], total: 1200, turnaround: 0 };
/// assert_eq!(plan.check(), Ok(()));
///
/// plan.turnaround = 1;
/// assert_eq!(plan.check(), Err(PlanRefusal::Clash { entry: 1 }));
/// ```
#[derive(Clone, Copy, Debug, PartialEq, Eq, Hash)]
pub struct Plan<'a> {
    pub offers: &'a [Offer],
    /// The numbers of the offers that win, counted from 0.
    pub entries: &'a [u64],
    /// Whole cents: the sum of the bids, as it is claimed.
    pub total: u64,
    /// Seconds that have to lie between two slots on one antenna.
    pub turnaround: u64,
}

/// Why a plan is refused, with the first offer or entry at fault, counted from 0.
#[derive(Clone, Copy, Debug, PartialEq, Eq, Hash)]
pub enum PlanRefusal {
    /// 18: more than 256 offers or entries.
    TooMany,
    /// 27: an offer, named or not, outside the calendar, whose end is not after its start or whose bid
    /// is too large.
    Unsound { offer: u16 },
    /// 28: an entry that names no offer.
    NoSuchOffer { entry: u16 },
    /// 29: an entry whose offer an earlier one names.
    NamedTwice { entry: u16 },
    /// 30: an entry whose offer clashes with that of an earlier one.
    Clash { entry: u16 },
    /// 31: the total is not the sum of the bids.
    WrongTotal,
}

impl Plan<'_> {
    /// The most offers, and the most entries.
    pub const LIMIT: usize = 256;

    /// Accepted, or the one refusal: 18, 27, 28, 29, 30, 31, each over all before the next.
    pub fn check(&self) -> Result<(), PlanRefusal> {
        let numbers: Vec<u64> = self
            .offers
            .iter()
            .flat_map(|offer| [offer.antenna, offer.start.0, offer.end.0, offer.bid])
            .collect();
        check_plan(&numbers, self.entries, self.total, self.turnaround)
    }
}

/// The same on lent numbers, four an offer: antenna, start, end, bid; up to three left over are no offer.
pub fn check_plan(offers: &[u64], entries: &[u64], total: u64, turnaround: u64) -> Result<(), PlanRefusal> {
    Packed(ffi::award(offers, entries, total, turnaround)).checked()
}

impl PlanRefusal {
    /// The refusal's number: 18, or 27 to 31.
    pub const fn number(self) -> u8 {
        match self {
            PlanRefusal::TooMany => 18,
            PlanRefusal::Unsound { .. } => 27,
            PlanRefusal::NoSuchOffer { .. } => 28,
            PlanRefusal::NamedTwice { .. } => 29,
            PlanRefusal::Clash { .. } => 30,
            PlanRefusal::WrongTotal => 31,
        }
    }

    /// The offer or the entry at fault.
    pub const fn place(self) -> Option<u16> {
        match self {
            PlanRefusal::Unsound { offer } => Some(offer),
            PlanRefusal::NoSuchOffer { entry }
            | PlanRefusal::NamedTwice { entry }
            | PlanRefusal::Clash { entry } => Some(entry),
            PlanRefusal::TooMany | PlanRefusal::WrongTotal => None,
        }
    }
}

impl fmt::Display for PlanRefusal {
    fn fmt(&self, f: &mut fmt::Formatter<'_>) -> fmt::Result {
        write!(f, "refusal {}: ", self.number())?;
        match *self {
            PlanRefusal::TooMany => f.write_str("more than 256 offers or entries"),
            PlanRefusal::Unsound { offer } => write!(f, "offer {offer} is not sound"),
            PlanRefusal::NoSuchOffer { entry } => write!(f, "entry {entry} names no offer"),
            PlanRefusal::NamedTwice { entry } => write!(f, "entry {entry} names an offer again"),
            PlanRefusal::Clash { entry } => write!(f, "entry {entry} clashes with an earlier one"),
            PlanRefusal::WrongTotal => f.write_str("the total is not the sum of the bids"),
        }
    }
}

impl std::error::Error for PlanRefusal {}
