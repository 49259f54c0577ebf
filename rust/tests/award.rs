//! Award plans: places, limits, and lent numbers.

use saddlekerf::{check_plan, Instant, Offer, Plan, PlanRefusal};

const DAY: u64 = 86_400_000_000;
const END: u64 = 36_525 * DAY;

fn offer(antenna: u64, start: u64, end: u64, bid: u64) -> Offer {
    Offer { antenna, start: Instant(start), end: Instant(end), bid }
}

fn check(offers: &[Offer], entries: &[u64], total: u64, turnaround: u64) -> Result<(), PlanRefusal> {
    Plan { offers, entries, total, turnaround }.check()
}

#[test]
fn each_refusal_before_the_next() {
    let good = [offer(1, 0, DAY, 5), offer(1, DAY, 2 * DAY, 7), offer(2, 0, DAY, 9)];
    assert_eq!(check(&good, &[0, 1, 2], 21, 0), Ok(()));
    assert_eq!(check(&good, &[], 0, u64::MAX), Ok(()));
    assert_eq!(check(&good, &[0, 1], 12, 1), Err(PlanRefusal::Clash { entry: 1 }));
    assert_eq!(check(&good, &[1, 0], 12, 1 << 63), Err(PlanRefusal::Clash { entry: 1 }));
    assert_eq!(check(&good, &[0, 2, 0, 9], 0, 0), Err(PlanRefusal::NoSuchOffer { entry: 3 }));
    assert_eq!(check(&good, &[0, 2, 0], 0, 0), Err(PlanRefusal::NamedTwice { entry: 2 }));
    assert_eq!(check(&good, &[0, 1], 11, 0), Err(PlanRefusal::WrongTotal));
    for bad in [
        offer(3, DAY, DAY, 0),
        offer(3, END - 1, END, 0),
        offer(3, 0, 1, Offer::BID_LIMIT + 1),
        offer(3, u64::MAX, 0, 0),
    ] {
        let mut offers = good.to_vec();
        offers.push(bad);
        assert_eq!(check(&offers, &[9], 0, 0), Err(PlanRefusal::Unsound { offer: 3 }));
    }
}

#[test]
fn limits_and_numbers_left_over() {
    let many: Vec<Offer> = (0..257).map(|k| offer(k, 0, DAY, Offer::BID_LIMIT)).collect();
    let all: Vec<u64> = (0..257).collect();
    assert_eq!(check(&many[..256], &all[..256], 256 * Offer::BID_LIMIT, u64::MAX), Ok(()));
    assert_eq!(check(&many, &[], 0, 0), Err(PlanRefusal::TooMany));
    assert_eq!(check(&many[..256], &all, 0, 0), Err(PlanRefusal::TooMany));
    assert_eq!(check_plan(&[1, 0, DAY, 5, 7, 7, 7], &[0], 5, 0), Ok(()));
    assert_eq!(check_plan(&[1, 0, DAY], &[0], 5, 0), Err(PlanRefusal::NoSuchOffer { entry: 0 }));
}
