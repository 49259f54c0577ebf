//! Award plans, by tests/award_plans.py. A plan is three lines of numbers, one blank before each: the offers, four
//! numbers each and up to three left over; the entries; the total and the turnaround. Printed is the answer to
//! each.

use crate::cases::{numbers, Stored};
use saddlekerf::check_plan;

fn answer(offers: &str, entries: &str, last: &str) -> String {
    let [total, turnaround] = numbers(last).try_into().expect("a total and a turnaround");
    let Err(refusal) = check_plan(&numbers(offers), &numbers(entries), total, turnaround) else {
        return "accepted\n".into();
    };
    let place = refusal.place().map(|place| format!(" {place}")).unwrap_or_default();
    format!("refused {}{place}\n", refusal.number())
}

#[test]
fn plans() {
    let stored = Stored::cases("award");
    let lines: Vec<&str> = stored.lines().collect();
    stored.hold(lines.chunks(3).map(|plan| answer(plan[0], plan[1], plan[2])));
}
