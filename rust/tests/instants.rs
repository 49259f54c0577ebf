//! Instants moved, dated, and made from dates.

use saddlekerf::{Date, Instant, Microseconds, Unmoved};

const DAY: u64 = 86_400_000_000;
const END: u64 = 36_525 * DAY;
const LIMIT: i64 = Microseconds::LIMIT.0;

fn moved(instant: u64, span: i64) -> Result<u64, Unmoved> {
    Instant(instant).moved(Microseconds(span)).map(|instant| instant.0)
}

#[test]
fn moves_at_the_edges() {
    assert_eq!(moved(7, 0), Ok(7));
    assert_eq!(moved(0, LIMIT), Ok(LIMIT as u64));
    assert_eq!(moved(0, LIMIT + 1), Err(Unmoved::TooFar));
    assert_eq!(moved(END, i64::MIN), Err(Unmoved::TooFar));
    assert_eq!(moved(0, -1), Err(Unmoved::Outside));
    assert_eq!(moved(END - 1, 1), Err(Unmoved::Outside));
    assert_eq!(moved(END, -1), Err(Unmoved::Outside));
    assert_eq!(moved(u64::MAX, 0), Err(Unmoved::Outside));
    assert_eq!((Unmoved::TooFar.number(), Unmoved::Outside.number()), (9, 6));
}

/// Where the premise of wish 12 fails: two moves refused where one is made, and the other way round.
#[test]
fn two_moves_and_one() {
    let twice = |instant, first, second| moved(instant, first).and_then(|middle| moved(middle, second));
    assert_eq!(twice(0, DAY as i64, -5), moved(0, DAY as i64 - 5));
    assert_eq!((twice(0, LIMIT + 1, -LIMIT), moved(0, 1)), (Err(Unmoved::TooFar), Ok(1)));
    assert_eq!((twice(0, -1, 2), moved(0, 1)), (Err(Unmoved::Outside), Ok(1)));
    assert_eq!((twice(0, LIMIT, 1), moved(0, LIMIT + 1)), (Ok(LIMIT as u64 + 1), Err(Unmoved::TooFar)));
    assert_eq!(twice(5, LIMIT, -LIMIT), Ok(5));
}

#[test]
fn dates() {
    let date = |year, day, microseconds| Date { year, day, microseconds };
    assert_eq!(Instant(0).date(), Some(date(1957, 1, 0)));
    assert_eq!(Instant(END - 1).date(), Some(date(2056, 366, DAY - 1)));
    assert_eq!(Instant(END).date(), None);
    for (year, day, microseconds) in
        [(1956, 1, 0), (2057, 1, 0), (2001, 366, 0), (2000, 0, 0), (2000, 1, DAY)]
    {
        assert_eq!(Instant::from_date(date(year, day, microseconds)), None);
    }
    assert_eq!(Instant::from_date(date(2000, u64::MAX, u64::MAX)), None);
    for step in 0..1000 {
        let instant = Instant(END / 1000 * step + step);
        assert_eq!(Instant::from_date(instant.date().unwrap()), Some(instant));
    }
}
