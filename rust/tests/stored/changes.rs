//! Two rosters compared, by tests/roster_changes.py. Printed is after each comparison what it answers, the listing,
//! and how many bytes past it stayed as they were. The input has two lines for each step:
//!
//! ```text
//! <=N  or  >=N  and an empty line: the first roster, or the second, becomes N zeros
//! <@N  or  >@N  and some bytes: they go into it from index N on
//! ?N   and an empty line: their rows are filled and the two compared, into a room of N dots
//! ?N   and < or >: the same, and the last instant of the first's row, or of the second's, is 1
//! ```

use crate::cases::{number, Stored};
use saddlekerf::{changes, fill_row, Roster, Uncompared, Which};

/// The row of a roster, filled, or damaged. That of a buffer which is no roster stays zeros.
fn row(buffer: &[u8], damaged: bool) -> [u64; Roster::PLACES] {
    let mut row = [0; Roster::PLACES];
    let _ = fill_row(buffer, &mut row);
    if damaged {
        row[Roster::PLACES - 1] = 1;
    }
    row
}

fn compared([first, second]: &[Vec<u8>; 2], size: usize, mark: &[u8]) -> String {
    let (row1, row2) = (row(first, mark == b"<"), row(second, mark == b">"));
    let mut room = vec![b'.'; size];
    let (answer, listed) = match changes(first, &row1, second, &row2, &mut room) {
        Ok(part) => (format!("written {}\n{}", part.len(), String::from_utf8_lossy(part)), part.len()),
        Err(Uncompared::NoRoster(Which::First)) => ("refused 22 first\n".into(), 0),
        Err(Uncompared::NoRoster(Which::Second)) => ("refused 22 second\n".into(), 0),
        Err(Uncompared::Room) => ("refused 17\n".into(), 0),
    };
    let kept = room[listed..].iter().filter(|&&byte| byte == b'.').count();
    format!("{answer}kept {kept}\n")
}

fn step(rosters: &mut [Vec<u8>; 2], [line1, line2]: [&[u8]; 2]) -> String {
    let (which, rest) = match line1 {
        [b'?', size @ ..] => return compared(rosters, number(size), line2),
        [b'<', rest @ ..] => (0, rest),
        [b'>', rest @ ..] => (1, rest),
        _ => panic!("no step: {}", line1.escape_ascii()),
    };
    match rest {
        [b'=', size @ ..] => rosters[which] = vec![0; number(size)],
        [b'@', at @ ..] => rosters[which][number(at)..][..line2.len()].copy_from_slice(line2),
        _ => panic!("no step: {}", line1.escape_ascii()),
    }
    String::new()
}

#[test]
fn comparisons() {
    let stored = Stored::cases("changes");
    let mut rosters = [vec![], vec![]];
    stored.hold(stored.pairs().map(|lines| step(&mut rosters, lines)));
}
