//! Reports of whole texts, what they leave of lent memory, and how they print.

use saddlekerf::{count_text, Date, Refusal, Report};

const LINE1: &str = "1 00005U 58002B   00179.78495062  .00000023  00000-0  28098-4 0  4753";
const LINE2: &str = "2 00005  34.2682 348.7242 1859667 331.7664  19.3264 10.82419157413667";
const DEEP1: &str = "1 24208U 96044A   06177.04061740 -.00000094  00000-0  10000-3 0  1600";
const DEEP2: &str = "2 24208   3.8536  80.0121 0026640 311.0977  48.3000  1.00778054 36119";
/// Refusal 8 of opening: at 180 degrees 002 divides 0 by 0.
const OPPOSITE2: &str = "2 00005 180.0000 348.7242 1859667 331.7664  19.3264 10.82419157413661";

fn text(lines: &[&str]) -> Vec<u8> {
    lines.iter().flat_map(|line| [line, "\n"]).collect::<String>().into_bytes()
}

fn pairs(count: usize) -> Vec<u8> {
    text(&[LINE1, LINE2]).repeat(count)
}

#[test]
fn nothing() {
    let report = Report::of(b"").unwrap();
    assert_eq!(report, Report::default());
    let expected = "accepted 0\nrefused 1 0\nrefused 2 0\nrefused 3 0\nrefused 4 0\nrefused 5 0\n\
                    refused 6 0\nnear 0\ndeep 0\nunopened 0\nearliest -\nlatest -\nspan -\n";
    assert_eq!(report.to_string(), expected);
}

/// Every line of the report, the latest epoch first.
#[test]
fn every_heading() {
    let comma = LINE2.replacen("34.2", "34,2", 1);
    let lines = [
        DEEP1,
        DEEP2,
        LINE1,
        LINE2,
        LINE1,
        OPPOSITE2,
        "",
        "",
        LINE2,
        LINE2,
        LINE1,
        &comma,
        LINE1,
        &LINE2[..68],
        LINE1,
        DEEP2,
    ];
    let report = Report::of(&text(&lines)).unwrap();
    assert_eq!((report.accepted, report.refused), (3, [2, 1, 1, 0, 1, 0]));
    assert_eq!((report.near, report.deep, report.unopened), (1, 1, 1));
    let earliest = Date { year: 2000, day: 179, microseconds: 67_819_733_568 };
    let latest = Date { year: 2006, day: 177, microseconds: 3_509_343_360 };
    assert_eq!((report.earliest, report.latest), (Some(earliest), Some(latest)));
    // 2000 day 179 to 2006 day 177: five years, of which 2004 is a leap year, 366 + 1,826 - 2 days
    assert_eq!(report.span, Some((366 + 5 * 365 + 1 - 2) * 86_400_000_000 + 3_509_343_360 - 67_819_733_568));
    let expected =
        "accepted 3\nrefused 1 2\nrefused 2 1\nrefused 3 1\nrefused 4 0\nrefused 5 1\nrefused 6 0\n\
                    near 1\ndeep 1\nunopened 1\nearliest 2000 179 67819733568\nlatest 2006 177 3509343360\n";
    assert_eq!(report.to_string(), format!("{expected}span {}\n", report.span.unwrap()));
}

/// The last line counts if it has a byte, and a carriage return is one.
#[test]
fn ends_of_lines() {
    let whole = pairs(1);
    let one = Report::of(&whole).unwrap();
    assert_eq!((one.accepted, one.span), (1, Some(0)));
    assert_eq!(Report::of(&whole[..whole.len() - 1]), Ok(one));
    assert_eq!(Report::of(&[&whole[..], b"x"].concat()), Err(Refusal::Odd));
    assert_eq!(Report::of(&[&whole[..], b"\n"].concat()), Err(Refusal::Odd));
    let returns = format!("{LINE1}\r\n{LINE2}\r\n");
    assert_eq!(Report::of(returns.as_bytes()).unwrap().refused, [1, 0, 0, 0, 0, 0]);
    assert_eq!(Report::of(b"\0"), Err(Refusal::Odd));
    assert_eq!(Report::of(b"\0\n\0").unwrap().refused, [1, 0, 0, 0, 0, 0]);
}

/// 23 before 24, and a line left over is no pair.
#[test]
fn limits() {
    let most = Report::PAIRS_LIMIT;
    assert_eq!(Report::of(&pairs(most)).unwrap().near, most as u64);
    let line = text(&[LINE1]);
    assert_eq!(Report::of(&[pairs(most), line.clone()].concat()), Err(Refusal::Odd));
    assert_eq!(Report::of(&pairs(most + 1)), Err(Refusal::Pairs));
    assert_eq!(Report::of(&[pairs(most + 1), line].concat()), Err(Refusal::Pairs));
    assert_eq!(Report::of(&vec![b'\n'; 2 * most]).unwrap().refused[0], most as u64);
    assert_eq!(Report::of(&vec![b'\n'; 1 << 20]), Err(Refusal::Pairs));
}

/// Lines of megabytes, as one piece.
#[test]
fn long_lines() {
    let long = [&vec![b'1'; 1 << 20][..], b"\n", &vec![0; 1 << 20][..], b"\n", &pairs(1)[..]].concat();
    let report = Report::of(&long).unwrap();
    assert_eq!((report.accepted, report.refused), (1, [1, 0, 0, 0, 0, 0]));
    // lawful in its first 69 bytes
    let behind = format!("{LINE1}{}\n{LINE2}\n", "x".repeat(1 << 20));
    assert_eq!(Report::of(behind.as_bytes()).unwrap().refused, [1, 0, 0, 0, 0, 0]);
}

#[test]
fn lent_memory() {
    let marks: Vec<u64> = (100..120).collect();
    for length in 0..marks.len() {
        let mut counts = marks[..length].to_vec();
        assert_eq!(count_text(b"x", &mut counts), Err(Refusal::Odd));
        assert_eq!(count_text(&vec![b'\n'; 2 * Report::PAIRS_LIMIT + 3], &mut counts), Err(Refusal::Pairs));
        assert_eq!(counts, marks[..length]);
        let answer = count_text(&pairs(2), &mut counts);
        if length < Report::NUMBERS {
            assert_eq!(answer, Err(Refusal::Room));
            assert_eq!(counts, marks[..length]);
        } else {
            assert_eq!(answer, Ok(()));
            let date = [2000, 179, 67_819_733_568];
            let numbers = [&[2, 0, 0, 0, 0, 0, 0, 2, 0, 0][..], &date, &date, &[0]].concat();
            assert_eq!(counts[..Report::NUMBERS], numbers);
            assert_eq!(counts[Report::NUMBERS..], marks[Report::NUMBERS..length]);
        }
    }
    let mut counts = marks.clone();
    assert_eq!(count_text(b"", &mut counts), Ok(()));
    assert_eq!(counts[..Report::NUMBERS], [0; Report::NUMBERS]);
}
