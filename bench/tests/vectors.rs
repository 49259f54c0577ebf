//! The port against the vectors: every elementary value, every published row.

use port::elementary::{Document, Elementary, Libm};
use port::published::{opened, row_text, shown};
use port::request::Satellite;
use port::tle;

fn vectors(name: &str) -> String {
    let path = format!("{}/vectors/{name}", env!("CARGO_MANIFEST_DIR"));
    std::fs::read_to_string(&path).unwrap_or_else(|error| panic!("{path}: {error}"))
}

fn number(text: &str) -> f64 {
    if text == "nan" {
        f64::NAN
    } else {
        f64::from_bits(u64::from_str_radix(text, 16).unwrap())
    }
}

#[test]
fn elementary_values() {
    let mut count = 0;
    for line in vectors("elementary.txt").lines().filter(|line| !line.starts_with('#')) {
        let words: Vec<&str> = line.split(' ').collect();
        let (name, arguments, expected) = (words[0], &words[1..words.len() - 1], words[words.len() - 1]);
        let x = number(arguments[0]);
        let result = match name {
            "sqrt" => Document::sqrt(x),
            "sin" => Document::sin(x),
            "cos" => Document::cos(x),
            "atan2" => Document::atan2(x, number(arguments[1])),
            other => panic!("no function {other}"),
        };
        assert_eq!(shown(result), expected, "{line}");
        if name == "sin" || name == "cos" {
            let (sine, cosine) = Document::sin_cos(x);
            assert_eq!(shown(if name == "sin" { sine } else { cosine }), expected, "sin_cos: {line}");
        }
        count += 1;
    }
    assert_eq!(count, 973);
}

/// A satellite's block of published-rows.txt.
struct Block<'a> {
    line1: &'a str,
    line2: &'a str,
    rest: Vec<&'a str>,
}

fn blocks(text: &str) -> Vec<Block<'_>> {
    let lines: Vec<&str> = text.lines().filter(|line| !line.starts_with('#')).collect();
    lines
        .split(|line| *line == "pair")
        .filter(|block| !block.is_empty())
        .map(|block| Block { line1: block[0], line2: block[1], rest: block[2..].to_vec() })
        .collect()
}

#[test]
fn published_rows() {
    let text = vectors("published-rows.txt");
    let mut rows = 0;
    let mut refused = 0;
    for block in blocks(&text) {
        let mut satellite = match opened(block.line1, block.line2) {
            Ok(satellite) => satellite,
            Err(refusal) => {
                assert_eq!(block.rest, [refusal], "{}", block.line1);
                refused += 1;
                continue;
            }
        };
        for expected in block.rest {
            let micros: i64 = expected.split(' ').next().unwrap().parse().unwrap();
            let (row, strides) = satellite.request(micros);
            assert_eq!(row_text(micros, &row, strides), expected, "{}", block.line1);
            assert!(satellite.request_restarting(micros).same(&row), "restarting: {expected}");
            rows += 1;
        }
    }
    assert_eq!(refused, 5);
    assert!(rows > 500, "{rows} rows");
}

/// The system's functions give the same positions within a millimetre or so.
#[test]
fn modes_agree_nearly() {
    let text = vectors("published-rows.txt");
    let mut worst: f64 = 0.0;
    for block in blocks(&text) {
        let Ok(record) = tle::read(block.line1.as_bytes(), block.line2.as_bytes()) else { continue };
        let (Ok(mut one), Ok(mut other)) =
            (Satellite::<Document>::open(&record), Satellite::<Libm>::open(&record))
        else {
            continue;
        };
        for line in block.rest {
            let micros: i64 = line.split(' ').next().unwrap().parse().unwrap();
            let ((a, _), (b, _)) = (one.request(micros), other.request(micros));
            assert_eq!(a.refusal, b.refusal, "{} {micros}", block.line1);
            for (x, y) in a.r.iter().zip(&b.r) {
                worst = worst.max((x - y).abs());
            }
        }
    }
    println!("largest difference between the modes: {worst:e} km");
    assert!(worst < 1e-4, "{worst:e} km");
}
