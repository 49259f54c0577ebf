//! The port against the Python programs in tests/, written apart from it: the
//! reader of two-line sets over whole and damaged pairs, the arithmetic on
//! instants, the sine and cosine of large angles, the cube root, and the windows
//! above a station. Two independent readings of the
//! documents have to agree before the proved code is held against either.

use port::elementary::{cube_root, Document, Elementary};
use port::generate;
use port::instant;
use port::random::Random;
use port::request::Satellite;
use port::tle::{self, Field, Refusal};
use port::windows::Watch;
use std::path::{Path, PathBuf};
use std::process::Command;

fn python(arguments: &[&str]) -> Vec<u8> {
    let root = Path::new(env!("CARGO_MANIFEST_DIR")).parent().unwrap();
    let output = Command::new("python3").args(arguments).current_dir(root).output().expect("python3");
    assert!(output.status.success(), "{}", String::from_utf8_lossy(&output.stderr));
    output.stdout
}

fn answer(line1: &[u8], line2: &[u8]) -> String {
    let field = |field| match field {
        Field::Day => "day",
        Field::Inclination => "inclination",
        Field::Node => "node",
        Field::Perigee => "perigee",
        Field::Anomaly => "anomaly",
        Field::Motion => "motion",
    };
    match tle::read(line1, line2) {
        Ok(_) => "ok".to_string(),
        Err(refusal) => match refusal {
            Refusal::Length { line } => format!("refused 1 {line}"),
            Refusal::FirstColumn { line } => format!("refused 2 {line}"),
            Refusal::Layout { line, column } => format!("refused 3 {line} {column}"),
            Refusal::Checksum { line } => format!("refused 4 {line}"),
            Refusal::Numbers => "refused 5".to_string(),
            Refusal::Range(which) => format!("refused 6 {}", field(which)),
        },
    }
}

/// Reads the pairs the Python program wrote; every whole one is also written
/// back, and the lines written read as the same record.
fn compare_pairs(seed: &str, random: &str) {
    let folder = PathBuf::from(env!("CARGO_TARGET_TMPDIR"));
    let input = folder.join(format!("pairs-{seed}.txt"));
    let expected = folder.join(format!("answers-{seed}.txt"));
    let (i, e) = (input.to_str().unwrap(), expected.to_str().unwrap());
    python(&["tests/tle_pairs.py", "--write", i, e, "--seed", seed, "--random", random]);
    let input = std::fs::read(&input).unwrap();
    let expected = std::fs::read_to_string(&expected).unwrap();
    let mut lines = input.split(|&b| b == b'\n');
    let mut count = 0;
    for want in expected.lines() {
        let (line1, line2) = (lines.next().unwrap(), lines.next().unwrap());
        let shown = (String::from_utf8_lossy(line1), String::from_utf8_lossy(line2));
        assert_eq!(answer(line1, line2), want, "{shown:?}");
        if let Ok(record) = tle::read(line1, line2) {
            assert!(record.lawful(), "{shown:?}");
            let (one, two) = (tle::written(&record, 1).unwrap(), tle::written(&record, 2).unwrap());
            assert_eq!(tle::read(&one, &two), Ok(record), "{shown:?}");
        }
        count += 1;
    }
    println!("{count} pairs");
    assert!(count >= 500);
}

#[test]
fn pairs() {
    compare_pairs("58002", "200");
}

#[test]
fn more_random_pairs() {
    compare_pairs("2718", "3000");
}

/// The pairs of the comparison, read by the Python program.
#[test]
fn pairs_of_the_comparison() {
    let mut random = Random::new(69);
    let mut pairs: Vec<(Vec<u8>, Vec<u8>)> = (0..5000).map(|_| generate::damaged_pair(&mut random)).collect();
    for aim in generate::AIMS {
        for _ in 0..100 {
            let (line1, line2) = generate::pair(&mut random, aim);
            pairs.push((line1.to_vec(), line2.to_vec()));
        }
    }
    let file = PathBuf::from(env!("CARGO_TARGET_TMPDIR")).join("pairs-compared.txt");
    let lines =
        pairs.iter().flat_map(|(line1, line2)| [line1.as_slice(), b"\n", line2.as_slice(), b"\n"].concat());
    std::fs::write(&file, lines.collect::<Vec<u8>>()).unwrap();
    let answers =
        String::from_utf8(python(&["tests/tle_pairs.py", "--read", file.to_str().unwrap()])).unwrap();
    assert_eq!(answers.lines().count(), pairs.len());
    for ((line1, line2), want) in pairs.iter().zip(answers.lines()) {
        let shown = (String::from_utf8_lossy(line1), String::from_utf8_lossy(line2));
        assert_eq!(answer(line1, line2), want, "{shown:?}");
    }
}

#[test]
fn instants() {
    let text = String::from_utf8(python(&["tests/instant_cases.py"])).unwrap();
    let mut count = 0;
    for line in text.lines() {
        let words: Vec<&str> = line.split(' ').collect();
        let n: Vec<i64> = words[1..].iter().map(|w| u64::from_str_radix(w, 16).unwrap() as i64).collect();
        let bits = |x: f64| x.to_bits() as i64;
        let inside = |instant: i64| (0..instant::END).contains(&instant);
        // A number at an instant: refusal 6, with no number, outside the calendar.
        let at = |number: fn(i64) -> f64| if inside(n[0]) { vec![0, bits(number(n[0]))] } else { vec![6, 0] };
        let results: Vec<i64> = match words[0] {
            "epoch" => match instant::from_epoch(n[0], n[1]) {
                Some(instant) => vec![1, instant],
                None => vec![0, 0],
            },
            "split" if !inside(n[0]) => vec![0, 0, 0],
            "split" => {
                let (year, day, micros) = instant::split(n[0]);
                vec![year, day, micros]
            }
            "move" => match instant::moved(n[0], n[1]) {
                Ok(instant) => vec![0, instant],
                Err(refusal) => vec![refusal as i64, 0],
            },
            "twice" => match instant::moved(n[0], n[1]).and_then(|middle| instant::moved(middle, n[2])) {
                Ok(instant) => vec![instant],
                Err(refusal) => vec![-(refusal as i64)],
            },
            "back" => match instant::moved(n[0], n[1]).and_then(|there| instant::moved(there, -n[1])) {
                Ok(instant) => vec![0, instant],
                Err(refusal) => vec![refusal as i64, 0],
            },
            "minutes" => vec![bits(instant::minutes(n[0]))],
            "since" if inside(n[0]) && inside(n[1]) => vec![0, n[0] - n[1]],
            "since" => vec![6, 0],
            "days" => at(instant::epoch_days),
            "jd" => at(|t| instant::epoch_days(t) + 2433281.5),
            "gst" => at(|t| instant::gstime(instant::epoch_days(t) + 2433281.5)),
            other => panic!("no operation {other}"),
        };
        assert_eq!(results, n[n.len() - results.len()..], "{line}");
        count += 1;
    }
    assert!(count >= 600, "{count}");
}

#[test]
fn large_angles() {
    let text = String::from_utf8(python(&["tests/large_angles.py"])).unwrap();
    for line in text.lines() {
        let words: Vec<&str> = line.split(' ').collect();
        let number = |word: &str| f64::from_bits(u64::from_str_radix(word, 16).unwrap());
        let (sine, cosine) = Document::sin_cos(number(words[1]));
        let result = if words[0] == "sin" { sine } else { cosine };
        assert_eq!(result.to_bits(), number(words[2]).to_bits(), "{line}");
    }
}

#[test]
fn cube_roots() {
    let text = String::from_utf8(python(&["tests/cube_roots.py"])).unwrap();
    let mut count = 0;
    for line in text.lines() {
        let words: Vec<&str> = line.split(' ').collect();
        let number = |word: &str| match word {
            "nan" => f64::NAN,
            pattern => f64::from_bits(u64::from_str_radix(pattern, 16).unwrap()),
        };
        let (result, expected) = (cube_root(number(words[1])), number(words[2]));
        assert!(result.to_bits() == expected.to_bits() || result.is_nan() && expected.is_nan(), "{line}");
        count += 1;
    }
    assert!(count > 5000, "{count}");
}

/// What the program station_windows prints for a pair and four lawful lines, by the port.
fn windows_printed(lines: &[&str]) -> String {
    let numbers =
        |line: &str| -> Vec<u128> { line.split(' ').map(|word| word.parse().unwrap_or(u128::MAX)).collect() };
    let opened = tle::read(lines[0].as_bytes(), lines[1].as_bytes())
        .map_err(|refusal| refusal.number())
        .and_then(|record| Satellite::<Document>::open(&record));
    let mut satellite = match opened {
        Ok(satellite) => satellite,
        Err(number) => return format!("refused {number}\n"),
    };
    let date = numbers(lines[3]);
    let day = instant::from_epoch(date[0] as i64, date[1] as i64 * 100_000_000).expect("a day");
    let most = |line: &str| numbers(line)[0].min(u64::MAX as u128) as u64;
    let watch = Watch {
        station: lines[2].split(' ').map(|word| word.parse().expect("a decimal")).collect(),
        start: day as u64 + date[2] as u64,
        step: most(lines[4]),
        samples: most(lines[5]) as usize,
    };
    let (mut firsts, mut lasts) = ([0; 512], [0; 512]);
    let (count, strides) = match satellite.windows(&watch, &mut firsts, &mut lasts) {
        Ok(answer) => answer,
        Err(number) => return format!("refused {number}\n"),
    };
    let mut text = String::new();
    for (&first, &last) in firsts.iter().zip(&lasts).take(count) {
        let (year, day, part) = instant::split(first as i64);
        let (last_year, last_day, last_part) = instant::split(last as i64);
        let samples = (last - first) / (watch.step * 1_000_000) + 1;
        text += &format!("window {year} {day} {part} {last_year} {last_day} {last_part} {samples}\n");
    }
    text + &format!("strides {strides}\n")
}

/// Every case of the windows' maker with lines that are not bad. Its model is its own, and no sample of
/// it lies close to a horizon.
#[test]
fn windows_above_stations() {
    let folder = PathBuf::from(env!("CARGO_TARGET_TMPDIR")).join("station-windows");
    let _ = std::fs::remove_dir_all(&folder);
    python(&["tests/station_windows.py", "--cases", folder.to_str().unwrap()]);
    let (mut count, mut bad) = (0, 0);
    for entry in std::fs::read_dir(&folder).unwrap() {
        let input = entry.unwrap().path();
        if input.extension().is_none_or(|extension| extension != "in") {
            continue;
        }
        let text = |extension| std::fs::read(input.with_extension(extension)).unwrap();
        if !text("err").is_empty() {
            assert!(text("out").is_empty());
            bad += 1;
            continue;
        }
        let given = String::from_utf8(text("in")).unwrap();
        let lines: Vec<&str> = given.split('\n').collect();
        assert_eq!(windows_printed(&lines), String::from_utf8(text("out")).unwrap(), "{input:?}");
        count += 1;
    }
    println!("{count} cases, {bad} with bad lines");
    assert!(count > 90 && bad > 90, "{count} {bad}");
}
