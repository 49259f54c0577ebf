//! The stored inputs and expected outputs of the programs under crates/ and in
//! tests/cases/ are what the independent scripts and this port make of them today.

use port::request::{Row, Satellite};
use port::tle::{self, Refusal};
use std::fs;
use std::path::PathBuf;
use std::process::Command;

fn root() -> PathBuf {
    PathBuf::from(env!("CARGO_MANIFEST_DIR")).join("..")
}

fn stored(path: &str) -> Vec<u8> {
    fs::read(root().join(path)).unwrap()
}

fn output(command: &mut Command) -> Vec<u8> {
    let output = command.output().unwrap();
    assert!(output.status.success());
    output.stdout
}

/// The published vectors, then those of two scripts, to which python.rs holds the port.
#[test]
fn test_elementary() {
    let mut made = stored("bench/vectors/elementary.txt");
    for script in ["tests/large_angles.py", "tests/cube_roots.py"] {
        made.extend(output(Command::new("python3").arg(root().join(script))));
    }
    assert!(made == stored("crates/test_elementary/stdin"));
}

#[test]
fn test_instants() {
    let made = output(Command::new("python3").arg(root().join("tests/instant_cases.py")));
    assert!(made == stored("crates/test_instants/stdin"));
}

#[test]
fn test_checksum() {
    let made = output(Command::new("python3").arg(root().join("tests/checksum_weights.py")));
    assert!(made == stored("crates/test_checksum/stdout"));
}

/// A script that writes an input and what must be printed of it, held to two stored files.
fn held(script: &str, paths: [String; 2]) {
    let name = paths[0].replace('/', "-");
    let folder = std::env::temp_dir().join(format!("{name}-{}", std::process::id()));
    fs::create_dir_all(&folder).unwrap();
    let files = ["input", "output"].map(|name| folder.join(name));
    output(Command::new("python3").arg(root().join(script)).arg("--write").args(&files));
    for (file, path) in files.iter().zip(paths) {
        assert!(fs::read(file).unwrap() == stored(&path), "{path}");
    }
    fs::remove_dir_all(folder).unwrap();
}

/// The files of a program.
fn written(script: &str, program: &str) {
    held(script, ["stdin", "stdout"].map(|name| format!("{program}/{name}")));
}

/// The files of tests/cases/, which the tests of ../rust put to the library.
fn cases(script: &str, name: &str) {
    held(script, ["input", "output"].map(|file| format!("tests/cases/{name}/{file}")));
}

/// Inputs and outputs made from the published rows, which vectors.rs holds to the port.
fn made_from_rows(script: &str, paths: [&str; 2]) {
    let folder = std::env::temp_dir().join(format!("{script}-{}", std::process::id()));
    fs::create_dir_all(&folder).unwrap();
    output(Command::new("python3").arg("-B").arg(root().join("tests").join(script)).arg(&folder));
    for path in paths {
        assert!(fs::read(folder.join(path)).unwrap() == stored(path), "{path}");
    }
    fs::remove_dir_all(folder).unwrap();
}

#[test]
fn published_rows_and_replay() {
    made_from_rows("published_rows.py", ["crates/replay/stdin", "crates/replay/stdout"]);
}

#[test]
fn profile() {
    made_from_rows("profile_rows.py", ["tests/cases/profile/input", "tests/cases/profile/output"]);
}

/// What print_pair reads and prints is document 01's example, by the port.
#[test]
fn print_pair() {
    let input = stored("crates/print_pair/stdin");
    let lines: Vec<&[u8]> = input.split(|&byte| byte == b'\n').collect();
    assert_eq!(tle::print(lines[0], lines[1]).as_bytes(), stored("crates/print_pair/stdout"));
}

#[test]
fn reading() {
    cases("tests/tle_pairs.py", "reading");
}

#[test]
fn fields() {
    cases("tests/field_numbers.py", "fields");
}

#[test]
fn written_lines() {
    written("tests/written_lines.py", "crates/test_writing");
}

#[test]
fn roster() {
    cases("tests/roster_calls.py", "roster");
}

#[test]
fn texts_of_monday_report() {
    written("tests/report_texts.py", "crates/monday_report/cases");
}

#[test]
fn changes() {
    cases("tests/roster_changes.py", "changes");
}

#[test]
fn station_windows() {
    written("tests/station_windows.py", "crates/station_windows");
}

#[test]
fn ephemeris() {
    written("tests/ephemeris_cases.py", "crates/ephemeris");
}

/// The two files of what_changed and what it prints of them, by the maker and by the port.
#[test]
fn what_changed() {
    let folder = PathBuf::from(env!("CARGO_TARGET_TMPDIR"));
    let made = ["yesterday", "today", "listing"].map(|name| folder.join(format!("changes-{name}")));
    output(
        Command::new("python3").current_dir(root()).args(["tests/roster_changes.py", "--files"]).args(&made),
    );
    let [first, second, text] = made.map(|path| std::fs::read(path).unwrap());
    assert!(first == stored("crates/what_changed/data/yesterday"));
    assert!(second == stored("crates/what_changed/data/today"));
    assert!(text == stored("crates/what_changed/stdout"));
    let mut room = vec![0; text.len()];
    let (row1, row2) = (port::library::filled(&first), port::library::filled(&second));
    assert_eq!(port::changes::changes((&first, &row1), (&second, &row2), &mut room), Ok(text.len()));
    assert!(room == text);
}

#[test]
fn award() {
    cases("tests/award_plans.py", "award");
}

#[test]
fn test_orders() {
    written("tests/time_orders.py", "crates/test_orders");
}

/// The plan of check_award, as its text.
#[test]
fn check_award() {
    let folder = PathBuf::from(env!("CARGO_TARGET_TMPDIR"));
    let made = ["stdin", "stdout"].map(|name| folder.join(format!("award-{name}")));
    output(Command::new("python3").current_dir(root()).args(["tests/award_plans.py", "--text"]).args(&made));
    for (path, name) in made.iter().zip(["stdin", "stdout"]) {
        assert!(fs::read(path).unwrap() == stored(&format!("crates/check_award/{name}")), "{name}");
    }
}

/// The two files that a script makes of a program, held to those that are stored.
fn program(script: &str, names: [&str; 2]) {
    let folder = PathBuf::from(env!("CARGO_TARGET_TMPDIR"));
    let made = names.map(|name| folder.join(name.replace('/', "-")));
    output(Command::new("python3").current_dir(root()).args([script, "--program"]).args(&made));
    for (path, name) in made.iter().zip(names) {
        assert!(fs::read(path).unwrap() == stored(name), "{name}");
    }
}

#[test]
fn explain() {
    program("tests/explain_cases.py", ["crates/explain/stdin", "crates/explain/stdout"]);
}

#[test]
fn keep_roster() {
    program("tests/keep_roster.py", ["crates/keep_roster/data/roster", "crates/keep_roster/stdout"]);
}

#[test]
fn cases_of_print_pair() {
    written("tests/print_cases.py", "crates/print_pair/cases");
}

#[test]
fn opening() {
    let set = stored("bench/vectors/SGP4-VER.TLE");
    let mut input = Vec::new();
    for line in set.split(|&byte| byte == b'\n') {
        if line.starts_with(b"1 ") || line.starts_with(b"2 ") {
            input.extend_from_slice(&line[..69]);
            input.push(b'\n');
        }
    }
    assert!(input == stored("tests/cases/opening/input"));
    let made = output(&mut Command::new(env!("CARGO_BIN_EXE_open_numbers")));
    assert!(made == stored("tests/cases/opening/output"));
}

/// The published positions: what ../rust/tests/stored/positions.rs prints, by the port.
#[derive(Default)]
struct Verification {
    first: String,
    satellite: Option<Satellite>,
    begun: bool,
    compared: u64,
    refused: u64,
    off: u64,
    largest: f64,
    printed: String,
}

fn micrometres(km: f64) -> u64 {
    (km * 1e9) as u64
}

impl Verification {
    fn print(&mut self, line: &str) {
        self.printed += line;
        self.printed += "\n";
    }

    fn end_satellite(&mut self) {
        if self.begun {
            let lines = format!(
                "rows compared {}\nrows refused {}\npositions off {}\nlargest difference in micrometres {}",
                self.compared,
                self.refused,
                self.off,
                micrometres(self.largest)
            );
            self.print(&lines);
        }
        let printed = std::mem::take(&mut self.printed);
        *self = Verification { printed, ..Verification::default() };
    }

    fn open(&mut self, second: &str) {
        self.print(&format!("satellite {}", &self.first[2..7]));
        self.begun = true;
        match tle::read(self.first.as_bytes(), second.as_bytes()) {
            Ok(record) => match Satellite::open(&record) {
                Ok(satellite) => self.satellite = Some(satellite),
                Err(number) => self.print(&format!("refused {number}")),
            },
            Err(Refusal::Layout { line, column }) => self.print(&format!("refused 3 {line} {column}")),
            Err(Refusal::Checksum { line }) => self.print(&format!("refused 4 {line}")),
            Err(other) => panic!("{other:?}"),
        }
    }

    fn compare(&mut self, time: i64, row: Row, published: &[i64]) {
        if row.refusal != 0 {
            self.refused += 1;
            return self.print(&format!("at {time} refused {}", row.refusal));
        }
        let part = |k: usize| row.r[k] - published[k] as f64 / 1e8;
        let (x, y, z) = (part(0), part(1), part(2));
        let km = (x * x + y * y + z * z).sqrt();
        self.compared += 1;
        self.largest = self.largest.max(km);
        if km > 0.001 {
            self.off += 1;
            self.print(&format!("at {time} off by micrometres {}", micrometres(km)));
        }
    }

    fn time(&mut self, line: &str) {
        let numbers: Vec<i64> = line.split(' ').skip(1).map(|word| word.parse().unwrap()).collect();
        let listed = line.starts_with("list ");
        let Some(satellite) = &mut self.satellite else {
            self.refused += u64::from(listed);
            return;
        };
        let row = satellite.request(numbers[0]).0;
        if listed {
            self.compare(numbers[0], row, &numbers[1..]);
        } else {
            self.print(&format!("published stop at {} refused {}", numbers[0], row.refusal));
        }
    }

    fn line(&mut self, line: &str) {
        match line.as_bytes()[0] {
            b'1' => {
                self.end_satellite();
                self.first = line.to_string();
            }
            b'2' => self.open(line),
            b'#' => {
                self.end_satellite();
                self.print(line);
            }
            _ => self.time(line),
        }
    }
}

#[test]
fn positions() {
    let made = output(Command::new("python3").arg("tests/verification.py").current_dir(root()));
    assert!(made == stored("tests/cases/positions/input"));
    let mut run = Verification::default();
    for line in String::from_utf8(made).unwrap().lines() {
        run.line(line);
    }
    run.end_satellite();
    assert_eq!(run.printed, String::from_utf8(stored("tests/cases/positions/output")).unwrap());
}
