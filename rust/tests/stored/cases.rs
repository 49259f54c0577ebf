//! What the drivers share: the stored files, what was printed held to them, and parts of lines.

use saddlekerf::Refusal;
use std::fmt::Debug;
use std::fs;
use std::iter::from_fn;
use std::path::Path;
use std::str::FromStr;

/// An input, and what has to be printed of it.
pub struct Stored {
    input: Vec<u8>,
    output: Vec<u8>,
    /// Where the output lies.
    place: String,
}

impl Stored {
    /// The files of a folder of tests/cases/.
    pub fn cases(name: &str) -> Stored {
        Stored::files(&format!("tests/cases/{name}"), "input", "output")
    }

    /// The files of a program, which the gate runs on them, too.
    pub fn program(name: &str) -> Stored {
        Stored::files(&format!("crates/{name}"), "stdin", "stdout")
    }

    fn files(folder: &str, input: &str, output: &str) -> Stored {
        let root = Path::new(env!("CARGO_MANIFEST_DIR")).parent().unwrap();
        let [input, output] = [input, output].map(|name| format!("{folder}/{name}"));
        let bytes = |path| fs::read(root.join(path)).unwrap_or_else(|error| panic!("{path}: {error}"));
        Stored { input: bytes(&input), output: bytes(&output), place: output }
    }

    /// The lines of the input two by two. Any byte but a newline may stand in them.
    pub fn pairs(&self) -> impl Iterator<Item = [&[u8]; 2]> {
        let whole = self.input.strip_suffix(b"\n").expect("a last newline");
        let mut lines = whole.split(|&byte| byte == b'\n');
        from_fn(move || Some([lines.next()?, lines.next().expect("a second line")]))
    }

    /// The lines of an input that is text.
    pub fn lines(&self) -> impl Iterator<Item = &str> {
        std::str::from_utf8(&self.input).expect("text").lines()
    }

    /// Holds what was printed to the output.
    pub fn hold(&self, printed: impl IntoIterator<Item = String>) {
        let printed: String = printed.into_iter().collect();
        if let Some((number, due, came)) = first_difference(&self.output, printed.as_bytes()) {
            panic!("{}, line {number}: {due} is due, and {came} was printed", self.place);
        }
    }
}

/// The number of the first line that differs, what it has to be and what it is.
fn first_difference(due: &[u8], came: &[u8]) -> Option<(usize, String, String)> {
    let shown = |line: &[u8]| format!("`{}`", line.escape_ascii());
    let mut lines = [due, came].map(|text| text.split_inclusive(|&byte| byte == b'\n'));
    for number in 1.. {
        let [due, came] = lines.each_mut().map(Iterator::next);
        if due != came {
            let [due, came] = [due, came].map(|line| line.map_or("nothing".into(), shown));
            return Some((number, due, came));
        }
        due?;
    }
    None
}

/// `ok`, or the refusal, as a line.
pub fn told(answer: Result<(), Refusal>) -> String {
    answer.map_or_else(refused, |()| "ok\n".into())
}

/// A refusal with what comes back with it, as a line.
pub fn refused(refusal: Refusal) -> String {
    let number = refusal.number();
    match refusal {
        Refusal::Length { line } | Refusal::Start { line } | Refusal::Checksum { line } => {
            format!("refused {number} {}\n", line as u8)
        }
        Refusal::Column { line, column } => format!("refused {number} {} {column}\n", line as u8),
        // a field's word is its name
        Refusal::Range { field } => format!("refused {number} {field:?}\n").to_lowercase(),
        _ => format!("refused {number}\n"),
    }
}

/// The bits of f64s, a blank before each.
pub fn patterns(numbers: impl IntoIterator<Item = f64>) -> String {
    numbers.into_iter().map(|number| format!(" {:016x}", number.to_bits())).collect()
}

/// The whole numbers of a text, blanks between them.
pub fn numbers<T: FromStr<Err: Debug>>(text: &str) -> Vec<T> {
    text.split_whitespace().map(|word| number(word.as_bytes())).collect()
}

/// The whole number that digits spell.
pub fn number<T: FromStr<Err: Debug>>(digits: &[u8]) -> T {
    let digits = std::str::from_utf8(digits).expect("digits");
    digits.parse().expect(digits)
}

#[test]
fn the_first_difference_is_told() {
    let line = |number, due: &str, came: &str| Some((number, due.to_string(), came.to_string()));
    assert_eq!(first_difference(b"ok\nok\n", b"ok\nok\n"), None);
    assert_eq!(first_difference(b"ok\nok\nok\n", b"ok\non\nno\n"), line(2, r"`ok\n`", r"`on\n`"));
    assert_eq!(first_difference(b"ok\n", b"ok"), line(1, r"`ok\n`", "`ok`"));
    assert_eq!(first_difference(b"ok\n", b"ok\nok\n"), line(2, "nothing", r"`ok\n`"));
    assert_eq!(first_difference(b"ok\n", b""), line(1, r"`ok\n`", "nothing"));
}
