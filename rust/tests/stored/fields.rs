//! Form and meaning apart, by tests/field_numbers.py. Printed is of each pair why its form is refused, or its fields
//! as whole numbers; then what these mean, as they are, cut short, and with each number in turn replaced by each
//! of VALUES.

use crate::cases::{refused, told, Stored};
use saddlekerf::{form, meaning, Fields};

/// Ends of the fields and of their ranges, bytes, and numbers that no field holds.
#[rustfmt::skip]
const VALUES: [i64; 56] = [
    i64::MIN + 1, -100000000, -99999999, -100000, -99999, -10, -9, -1, 0, 1, 9, 10,
    32, 48, 64, 65, 67, 83, 84, 85, 90, 91, 97, 321,
    1956, 1957, 2001, 2056, 2057, 9999, 10000, 99999, 100000, 339999, 340000,
    1800000, 1800001, 3599999, 3600000, 9999999, 10000000, 99999999, 100000000,
    36500000000, 36599999999, 36600000000, 36699999999, 36700000000,
    99999999999, 100000000000, 9999999999, 10000000000, 1 << 32, (1 << 32) + 5, i64::MAX - 1, i64::MAX,
];

fn judged([line1, line2]: [&[u8]; 2]) -> String {
    let mut numbers = [0; Fields::NUMBERS];
    if let Err(refusal) = form(line1, line2, &mut numbers) {
        return refused(refusal);
    }
    let mut printed = numbers.map(|number| number.to_string()).join(" ") + "\n";
    printed += &told(meaning(&numbers));
    printed += &told(meaning(&numbers[..Fields::NUMBERS - 1]));
    for at in 0..Fields::NUMBERS {
        for value in VALUES {
            let mut other = numbers;
            other[at] = value;
            printed += &told(meaning(&other));
        }
    }
    printed
}

#[test]
fn form_and_meaning() {
    let stored = Stored::cases("fields");
    stored.hold(stored.pairs().map(judged));
}
