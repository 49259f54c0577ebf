//! Prints vectors/published-rows.txt anew: its remarks, pairs and times, with the port's rows.

use port::published::{opened, row_text};

fn main() {
    let text = include_str!("../../vectors/published-rows.txt");
    let mut lines = text.lines().peekable();
    while let Some(line) = lines.next() {
        println!("{line}");
        if line != "pair" {
            continue;
        }
        let (line1, line2) = (lines.next().unwrap(), lines.next().unwrap());
        println!("{line1}\n{line2}");
        let mut satellite = opened(line1, line2);
        while let Some(row) = lines.next_if(|line| *line != "pair") {
            match &mut satellite {
                Ok(satellite) => {
                    let micros = row.split(' ').next().and_then(|word| word.parse().ok()).expect("a time");
                    let (row, strides) = satellite.request(micros);
                    println!("{}", row_text(micros, &row, strides));
                }
                Err(refusal) => println!("{refusal}"),
            }
        }
    }
}
