//! Holds the proved library against the port, bit for bit: the long run.
//!
//!   compare [--seed N] [--whole N] [--damaged N] [--handed N] [--records N] [--rosters N]
//!           [--reports N] [--changes N] [--windows N] [--awards N] [--orders N] [--passes N]
//!           [--first N]
//!
//! `--whole` and `--damaged` say how many pairs of each kind (20000 each),
//! `--handed` how many pairs have saved positions handed in (5000), `--records`
//! how many records are written (20000), `--rosters` how many rosters take some
//! twenty calls each (2000), `--changes` how many two rosters are compared (2000),
//! `--windows` how many pairs are asked for windows, some ten calls each (10000),
//! `--awards` how many award plans are checked and as many instants moved (100000),
//! `--orders` how many lists are put in order, one in sixteen asked as well (50000),
//! `--passes` how many pairs are asked for passes and looks, some ten calls each (20000);
//! `--first` the number of the first case, to run one again. Prints the seed, how often each branch and refusal was met,
//! and the first difference.

use port::award;
use port::compare::{
    changes_case, damaged_case, handed_case, record_case, report_case, roster_case, whole_case, windows_case,
    Difference, Tally,
};
use port::elementary::Document;
use port::library::{Library, Port};
use port::moves;
use port::orders;
use port::passes;
use port::proved::Proved;
use std::process::ExitCode;

fn option(name: &str, default: u64) -> u64 {
    let arguments: Vec<String> = std::env::args().collect();
    match arguments.iter().position(|argument| argument == name) {
        Some(place) => arguments
            .get(place + 1)
            .and_then(|text| text.parse().ok())
            .unwrap_or_else(|| panic!("{name} NUMBER")),
        None => default,
    }
}

fn run() -> Result<Tally, Difference> {
    let seed = option("--seed", 1957);
    let (whole, damaged) = (option("--whole", 20_000), option("--damaged", 20_000));
    let (handed, records) = (option("--handed", 5_000), option("--records", 20_000));
    let (rosters, reports) = (option("--rosters", 2_000), option("--reports", 4_000));
    let (changes, windows) = (option("--changes", 2_000), option("--windows", 10_000));
    let first = option("--first", 0);
    let port: Port<Document> = Port::new();
    println!("{} against {}", port.name(), Proved.name());
    println!(
        "seed {seed}, {whole} whole pairs, {damaged} damaged pairs, {handed} pairs with positions handed in, \
         {records} records, {rosters} rosters, {reports} reports, {changes} times two rosters, \
         {windows} pairs asked for windows, from case {first}"
    );
    let mut tally = Tally::default();
    for index in first..first + whole {
        whole_case(seed, index, (&port, &Proved), &mut tally)?;
    }
    for index in first..first + damaged {
        damaged_case(seed, index, (&port, &Proved), &mut tally)?;
    }
    for index in first..first + handed {
        handed_case(seed, index, (&port, &Proved), &mut tally)?;
    }
    for index in first..first + records {
        record_case(seed, index, (&port, &Proved), &mut tally)?;
    }
    for index in first..first + rosters {
        roster_case(seed, index, (&port, &Proved), &mut tally)?;
    }
    for index in first..first + reports {
        report_case(seed, index, (&port, &Proved), &mut tally)?;
    }
    for index in first..first + changes {
        changes_case(seed, index, (&port, &Proved), &mut tally)?;
    }
    for index in first..first + windows {
        windows_case(seed, index, (&port, &Proved), &mut tally)?;
    }
    let awards = option("--awards", 100_000);
    println!("and {awards} award plans, as many instants moved");
    for index in first..first + awards {
        award::case(seed, index, (award::check, award::proved), &mut tally).map_err(|what| Difference {
            case: String::new(),
            line1: String::new(),
            line2: String::new(),
            what,
        })?;
    }
    for index in first..first + awards {
        moves::case(seed, index, (moves::moved, moves::proved), &mut tally).map_err(|what| Difference {
            case: String::new(),
            line1: String::new(),
            line2: String::new(),
            what,
        })?;
    }
    let lists = option("--orders", 50_000);
    println!("and {lists} lists put in order");
    for index in first..first + lists {
        orders::case(seed, index, (orders::best_order, orders::proved), &mut tally).map_err(|what| {
            Difference { case: String::new(), line1: String::new(), line2: String::new(), what }
        })?;
    }
    let skies = option("--passes", 20_000);
    println!("and {skies} pairs asked for passes");
    for index in first..first + skies {
        passes::case(seed, index, (&passes::Port, &passes::Proved), &mut tally).map_err(|what| {
            Difference { case: String::new(), line1: String::new(), line2: String::new(), what }
        })?;
    }
    Ok(tally)
}

fn main() -> ExitCode {
    match run() {
        Ok(tally) => {
            print!("{tally}");
            println!("no difference");
            ExitCode::SUCCESS
        }
        Err(difference) => {
            println!("DIFFERENCE\n{difference}");
            ExitCode::FAILURE
        }
    }
}
