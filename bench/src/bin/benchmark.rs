//! Times the proved library and the port side by side in one run, and prints
//! their ratios as a table in Markdown.
//!
//!   benchmark [--rounds N]
//!
//! Every library takes its turn in every round, and its best round counts: what
//! else the machine does slows some rounds down, never one library alone. Only
//! the call itself is timed. Lines, times, satellites and rooms for rows are
//! made ready before, and the library's rows stay in the three rooms it fills.

use port::award;
use port::elementary::{DocumentProcessor, Libm};
use port::library::{Library, Port, Restarting, Timed};
use port::orders;
use port::passes::Timing;
use port::proved::Proved;
use port::published;
use port::report::PAIRS;
use port::request::LIST_LIMIT;
use port::roster::{spelt, PLACES};
use port::tle;
use port::windows::Watch;
use std::time::Instant;

const DAY: i64 = port::instant::DAY;

/// A satellite of the published set for each kind.
const SATELLITES: [(&str, &str); 4] =
    [("near Earth", "06251"), ("deep space", "28129"), ("one-day", "24208"), ("half-day", "08195")];

fn pair(catalogue: &str) -> published::Pair {
    let found = published::pairs().into_iter().find(|(line1, _)| &line1[2..7] == catalogue.as_bytes());
    found.expect("a published pair")
}

/// LIST_LIMIT times, evenly outward over so many days.
fn grid(days: i64) -> Vec<i64> {
    (0..LIST_LIMIT as i64).map(|i| i * (days * DAY / LIST_LIMIT as i64)).collect()
}

/// The minutes of the day after an epoch, above Greenwich: two calls of 720 samples.
fn day_of_windows(epoch: u64) -> [Watch; 2] {
    let half = DAY as u64 / 2;
    [epoch, epoch + half].map(|start| Watch {
        station: vec![3980.574, 0.0, 4966.855],
        start,
        step: 60,
        samples: 720,
    })
}

/// A roster of 64 pairs, of the example's record under other numbers, and the lines of the one in the
/// middle: lodged again, they replace it.
fn full_roster() -> (Vec<u8>, published::Pair) {
    let (line1, line2) = pair("06251");
    let example = tle::read(&line1, &line2).expect("a published pair");
    let record = |number| tle::Record { number, ..example };
    let roster = (0..PLACES as u32).flat_map(|place| spelt(&record(1000 * place))).collect();
    let line = |which| tle::written(&record(32_000), which).expect("a lawful record").to_vec();
    (roster, (line(1), line(2)))
}

/// As many pairs as a report takes: those of the published set, again and again.
fn full_text() -> Vec<u8> {
    let pairs = published::pairs();
    let lines = pairs.iter().cycle().take(PAIRS).flat_map(|(line1, line2)| [line1, line2]);
    lines.flat_map(|line| line.iter().chain(b"\n")).copied().collect()
}

/// The same roster a day later: half of its pairs with other elements, half with other numbers.
fn changed_roster() -> Vec<u8> {
    let (line1, line2) = pair("06251");
    let example = tle::read(&line1, &line2).expect("a published pair");
    let later = tle::Record {
        day: example.day + 1_0000_0000,
        node: example.node + 1,
        set: example.set + 1,
        ..example
    };
    let number = |place: u32| 1000 * place + place % 2;
    (0..PLACES as u32).flat_map(|place| spelt(&tle::Record { number: number(place), ..later })).collect()
}

/// The libraries timed; ratios are the first one's time over another's. The
/// port has the processor's square root throughout, and in its last form the
/// other functions as document 01 has them.
fn libraries() -> [Box<dyn Library>; 4] {
    [
        Box::new(Proved),
        Box::new(Port::<Libm>::new()),
        Box::new(Restarting::<Libm>::new()),
        Box::new(Port::<DocumentProcessor>::new()),
    ]
}

/// The best time of each, in nanoseconds per item; a run is so many items.
fn race(timed: &mut [Box<dyn Timed>], rounds: usize, runs: usize, items: usize) -> Vec<f64> {
    let mut best = vec![f64::INFINITY; timed.len()];
    for _ in 0..rounds {
        for (best, timed) in best.iter_mut().zip(&mut *timed) {
            timed.renew();
            let start = Instant::now();
            for _ in 0..runs {
                timed.run();
            }
            let nanoseconds = start.elapsed().as_nanos() as f64 / (runs * items) as f64;
            *best = best.min(nanoseconds);
        }
    }
    best
}

/// One line of the table: the library's time, how many that is a second, and
/// for each other library its time and the ratio.
fn show(label: &str, best: &[f64]) {
    let (proved, others) = (best[0], &best[1..]);
    print!("| {label} | {proved:.1} | {} |", grouped((1e9 / proved) as u64));
    for other in others {
        print!(" {other:.1} | {:.2} |", proved / other);
    }
    println!();
}

/// A whole number with a comma before each three digits.
fn grouped(number: u64) -> String {
    let digits = number.to_string();
    let mut text = String::new();
    for (place, digit) in digits.chars().enumerate() {
        if place > 0 && (digits.len() - place).is_multiple_of(3) {
            text.push(',');
        }
        text.push(digit);
    }
    text
}

fn heading(names: &[String]) {
    print!("| | {}: ns | a second |", names[0]);
    names[1..].iter().for_each(|name| print!(" {name}: ns | ratio |"));
    print!("\n|---|---:|---:|");
    names[1..].iter().for_each(|_| print!("---:|---:|"));
    println!();
}

/// A shuffled list of both sides over 100 days asked of a newly opened satellite, as it comes and in the
/// best order, and putting it in order by itself: nanoseconds per time, and the strides.
fn orders(rounds: usize) {
    println!("\n| 1,024 times in no order over 100 days | as they come: ns | strides | in the best order: ns | strides | ratio |");
    println!("|---|---:|---:|---:|---:|---:|");
    let times = orders::shuffled(100);
    for (kind, catalogue) in SATELLITES {
        let (line1, line2) = pair(catalogue);
        let strides = [false, true].map(|best| orders::Timing::of(&line1, &line2, &times, best).strides());
        let mut timed = [false, true]
            .map(|best| Box::new(orders::Timing::of(&line1, &line2, &times, best)) as Box<dyn Timed>);
        let best = race(&mut timed, rounds, 1, LIST_LIMIT);
        let strides = strides.map(|strides| grouped(strides as u64));
        let (came, ordered) = (best[0], best[1]);
        println!(
            "| {kind} | {came:.1} | {} | {ordered:.1} | {} | {:.3} |",
            strides[0],
            strides[1],
            ordered / came
        );
    }
    let mut timed = [Box::new(orders::Ordering { shuffled: times, times: Vec::new() }) as Box<dyn Timed>];
    let best = race(&mut timed, rounds, 1, LIST_LIMIT);
    println!("\nPutting them in order alone: {:.1} ns per time.", best[0]);
}

fn main() {
    let arguments: Vec<String> = std::env::args().collect();
    let rounds = match arguments.iter().position(|argument| argument == "--rounds") {
        Some(place) => arguments.get(place + 1).and_then(|text| text.parse().ok()).expect("--rounds NUMBER"),
        None => 40,
    };
    let libraries = libraries();
    println!(
        "Nanoseconds per row, sample of windows, opening, reading, lodging or pair of a report, the best of {rounds} rounds.\n\
         A ratio is the proved library's time over the other's: below 1 the library is the faster one.\n"
    );
    heading(&libraries.each_ref().map(|library| library.name()));
    for (days, title) in [(1, "a day's grid"), (100, "100 days outward")] {
        let times = grid(days);
        for (kind, catalogue) in SATELLITES {
            let (line1, line2) = pair(catalogue);
            let mut timed = libraries.each_ref().map(|library| library.lister(&line1, &line2, &times));
            show(&format!("{title}, {kind}"), &race(&mut timed, rounds, 1, LIST_LIMIT));
        }
    }
    for (kind, catalogue) in SATELLITES {
        let (line1, line2) = pair(catalogue);
        let epoch = tle::read(&line1, &line2).expect("a published pair").epoch() as u64;
        let watches = day_of_windows(epoch);
        let mut timed = libraries.each_ref().map(|library| library.watcher(&line1, &line2, &watches));
        show(&format!("windows over a day at 60 s, {kind}"), &race(&mut timed, rounds, 1, 1440));
    }
    const RUNS: usize = 400;
    for (kind, catalogue) in SATELLITES {
        let (line1, line2) = pair(catalogue);
        let mut timed = libraries.each_ref().map(|library| library.opener(&line1, &line2));
        show(&format!("opening from lines, {kind}"), &race(&mut timed, rounds, RUNS, 1));
    }
    let (line1, line2) = pair("06251");
    let mut timed = libraries.each_ref().map(|library| library.reader(&line1, &line2));
    show("reading a pair", &race(&mut timed, rounds, RUNS, 1));
    let (roster, (line1, line2)) = full_roster();
    let mut timed = libraries.each_ref().map(|library| library.lodger(&roster, &line1, &line2));
    show("lodging into a full roster", &race(&mut timed, rounds, RUNS / 20, 1));
    let text = full_text();
    let mut timed = libraries.each_ref().map(|library| library.reporter(&text));
    show("a pair of a report of 4,096", &race(&mut timed, rounds, 1, PAIRS));
    let mut timed = libraries.each_ref().map(|library| library.ager(&roster));
    show("64 pairs by age (port: read, no row)", &race(&mut timed, rounds, RUNS / 20, 1));
    let changed = changed_roster();
    let mut timed = libraries.each_ref().map(|library| library.comparer(&roster, &changed));
    show("comparing two full rosters", &race(&mut timed, rounds, RUNS / 20, 1));
    let plan = award::full_plan();
    let checkers = [award::proved, award::check, award::check, award::check];
    let mut timed =
        checkers.map(|check| Box::new(award::Timing { plan: plan.clone(), check }) as Box<dyn Timed>);
    show("checking an award plan of 256 offers, all named", &race(&mut timed, rounds, RUNS / 20, 1));
    for (kind, catalogue) in SATELLITES {
        let (line1, line2) = pair(catalogue);
        let mut timed = [
            Timing::proved(&line1, &line2),
            Timing::port::<Libm>(&line1, &line2),
            Timing::port::<Libm>(&line1, &line2),
            Timing::port::<DocumentProcessor>(&line1, &line2),
        ]
        .map(|timing| Box::new(timing) as Box<dyn Timed>);
        let best = race(&mut timed, rounds, 1, Timing::SAMPLES as usize);
        show(&format!("passes over a day at 60 s, {kind}"), &best);
    }
    orders(rounds);
}
