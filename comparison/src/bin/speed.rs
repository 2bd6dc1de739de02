//! Times the proved library and the reference monitor, side by side in one run: `speed [MILLISECONDS]` for each
//! measurement. A figure is the median of many calls, in nanoseconds; the two monitors take turns call by call. A
//! preview is that of the same reading, into a copy of the table.

use comparison::cases::{self, Case};
use comparison::proved;
use reference::entries;
use std::hint::black_box;
use std::time::{Duration, Instant};

fn main() {
    let argument = std::env::args().nth(1).map(|argument| argument.parse().expect("milliseconds"));
    let time = Duration::from_millis(argument.unwrap_or(300));
    println!("{:34} {:9} {:>12} {:>12} {:>7}", "case", "entry", "proved ns", "reference ns", "ratio");
    let mut worst: f64 = 0.0;
    for case in cases::all() {
        worst = worst.max(measure(&case, time));
    }
    println!("the largest ratio is {worst:.2}");
    println!("\ngrowth of the proved library");
    for (title, cases) in growth() {
        println!("{title}");
        cases.iter().for_each(|case| grown(case, time));
    }
}

fn growth() -> Vec<(&'static str, Vec<Case>)> {
    let mark = || reference::build::reading(110, 0, &[]);
    vec![
        ("bytes of clauses", [4, 8, 16, 32].map(cases::small_clauses).into()),
        ("bytes of sized clauses", [4, 8, 16, 32].map(cases::sized_clauses).into()),
        ("bytes of expressions", [96, 192, 384, 768].map(cases::expressions).into()),
        ("units", [3, 4, 5, 6].map(|n| cases::doubled(n, "waits", mark())).into()),
        ("activations", [(31, 64), (63, 64), (127, 64), (128, 128)].map(|(n, m)| cases::activations(n, m)).into()),
    ]
}

/// The entries by name, each with the two monitors' ways to take a case; of a preview the cells are the second table's.
type Taker = fn(&Case, &mut [i64]) -> u32;

const ENTRIES: [(&str, Taker, Taker); 4] = [
    ("check", |case, _| proved::check(&case.agreement).number, |case, _| entries::check(&case.agreement).number),
    (
        "start",
        |case, table| proved::start(&case.agreement, table).number,
        |case, table| entries::start(&case.agreement, table).number,
    ),
    (
        "reading",
        |case, table| proved::reading(&case.agreement, table, &case.reading).number,
        |case, table| entries::reading(&case.agreement, table, &case.reading).number,
    ),
    (
        "preview",
        |case, second| proved::preview(&case.agreement, &case.table, &case.reading, second).number,
        |case, second| entries::preview(&case.agreement, &case.table, &case.reading, second).number,
    ),
];

/// Prints a case's line for each entry, and answers its largest ratio.
fn measure(case: &Case, time: Duration) -> f64 {
    let mut worst: f64 = 0.0;
    for (entry, mine, other) in ENTRIES {
        let (proved, reference) = medians(case, mine, other, time);
        let ratio = proved / reference;
        println!("{:34} {entry:9} {proved:12.0} {reference:12.0} {ratio:7.2}", case.name);
        worst = worst.max(ratio);
    }
    worst
}

fn grown(case: &Case, time: Duration) {
    let figures = ENTRIES.map(|(entry, mine, _)| format!("{entry} {:.0}", medians(case, mine, mine, time).0));
    println!("  {:34} {:3} units: {}", case.name, case.units(), figures.join(", "));
}

/// The median time of a call of each, each call on the case's own table.
fn medians(case: &Case, mine: Taker, other: Taker, time: Duration) -> (f64, f64) {
    let mut table = case.table.clone();
    let (mut first, mut second) = (Vec::new(), Vec::new());
    let begun = Instant::now();
    while begun.elapsed() < time || first.len() < 5 {
        first.push(once(case, mine, &mut table));
        second.push(once(case, other, &mut table));
    }
    (median(first), median(second))
}

fn once(case: &Case, taker: Taker, table: &mut [i64]) -> Duration {
    table.copy_from_slice(&case.table);
    let begun = Instant::now();
    black_box(taker(black_box(case), black_box(table)));
    begun.elapsed()
}

fn median(mut times: Vec<Duration>) -> f64 {
    times.sort();
    times[times.len() / 2].as_secs_f64() * 1e9
}
