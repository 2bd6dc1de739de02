//! Gives generated calls to the proved library and to the reference monitor, and compares answers, with all that a
//! start, a reading and a preview tell, and all cells, of a preview those of the second table; its first cannot be
//! written: `agree [CALLS [SEED [SECONDS]]]`. Some of the calls are for agreements with templates of kind 4, made here.
//! Prints what the calls reached; fails if the two ever differ, if something was never reached, or if fewer calls than
//! asked for were made in the time given. The smallest differing call is printed whole.

use comparison::counts::Counts;
use comparison::proved;
use comparison::sized::{self, Made};
use reference::coverage::Coverage;
use reference::generate::{self, Answer, Call, Entry};
use reference::Forecast;
use std::process::ExitCode;
use std::time::{Duration, Instant};

/// A call that the two answer differently.
struct Difference {
    call: Call,
    expected: Answer,
    given: Answer,
}

/// What the calls came to.
#[derive(Default)]
struct Compared {
    coverage: Coverage,
    counts: Counts,
    made: u64,
    differing: u64,
    smallest: Option<Difference>,
}

impl Compared {
    fn compare(&mut self, call: Call, of_sized: Option<Made>) {
        let (expected, given) = (call.answer(), proved::answer(&call));
        self.made += 1;
        self.coverage.observe(&call, &expected);
        if expected == given {
            self.counts.observe(&call, &given, of_sized.as_ref());
        } else {
            self.differing += 1;
            keep_smaller(&mut self.smallest, Difference { call, expected, given });
        }
    }
}

/// One of so many calls is one of [`sized`].
const SIZED_EVERY: u64 = 4;

fn main() -> ExitCode {
    let mut arguments = std::env::args().skip(1).map(|argument| argument.parse::<u64>().expect("a number"));
    let wanted = arguments.next().unwrap_or(200_000);
    let seed = arguments.next().unwrap_or(1);
    let limit = arguments.next().map(Duration::from_secs);
    let begun = Instant::now();
    let (mut any, mut sized) = (generate::calls(seed), sized::calls(seed));
    let mut compared = Compared::default();
    while compared.made < wanted && limit.is_none_or(|limit| begun.elapsed() <= limit) {
        if compared.made % SIZED_EVERY == 0 {
            let (call, made) = sized.next().expect("calls without end");
            compared.compare(call, Some(made));
        } else {
            compared.compare(any.next().expect("calls without end"), None);
        }
    }
    let Compared { coverage, counts, made, differing, smallest } = compared;
    print!("{coverage}{counts}");
    let seconds = begun.elapsed().as_secs_f64();
    println!("{made} calls of seed {seed} in {seconds:.1} s, {differing} answered differently");
    let right = [report(coverage.missing(), &coverage.faults), report(counts.missing(), &counts.faults)];
    if let Some(difference) = smallest {
        show(&difference);
        return ExitCode::FAILURE;
    }
    if right == [true; 2] && made == wanted {
        ExitCode::SUCCESS
    } else {
        ExitCode::FAILURE
    }
}

fn size(call: &Call) -> (usize, usize) {
    let cells = match &call.entry {
        Entry::Check => 0,
        Entry::Start { table } | Entry::Reading { table, .. } => set_cells(table),
        Entry::Preview { table, second, .. } => set_cells(table) + set_cells(second),
    };
    (call.agreement.len(), cells)
}

fn set_cells(table: &[i64]) -> usize {
    table.iter().filter(|cell| **cell != 0).count()
}

fn keep_smaller(smallest: &mut Option<Difference>, found: Difference) {
    if smallest.as_ref().is_none_or(|kept| size(&found.call) < size(&kept.call)) {
        *smallest = Some(found);
    }
}

/// Prints what was never reached and the first answer that cannot be right; true if there is neither.
fn report(missing: Vec<String>, faults: &[String]) -> bool {
    missing.iter().for_each(|name| println!("never reached: {name}"));
    if let Some(fault) = faults.first() {
        println!("{} answers cannot be right; the first: {fault}", faults.len());
    }
    missing.is_empty() && faults.is_empty()
}

fn show(difference: &Difference) {
    println!("smallest difference: agreement of {} bytes", difference.call.agreement.len());
    println!("agreement: {}", hex(&difference.call.agreement));
    match &difference.call.entry {
        Entry::Check => println!("entry: check"),
        Entry::Start { table } => println!("entry: start\ntable: {}", cells(table)),
        Entry::Reading { table, reading } => {
            println!("entry: reading {}\ntable: {}", hex(reading), cells(table));
        }
        Entry::Preview { table, reading, second } => {
            println!("entry: preview {}\ntable: {}\nsecond: {}", hex(reading), cells(table), cells(second));
        }
    }
    println!("reference: {}", words(&difference.expected));
    println!("proved library: {}", words(&difference.given));
}

fn words(answer: &Answer) -> String {
    match answer {
        Answer::Check(checked) => format!("{checked:?}"),
        Answer::Start { number, forecast, table } => {
            format!("{number}, forecast {forecast:?}, table afterwards: {}", cells(table))
        }
        Answer::Reading { number, early, cost, forecast, table } => {
            format!("{}, table afterwards: {}", told(*number, forecast, *early, *cost), cells(table))
        }
        Answer::Preview { number, early, cost, forecast, second } => {
            format!("{}, second afterwards: {}", told(*number, forecast, *early, *cost), cells(second))
        }
    }
}

fn told(number: u32, forecast: &Forecast, early: u32, cost: u64) -> String {
    format!("{number}, forecast {forecast:?}, early {early}, cost {cost}")
}

fn hex(bytes: &[u8]) -> String {
    bytes.iter().map(|byte| format!("{byte:02x}")).collect::<Vec<_>>().join(" ")
}

/// The length, and each cell that is not zero with its place.
fn cells(table: &[i64]) -> String {
    let set = table.iter().enumerate().filter(|(_, cell)| **cell != 0);
    let list = set.map(|(place, cell)| format!("{place}:{cell}")).collect::<Vec<_>>().join(" ");
    format!("{} cells, not zero: {list}", table.len())
}
