//! Readings built to cost or to last as much as can be, given to the proved library: the agreement's bytes, the units
//! in use, the number and what the reading costs, as both monitors have it, and the time of one call.

use comparison::cases::{self, Case};
use comparison::proved;
use reference::entries;
use std::time::Instant;

fn main() {
    println!("{:28} {:>6} {:>6} {:>7} {:>9} {:>12}", "reading", "bytes", "units", "number", "cost", "milliseconds");
    cases::heaviest().iter().for_each(measure);
}

fn measure(case: &Case) {
    let mut table = case.table.clone();
    let begun = Instant::now();
    let answer = proved::reading(&case.agreement, &mut table, &case.reading);
    let time = begun.elapsed().as_secs_f64() * 1e3;
    let other = entries::reading(&case.agreement, &mut case.table.clone(), &case.reading);
    assert_eq!(answer, other, "{}: the reference monitor", case.name);
    let (bytes, units) = (case.agreement.len(), case.units());
    println!("{:28} {bytes:6} {units:6} {:7} {:9} {time:12.1}", case.name, answer.number, answer.cost);
}
