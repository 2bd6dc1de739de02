//! Runs generated calls through the monitor and prints what they reach. Fails if something was
//! never reached or an answer cannot be right.
//!
//! `generate_check [number of calls] [seed]`

use reference::coverage::Coverage;
use reference::generate::calls;
use std::process::ExitCode;

fn main() -> ExitCode {
    let mut arguments = std::env::args().skip(1).map(|argument| argument.parse::<u64>().expect("a number"));
    let count = arguments.next().unwrap_or(100_000);
    let seed = arguments.next().unwrap_or(1);
    let mut coverage = Coverage::new();
    for call in calls(seed).take(count as usize) {
        coverage.observe(&call, &call.answer());
    }
    print!("{coverage}");
    for missing in coverage.missing() {
        println!("never reached: {missing}");
    }
    for fault in &coverage.faults {
        println!("fault: {fault}");
    }
    if coverage.missing().is_empty() && coverage.faults.is_empty() {
        println!("{count} calls of seed {seed}: all reached, no fault");
        ExitCode::SUCCESS
    } else {
        ExitCode::FAILURE
    }
}
