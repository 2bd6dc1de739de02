//! Many threads at once: each its own table, all the same agreement; and previews of one table.

#[path = "common/sample.rs"]
mod sample;

use givuntha::{record, Breach, Table};
use sample::sample;
use std::thread;

const THREADS: u32 = 32;
const ROUNDS: u32 = 200;

/// One thread's run: it waits for as long as it is told, then fulfils, or breaches where that is too late. What it
/// answers is the table that is left, and the forecasts on the way.
fn run(agreement: &[u8], wait: u32) -> (Table, Vec<Option<Breach>>) {
    let (mut table, first) = Table::start(agreement).unwrap();
    let low = (100..100 + wait).map(|time| record::reading(time, 1, &[240]));
    let readings = low.chain([record::reading(100 + wait, 1, &[250])]);
    let taken = readings.map(|reading| table.reading(agreement, &reading).unwrap().ahead);
    let forecasts = std::iter::once(first).chain(taken).collect();
    (table, forecasts)
}

#[test]
fn threads_do_not_disturb_each_other() {
    let agreement = sample();
    let waits = || (0..THREADS).map(|n| 3 * n);
    let alone: Vec<_> = waits().map(|wait| run(&agreement, wait)).collect();
    thread::scope(|scope| {
        for (wait, expected) in waits().zip(&alone) {
            let agreement = &agreement;
            scope.spawn(move || (0..ROUNDS).for_each(|_| assert_eq!(&run(agreement, wait), expected)));
        }
    });
}

/// All only read the one table, each for a reading of its own.
#[test]
fn threads_preview_one_table() {
    let agreement = sample();
    let (table, _) = Table::start(&agreement).unwrap();
    let readings = || (0..THREADS).map(|n| record::reading(100 + 3 * n, 1, &[240 + n as i32]));
    let alone: Vec<_> = readings().map(|given| table.preview(&agreement, &given).unwrap()).collect();
    thread::scope(|scope| {
        for (given, expected) in readings().zip(&alone) {
            let (agreement, table) = (&agreement, &table);
            let preview = move || table.preview(agreement, &given).unwrap();
            scope.spawn(move || (0..ROUNDS).for_each(|_| assert_eq!(&preview(), expected)));
        }
    });
    assert_eq!(table, Table::start(&agreement).unwrap().0);
}
