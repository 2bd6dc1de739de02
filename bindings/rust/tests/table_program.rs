//! The program `table`.

#[path = "common/sample.rs"]
mod sample;

use givuntha::{record, Table, Times, CELLS};
use sample::sample;
use std::io::Write;
use std::process::{Command, Output, Stdio};

fn table(input: &[u8]) -> Output {
    let mut program = Command::new(env!("CARGO_BIN_EXE_table"))
        .stdin(Stdio::piped())
        .stdout(Stdio::piped())
        .stderr(Stdio::piped())
        .spawn()
        .expect("the program");
    // A program that ends early closes its input; that is no failure of the trial.
    let _ = program.stdin.take().expect("its input").write_all(input);
    program.wait_with_output().expect("its output")
}

fn cells(output: &Output) -> Vec<i64> {
    assert!(output.status.success());
    assert_eq!(output.stdout.len(), 8 * CELLS);
    output.stdout.chunks(8).map(|cell| i64::from_le_bytes(cell.try_into().unwrap())).collect()
}

/// The sample and a low reading: the stream, and the table that it ends with.
fn sample_and_low() -> (Vec<u8>, Table) {
    let low = record::reading(110, 1, &[240]);
    let (mut table, _) = Table::start(&sample()).unwrap();
    table.reading(&sample(), &low).unwrap();
    ([sample(), low].concat(), table)
}

#[test]
fn it_writes_the_table_that_the_stream_ends_with() {
    let (input, expected) = sample_and_low();
    let output = table(&input);
    assert_eq!(cells(&output), expected.cells());
    assert!(output.stderr.is_empty());
}

/// The low reading is the last one, and nothing moved by it.
#[test]
fn when_the_run_last_moved_is_written() {
    let (input, _) = sample_and_low();
    let times = |input: &[u8]| Times::of(&cells(&table(input)));
    assert_eq!(times(&sample()), Some(Times { last_reading: 100, last_moved: 100 }));
    assert_eq!(times(&input), Some(Times { last_reading: 110, last_moved: 100 }));
    let breached = [input, record::mark(161), record::mark(170)].concat();
    assert_eq!(times(&breached), Some(Times { last_reading: 161, last_moved: 161 }));
}

#[test]
fn a_refused_reading_is_told_and_passed_over() {
    let (input, mut expected) = sample_and_low();
    let output = table(&[input, record::reading(105, 1, &[250]), record::mark(161)].concat());
    expected.reading(&sample(), &record::mark(161)).unwrap();
    assert_eq!(cells(&output), expected.cells());
    let told = String::from_utf8(output.stderr).unwrap();
    assert_eq!(told, "table: reading 2 is refused with 10: time below the last reading time\n");
}

#[test]
fn a_record_cut_short_ends_the_input() {
    let (input, expected) = sample_and_low();
    let output = table(&[&input, &record::mark(161)[..8]].concat());
    assert_eq!(cells(&output), expected.cells());
    assert!(String::from_utf8(output.stderr).unwrap().starts_with("table: reading 2 is refused with 8: "));
}

#[test]
fn a_refused_start_is_an_error() {
    for input in [&[][..], &sample()[..63]] {
        let output = table(input);
        assert_eq!(output.status.code(), Some(1));
        assert!(output.stdout.is_empty());
        assert!(String::from_utf8(output.stderr).unwrap().starts_with("table: the agreement is refused with 1: "));
    }
}
