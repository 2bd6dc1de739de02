//! The program `brinewatch` on the paper's sample, and at the ends of its input.

#[path = "common/program.rs"]
mod program;

use program::watch;
use reference::agreement::{Operator, Type};
use reference::build::*;

fn sample() -> Vec<u8> {
    let salty = not(&binary(Operator::Less, &value(0), &number(250)));
    let owed = Wait { condition: salty, ..simple(60) }.obligation(0);
    agreement(100, 2, &[reading_type(&[Type::Number])], &[], &owed)
}

/// The sample and readings after it.
fn input(readings: &[Vec<u8>]) -> Vec<u8> {
    [sample(), readings.concat()].concat()
}

#[test]
fn the_papers_run_in_full() {
    let readings = [reading(110, 1, &[240]), reading(105, 1, &[250]), reading(160, 1, &[250])];
    let lines = "0 100 LIVE 160 1\n1 110 LIVE 160 1\n2 105 REFUSED 10\n3 160 DONE\n";
    assert_eq!(watch(&input(&readings)), lines);
}

#[test]
fn a_breach_and_readings_after_it() {
    let readings = [reading(161, 0, &[]), reading(900, 1, &[250]), reading(160, 0, &[]), reading(161, 1, &[])];
    let lines = "0 100 LIVE 160 1\n1 161 BREACH 160 1\n2 900 BREACH 160 1\n3 160 REFUSED 10\n4 161 REFUSED 9\n";
    assert_eq!(watch(&input(&readings)), lines);
}

#[test]
fn no_forecast() {
    let choice = simple(60).choice(&fulfilled());
    let bytes = agreement(7, 1, &[reading_type(&[])], &[], &choice);
    assert_eq!(watch(&[bytes, reading(68, 0, &[])].concat()), "0 7 LIVE NONE\n1 68 DONE\n");
}

/// Each line tells of the table that its own call leaves, not of the one before; a refusal tells nothing.
#[test]
fn a_forecast_that_moves() {
    let then = simple(600).choice(&fulfilled());
    let owed = Wait { then, ..simple(20) }.obligation(1);
    let bytes = agreement(7, 2, &[reading_type(&[])], &[], &Wait { then: owed, ..simple(60) }.obligation(0));
    let readings = [
        reading(8, 0, &[]),
        reading(10, 1, &[]),
        reading(9, 1, &[]),
        reading(30, 0, &[]),
        reading(30, 1, &[]),
        reading(31, 0, &[]),
        reading(32, 1, &[]),
        reading(40, 2, &[]),
    ];
    let lines = "0 7 LIVE 67 1\n1 8 LIVE 67 1\n2 10 LIVE 30 2\n3 9 REFUSED 10\n4 30 LIVE 30 2\n5 30 LIVE NONE\n\
        6 31 LIVE NONE\n7 32 DONE\n8 40 REFUSED 9\n";
    assert_eq!(watch(&[bytes, readings.concat()].concat()), lines);
}

/// "one cut short by the end of input is refused with 1 or 8"
#[test]
fn records_cut_short() {
    assert_eq!(watch(&[]), "0 - REFUSED 1\n");
    assert_eq!(watch(&[64]), "0 - REFUSED 1\n");
    assert_eq!(watch(&sample()[..63]), "0 - REFUSED 1\n");
    for length in 1..13 {
        let cut = reading(110, 1, &[240])[..length].to_vec();
        assert_eq!(watch(&input(&[cut])), "0 100 LIVE 160 1\n1 - REFUSED 8\n");
    }
}

/// "A refused start, and a reading refused with 8, print `-` as time and end the run."
#[test]
fn refusals_that_end_the_run() {
    let mark = reading(110, 0, &[]);
    let refused = agreement(100, 0, &[], &[], &fulfilled());
    assert_eq!(watch(&[refused, mark.clone()].concat()), "0 - REFUSED 2\n");
    let needing_too_much = sized_template(&[], 0, 1, 0, &simple(60).obligation(0));
    let refused = agreement(100, 1, &[reading_type(&[])], &[needing_too_much], &fulfilled());
    assert_eq!(watch(&[refused, mark.clone()].concat()), "0 - REFUSED 15\n");
    for short in [vec![0, 0], vec![1, 0], vec![3, 0, 64], record(65, &[&[0; 5]])] {
        assert_eq!(watch(&input(&[short, mark.clone()])), "0 100 LIVE 160 1\n1 - REFUSED 8\n");
    }
}
