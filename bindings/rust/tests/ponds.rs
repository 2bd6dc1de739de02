//! The paper's sample and its pond trials P1 to P15.

#[path = "common/pond.rs"]
mod pond;
#[path = "common/run.rs"]
mod run;
#[path = "common/sample.rs"]
mod sample;

use givuntha::{check, record, Breach, Parties, Refused, State, Table, Taken};
use pond::pond;
use reference::agreement::Operator;
use reference::build::{agreement, and, binary, instance, number, or, reading_type, simple, template, Wait};
use run::Run;
use sample::sample;

impl Run {
    fn salinity(&mut self, time: u32, value: i32) -> Result<Taken, Refused> {
        self.take(&record::reading(time, 1, &[value]))
    }

    fn mark(&mut self, time: u32) -> Result<Taken, Refused> {
        self.take(&record::mark(time))
    }

    fn is_running(&self) -> bool {
        self.table.state() == Some(State::Running)
    }

    fn is_fulfilled(&self) -> bool {
        self.table.state() == Some(State::Fulfilled)
    }

    /// The breach that came.
    fn breach(&self) -> Option<Breach> {
        match self.table.state() {
            Some(State::Breached(breach)) => Some(breach),
            _ => None,
        }
    }
}

/// Party n owes any reading from 100 on for so long.
fn owed(party: u8, within: i32) -> Vec<u8> {
    simple(within).obligation(party)
}

fn pond_of(main: &[u8]) -> Run {
    Run::of(pond(&[], main))
}

/// No breach is ahead.
const NONE: Option<Breach> = None;

/// A breach that is ahead or has come: its time and its party bits.
fn breach(time: u64, parties: u16) -> Option<Breach> {
    Some(Breach { time, parties: Parties::from_bits(parties) })
}

/// Accepted with this forecast and at this cost, units and clauses, and not too early.
fn taken(ahead: Option<Breach>, units: u64, clauses: u64) -> Result<Taken, Refused> {
    Ok(Taken { ahead, early: false, cost: units + clauses })
}

#[test]
fn the_sample_blames_party_0() {
    assert_eq!(check(&sample()).unwrap().iter().collect::<Vec<_>>(), [0]);
}

#[test]
fn p1_start_forecasts() {
    assert_eq!(Table::start(&sample()).unwrap().1, breach(160, 1));
}

#[test]
fn p2_and_p3_a_low_salinity_waits_and_a_high_one_fulfils() {
    let mut run = Run::of(sample());
    assert_eq!(run.salinity(110, 240), taken(breach(160, 1), 1, 0));
    assert!(run.is_running());
    assert_eq!(run.salinity(160, 250), taken(NONE, 1, 1));
    assert!(run.is_fulfilled());
}

#[test]
fn p4_mark_160_is_live() {
    let mut run = Run::of(sample());
    assert_eq!(run.mark(160), taken(breach(160, 1), 1, 0));
    assert!(run.is_running());
}

#[test]
fn p5_and_p6_mark_161_breaches_at_160_and_it_stays() {
    let mut run = Run::of(sample());
    assert_eq!(run.mark(161), taken(breach(160, 1), 1, 0));
    assert_eq!(run.breach(), breach(160, 1));
    let before = run.table.clone();
    assert_eq!(run.salinity(161, 250), taken(breach(160, 1), 0, 0));
    assert_eq!(run.table, before);
}

#[test]
fn p7_a_window_past_breaches_at_its_activation() {
    let mut run = pond_of(&owed(0, -5));
    assert_eq!(run.mark(100), taken(breach(100, 1), 1, 0));
    assert_eq!(run.breach(), breach(100, 1));
}

#[test]
fn p8_and_p9_the_earlier_breach_decides_an_and() {
    let mut run = pond_of(&and(&owed(0, 60), &owed(1, 60)));
    assert_eq!(run.mark(161), taken(breach(160, 3), 3, 0));
    assert_eq!(run.breach(), breach(160, 3));
    let mut run = pond_of(&and(&owed(0, 60), &owed(1, 50)));
    assert_eq!(run.mark(161), taken(breach(150, 2), 3, 0));
    assert_eq!(run.breach(), breach(150, 2));
}

#[test]
fn p10_one_reading_fulfils_both_sides() {
    let mut run = pond_of(&and(&owed(0, 60), &owed(1, 60)));
    assert_eq!(run.salinity(120, 0), taken(NONE, 3, 2));
    assert!(run.is_fulfilled());
}

#[test]
fn p11_the_later_breach_decides_an_or() {
    let mut run = pond_of(&or(&owed(0, 50), &owed(0, 60)));
    assert_eq!(run.mark(155), taken(breach(160, 1), 3, 0));
    assert!(run.is_running());
    assert_eq!(run.mark(161), taken(breach(160, 1), 1, 0));
    assert_eq!(run.breach(), breach(160, 1));
}

#[test]
fn p12_an_else_counts_from_the_end_of_the_window() {
    let main = simple(50).choice(&owed(0, 20));
    let mut run = pond_of(&main);
    assert_eq!(run.salinity(165, 0), taken(NONE, 1, 2));
    assert!(run.is_fulfilled());
    let mut run = pond_of(&main);
    assert_eq!(run.mark(171), taken(breach(170, 1), 1, 1));
    assert_eq!(run.breach(), breach(170, 1));
}

#[test]
fn p13_and_p14_quotients_round_down_and_sums_are_held() {
    let told = |value: Vec<u8>, expected| {
        let condition = binary(Operator::Equal, &value, &number(expected));
        let mut run = pond_of(&Wait { condition, ..simple(60) }.obligation(0));
        run.salinity(110, 0).unwrap();
        run.is_fulfilled()
    };
    assert!(told(binary(Operator::Quotient, &number(-7), &number(2)), -4));
    assert!(told(binary(Operator::Quotient, &number(7), &number(-2)), -4));
    assert!(told(binary(Operator::Quotient, &number(-7), &number(-2)), 3));
    assert!(told(binary(Operator::Quotient, &number(-7), &number(0)), 0));
    assert!(told(binary(Operator::Plus, &number(1_000_000_000), &number(1)), 1_000_000_000));
}

#[test]
fn p15_the_seventh_reading_is_refused_with_11() {
    let again = instance(0, &[], &[]);
    let doubling = Wait { then: and(&again, &again), ..simple(60) }.obligation(0);
    let mut run = Run::of(pond(&[template(&[], 0, 1, &doubling)], &again));
    // Each waiting unit comes to an `and`, two instances and two obligations.
    for (time, waiting) in (101..107).zip([1, 2, 4, 8, 16, 32]) {
        let ahead = breach(u64::from(time) + 60, 1);
        assert_eq!(run.salinity(time, 0), taken(ahead, 2 * waiting - 1, 5 * waiting));
    }
    assert_eq!(run.table.cells()[4], 127);
    let before = run.table.clone();
    assert_eq!(run.salinity(107, 0), Err(Refused::Units { cost: 127 + 320 }));
    assert_eq!(run.table, before);
}

#[test]
fn a_forecast_may_exceed_32_bits() {
    let main = simple(1_000_000_000).obligation(1);
    let bytes = agreement(u32::MAX, 2, &[reading_type(&[])], &[], &main);
    assert_eq!(Table::start(&bytes).unwrap().1, breach(5_294_967_295, 2));
    assert_eq!(Run::of(bytes).mark(u32::MAX), taken(breach(5_294_967_295, 2), 1, 0));
}
