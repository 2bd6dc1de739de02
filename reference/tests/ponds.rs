//! The pond trials P1 to P15 of paper 01 (P13 as paper 02's No. 5 has it), its sample, and the wrong readings that it
//! wants caught.

use reference::agreement::{Operator, Type};
use reference::build::*;
use reference::table::{BREACHED, FULFILLED, HEAD, LAST, RUNNING, STATE, USED, VALUES};
use reference::{check, reading, start, Checked, Forecast, CELLS};

const SAMPLE: &str = "40 00 01 00 64 00 00 00 02 01 00 | 06 00 02 00 01 01 | 2F 00 11 00 00 01 | \
    15 00 24 00 11 00 2A 00 05 00 23 00 00 08 00 20 00 FA 00 00 00 | 08 00 20 00 00 00 00 00 | \
    08 00 20 00 3C 00 00 00 | 04 00 10 00";

/// An agreement under way.
struct Run {
    agreement: Vec<u8>,
    table: Vec<i64>,
    /// What the start or the last reading told.
    told: Forecast,
}

impl Run {
    fn of(agreement: Vec<u8>) -> Run {
        let mut table = vec![0; CELLS];
        let started = start(&agreement, &mut table);
        assert_eq!(started.number, 0);
        Run { agreement, table, told: started.forecast }
    }

    /// The pond of the sample with another main clause.
    fn pond(main: &[u8]) -> Run {
        Run::of(pond(&[], main))
    }

    fn read(&mut self, time: u32, kind: u8, values: &[i32]) -> u32 {
        let taken = reading(&self.agreement, &mut self.table, &reference::build::reading(time, kind, values));
        self.told = taken.forecast;
        taken.number
    }

    fn mark(&mut self, time: u32) -> i64 {
        assert_eq!(self.read(time, 0, &[]), 0);
        self.table[STATE]
    }

    fn salinity(&mut self, time: u32, value: i32) -> i64 {
        assert_eq!(self.read(time, 1, &[value]), 0);
        self.table[STATE]
    }

    /// Paper 02, No. 2: "the forecast of the table they leave".
    fn forecast(&self) -> Forecast {
        self.told
    }
}

fn pond(templates: &[Vec<u8>], main: &[u8]) -> Vec<u8> {
    agreement(100, 2, &[reading_type(&[Type::Number])], templates, main)
}

fn sample() -> Vec<u8> {
    SAMPLE.split([' ', '|']).filter(|s| !s.is_empty()).map(|s| u8::from_str_radix(s, 16).unwrap()).collect()
}

/// Party n owes any reading from 100 on for so long.
fn owed(party: u8, within: i32) -> Vec<u8> {
    simple(within).obligation(party)
}

/// Salinity not below 250.
fn salty() -> Vec<u8> {
    not(&binary(Operator::Less, &value(0), &number(250)))
}

#[test]
fn the_sample_is_built_alike() {
    let owed = Wait { condition: salty(), ..simple(60) }.obligation(0);
    assert_eq!(pond(&[], &owed), sample());
    assert_eq!(check(&sample()), Checked { number: 0, parties: 1 });
}

#[test]
fn p1_start_forecasts() {
    assert_eq!(Run::of(sample()).forecast(), Some((160, 1)));
}

#[test]
fn p2_a_low_salinity_waits() {
    let mut run = Run::of(sample());
    assert_eq!(run.salinity(110, 240), RUNNING);
    assert_eq!((run.table[LAST], run.forecast()), (110, Some((160, 1))));
}

#[test]
fn p3_a_high_salinity_fulfils() {
    let mut run = Run::of(sample());
    run.salinity(110, 240);
    assert_eq!(run.salinity(160, 250), FULFILLED);
    assert_eq!(run.forecast(), None);
}

#[test]
fn p4_mark_160_is_live() {
    assert_eq!(Run::of(sample()).mark(160), RUNNING);
}

#[test]
fn p5_mark_161_breaches_at_160() {
    let mut run = Run::of(sample());
    assert_eq!(run.mark(161), BREACHED);
    assert_eq!(run.forecast(), Some((160, 1)));
}

#[test]
fn p6_a_breach_stays() {
    let mut run = Run::of(sample());
    run.mark(161);
    let before = run.table.clone();
    run.salinity(161, 250);
    assert_eq!(run.table, before);
    assert_eq!(run.salinity(900, 250), BREACHED);
    assert_eq!(run.table, before);
}

#[test]
fn p7_a_window_past_breaches_at_its_activation() {
    let mut run = Run::pond(&owed(0, -5));
    assert_eq!(run.mark(100), BREACHED);
    assert_eq!(run.forecast(), Some((100, 1)));
}

#[test]
fn p8_and_blames_both_at_one_time() {
    let mut run = Run::pond(&and(&owed(0, 60), &owed(1, 60)));
    assert_eq!(run.mark(161), BREACHED);
    assert_eq!(run.forecast(), Some((160, 3)));
}

#[test]
fn p9_and_blames_the_earlier() {
    let mut run = Run::pond(&and(&owed(0, 60), &owed(1, 50)));
    assert_eq!(run.mark(161), BREACHED);
    assert_eq!(run.forecast(), Some((150, 2)));
}

#[test]
fn p10_one_reading_fulfils_both_sides() {
    let mut run = Run::pond(&and(&owed(0, 60), &owed(1, 60)));
    assert_eq!(run.salinity(120, 0), FULFILLED);
}

#[test]
fn p11_or_waits_for_the_later() {
    let mut run = Run::pond(&or(&owed(0, 50), &owed(0, 60)));
    assert_eq!(run.forecast(), Some((160, 1)));
    assert_eq!(run.mark(155), RUNNING);
    assert_eq!(run.table[USED], 1);
    assert_eq!(run.mark(161), BREACHED);
    assert_eq!(run.forecast(), Some((160, 1)));
}

#[test]
fn p12_a_choice_goes_on_with_its_else() {
    let choice = simple(50).choice(&owed(0, 20));
    assert_eq!(Run::pond(&choice).salinity(165, 0), FULFILLED);
    let mut run = Run::pond(&choice);
    assert_eq!(run.mark(171), BREACHED);
    assert_eq!(run.forecast(), Some((170, 1)));
}

const MOST: i32 = 1_000_000_000;

/// What a number expression is worth: given to a template, it stands in the table as the first value in sight.
fn worth(expression: Vec<u8>) -> i64 {
    let given = template(&[Type::Number], 0, 1, &owed(0, 60));
    Run::of(pond(&[given], &instance(0, &[expression], &[]))).table[HEAD + VALUES]
}

fn quotient(left: i32, right: i32) -> i64 {
    worth(binary(Operator::Quotient, &number(left), &number(right)))
}

/// Paper 02, No. 5: "From the new season −7 ÷ 2 is −4, and 7 ÷ −2 is −4."
#[test]
fn p13_the_quotient_rounds_down() {
    assert_eq!(quotient(-7, 2), -4);
    assert_eq!(quotient(7, -2), -4);
    assert_eq!(quotient(-7, -2), 3);
    assert_eq!(quotient(7, 2), 3);
    assert_eq!(quotient(1, -2), -1);
    assert_eq!(quotient(-1, 2), -1);
    assert_eq!(quotient(1, 2), 0);
    assert_eq!(quotient(-1, -2), 0);
}

#[test]
fn an_exact_quotient_is_not_rounded() {
    assert_eq!(quotient(-8, 2), -4);
    assert_eq!(quotient(8, -2), -4);
    assert_eq!(quotient(-8, -2), 4);
    assert_eq!(quotient(8, 2), 4);
    assert_eq!(quotient(0, -5), 0);
    assert_eq!(quotient(0, 5), 0);
}

/// The window counts with the quotient: −7 ÷ 2 and 10 are 6.
#[test]
fn a_window_by_a_quotient() {
    let quotient = binary(Operator::Quotient, &number(-7), &number(2));
    let within = binary(Operator::Plus, &quotient, &number(10));
    let mut run = Run::pond(&Wait { within, ..simple(0) }.obligation(0));
    assert_eq!(run.forecast(), Some((106, 1)));
    assert_eq!(run.mark(106), RUNNING);
    assert_eq!(run.mark(107), BREACHED);
}

/// "A quotient by 0 remains 0."
#[test]
fn a_quotient_by_0_is_0() {
    for dividend in [5, -5, 0, MOST, -MOST] {
        assert_eq!(quotient(dividend, 0), 0, "{dividend} by 0");
    }
}

#[test]
fn quotients_of_both_ends() {
    let most = i64::from(MOST);
    assert_eq!([quotient(MOST, 1), quotient(MOST, -1)], [most, -most]);
    assert_eq!([quotient(-MOST, 1), quotient(-MOST, -1)], [-most, most]);
    assert_eq!([quotient(MOST, MOST), quotient(MOST, -MOST)], [1, -1]);
    assert_eq!([quotient(-MOST, MOST), quotient(-MOST, -MOST)], [-1, 1]);
    assert_eq!([quotient(1, MOST), quotient(1, -MOST)], [0, -1]);
    assert_eq!([quotient(-1, MOST), quotient(-1, -MOST)], [-1, 0]);
    assert_eq!([quotient(MOST, 3), quotient(MOST, -3)], [333_333_333, -333_333_334]);
    assert_eq!([quotient(-MOST, 3), quotient(-MOST, -3)], [-333_333_334, 333_333_333]);
}

#[test]
fn p14_numbers_are_held_at_their_ends() {
    let most = i64::from(MOST);
    assert_eq!(worth(binary(Operator::Plus, &number(MOST), &number(1))), most);
    assert_eq!(worth(binary(Operator::Times, &number(-MOST), &number(-MOST))), most);
    assert_eq!(worth(binary(Operator::Minus, &number(-MOST), &number(1))), -most);
}

/// P15's agreement: template 0 is an obligation then (template 0 and template 0).
fn doubling() -> Vec<u8> {
    let self_named = instance(0, &[], &[]);
    let body = Wait { then: and(&self_named, &self_named), ..simple(60) }.obligation(0);
    pond(&[template(&[], 0, 1, &body)], &self_named)
}

#[test]
fn p15_the_seventh_reading_is_too_much() {
    let mut run = Run::of(doubling());
    for _ in 0..6 {
        assert_eq!(run.salinity(110, 0), RUNNING);
    }
    assert_eq!(run.table[USED], 127);
    let before = run.table.clone();
    assert_eq!((run.read(120, 1, &[0]), run.forecast()), (11, None));
    assert_eq!(run.table, before);
    assert_eq!(run.mark(171), BREACHED);
}

#[test]
fn an_else_counts_from_the_end_of_its_choice() {
    let mut run = Run::pond(&simple(50).choice(&owed(0, 20)));
    assert_eq!(run.mark(160), RUNNING);
    assert_eq!(run.forecast(), Some((170, 1)));
}

#[test]
fn then_does_not_see_the_same_reading() {
    let mut run = Run::pond(&Wait { then: owed(0, 20), ..simple(60) }.obligation(0));
    assert_eq!(run.salinity(110, 0), RUNNING);
    assert_eq!(run.forecast(), Some((130, 1)));
}

#[test]
fn the_remaining_time_is_the_last_value_in_sight() {
    let then = Wait { within: value(1), ..simple(0) }.obligation(0);
    let mut run = Run::pond(&Wait { then, ..simple(60) }.obligation(0));
    run.salinity(110, 7);
    assert_eq!(run.table[8 + 8..8 + 11], [7, 50, 0]);
    assert_eq!(run.forecast(), Some((160, 1)));
}

#[test]
fn a_forecast_may_exceed_32_bits() {
    let most = 1_000_000_000;
    let owed = Wait { after: number(most), ..simple(most) }.obligation(0);
    let run = Run::of(agreement(u32::MAX, 1, &[reading_type(&[])], &[], &owed));
    assert_eq!(run.forecast(), Some((6_294_967_295, 1)));
}

#[test]
fn an_or_with_a_fulfilled_side_is_fulfilled() {
    assert_eq!(Run::pond(&or(&owed(0, 60), &fulfilled())).table[STATE], FULFILLED);
    let run = Run::pond(&and(&owed(0, 60), &fulfilled()));
    assert_eq!((run.table[STATE], run.table[USED]), (RUNNING, 1));
}
