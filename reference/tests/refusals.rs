//! The small example of every refusal, and its neighbours that are accepted.

use reference::agreement::{Operator, Type};
use reference::build::*;
use reference::table::{ACTIVATED, BLAMED, HEAD, LAST, MOVED, PLACE, STATE, TIME, USED};
use reference::{check, preview, reading, start, Started, Taken, CELLS};

fn pond(templates: &[Vec<u8>], main: &[u8]) -> Vec<u8> {
    agreement(100, 2, &[reading_type(&[Type::Number, Type::Truth])], templates, main)
}

fn number_of(main: &[u8]) -> u32 {
    check(&pond(&[], main)).number
}

fn owed() -> Vec<u8> {
    simple(60).obligation(0)
}

fn condition(condition: Vec<u8>) -> Vec<u8> {
    Wait { condition, ..simple(60) }.obligation(0)
}

/// A started table of `main`.
fn started(main: &[u8]) -> (Vec<u8>, Vec<i64>) {
    let agreement = pond(&[], main);
    let mut table = vec![0; CELLS];
    assert_eq!(start(&agreement, &mut table).number, 0);
    (agreement, table)
}

/// Nothing is early, no forecast is told, and only 11 has a cost.
fn refused(number: u32) -> Taken {
    Taken { number, early: 0, cost: 0, forecast: None }
}

/// A table that must be refused with 7, whatever the reading, and left alone.
fn refused_table(agreement: &[u8], table: &[i64]) {
    let mut lent = table.to_vec();
    for taken in [Vec::new(), reference::build::reading(200, 0, &[])] {
        assert_eq!(reading(agreement, &mut lent, &taken), refused(7));
        assert_eq!(lent, table);
        assert_eq!(preview(agreement, table, &taken, &mut lent), refused(7));
        assert_eq!(lent, table);
    }
}

#[test]
fn refusal_1_length() {
    assert_eq!(check(&[]).number, 1);
    assert_eq!(check(&[3, 0, 1]).number, 1);
    let mut longer = pond(&[], &fulfilled());
    longer.push(0);
    assert_eq!(check(&longer).number, 1);
    let mut long = vec![0; 16_385];
    long[..4].copy_from_slice(&[0x01, 0x40, 1, 0]);
    assert_eq!(check(&long).number, 1);
    long.pop();
    long[..2].copy_from_slice(&[0x00, 0x40]);
    assert_eq!(check(&long).number, 2);
}

#[test]
fn refusal_2_records() {
    assert_eq!(number_of(&record(23, &[])), 2);
    assert_eq!(number_of(&fulfilled()), 0);
    assert_eq!(number_of(&record(16, &[&[0]])), 2);
    assert_eq!(number_of(&number(1)), 2);
    assert_eq!(number_of(&condition(fulfilled())), 2);
    assert_eq!(number_of(&instance(0, &[], &[])), 2);
    assert_eq!(check(&agreement(0, 0, &[reading_type(&[])], &[], &fulfilled())).number, 2);
    assert_eq!(check(&agreement(0, 17, &[reading_type(&[])], &[], &fulfilled())).number, 2);
    assert_eq!(check(&agreement(0, 1, &[], &[], &fulfilled())).number, 2);
    assert_eq!(check(&agreement(0, 1, &[record(2, &[&[1, 4]])], &[], &fulfilled())).number, 2);
    assert_eq!(check(&agreement(0, 1, &[reading_type(&[Type::Truth; 5])], &[], &fulfilled())).number, 2);
}

/// A main clause whose innermost record is at a depth of at least 4.
fn nested(depth: usize) -> Vec<u8> {
    let truths = (4..depth).fold(truth(1), |inner, _| not(&inner));
    if_clause(&record(36, &[&truths]), &fulfilled(), &fulfilled())
}

#[test]
fn refusal_2_nesting() {
    assert_eq!(number_of(&nested(24)), 0);
    assert_eq!(number_of(&nested(25)), 2);
}

#[test]
fn refusal_3_typing() {
    let sum = binary(Operator::Plus, &number(1), &truth(1));
    assert_eq!(number_of(&Wait { after: sum, ..simple(60) }.obligation(0)), 3);
    assert_eq!(number_of(&condition(number(1))), 3);
    assert_eq!(number_of(&condition(truth(2))), 3);
    assert_eq!(number_of(&condition(value(1))), 0);
    assert_eq!(number_of(&condition(value(2))), 3);
    assert_eq!(number_of(&condition(binary(Operator::Equal, &party(0), &party(2)))), 3);
    assert_eq!(number_of(&condition(binary(Operator::Equal, &party(0), &number(0)))), 3);
    assert_eq!(number_of(&simple(1_000_000_001).obligation(0)), 3);
    assert_eq!(number_of(&simple(60).obligation(2)), 3);
    assert_eq!(number_of(&simple(60).obligation(128)), 3);
    assert_eq!(number_of(&Wait { reading: 0, ..simple(60) }.obligation(0)), 3);
    assert_eq!(number_of(&Wait { reading: 2, ..simple(60) }.obligation(0)), 3);
    assert_eq!(number_of(&Wait { after: value(0), ..simple(60) }.obligation(0)), 3);
}

#[test]
fn refusal_3_parties() {
    let (zero, one) = (owed(), simple(60).obligation(1));
    assert_eq!(number_of(&or(&zero, &zero)), 0);
    assert_eq!(number_of(&or(&zero, &one)), 3);
    let declaring = |bits, body: &[u8]| check(&pond(&[template(&[], 1, bits, body)], &fulfilled())).number;
    assert_eq!(declaring(1, &zero), 0);
    assert_eq!(declaring(2, &zero), 3);
    assert_eq!(declaring(4, &fulfilled()), 3);
    assert_eq!(declaring(1, &or(&zero, &simple(60).obligation(128))), 3);
    assert_eq!(declaring(0, &simple(60).obligation(128)), 0);
    assert_eq!(declaring(0, &simple(60).obligation(129)), 3);
}

/// Obligations, each in the `then` of the one outside it: every one binds three values.
fn chain(length: usize) -> Vec<u8> {
    (0..length).fold(fulfilled(), |then, _| Wait { then, ..simple(60) }.obligation(0))
}

#[test]
fn refusal_3_sight() {
    assert_eq!(number_of(&chain(5)), 0);
    assert_eq!(number_of(&chain(6)), 3);
}

#[test]
fn refusal_4_guard() {
    let named = |template| instance(template, &[], &[]);
    let with = |bodies: &[Vec<u8>]| {
        let templates: Vec<_> = bodies.iter().map(|body| template(&[], 0, 0, body)).collect();
        check(&pond(&templates, &fulfilled())).number
    };
    assert_eq!(with(&[named(0)]), 4);
    assert_eq!(with(&[fulfilled(), named(0)]), 0);
    assert_eq!(with(&[named(1), fulfilled()]), 4);
    let guarded = Wait { then: named(0), ..simple(60) };
    assert_eq!(with(&[guarded.choice(&fulfilled())]), 0);
    assert_eq!(with(&[guarded.choice(&named(0))]), 4);
}

/// So many leaves joined by `and` in balance.
fn balanced(leaves: usize, leaf: &[u8]) -> Vec<u8> {
    match leaves {
        1 => leaf.to_vec(),
        _ => and(&balanced(leaves / 2, leaf), &balanced(leaves - leaves / 2, leaf)),
    }
}

#[test]
fn refusal_5_width() {
    assert_eq!(number_of(&balanced(128, &fulfilled())), 0);
    assert_eq!(number_of(&balanced(129, &fulfilled())), 5);
    let then = |then| Wait { then, ..simple(60) }.obligation(0);
    assert_eq!(number_of(&then(balanced(128, &fulfilled()))), 0);
    assert_eq!(number_of(&then(balanced(129, &fulfilled()))), 5);
    let body = |leaves| check(&pond(&[template(&[], 0, 0, &balanced(leaves, &fulfilled()))], &fulfilled())).number;
    assert_eq!(body(128), 0);
    assert_eq!(body(129), 5);
}

/// Paper 02, No. 7: "in a sized agreement a body's need is above its declared units or the main clause's above 128".
#[test]
fn refusal_15_need() {
    let sized = |units, main: &[u8]| check(&pond(&[sized_template(&[], 0, 1, units, &owed())], main)).number;
    assert_eq!([sized(0, &fulfilled()), sized(1, &fulfilled())], [15, 0]);
    assert_eq!([sized(1, &balanced(64, &owed())), sized(1, &balanced(65, &owed()))], [0, 15]);
    assert_eq!(number_of(&balanced(65, &owed())), 0);
}

#[test]
fn refusal_6_cells() {
    let agreement = pond(&[], &owed());
    for cells in [0, 3_079, 3_081] {
        let mut table = vec![7; cells];
        assert_eq!(start(&agreement, &mut table), Started { number: 6, forecast: None });
        assert_eq!(reading(&agreement, &mut table, &[]), refused(6));
        let mut second = vec![7; CELLS];
        assert_eq!(preview(&agreement, &table, &[], &mut second), refused(6));
        assert_eq!(preview(&agreement, &second, &[], &mut table), refused(6));
        assert_eq!((table, second), (vec![7; cells], vec![7; CELLS]));
    }
}

#[test]
fn refusal_7_head() {
    let (agreement, table) = started(&owed());
    let changes: [(usize, i64); 14] = [
        (STATE, 9),
        (STATE, 2),
        (LAST, 99),
        (LAST, 1 << 32),
        (TIME, 100),
        (BLAMED, 1),
        (USED, 0),
        (USED, 2),
        (MOVED, 0),
        (MOVED, 99),
        (MOVED, 101),
        (6, -1),
        (6, 100),
        (7, 1),
    ];
    for (cell, value) in changes {
        let mut changed = table.clone();
        changed[cell] = value;
        refused_table(&agreement, &changed);
    }
}

#[test]
fn refusal_7_units() {
    let (agreement, table) = started(&owed());
    let changes = [(0, 18), (0, 20), (PLACE, 0), (ACTIVATED, 99), (ACTIVATED, 101), (3, 1), (7, 1), (8, 1), (24, 1)];
    for (cell, value) in changes {
        let mut changed = table.clone();
        changed[HEAD + cell] = value;
        refused_table(&agreement, &changed);
    }
}

#[test]
fn refusal_7_or_rule() {
    let (agreement, mut table) = started(&and(&owed(), &simple(60).obligation(1)));
    table[HEAD] = 21;
    refused_table(&agreement, &table);
}

#[test]
fn refusal_7_breach() {
    let (agreement, mut table) = started(&owed());
    assert_eq!(reading(&agreement, &mut table, &reference::build::reading(170, 0, &[])).number, 0);
    let head =
        [(BLAMED, 0), (BLAMED, 2), (BLAMED, 3), (TIME, 99), (TIME, 171), (USED, 1), (MOVED, 171), (6, 1), (7, 1)];
    for (cell, value) in head.into_iter().chain([(HEAD, 1)]) {
        let mut changed = table.clone();
        changed[cell] = value;
        refused_table(&agreement, &changed);
    }
}

/// The number of one reading after a mark at 110.
fn number_after_110(taken: &[u8]) -> u32 {
    let (agreement, mut table) = started(&owed());
    assert_eq!(reading(&agreement, &mut table, &reference::build::reading(110, 0, &[])).number, 0);
    let before = table.clone();
    let taken = reading(&agreement, &mut table, taken);
    assert!(taken.number == 0 || table == before && taken == refused(taken.number));
    taken.number
}

#[test]
fn refusal_8_reading() {
    assert_eq!(number_after_110(&[8, 0, 64, 0, 110, 0, 0, 0]), 8);
    assert_eq!(number_after_110(&[]), 8);
    assert_eq!(number_after_110(&record(65, &[&[110, 0, 0, 0, 0]])), 8);
    assert_eq!(number_after_110(&record(64, &[&[110, 0, 0, 0, 0, 9]])), 8);
    assert_eq!(number_after_110(&[10, 0, 64, 0, 110, 0, 0, 0, 0]), 8);
    assert_eq!(number_after_110(&reference::build::reading(105, 9, &[0; 5])), 8);
}

#[test]
fn refusal_9_unfit() {
    assert_eq!(number_after_110(&reference::build::reading(110, 1, &[0, 2])), 9);
    assert_eq!(number_after_110(&reference::build::reading(110, 1, &[0, 1])), 0);
    assert_eq!(number_after_110(&reference::build::reading(110, 1, &[0])), 9);
    assert_eq!(number_after_110(&reference::build::reading(110, 0, &[0])), 9);
    assert_eq!(number_after_110(&reference::build::reading(110, 2, &[])), 9);
    assert_eq!(number_after_110(&reference::build::reading(110, 1, &[1_000_000_001, 0])), 9);
}

#[test]
fn refusal_10_time() {
    assert_eq!(number_after_110(&reference::build::reading(105, 0, &[])), 10);
    assert_eq!(number_after_110(&reference::build::reading(110, 0, &[])), 0);
}

#[test]
fn refusal_11_units() {
    let mut table = vec![7; CELLS];
    let wide = pond(&[], &balanced(65, &owed()));
    assert_eq!(start(&wide, &mut table), Started { number: 11, forecast: None });
    assert_eq!(table, vec![7; CELLS]);
    let narrower = pond(&[], &balanced(64, &owed()));
    assert_eq!(start(&narrower, &mut table), Started { number: 0, forecast: Some((160, 1)) });
    assert_eq!(table[USED], 127);
}

/// "Only the final residue counts for 11: a side that an `or` drops costs nothing."
#[test]
fn a_dropped_side_costs_nothing() {
    let mut table = vec![0; CELLS];
    let dropped = or(&balanced(65, &owed()), &fulfilled());
    assert_eq!(start(&pond(&[], &dropped), &mut table), Started { number: 0, forecast: None });
    assert_eq!(table[STATE], 2);
}
