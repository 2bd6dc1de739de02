//! Every refusal through the wrapper: its number, and that the table is left.

#[path = "common/pond.rs"]
mod pond;
#[path = "common/sample.rs"]
mod sample;
#[path = "common/sized.rs"]
mod sized;

use givuntha::{check, reading, record, start, Breach, Parties, Refusal, Refused, State, Table, Taken, CELLS};
use pond::pond;
use reference::agreement::Operator;
use reference::build::{and, binary, fulfilled, instance, number, record as made, simple, template, truth, Wait};
use sample::sample;
use sized::sized;

/// Agreements that are refused with 1 to 5 and 15.
fn refused_agreements() -> Vec<(Vec<u8>, Refusal)> {
    let sum = binary(Operator::Plus, &number(1), &truth(1));
    let itself = instance(0, &[], &[]);
    vec![
        (vec![], Refusal::AgreementLength),
        (vec![3, 0, 1], Refusal::AgreementLength),
        ([sample(), vec![0]].concat(), Refusal::AgreementLength),
        (pond(&[], &made(23, &[])), Refusal::AgreementForm),
        (pond(&[], &itself), Refusal::AgreementForm),
        (pond(&[], &Wait { after: sum, ..simple(60) }.obligation(0)), Refusal::AgreementTyping),
        (pond(&[template(&[], 0, 0, &itself)], &fulfilled()), Refusal::AgreementGuards),
        (pond(&[], &balanced(129)), Refusal::AgreementWidth),
        (pond(&[sized(&template(&[], 0, 0, &balanced(2)), 0)], &fulfilled()), Refusal::AgreementSize),
    ]
}

/// So many fulfilled clauses joined by `and` in balance.
fn balanced(leaves: usize) -> Vec<u8> {
    match leaves {
        1 => fulfilled(),
        _ => and(&balanced(leaves / 2), &balanced(leaves - leaves / 2)),
    }
}

/// Gives a reading that must be refused, and looks whether the cells are left.
fn refused_reading(agreement: &[u8], cells: &[i64], given: &[u8]) -> Option<Refusal> {
    let mut lent = cells.to_vec();
    let answer = reading(agreement, &mut lent, given);
    assert_eq!(lent, cells);
    answer.err().map(Refused::refusal)
}

/// Starts an agreement that must be refused, and looks whether the cells are left.
fn refused_start(agreement: &[u8], cells: &[i64]) -> Option<Refusal> {
    let mut lent = cells.to_vec();
    let answer = start(agreement, &mut lent);
    assert_eq!(lent, cells);
    answer.err()
}

#[test]
fn refusals_1_to_5_and_15_by_every_entry() {
    let cells: Vec<i64> = (0..CELLS as i64).collect();
    for (agreement, refusal) in refused_agreements() {
        assert_eq!(check(&agreement), Err(refusal));
        assert_eq!(refused_start(&agreement, &cells), Some(refusal));
        assert_eq!(refused_reading(&agreement, &cells, &[]), Some(refusal));
        assert_eq!(Table::start(&agreement), Err(refusal));
    }
    assert!(check(&pond(&[], &balanced(128))).is_ok());
}

#[test]
fn refusal_6_a_table_of_another_length() {
    for length in [0, 1, 8, CELLS - 1, CELLS + 1, 2 * CELLS] {
        let cells = vec![7; length];
        assert_eq!(refused_start(&sample(), &cells), Some(Refusal::TableLength));
        assert_eq!(refused_reading(&sample(), &cells, &[]), Some(Refusal::TableLength));
        assert_eq!(State::of(&cells), None);
    }
}

#[test]
fn refusal_7_a_damaged_table() {
    let (good, _) = Table::start(&sample()).unwrap();
    let head = [(0, 9), (0, 2), (1, 99), (2, 1), (3, 1), (4, 2), (5, 99), (5, 101), (6, 1), (7, 1)];
    let units = [(8, 18), (9, 16), (10, 99), (3079, 1)];
    for (cell, value) in head.into_iter().chain(units) {
        let mut cells = good.cells().to_vec();
        cells[cell] = value;
        assert_eq!(refused_reading(&sample(), &cells, &record::mark(100)), Some(Refusal::TableContent), "cell {cell}");
    }
    let zeros = Table::default();
    assert_eq!(refused_reading(&sample(), zeros.cells(), &record::mark(100)), Some(Refusal::TableContent));
}

#[test]
fn refusal_8_no_whole_reading() {
    let (table, _) = Table::start(&sample()).unwrap();
    let whole = record::reading(110, 1, &[240]);
    let other_kind = [&whole[..2], &[65], &whole[3..]].concat();
    let long = [&whole[..], &[0]].concat();
    for bytes in [&[], &whole[..1], &whole[..8], &other_kind, &long, &record::reading(110, 1, &[0; 5])] {
        assert_eq!(refused_reading(&sample(), table.cells(), bytes), Some(Refusal::ReadingForm));
    }
}

#[test]
fn refusal_9_a_reading_that_does_not_fit() {
    let (table, _) = Table::start(&sample()).unwrap();
    let out_of_range = 1_000_000_001;
    for (sort, values) in [(2, &[240][..]), (1, &[]), (1, &[1, 2]), (0, &[1]), (1, &[out_of_range])] {
        let bytes = record::reading(110, sort, values);
        assert_eq!(refused_reading(&sample(), table.cells(), &bytes), Some(Refusal::ReadingTyping));
    }
}

#[test]
fn refusal_10_a_reading_before_the_last() {
    let (mut table, ahead) = Table::start(&sample()).unwrap();
    table.reading(&sample(), &record::reading(110, 1, &[240])).unwrap();
    let past = record::reading(105, 1, &[250]);
    assert_eq!(refused_reading(&sample(), table.cells(), &past), Some(Refusal::ReadingTime));
    assert_eq!(table.reading(&sample(), &record::mark(110)), Ok(Taken { ahead, early: false, cost: 1 }));
}

#[test]
fn refusal_11_too_many_units() {
    let leaves = |n| (1..n).fold(simple(60).obligation(0), |all, _| and(&all, &simple(60).obligation(0)));
    let eleven = instance(0, &[], &[]);
    let templates = [template(&[], 0, 1, &leaves(11))];
    let many = |n| (1..n).fold(eleven.clone(), |all, _| and(&all, &eleven));
    assert_eq!(Table::start(&pond(&templates, &many(5))).unwrap().0.cells()[4], 109);
    let cells = vec![7; CELLS];
    assert_eq!(refused_start(&pond(&templates, &many(6)), &cells), Some(Refusal::Units));
    let grows = Wait { then: many(6), ..simple(60) }.obligation(0);
    let agreement = pond(&templates, &grows);
    let (table, _) = Table::start(&agreement).unwrap();
    let given = record::reading(110, 1, &[0]);
    assert_eq!(refused_reading(&agreement, table.cells(), &given), Some(Refusal::Units));
}

#[test]
fn start_ignores_what_the_cells_held() {
    let mut cells = vec![-1; CELLS];
    assert_eq!(start(&sample(), &mut cells), Ok(Some(Breach { time: 160, parties: Parties::from_bits(1) })));
    assert_eq!(cells, Table::start(&sample()).unwrap().0.cells());
}

#[test]
fn numbers_and_words() {
    let numbers: Vec<_> = Refusal::ALL.iter().map(|refusal| refusal.number()).collect();
    assert_eq!(numbers, [1, 2, 3, 4, 5, 15, 6, 7, 8, 9, 10, 11]);
    assert!(Refusal::ALL.is_sorted() && Refusal::ALL.iter().all(|refusal| Refusal::of(refusal.number()) == *refusal));
    assert_eq!(
        Refusal::AgreementSize.to_string(),
        "in a sized agreement a body's need above its declared units, or the main clause's above 128"
    );
    assert_eq!(Refusal::TableLength.to_string(), "table not 3,080 cells");
    assert_eq!(Refusal::ReadingTime.to_string(), "time below the last reading time");
    assert_eq!(Refusal::Units.to_string(), "the residue by the rules needs over 128 units");
    assert!(Refusal::ALL.iter().all(|refusal| !refusal.to_string().contains("  ")));
}

/// Numbers that no entry answers, or that a later library may.
#[test]
fn other_numbers() {
    for number in [0, 12, 13, 14, 16, 99, u32::MAX] {
        let unknown = Refusal::of(number);
        assert_eq!((unknown, unknown.number()), (Refusal::Unknown(number), number));
        assert_eq!(unknown.to_string(), "a refusal that this package does not know");
        assert!(!Refusal::ALL.contains(&unknown));
    }
}

/// A refused reading says what the refusal says, and has a cost on 11 alone.
#[test]
fn a_reading_s_refusals() {
    let units = Refused::Units { cost: 447 };
    assert_eq!((units.refusal(), units.number(), units.cost()), (Refusal::Units, 11, 447));
    for refusal in Refusal::ALL.into_iter().filter(|refusal| *refusal != Refusal::Units) {
        let refused = Refused::Other(refusal);
        assert_eq!((refused.refusal(), refused.number(), refused.cost()), (refusal, refusal.number(), 0));
    }
    for refused in [units, Refused::Other(Refusal::ReadingTime)] {
        assert_eq!(refused.to_string(), Refusal::from(refused).to_string());
    }
}
