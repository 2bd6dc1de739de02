//! What a reading costs, paper 02, No. 9: "Count one for each unit of the table read, which is every unit in use, and
//! one for each clause activated, in the sense of 01's activating; an else that follows the same reading is not counted
//! again for that. Sides that are later dropped count."

#[path = "common/pond.rs"]
mod pond;
#[path = "common/run.rs"]
mod run;

use givuntha::{record, Breach, Parties, Refusal, Refused, State, Table, Taken, MOST_COST};
use pond::pond;
use reference::build::{and, fulfilled, if_clause, instance, number, or, simple, template, truth, Wait};
use run::Run;
use std::fs;
use std::path::Path;

const UNITS: usize = 4;
const MOST_FOR_A_UNIT: u64 = 65_792;

/// A salinity is owed from 100 to 160.
fn owed() -> Vec<u8> {
    simple(60).obligation(0)
}

/// The same, with this `then`.
fn owed_then(then: &[u8]) -> Vec<u8> {
    Wait { then: then.to_vec(), ..simple(60) }.obligation(0)
}

/// A salinity may come from 100 to 105, with this else.
fn or_else(otherwise: &[u8]) -> Vec<u8> {
    simple(5).choice(otherwise)
}

/// An `and` of two fulfilled: three clauses.
fn three() -> Vec<u8> {
    and(&fulfilled(), &fulfilled())
}

/// So many times the clause, joined by `and` in balance: one `and` fewer than clauses.
fn balanced(count: usize, clause: &[u8]) -> Vec<u8> {
    match count {
        1 => clause.to_vec(),
        _ => and(&balanced(count / 2, clause), &balanced(count - count / 2, clause)),
    }
}

fn itself() -> Vec<u8> {
    instance(0, &[], &[])
}

/// The main clause is an instance of a template with this body.
fn unfolded(body: &[u8]) -> Run {
    Run::of(pond(&[template(&[], 0, 1, body)], &itself()))
}

fn run_of(main: &[u8]) -> Run {
    Run::of(pond(&[], main))
}

fn salinity(time: u32) -> Vec<u8> {
    record::reading(time, 1, &[250])
}

impl Run {
    /// Takes a reading that is accepted, and answers what it cost.
    fn cost(&mut self, record: &[u8]) -> u64 {
        self.take(record).expect("an accepted reading").cost
    }
}

/// A breach ahead at this time, by party 0.
fn party_0(time: u64) -> Option<Breach> {
    Some(Breach { time, parties: Parties::from_bits(1) })
}

/// What the first reading costs.
fn cost(main: &[u8], record: &[u8]) -> u64 {
    run_of(main).cost(record)
}

#[test]
fn one_unit_that_waits_costs_1() {
    let mut run = run_of(&Wait { condition: truth(0), ..simple(60) }.obligation(0));
    for given in [record::mark(100), salinity(110), salinity(110), record::mark(160)] {
        assert_eq!(run.cost(&given), 1);
    }
    let mut later = run_of(&Wait { after: number(60), ..simple(60) }.obligation(0));
    assert_eq!(later.take(&salinity(110)), Ok(Taken { ahead: party_0(220), early: true, cost: 1 }));
}

#[test]
fn every_unit_in_use_counts() {
    for waiting in [2, 3, 64] {
        assert_eq!(cost(&balanced(waiting, &owed()), &record::mark(110)), 2 * waiting as u64 - 1);
    }
    assert_eq!(cost(&or(&and(&owed(), &owed()), &owed()), &record::mark(110)), 5);
}

#[test]
fn a_breach_activates_nothing() {
    assert_eq!(cost(&owed(), &record::mark(161)), 1);
    assert_eq!(cost(&and(&owed(), &owed()), &record::mark(161)), 3);
}

#[test]
fn each_clause_of_a_then_counts() {
    let picks = |side| if_clause(&truth(side), &three(), &fulfilled());
    let clauses = [(fulfilled(), 1), (owed(), 1), (or_else(&three()), 1), (owed_then(&three()), 1), (three(), 3)];
    let more = [(or(&owed(), &owed()), 3), (picks(1), 1 + 3), (picks(0), 1 + 1)];
    for (then, activated) in clauses.into_iter().chain(more) {
        let wait = Wait { then, ..simple(60) };
        for main in [wait.obligation(0), wait.choice(&owed())] {
            assert_eq!(cost(&main, &salinity(110)), 1 + activated);
        }
    }
}

/// The instance, and its body.
#[test]
fn an_instance_and_what_it_unfolds_to() {
    let mut run = unfolded(&owed_then(&and(&itself(), &fulfilled())));
    for time in [110, 110, 120] {
        assert_eq!(run.cost(&salinity(time)), 1 + 1 + 2 + 1);
    }
}

/// The cells hold the numbers that they held, and yet two clauses were activated.
#[test]
fn a_reading_that_alters_nothing_has_its_cost() {
    let mut run = unfolded(&owed_then(&itself()));
    let before = run.table.clone();
    assert_eq!((run.cost(&salinity(100)), run.table), (1 + 2, before));
}

/// By a mark the else waits. By a salinity it is met at once, and only its `then` is activated besides.
#[test]
fn an_else_that_follows_is_not_counted_again() {
    let lapses = or_else(&owed_then(&three()));
    assert_eq!(cost(&lapses, &record::mark(106)), 1 + 1);
    assert_eq!(cost(&lapses, &salinity(106)), 1 + 1 + 3);
    assert_eq!(cost(&or_else(&three()), &salinity(106)), 1 + 3);
    let twice = or_else(&simple(0).choice(&owed()));
    assert_eq!(cost(&twice, &record::mark(106)), 1 + 1 + 1);
    assert_eq!(cost(&twice, &salinity(106)), 1 + 1 + 1 + 1);
}

/// Fulfilled fulfils the `or` when the else is activated, so that the other side does not follow.
#[test]
fn an_or_that_is_fulfilled_in_an_else() {
    for otherwise in [or(&fulfilled(), &owed_then(&three())), or(&owed_then(&three()), &fulfilled())] {
        assert_eq!(cost(&or_else(&otherwise), &salinity(106)), 1 + 3);
    }
}

#[test]
fn a_side_that_is_dropped_counts() {
    let grows = owed_then(&and(&owed(), &owed()));
    let mut fulfils = run_of(&or(&grows, &owed()));
    assert_eq!((fulfils.cost(&salinity(110)), fulfils.table.state()), (3 + 3 + 1, Some(State::Fulfilled)));
    let mut breaches = run_of(&and(&grows, &simple(5).obligation(1)));
    assert_eq!(breaches.cost(&salinity(106)), 3 + 3);
    assert!(matches!(breaches.table.state(), Some(State::Breached(_))));
    let mut leaves = run_of(&or(&simple(5).obligation(0), &owed()));
    assert_eq!([leaves.cost(&record::mark(106)), leaves.cost(&record::mark(106))], [3, 1]);
}

/// "template 0 is an obligation then (template 0 and template 0)": each of w waiting units comes to an `and`, two
/// instances and two obligations, and w units that wait have w − 1 joins.
#[test]
fn p15_and_its_costs() {
    let mut run = unfolded(&owed_then(&and(&itself(), &itself())));
    for cost in [6, 13, 27, 55, 111, 223] {
        assert_eq!(run.take(&salinity(110)), Ok(Taken { ahead: party_0(170), early: false, cost }));
    }
    let before = run.table.clone();
    for time in [110, 120] {
        assert_eq!(run.take(&salinity(time)), Err(Refused::Units { cost: 447 }));
        assert_eq!(run.table, before);
    }
    assert_eq!(run.cost(&record::mark(120)), 127);
}

/// 65 obligations with 64 `and`s are 129 clauses, and too many units.
#[test]
fn refusal_11_has_the_whole_cost() {
    let many = balanced(65, &owed());
    assert_eq!(run_of(&owed_then(&many)).take(&salinity(110)), Err(Refused::Units { cost: 1 + 129 }));
    assert_eq!(run_of(&or_else(&many)).take(&record::mark(106)), Err(Refused::Units { cost: 1 + 129 }));
    let beside = and(&owed_then(&three()), &owed_then(&many));
    assert_eq!(run_of(&beside).take(&salinity(110)), Err(Refused::Units { cost: 3 + 3 + 129 }));
    // All are met at once, or dropped by an `or`: no refusal, and each of the 129 counts.
    assert_eq!(cost(&or_else(&many), &salinity(106)), 1 + 129 + 65);
    assert_eq!(cost(&or(&owed(), &owed_then(&many)), &salinity(110)), 3 + 1 + 129);
}

#[test]
fn a_decided_table_costs_0() {
    let (mut met, mut missed) = (run_of(&owed()), run_of(&owed()));
    assert_eq!((met.cost(&salinity(110)), missed.cost(&record::mark(161))), (2, 1));
    for mut run in [run_of(&fulfilled()), met, missed] {
        for time in [161, 170] {
            assert_eq!((run.cost(&salinity(time)), run.cost(&record::mark(time))), (0, 0));
        }
    }
}

#[test]
fn other_refusals_have_no_cost() {
    let mut run = run_of(&owed());
    assert_eq!(run.cost(&record::mark(110)), 1);
    let refused = [
        (salinity(120)[..12].to_vec(), Refusal::ReadingForm),
        (record::reading(120, 2, &[250]), Refusal::ReadingTyping),
        (salinity(109), Refusal::ReadingTime),
    ];
    for (given, refusal) in refused {
        assert_eq!(run.take(&given), Err(Refused::Other(refusal)));
    }
}

/// A choice of width 256 has an else of 128 obligations and 127 `and`s; the `then` of each has width 256 too, an
/// instance of 128 fulfilled with 127 `and`s. 64 such choices, which come to wait by an instance, have an obligation
/// less each.
#[test]
fn the_most_that_we_built() {
    let late = |waiting| or_else(&balanced(waiting, &owed_then(&itself())));
    let templates = [template(&[], 0, 0, &balanced(128, &fulfilled())), template(&[], 0, 1, &late(127))];
    let mut run = Run::of(pond(&templates[..1], &late(128)));
    assert_eq!(run.cost(&salinity(106)), 1 + 255 + 128 * 256);
    let mut run = Run::of(pond(&templates, &balanced(64, &owed_then(&instance(1, &[], &[])))));
    assert_eq!(run.cost(&salinity(100)), 127 + 64 * 2);
    let most = run.cost(&salinity(106));
    assert_eq!(most, 127 + 64 * (253 + 127 * 256));
    assert!(most < MOST_COST);
}

#[test]
fn the_most_is_that_of_128_units() {
    assert_eq!(MOST_COST, 128 * MOST_FOR_A_UNIT);
}

/// Every reading of every stream: at least its units and at most so much for each; without units 0.
#[test]
fn every_stream() {
    let (mut units_alone, mut more, mut nothing) = (0, 0, 0);
    for entry in fs::read_dir(Path::new(env!("CARGO_MANIFEST_DIR")).join("../../streams")).unwrap() {
        let path = entry.unwrap().path();
        if path.extension().is_none_or(|extension| extension != "in") {
            continue;
        }
        each_reading(&fs::read(&path).unwrap(), |units, cost| {
            assert!(cost >= units && cost <= MOST_FOR_A_UNIT * units, "{}", path.display());
            match cost {
                0 => nothing += 1,
                _ if cost == units => units_alone += 1,
                _ => more += 1,
            }
        });
    }
    assert!(units_alone > 100 && more > 100 && nothing > 100, "{units_alone}, {more}, {nothing}");
}

/// Gives away the units in use before each reading of a stream that is followed, and its cost; none where its start is
/// refused.
fn each_reading(mut stream: &[u8], mut judge: impl FnMut(u64, u64)) {
    let agreement = record::next(&mut stream).unwrap().unwrap_or_default();
    let Ok((mut table, _)) = Table::start(&agreement) else { return };
    while let Some(given) = record::next(&mut stream).unwrap() {
        let units = u64::try_from(table.cells()[UNITS]).unwrap();
        match table.reading(&agreement, &given) {
            Ok(Taken { cost, .. }) | Err(Refused::Units { cost }) => judge(units, cost),
            Err(Refused::Other(_)) => {}
        }
    }
}
