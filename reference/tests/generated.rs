//! Generated calls: everything that they should reach is reached, and no answer is impossible.

#[path = "common/program.rs"]
mod program;

use program::watch;
use reference::agreement::{parse, Operator, Type};
use reference::build::{
    self, and, binary, fulfilled, if_clause, instance, number, or, reading_type, simple, value, Wait,
};
use reference::check::accept;
use reference::coverage::cost::{activation_name, corner_name, Costed};
use reference::coverage::early::Marked;
use reference::coverage::forecast::{self, Told};
use reference::coverage::members::{self, Judged, Resolved};
use reference::coverage::moved::{self, Effect, Lies};
use reference::coverage::preview::Previewed;
use reference::coverage::sized::{self, Followed, Sizes};
use reference::coverage::{quotients, Coverage};
use reference::entries::started;
use reference::generate::damage::Damage;
use reference::generate::{agreements, calls, input, random::Random, Aim, Answer, Call, Entry};
use reference::reading::Reading;
use reference::rules::Outcome;
use reference::table::{
    self, State, ACTIVATED, BLAMED, BREACHED, CELLS, FULFILLED, HEAD, LAST, MOVED, OR, PARAMETERS, PLACE, RUNNING,
    SORT, STATE, UNIT, USED, VALUES,
};
use reference::{check, preview, reading, start, Checked, Forecast, Started, Taken};

#[test]
fn everything_is_reached_and_no_answer_is_impossible() {
    let mut coverage = Coverage::new();
    for call in calls(2024).take(80_000) {
        coverage.observe(&call, &call.answer());
    }
    assert!(coverage.faults.is_empty(), "{} faults, one: {}", coverage.faults.len(), coverage.faults[0]);
    assert_eq!(coverage.missing(), Vec::<String>::new());
}

/// Where a start and a reading come to work them out, and nowhere else.
#[test]
fn quotients_worked_out_are_found() {
    let quotient = |left: Vec<u8>, right| binary(Operator::Quotient, &left, &number(right));
    let low = |dividend| binary(Operator::Less, &quotient(dividend, 2), &number(9));
    let plain = simple(60).obligation(0);
    let then = if_clause(&low(value(1)), &fulfilled(), &plain);
    let wait = Wait { reading: 1, condition: low(value(0)), after: quotient(number(-8), 4), within: number(60), then };
    let main = if_clause(&low(number(-7)), &wait.obligation(0), &plain);
    let bytes = build::agreement(100, 1, &[reading_type(&[Type::Number])], &[], &main);
    let agreement = parse(&bytes).expect("an agreement");
    assert_eq!(quotients::at_start(&agreement), [(-7, 2)]);

    let Ok(State { outcome: Outcome::Running(residue), .. }) = started(&agreement) else { panic!("not running") };
    let found = |time, kind, values: &[i64]| {
        quotients::at_reading(&agreement, &residue, &Reading { time, kind, values: values.to_vec() })
    };
    assert_eq!(found(110, 0, &[]), [(-8, 4)]);
    assert_eq!(found(110, 1, &[99]), [(-8, 4), (99, 2)]);
    assert_eq!(found(110, 1, &[5]), [(-8, 4), (5, 2), (48, 2)]);
    assert_eq!(found(159, 1, &[5]), [(-8, 4)]);
}

/// An `or` of some member and parameter 0 in a template that declares party 0, and an `or` of its
/// instance for party 1 and another clause.
fn two_ors(parties: u8, in_template: u8, other: &[u8]) -> Vec<u8> {
    let body = or(&simple(60).obligation(in_template), &simple(60).obligation(128));
    let main = or(&instance(0, &[], &[1]), other);
    build::agreement(100, parties, &[reading_type(&[])], &[build::template(&[], 1, 1, &body)], &main)
}

#[test]
fn sets_judged_at_check_are_found() {
    let at_check = |members: &[u8]| Judged::AtCheck(members.iter().copied().collect());
    let choice = simple(60).choice(&or(&simple(9).obligation(2), &fulfilled()));
    let found = members::at_check(&two_ors(3, 0, &choice));
    assert_eq!(found, Some(vec![at_check(&[0, 128]), at_check(&[2]), at_check(&[0, 1, 2])]));
    let found = members::at_check(&two_ors(3, 128, &fulfilled()));
    assert_eq!(found, Some(vec![at_check(&[128]), at_check(&[0, 1])]));
    // Something else is wrong: party 2 is none of two.
    assert_eq!(members::at_check(&two_ors(2, 0, &choice)), None);
}

/// A table of an `and` of party 0 and of an `or` of two units by a parameter that is party 1.
fn or_beside_another() -> (Vec<u8>, Vec<i64>) {
    let named = instance(0, &[], &[1]);
    let main = and(&simple(60).obligation(0), &or(&named, &named));
    let template = build::template(&[], 1, 0, &simple(60).obligation(128));
    let bytes = build::agreement(100, 3, &[reading_type(&[])], &[template], &main);
    let mut table = vec![0; CELLS];
    assert_eq!(start(&bytes, &mut table).number, 0);
    (bytes, table)
}

#[test]
fn sets_judged_in_a_table_are_found() {
    let by_parameter =
        |parties: &[i64]| Judged::InTable(Resolved { parties: parties.iter().copied().collect(), by_parameter: true });
    let (bytes, mut table) = or_beside_another();
    assert_eq!(members::in_table(&bytes, &table), Some(vec![by_parameter(&[1])]));
    let last_parameter = HEAD + 4 * UNIT + PARAMETERS;
    table[last_parameter] = 0;
    assert_eq!(members::in_table(&bytes, &table), Some(vec![by_parameter(&[0, 1])]));
    table[HEAD + SORT] = OR;
    assert_eq!(members::in_table(&bytes, &table), Some(vec![by_parameter(&[0, 1]), by_parameter(&[0, 1])]));
    // Something else is wrong: party 2 is not the main clause's.
    table[last_parameter] = 2;
    assert_eq!(members::in_table(&bytes, &table), None);
}

fn found(agreement: &[u8], entry: Entry, answer: Answer) -> Vec<String> {
    let call = Call { agreement: agreement.into(), entry, aim: Aim::Agreement(Damage::OrOfSeveral) };
    let mut coverage = Coverage::new();
    coverage.observe(&call, &answer);
    coverage.faults
}

fn faults(agreement: &[u8], entry: Entry, answer: Answer) -> usize {
    found(agreement, entry, answer).len()
}

/// A monitor that counts the members of a set wrong gives such answers.
#[test]
fn a_set_counted_wrong_is_a_fault() {
    let checked = |number| Answer::Check(Checked { number, parties: 0 });
    let two_members = two_ors(2, 0, &fulfilled());
    let fine = build::agreement(100, 1, &[reading_type(&[])], &[], &or(&fulfilled(), &simple(60).obligation(0)));
    assert_eq!(check(&fine).number, 0);
    assert_eq!(faults(&fine, Entry::Check, checked(0)), 0);
    assert_eq!(faults(&fine, Entry::Check, checked(3)), 1);
    assert_eq!(faults(&two_members, Entry::Check, checked(3)), 0);
    assert_eq!(faults(&two_members, Entry::Check, checked(4)), 1);

    let (bytes, mut table) = or_beside_another();
    let found_in = |table: &[i64], number| {
        let entry = Entry::Reading { table: table.to_vec(), reading: build::reading(100, 0, &[]) };
        found(&bytes, entry, Answer::Reading { number, early: 0, cost: 0, forecast: None, table: table.to_vec() })
    };
    // Cell 5 finds this fault as well: nothing is wrong with the table.
    assert_eq!(found_in(&table, 7).len(), 2);
    table[HEAD + SORT] = OR;
    assert_eq!(found_in(&table, 7).len(), 0);
    assert!(found_in(&table, 0)[0].starts_with("an `or` of two members, not refused"));
}

/// An obligation from 100 to 160, then another; and its table after a mark at 110.
fn owed_twice() -> (Vec<u8>, Vec<i64>) {
    let main = Wait { then: simple(60).obligation(0), ..simple(60) }.obligation(0);
    let bytes = build::agreement(100, 1, &[reading_type(&[])], &[], &main);
    let mut table = vec![0; CELLS];
    assert_eq!(start(&bytes, &mut table).number, 0);
    assert_eq!(reading(&bytes, &mut table, &build::reading(110, 0, &[])).number, 0);
    (bytes, table)
}

fn with(table: &[i64], cells: &[(usize, i64)]) -> Vec<i64> {
    let mut changed = table.to_vec();
    cells.iter().for_each(|(cell, number)| changed[*cell] = *number);
    changed
}

#[test]
fn where_cell_5_lies_is_found() {
    let (bytes, table) = owed_twice();
    let lies = |moved| moved::lies(&bytes, &with(&table, &[(MOVED, moved)]));
    let found = [-1, 0, 99, 100, 101, 109, 110, 111, 0xFFFF_FFFF, 0x1_0000_0000].map(|moved| lies(moved).unwrap());
    use Lies::*;
    let inside = [AtStart, Between, Between, AtLastReading];
    let outside = [AfterLastReading, AfterLastReading, Beyond32Bits];
    assert_eq!(found[..3], [Negative, BeforeStart, BeforeStart]);
    assert_eq!(found[3..7], inside);
    assert_eq!(found[7..], outside);
    assert_eq!(found.map(Lies::is_inside), [false, false, false, true, true, true, true, false, false, false]);
    // Something else is wrong.
    assert_eq!(moved::lies(&bytes, &with(&table, &[(6, 1)])), None);
    assert_eq!(moved::lies(&bytes, &table[1..]), None);
}

#[test]
fn alterations_are_found() {
    let (_, table) = owed_twice();
    let mark = Reading { time: 120, kind: 0, values: Vec::new() };
    let altered = |cells: &[(usize, i64)]| {
        let after = with(&table, cells);
        Effect { before: &table, after: &after, reading: &mark }.alteration()
    };
    // Neither the other cells of the head nor cell 5 itself are looked at.
    assert_eq!(altered(&[(LAST, 120), (2, 1), (3, 1), (MOVED, 120), (6, 1)]), "nothing");
    assert_eq!(altered(&[(HEAD + SORT, 1)]), "a join alone");
    assert_eq!(altered(&[(HEAD + PLACE, 1)]), "a place alone");
    assert_eq!(altered(&[(HEAD + ACTIVATED, 1)]), "an A alone");
    assert_eq!(altered(&[(HEAD + UNIT + PARAMETERS + 3, 1)]), "a parameter alone");
    assert_eq!(altered(&[(HEAD + VALUES, 1)]), "a value alone");
    assert_eq!(altered(&[(CELLS - 1, 1)]), "a value alone");
    assert_eq!(altered(&[(HEAD, 1), (HEAD + UNIT - 1, 1)]), "some cells of one unit");
    assert_eq!(altered(&[(HEAD + UNIT - 1, 1), (HEAD + UNIT, 1)]), "cells of some units");
    assert_eq!(altered(&[(USED, 2)]), "units in use");
}

/// A monitor that takes the wrong readings for altering gives such answers.
#[test]
fn a_wrong_cell_5_is_a_fault() {
    let (bytes, table) = owed_twice();
    let faults = |before: &[i64], taken: Vec<u8>, after: &[i64]| {
        let Taken { cost, forecast, .. } = reading(&bytes, &mut before.to_vec(), &taken);
        let entry = Entry::Reading { table: before.to_vec(), reading: taken };
        faults(&bytes, entry, Answer::Reading { number: 0, early: 0, cost, forecast, table: after.to_vec() })
    };
    let mark = || build::reading(120, 0, &[]);
    let idle = with(&table, &[(LAST, 120)]);
    assert_eq!(faults(&table, mark(), &idle), 0);
    assert_eq!(faults(&table, mark(), &with(&idle, &[(MOVED, 120)])), 1);
    assert_eq!(faults(&table, mark(), &with(&idle, &[(MOVED, 110)])), 1);

    let fitting = || build::reading(120, 1, &[]);
    let mut followed = table.clone();
    assert_eq!(reading(&bytes, &mut followed, &fitting()).number, 0);
    assert_eq!(faults(&table, fitting(), &followed), 0);
    assert_eq!(faults(&table, fitting(), &with(&followed, &[(MOVED, 100)])), 1);
    assert_eq!(faults(&table, fitting(), &with(&followed, &[(MOVED, 110)])), 1);

    let mut fulfilled = vec![0; CELLS];
    fulfilled[..HEAD].copy_from_slice(&[FULFILLED, 110, 0, 0, 0, 100, 0, 0]);
    assert_eq!(faults(&fulfilled, mark(), &with(&fulfilled, &[(LAST, 120)])), 0);
    assert_eq!(faults(&fulfilled, mark(), &with(&fulfilled, &[(LAST, 120), (MOVED, 120)])), 1);
    assert_eq!(faults(&fulfilled, mark(), &with(&fulfilled, &[(LAST, 120), (USED, 1)])), 2);

    let mut breached = table.clone();
    assert_eq!(reading(&bytes, &mut breached, &build::reading(161, 0, &[])).number, 0);
    let late = || build::reading(170, 0, &[]);
    assert_eq!(faults(&breached, late(), &breached), 0);
    assert_eq!(faults(&breached, late(), &with(&breached, &[(LAST, 170)])), 1);
    assert_eq!(faults(&breached, late(), &with(&breached, &[(LAST, 170), (MOVED, 170)])), 1);
}

#[test]
fn a_wrong_number_for_cell_5_or_a_wrong_start_is_a_fault() {
    let (bytes, table) = owed_twice();
    let faults_at = |moved, number| {
        let table = with(&table, &[(MOVED, moved)]);
        let entry = Entry::Reading { table: table.clone(), reading: build::reading(110, 0, &[]) };
        let (cost, forecast) = if number == 0 { (1, Some((160, 1))) } else { (0, None) };
        faults(&bytes, entry, Answer::Reading { number, early: 0, cost, forecast, table })
    };
    assert_eq!([faults_at(100, 0), faults_at(110, 0), faults_at(99, 7), faults_at(111, 7)], [0; 4]);
    assert_eq!([faults_at(100, 7), faults_at(110, 7)], [1; 2]);

    let mut begun = vec![0; CELLS];
    let Started { number, forecast } = start(&bytes, &mut begun);
    assert_eq!((number, begun[STATE]), (0, RUNNING));
    let faults_with = |moved| {
        let answer = Answer::Start { number, forecast, table: with(&begun, &[(MOVED, moved)]) };
        faults(&bytes, Entry::Start { table: vec![0; CELLS] }, answer)
    };
    assert_eq!([faults_with(100), faults_with(0), faults_with(101)], [0, 1, 1]);
}

/// An agreement from 100, and its table at the start.
fn begun(templates: &[Vec<u8>], main: &[u8]) -> (Vec<u8>, Vec<i64>) {
    let readings = [reading_type(&[Type::Number]), reading_type(&[])];
    let bytes = build::agreement(100, 1, &readings, templates, main);
    let mut table = vec![0; CELLS];
    assert_eq!(start(&bytes, &mut table).number, 0);
    (bytes, table)
}

/// Party 0 owes a reading of type 1 from `after` minutes on for so long.
fn opening(after: i32, within: i32) -> Wait {
    Wait { after: number(after), ..simple(within) }
}

/// How many faults are found in a reading whose answer is made another.
fn faults_in(bytes: &[u8], before: &[i64], taken: Vec<u8>, wrong: &dyn Fn(Answer) -> Answer) -> usize {
    let entry = Entry::Reading { table: before.to_vec(), reading: taken };
    let call = Call { agreement: bytes.into(), entry, aim: Aim::Made };
    let mut coverage = Coverage::new();
    coverage.observe(&call, &wrong(call.answer()));
    coverage.faults.len()
}

/// A monitor that marks the wrong readings gives such answers.
#[test]
fn a_wrong_mark_is_a_fault() {
    let (bytes, table) = begun(&[], &opening(20, 40).obligation(0));
    let faults =
        |before: &[i64], taken: Vec<u8>, wrong: &dyn Fn(Answer) -> Answer| faults_in(&bytes, before, taken, wrong);
    let marked = |mark: u32| {
        move |answer: Answer| match answer {
            Answer::Reading { number, cost, forecast, table, .. } => {
                Answer::Reading { number, early: mark, cost, forecast, table }
            }
            other => other,
        }
    };
    let level = |time, value| build::reading(time, 1, &[value]);
    assert_eq!([0, 1, 2].map(|mark| faults(&table, level(110, 0), &marked(mark))), [1, 0, 1]);
    let at_110 = with(&table, &[(LAST, 110)]);
    let others = [
        level(120, 0),
        level(161, 0),
        build::reading(110, 2, &[]),
        build::reading(110, 0, &[]),
        level(109, 0),
        build::reading(115, 1, &[]),
        Vec::new(),
    ];
    for other in others {
        let found = [0, 1, 2].map(|mark| faults(&at_110, other.clone(), &marked(mark)));
        assert_eq!(found, [0, 1, 1], "{other:?}");
    }
    for head in [[FULFILLED, 110, 0, 0, 0, 110, 0, 0], [BREACHED, 110, 105, 1, 0, 110, 0, 0]] {
        let mut decided = vec![0; CELLS];
        decided[..HEAD].copy_from_slice(&head);
        assert_eq!([0, 1].map(|mark| faults(&decided, level(115, 0), &marked(mark))), [0, 1]);
    }
}

/// A monitor that tells the forecast of another table, or one on a refusal, gives such answers.
#[test]
fn a_wrong_forecast_is_a_fault() {
    let (bytes, before) = owed_twice();
    // The table before gives a breach at 160; so does a mark leave it.
    let cases: [(Vec<u8>, Forecast, [Forecast; 4]); 4] = [
        (build::reading(120, 1, &[]), Some((180, 1)), [None, Some((160, 1)), Some((181, 1)), Some((180, 0))]),
        (build::reading(120, 0, &[]), Some((160, 1)), [None, Some((180, 1)), Some((160, 2)), Some((160, 3))]),
        (build::reading(161, 0, &[]), Some((160, 1)), [None, Some((161, 1)), Some((0, 0)), Some((160, 0))]),
        (build::reading(109, 0, &[]), None, [Some((160, 1)), Some((0, 0)), Some((0, 1)), Some((160, 0))]),
    ];
    for (taken, right, wrong) in cases {
        let entry = || Entry::Reading { table: before.clone(), reading: taken.clone() };
        let mut after = before.clone();
        let Taken { number, early, cost, forecast } = reading(&bytes, &mut after, &taken);
        assert_eq!(forecast, right);
        let told = |forecast| Answer::Reading { number, early, cost, forecast, table: after.clone() };
        assert_eq!(found(&bytes, entry(), told(right)), Vec::<String>::new());
        for forecast in wrong {
            assert!(!found(&bytes, entry(), told(forecast)).is_empty(), "{forecast:?} for {right:?}");
        }
    }
    let mut begun = vec![0; CELLS];
    assert_eq!(start(&bytes, &mut begun), Started { number: 0, forecast: Some((160, 1)) });
    let entry = || Entry::Start { table: before.clone() };
    let told = |forecast| Answer::Start { number: 0, forecast, table: begun.clone() };
    assert_eq!(found(&bytes, entry(), told(Some((160, 1)))), Vec::<String>::new());
    for forecast in [None, Some((161, 1)), Some((160, 2)), Some((100, 1))] {
        assert!(!found(&bytes, entry(), told(forecast)).is_empty(), "{forecast:?}");
    }
    let refused = |forecast| Answer::Start { number: 6, forecast, table: Vec::new() };
    let entry = || Entry::Start { table: Vec::new() };
    assert_eq!([None, Some((160, 1)), Some((0, 0))].map(|told| faults(&bytes, entry(), refused(told))), [0, 1, 1]);
}

/// What a start tells and in which corners.
fn told_by_start((bytes, table): &(Vec<u8>, Vec<i64>)) -> (String, Vec<String>) {
    let agreement = parse(bytes).expect("an agreement");
    let accepted = accept(&agreement).expect("an accepted agreement");
    let Started { forecast, .. } = start(bytes, &mut vec![0; CELLS]);
    let told = Told { accepted: &accepted, effect: None, left: table, forecast };
    assert_eq!((told.fault(), told.beside_before(), told.idle_case()), (None, None, None));
    (told.case(), told.corners())
}

/// What a reading tells: by the states, beside the table before, with nothing altered, and in which corners.
fn told_by(
    (bytes, table): &(Vec<u8>, Vec<i64>),
    taken: Vec<u8>,
) -> (String, Option<&'static str>, Option<String>, Vec<String>) {
    let agreement = parse(bytes).expect("an agreement");
    let accepted = accept(&agreement).expect("an accepted agreement");
    let mut after = table.clone();
    let Taken { forecast, .. } = reading(bytes, &mut after, &taken);
    let parsed = reference::reading::parse(&taken).expect("a record");
    let effect = Effect { before: table, after: &after, reading: &parsed };
    let told = Told { accepted: &accepted, effect: Some(&effect), left: &after, forecast };
    assert_eq!(told.fault(), None);
    (told.case(), told.beside_before(), told.idle_case(), told.corners())
}

#[test]
fn what_is_told_is_found() {
    let level = |time| build::reading(time, 1, &[0]);
    let mark = |time| build::reading(time, 0, &[]);
    let after = |begun: &(Vec<u8>, Vec<i64>), taken: &[u8]| {
        let mut table = begun.1.clone();
        assert_eq!(reading(&begun.0, &mut table, taken).number, 0);
        (begun.0.clone(), table)
    };
    let owed = |within| simple(within).obligation(0);
    let owed_then = |then: Vec<u8>| Wait { then, ..simple(60) }.obligation(0);
    let to_fulfil = simple(60).choice(&fulfilled());

    assert_eq!(told_by_start(&begun(&[], &owed(60))), ("start, running: a breach".to_string(), vec![]));
    assert_eq!(told_by_start(&begun(&[], &to_fulfil)).0, "start, running: none");
    assert_eq!(told_by_start(&begun(&[], &fulfilled())).0, "start, fulfilled: none");
    assert_eq!(told_by_start(&begun(&[], &owed(-5))).1, ["start: in its own minute, running"]);

    let told = |main: &[u8], taken| told_by(&begun(&[], main), taken);
    let case = |(case, beside, _, _): (String, Option<&'static str>, _, _)| (case, beside.expect("a running table"));
    let running = "reading, running to running: a breach".to_string();
    let none = "reading, running to running: none".to_string();
    assert_eq!(case(told(&owed_then(owed(60)), level(110))), (running.clone(), "running: a later breach"));
    assert_eq!(case(told(&owed_then(owed(5)), level(110))), (running.clone(), "running: an earlier breach"));
    assert_eq!(case(told(&owed(60), mark(110))), (running.clone(), "running: the breach as before"));
    assert_eq!(case(told(&owed_then(to_fulfil.clone()), level(110))), (none.clone(), "running: none, a breach before"));
    assert_eq!(case(told(&to_fulfil, mark(110))), (none, "running: none, as before"));
    let then = Wait { then: owed(60), ..simple(60) }.choice(&fulfilled());
    assert_eq!(case(told(&then, level(110))), (running, "running: a breach, none before"));
    let fulfils = "reading, running to fulfilled: none".to_string();
    assert_eq!(case(told(&owed(60), level(110))), (fulfils.clone(), "fulfilled: a breach before"));
    assert_eq!(case(told(&to_fulfil, mark(161))), (fulfils, "fulfilled: none before"));
    let breaches = "reading, running to breached: a breach".to_string();
    assert_eq!(case(told(&owed(60), mark(161))), (breaches, "breached: as before"));

    let nothing_altered = |main: &[u8], taken| told(main, taken).2;
    assert_eq!(nothing_altered(&owed(60), mark(110)), Some("by a mark: a breach".to_string()));
    assert_eq!(nothing_altered(&to_fulfil, mark(110)), Some("by a mark: none".to_string()));
    let bell = build::reading(110, 2, &[]);
    assert_eq!(nothing_altered(&owed(60), bell.clone()), Some("by another reading: a breach".to_string()));
    assert_eq!(nothing_altered(&owed_then(owed(60)), level(110)), None);
    assert_eq!(told(&owed_then(owed(-5)), level(110)).3, ["reading: in its own minute, running"]);
    let at_start = |start_time, main: &[u8]| {
        let bytes = build::agreement(start_time, 1, &[reading_type(&[])], &[], main);
        let mut table = vec![0; CELLS];
        assert_eq!(start(&bytes, &mut table).number, 0);
        told_by_start(&(bytes, table)).1
    };
    assert_eq!(at_start(0, &owed(0)), ["start: in its own minute, running", "start: at minute 0"]);
    assert_eq!(at_start(u32::MAX, &owed(1)), ["start: beyond 32 bits"]);
    assert_eq!(at_start(u32::MAX, &owed(0)), ["start: in its own minute, running"]);

    let fulfilled_already = after(&begun(&[], &owed(60)), &level(110));
    let expected = ("reading, fulfilled to fulfilled: none".to_string(), None, None, vec![]);
    assert_eq!(told_by(&fulfilled_already, bell.clone()), expected);
    let breached_already = after(&begun(&[], &owed(60)), &mark(161));
    let expected = ("reading, breached to breached: a breach".to_string(), None, None, vec![]);
    assert_eq!(told_by(&breached_already, level(170)), expected);
}

/// Party 0 owes at 100 what is late then, and party 1 something that is late a minute later: a mark after 100 blames
/// both, the one at 100 does not.
#[test]
fn a_breach_in_its_own_minute_is_found() {
    let main = and(&simple(-5).obligation(0), &simple(0).obligation(1));
    let bytes = build::agreement(100, 2, &[reading_type(&[])], &[], &main);
    let mut table = vec![0; CELLS];
    assert_eq!(start(&bytes, &mut table).forecast, Some((100, 3)));
    let begun = (bytes, table);
    let found = told_by_start(&begun).1;
    assert_eq!(found, ["start: in its own minute, running", "start: several parties, running"]);
    let beside = |time| told_by(&begun, build::reading(time, 0, &[])).1;
    assert_eq!(beside(100), Some("breached: otherwise, in the reading's minute"));
    assert_eq!(beside(101), Some("breached: as before"));
}

/// Refusals that give zeros where a breach might be told.
#[test]
fn what_zeros_hide_is_found() {
    let hidden = |bytes: &[u8], table: &[i64], taken: &[u8]| {
        let agreement = parse(bytes).expect("an agreement");
        let accepted = accept(&agreement).expect("an accepted agreement");
        let answer = reading(bytes, &mut table.to_vec(), taken);
        assert_eq!(answer.forecast, None);
        forecast::hidden_by_reading(&accepted, table, taken, answer.number)
    };
    let (bytes, table) = owed_twice();
    let of_running = |number| [format!("refused with {number}: the table given is running and has a breach")];
    assert_eq!(hidden(&bytes, &table, &[]), of_running(8));
    assert_eq!(hidden(&bytes, &table, &build::reading(120, 2, &[])), of_running(9));
    assert_eq!(hidden(&bytes, &table, &build::reading(109, 0, &[])), of_running(10));
    let mut breached = table.clone();
    assert_eq!(reading(&bytes, &mut breached, &build::reading(161, 0, &[])).number, 0);
    let of_breached = ["refused with 10: the table given is breached and has a breach"];
    assert_eq!(hidden(&bytes, &breached, &build::reading(109, 0, &[])), of_breached);

    let crowd = balanced(65, &simple(60).obligation(0));
    let (bytes, table) = begun(&[], &Wait { then: crowd.clone(), ..simple(60) }.obligation(0));
    let of_too_many = "reading refused with 11: the units that are too many have a breach".to_string();
    let [of_table] = of_running(11);
    assert_eq!(hidden(&bytes, &table, &build::reading(110, 1, &[0])), [of_table, of_too_many]);
    let bytes = build::agreement(100, 1, &[reading_type(&[])], &[], &crowd);
    let agreement = parse(&bytes).expect("an agreement");
    let of_start = "start refused with 11: the units that are too many have a breach".to_string();
    assert_eq!(start(&bytes, &mut vec![0; CELLS]), Started { number: 11, forecast: None });
    assert_eq!(forecast::hidden_by_start(&agreement, 11), Some(of_start));
    assert_eq!(forecast::hidden_by_start(&agreement, 0), None);
}

/// What decides the mark of one reading, what fails alone, and in which corners it is 1.
fn judged(
    (bytes, table): &(Vec<u8>, Vec<i64>),
    taken: Vec<u8>,
) -> (&'static str, Vec<&'static str>, Vec<&'static str>) {
    let agreement = parse(bytes).expect("an agreement");
    let accepted = accept(&agreement).expect("an accepted agreement");
    let mut after = table.clone();
    let answer = reading(bytes, &mut after, &taken);
    let parsed = reference::reading::parse(&taken).expect("a record");
    let effect = Effect { before: table, after: &after, reading: &parsed };
    let marked = Marked { bytes, accepted: &accepted, effect: &effect, number: answer.number, early: answer.early };
    assert_eq!(marked.fault(), None);
    (marked.case(), marked.near_misses(), marked.corners())
}

#[test]
fn what_decides_the_mark_is_found() {
    let level = |time| build::reading(time, 1, &[0]);
    let alone = begun(&[], &opening(20, 40).obligation(0));
    let corners = ["a minute before first", "an obligation", "later than the last reading time", "the only unit"];
    assert_eq!(judged(&alone, level(119)), ("1", vec![], corners.to_vec()));
    assert_eq!(judged(&alone, level(120)), ("0: the state altered", vec![], vec![]));
    let bell = build::reading(110, 2, &[]);
    assert_eq!(judged(&alone, bell), ("0: no unit wants the type", vec!["another type"], vec![]));
    let mark = build::reading(110, 0, &[]);
    assert_eq!(judged(&alone, mark), ("0: a time mark", vec!["a time mark"], vec![]));
    assert_eq!(judged(&alone, level(99)).1, ["refused with 10"]);
    assert_eq!(judged(&alone, build::reading(110, 1, &[])).1, ["refused with 9"]);
    let false_where = begun(&[], &Wait { condition: build::truth(0), ..opening(20, 40) }.obligation(0));
    let expected = ("0: `where` is false", vec!["`where` is false"], vec![]);
    assert_eq!(judged(&false_where, level(110)), expected);
    let both = begun(&[], &and(&opening(20, 40).obligation(0), &simple(60).obligation(0)));
    assert_eq!(judged(&both, level(110)), ("0: a unit altered", vec!["altered: units"], vec![]));
    let same_minute = vec!["altered: units, at the time that cell 5 held"];
    assert_eq!(judged(&both, level(100)), ("0: a unit altered", same_minute, vec![]));
    let either = begun(&[], &or(&opening(20, 40).obligation(0), &simple(60).obligation(0)));
    assert_eq!(judged(&either, level(110)), ("0: the state altered", vec!["altered: fulfilled"], vec![]));
}

/// Units that are replaced by equal ones in the minute of their activation.
#[test]
fn corners_of_the_mark_are_found() {
    let level = build::reading(100, 1, &[0]);
    let named = |template| instance(template, &[], &[]);
    let plain = |body: &[u8]| build::template(&[], 0, 1, body);
    let again = |then: &[u8]| Wait { then: then.to_vec(), ..simple(60) }.obligation(0);
    let judged = |templates: &[Vec<u8>], main: &[u8]| judged(&begun(templates, main), level.clone());

    let renewed = plain(&again(&named(0)));
    let no_first = |why| ("0: no first is later", vec![why], vec![]);
    assert_eq!(judged(&[renewed.clone()], &named(0)), no_first("first is the reading's time"));
    let found = judged(&[renewed], &and(&opening(5, 9).choice(&fulfilled()), &named(0))).2;
    assert!(found.contains(&"beside a unit replaced by its equal, by then"), "{found:?}");
    assert!(found.contains(&"some of several units, the first"), "{found:?}");

    let late = |wait: Wait| plain(&wait.choice(&again(&named(0))));
    assert_eq!(judged(&[late(opening(-5, 0))], &named(0)), no_first("first is earlier, the window past"));
    assert!(judged(&[late(opening(5, -6))], &named(0)).2.contains(&"the unit is late too: a choice"));
    let both = or(&named(0), &named(1));
    let templates = [plain(&opening(5, -6).obligation(0)), plain(&again(&both))];
    assert!(judged(&templates, &both).2.contains(&"the unit is late too: an obligation"));

    let all = and(&or(&named(0), &named(1)), &named(2));
    let templates = [plain(&opening(5, 9).obligation(0)), plain(&simple(60).obligation(0)), plain(&again(&all))];
    assert!(judged(&templates, &all).2.contains(&"the unit is dropped by a fulfilled `or`"));
    let dropped = or(&opening(5, 9).obligation(0), &simple(60).obligation(0));
    let choice = simple(-1).choice(&and(&dropped, &again(&named(0))));
    let expected = vec!["first is the reading's time", "only a unit of an else finds it early"];
    assert_eq!(judged(&[plain(&choice)], &named(0)), ("0: no first is later", expected, vec![]));
}

/// A preview, the answer to it, and the second table that it leaves.
fn previewed(bytes: &[u8], tables: (&[i64], &[i64]), taken: Vec<u8>) -> (Call, Taken, Vec<i64>) {
    let mut left = tables.1.to_vec();
    let answer = preview(bytes, tables.0, &taken, &mut left);
    let entry = Entry::Preview { table: tables.0.to_vec(), reading: taken, second: tables.1.to_vec() };
    (Call { agreement: bytes.into(), entry, aim: Aim::Agreement(Damage::OrOfSeveral) }, answer, left)
}

fn preview_answer(Taken { number, early, cost, forecast }: Taken, second: &[i64]) -> Answer {
    Answer::Preview { number, early, cost, forecast, second: second.to_vec() }
}

/// Whether faults are found in such an answer.
fn is_fault(call: &Call, taken: Taken, left: &[i64]) -> bool {
    let mut coverage = Coverage::new();
    coverage.observe(call, &preview_answer(taken, left));
    !coverage.faults.is_empty()
}

/// A monitor that answers otherwise than the reading on a copy gives such answers.
#[test]
fn a_preview_answered_wrong_is_a_fault() {
    let (bytes, table) = owed_twice();
    let second = vec![7; CELLS];
    let early = begun(&[], &opening(20, 40).obligation(0));
    let crowd = begun(&[], &Wait { then: balanced(65, &simple(60).obligation(0)), ..simple(60) }.obligation(0));
    let level = |time| build::reading(time, 1, &[0]);
    let cases = [
        previewed(&bytes, (&table, &second), build::reading(120, 0, &[])),
        previewed(&bytes, (&table, &second), build::reading(120, 1, &[])),
        previewed(&bytes, (&table, &second), build::reading(161, 0, &[])),
        previewed(&bytes, (&table, &second), build::reading(109, 0, &[])),
        previewed(&bytes, (&table, &second[1..]), build::reading(120, 0, &[])),
        previewed(&early.0, (&early.1, &second), level(110)),
        previewed(&crowd.0, (&crowd.1, &second), level(110)),
    ];
    let numbers = cases.each_ref().map(|(_, taken, _)| (taken.number, taken.early, taken.cost));
    assert_eq!(numbers, [(0, 0, 1), (0, 0, 2), (0, 0, 1), (10, 0, 0), (6, 0, 0), (0, 1, 1), (11, 0, 130)]);
    for (call, taken, left) in cases {
        assert!(!is_fault(&call, taken, &left), "{taken:?}");
        let told = if taken.forecast.is_none() { Some((160, 1)) } else { None };
        let wrong = [
            Taken { early: 1 - taken.early, ..taken },
            Taken { cost: taken.cost + 1, ..taken },
            Taken { cost: 130 - taken.cost, ..taken },
            Taken { forecast: told, ..taken },
            Taken { number: if taken.number == 0 { 10 } else { 9 }, ..taken },
        ];
        for wrong in wrong {
            assert!(is_fault(&call, wrong, &left), "{wrong:?} for {taken:?}");
        }
    }
}

/// A monitor that leaves something of what the second held, or writes on a refusal, leaves such seconds.
#[test]
fn a_second_written_wrong_is_a_fault() {
    let (bytes, table) = owed_twice();
    let mut breached = table.clone();
    assert_eq!(reading(&bytes, &mut breached, &build::reading(161, 0, &[])).number, 0);
    let second = vec![7; CELLS];
    for (first, taken) in [
        (&table, build::reading(120, 0, &[])),
        (&table, build::reading(120, 1, &[])),
        (&table, build::reading(161, 0, &[])),
        (&breached, build::reading(170, 0, &[])),
    ] {
        let (call, taken, left) = previewed(&bytes, (first, &second), taken);
        assert_eq!((taken.number, is_fault(&call, taken, &left)), (0, false));
        let kept_cells = [STATE, LAST, MOVED, HEAD, HEAD + UNIT, CELLS - 1].map(|cell| with(&left, &[(cell, 7)]));
        for wrong in kept_cells.iter().chain([&second, &vec![0; CELLS]]) {
            assert!(is_fault(&call, taken, wrong));
        }
    }
    for (first, taken) in [(&table, build::reading(109, 0, &[])), (&table[1..].to_vec(), build::reading(120, 0, &[]))] {
        let (call, taken, left) = previewed(&bytes, (first, &second), taken);
        assert_eq!((left, is_fault(&call, taken, &second)), (second.clone(), false));
        for wrong in [table.clone(), vec![0; CELLS], with(&second, &[(LAST, 109)]), with(&second, &[(CELLS - 1, 0)])] {
            assert!(is_fault(&call, taken, &wrong));
        }
    }
}

/// A monitor that asks for the second's length too soon or too late gives such numbers.
#[test]
fn a_second_s_length_asked_at_the_wrong_time_is_a_fault() {
    let (bytes, table) = owed_twice();
    let numbers = |bytes: &[u8], table: &[i64], second: &[i64], taken: Vec<u8>| {
        let (call, taken, left) = previewed(bytes, (table, second), taken);
        let right = |number: &u32| !is_fault(&call, Taken { number: *number, ..taken }, &left);
        (0..=11).filter(right).collect::<Vec<u32>>()
    };
    let mark = |time| build::reading(time, 0, &[]);
    let damaged = with(&table, &[(STATE, 9)]);
    for length in [0, CELLS - 1, CELLS + 1] {
        let second = vec![0; length];
        assert_eq!(numbers(&[], &table, &second, mark(120)), [1]);
        assert_eq!(numbers(&two_ors(2, 0, &fulfilled()), &table, &second, mark(120)), [3]);
        for (table, taken) in [(&table, mark(120)), (&damaged, mark(120)), (&table, Vec::new()), (&table, mark(109))] {
            assert_eq!(numbers(&bytes, table, &second, taken), [6]);
        }
        assert_eq!(numbers(&bytes, &second, &second, mark(120)), [6]);
    }
    assert_eq!(numbers(&bytes, &damaged, &table, Vec::new()), [7]);
}

/// What is found of a preview, all but its corners.
fn found_of(bytes: &[u8], tables: (&[i64], &[i64]), taken: Vec<u8>) -> Vec<String> {
    let (call, taken, left) = previewed(bytes, tables, taken);
    let answer = preview_answer(taken, &left);
    let previewed = Previewed::of(&call, &answer).expect("a preview");
    assert_eq!(previewed.fault(), None);
    let of_lengths = [previewed.lengths(), previewed.otherwise()];
    let of_answer = [previewed.case(), previewed.written_over(), previewed.kept()];
    of_lengths.into_iter().chain(of_answer).flatten().collect()
}

#[test]
fn what_previews_do_is_found() {
    let (bytes, table) = owed_twice();
    let mark = |time| build::reading(time, 0, &[]);
    let found = |tables: (&[i64], &[i64]), taken| found_of(&bytes, tables, taken);
    let (zeros, sevens) = (vec![0; CELLS], vec![7; CELLS]);
    let idle = "running to running: stayed, unaltered";
    assert_eq!(found((&table, &zeros), mark(120)), [idle, "running over: zeros"]);
    assert_eq!(found((&table, &sevens), mark(120)), [idle, "running over: no state"]);
    assert_eq!(found((&table, &table), mark(120)), [idle, "running over: the first table"]);
    assert_eq!(found((&table, &table), mark(110)), [idle, "running over: the outcome already"]);
    let other = with(&table, &[(LAST, 111)]);
    assert_eq!(found((&table, &other), mark(120)), [idle, "running over: another table of the agreement"]);
    let foreign = with(&table, &[(LAST, 99)]);
    assert_eq!(
        found((&table, &foreign), mark(120)),
        [idle, "running over: a table with a state, not of the agreement"]
    );
    let breach = ["running to breached: moved", "breached over: zeros"];
    assert_eq!(found((&table, &zeros), mark(161)), breach);
    assert_eq!(found((&table, &zeros), mark(109)), ["refused with 10: running", "kept on 10: zeros"]);
    assert_eq!(found((&table, &sevens), Vec::new()), ["refused with  8: running", "kept on  8: something"]);
    let short = ["first right, second too short", " 0", "kept on  6: something"];
    assert_eq!(found((&table, &sevens[1..]), mark(120)), short);
    let both = ["first empty, second empty", " 6", "kept on  6: zeros"];
    assert_eq!(found((&[], &[]), mark(120)), both);
    let first = ["first too short, second right", "kept on  6: zeros"];
    assert_eq!(found((&table[1..], &zeros), mark(120)), first);
    assert_eq!(found_of(&[], (&table, &sevens[1..]), mark(120)), [" 1", "kept on  1: something"]);
}

/// In which corners a preview is.
fn corners_of((bytes, table): &(Vec<u8>, Vec<i64>), second: &[i64], taken: Vec<u8>) -> Vec<&'static str> {
    let (call, taken, left) = previewed(bytes, (table, second), taken);
    Previewed::of(&call, &preview_answer(taken, &left)).expect("a preview").corners()
}

#[test]
fn corners_of_what_the_second_held_are_found() {
    let (bytes, table) = owed_twice();
    let twice = (bytes, table.clone());
    let mark = |time| build::reading(time, 0, &[]);
    let idle = ["running: a breach told", "a time mark"];
    assert_eq!(corners_of(&twice, &table, mark(120)), idle);
    let otherwise = [
        "nothing altered, the second's units or state otherwise before",
        "nothing altered, the second's cell 5 otherwise before",
    ];
    assert_eq!(corners_of(&twice, &vec![0; CELLS], mark(120)), [idle, otherwise].concat());
    let later = ["the second's last reading time is later"];
    assert_eq!(corners_of(&twice, &with(&table, &[(LAST, 130)]), mark(120)), [&idle[..], &later].concat());
    let held = with(&table, &[(STATE, BREACHED), (BLAMED, 1), (6, 1), (HEAD + UNIT, 1)]);
    let left = [
        "the second holds something beyond the outcome's units",
        "the second holds a verdict, the outcome none",
        "the second's head cells 6 and 7 are not zero",
        "the second's state is breached, the outcome's running",
    ];
    assert_eq!(corners_of(&twice, &held, mark(120)), [&idle[..], &otherwise[..1], &left].concat());
    let running = "the second's state is running, the outcome's breached";
    let breached = ["breached: the verdict told", "a time mark", left[0], running];
    assert_eq!(corners_of(&twice, &table, mark(161)), breached);
}

#[test]
fn corners_of_what_previews_answer_are_found() {
    let level = build::reading(100, 1, &[0]);
    let zeros = vec![0; CELLS];
    let early = begun(&[], &opening(20, 40).obligation(0));
    let found = corners_of(&early, &zeros, level.clone());
    assert_eq!(found[..2], ["early", "early, the second's units or state otherwise before"]);
    let again = "at the last reading time once more";
    let expected = ["early", "running: a breach told", "another reading", again];
    assert_eq!(corners_of(&early, &early.1, level.clone()), expected);
    let owed = begun(&[], &simple(60).obligation(0));
    let mut outcome = owed.1.clone();
    assert_eq!(reading(&owed.0, &mut outcome, &level).number, 0);
    let already = "altered, the second holds the outcome already";
    let expected = ["fulfilled: none told", "another reading", already];
    assert_eq!(corners_of(&owed, &outcome, level.clone()), expected);
    let free = begun(&[], &simple(60).choice(&fulfilled()));
    assert_eq!(corners_of(&free, &free.1, build::reading(110, 0, &[])), ["running: none told", "a time mark"]);
    let crowd = begun(&[], &Wait { then: balanced(65, &simple(60).obligation(0)), ..simple(60) }.obligation(0));
    assert_eq!(corners_of(&crowd, &zeros, level), ["11 with its cost"]);
}

/// How many faults are found if the cost of a reading is another by so much.
fn faults_by((bytes, table): &(Vec<u8>, Vec<i64>), taken: Vec<u8>, by: u64) -> usize {
    faults_in(bytes, table, taken, &|answer| match answer {
        Answer::Reading { number, early, cost, forecast, table } => {
            Answer::Reading { number, early, cost: cost.wrapping_add(by), forecast, table }
        }
        other => other,
    })
}

/// A monitor that counts wrong gives such answers: by one more or less, or by far too much.
#[test]
fn a_wrong_cost_is_a_fault() {
    const LESS: u64 = u64::MAX;
    let level = |time| build::reading(time, 1, &[0]);
    let main = and(&simple(5).choice(&or(&fulfilled(), &simple(60).obligation(0))), &opening(20, 40).obligation(0));
    let running = begun(&[], &main);
    for taken in [level(103), level(106), level(120), build::reading(110, 0, &[]), level(161)] {
        let found = [0, 1, LESS, 3 * 65_792, 1 << 32].map(|by| faults_by(&running, taken.clone(), by));
        assert_eq!(found, [0, 1, 1, 1, 1], "{taken:?}");
    }
    for refused in [Vec::new(), build::reading(110, 1, &[]), level(99)] {
        assert_eq!([0, 1].map(|by| faults_by(&running, refused.clone(), by)), [0, 1], "{refused:?}");
    }
    let too_many = begun(&[], &Wait { then: balanced(65, &simple(60).obligation(0)), ..simple(60) }.obligation(0));
    let no_cost = 0u64.wrapping_sub(1 + 129);
    assert_eq!([0, 1, no_cost].map(|by| faults_by(&too_many, level(110), by)), [0, 1, 1]);
    for head in [[FULFILLED, 110, 0, 0, 0, 110, 0, 0], [BREACHED, 110, 105, 1, 0, 110, 0, 0]] {
        let mut decided = (running.0.clone(), vec![0; CELLS]);
        decided.1[..HEAD].copy_from_slice(&head);
        assert_eq!([0, 1].map(|by| faults_by(&decided, level(115), by)), [0, 1]);
    }
}

/// A template of kind 4 for party 0.
fn with_units(units: u8, body: &[u8]) -> Vec<u8> {
    build::sized_template(&[], 0, 1, units, body)
}

fn agreement_of(templates: &[Vec<u8>], main: &[u8]) -> Vec<u8> {
    build::agreement(100, 1, &[reading_type(&[])], templates, main)
}

/// By kinds, units and needs, and the needs beside their limits.
#[test]
fn what_is_too_big_is_found() {
    let (owed, crowd) = (simple(60).obligation(0), balanced(65, &simple(60).obligation(0)));
    let of_kind_3 = [build::template(&[], 0, 1, &owed)];
    let found = |templates: &[Vec<u8>], main: &[u8]| {
        let bytes = agreement_of(templates, main);
        let sizes = Sizes::of(&bytes).expect("nothing else is wrong");
        assert_eq!(sizes.number(), check(&bytes).number);
        (sizes.case(), sizes.at_limits(), sizes.of_any_size(&bytes))
    };
    let nothing = |case: &str| (case.to_string(), Vec::<String>::new(), None);
    let limits =
        |case: &str, limits: &[&str]| (case.to_string(), limits.iter().map(|limit| limit.to_string()).collect(), None);
    assert_eq!(found(&[], &owed), nothing("no template: 0"));
    assert_eq!(found(&of_kind_3, &instance(0, &[], &[])), nothing("kind 3: 0"));
    assert_eq!(found(&[], &crowd).2, Some("no template: accepted, though its need is above 128"));
    assert_eq!(found(&of_kind_3, &crowd).2, Some("kind 3: accepted, though no units would do"));
    assert_eq!(found(&[with_units(2, &owed)], &owed), nothing("kind 4: 0"));
    assert_eq!(found(&[with_units(1, &owed)], &owed), limits("kind 4: 0", &["body: 17 by the 1, at its limit"]));
    let above = limits("kind 4, a body's need too big: 15", &["body: 17 by the 1, one above"]);
    assert_eq!(found(&[with_units(0, &owed)], &owed), above);
    let above = limits("kind 4, the main clause's need too big: 15", &["main clause: 20, one above"]);
    assert_eq!(found(&[with_units(2, &owed)], &crowd), above);
    let [three] = of_kind_3;
    let mixed = [three.clone(), with_units(0, &owed)];
    assert_eq!(found(&mixed, &owed), nothing("mixed, kind 3 first: 2"));
    assert_eq!(found(&[with_units(0, &owed), three], &owed), nothing("mixed, kind 4 first: 2"));
    assert_eq!(found(&[with_units(129, &owed)], &owed), nothing("units of 129: 2"));
    assert_eq!(found(&[with_units(130, &owed)], &owed), nothing("units of 130 or more: 2"));
    let untyped = Wait { within: build::truth(1), ..simple(60) }.obligation(0);
    assert_eq!(found(&[with_units(0, &owed)], &untyped), nothing("kind 4, a body's need too big: 3"));
    // Something else is wrong.
    assert!(Sizes::of(&agreement_of(&mixed, &build::record(23, &[]))).is_none());
    assert!(Sizes::of(&agreement_of(&[], &owed)[1..]).is_none());
}

#[test]
fn what_decides_a_need_is_found() {
    let (owed, both) = (simple(60).obligation(0), balanced(2, &simple(60).obligation(0)));
    let choice = |then: &[u8], otherwise: &[u8]| Wait { then: then.to_vec(), ..simple(60) }.choice(otherwise);
    let side = |left: &[u8], right: &[u8]| if_clause(&build::truth(0), left, right);
    let found = |units, body: &[u8]| {
        let bytes = agreement_of(&[with_units(0, &fulfilled()), with_units(units, body)], &fulfilled());
        Sizes::of(&bytes).expect("nothing else is wrong").at_limits()[1..].concat()
    };
    let cases = [
        (0, fulfilled(), "16"),
        (1, owed.clone(), "17 by the 1"),
        (3, Wait { then: both.clone(), ..simple(60) }.obligation(0), "17 by its then"),
        (1, choice(&fulfilled(), &fulfilled()), "18 by the 1"),
        (3, choice(&both, &owed), "18 by its then"),
        (3, choice(&owed, &both), "18 by its else"),
        (3, side(&both, &owed), "19 by its left side"),
        (3, side(&owed, &both), "19 by its right side"),
        (1, side(&owed, &owed), "19 by either side"),
        (3, both, "20"),
        (3, or(&owed, &owed), "21"),
        (0, instance(0, &[], &[]), "22"),
    ];
    for (units, body, decided_by) in cases {
        assert_eq!(found(units, &body), format!("body: {decided_by}, at its limit"));
        if units > 0 {
            assert_eq!(found(units - 1, &body), format!("body: {decided_by}, one above"));
        }
        assert_eq!(found(units + 1, &body), "");
    }
}

/// A monitor that asks for kinds, units or needs otherwise gives such numbers.
#[test]
fn a_size_asked_wrong_is_a_fault() {
    let (owed, crowd) = (simple(60).obligation(0), balanced(65, &simple(60).obligation(0)));
    let (of_kind_3, wide) = (build::template(&[], 0, 1, &owed), balanced(129, &fulfilled()));
    let right_numbers = |templates: &[Vec<u8>], main: &[u8]| {
        let bytes = agreement_of(templates, main);
        let sizes = Sizes::of(&bytes).expect("nothing else is wrong");
        (0..=15).filter(|number| sizes.fault(*number).is_none()).collect::<Vec<u32>>()
    };
    let neither_2_nor_15 = (0..15).filter(|number| *number != 2).collect::<Vec<u32>>();
    for templates in [vec![], vec![of_kind_3.clone()]] {
        assert_eq!(right_numbers(&templates, &crowd), neither_2_nor_15);
    }
    assert_eq!(right_numbers(&[with_units(1, &owed)], &owed), neither_2_nor_15);
    assert_eq!(right_numbers(&[with_units(0, &owed)], &wide), neither_2_nor_15);
    assert_eq!(right_numbers(&[with_units(0, &owed)], &owed), [15]);
    assert_eq!(right_numbers(&[with_units(1, &owed)], &crowd), [15]);
    assert_eq!(right_numbers(&[of_kind_3, with_units(1, &owed)], &owed), [2]);
    assert_eq!(right_numbers(&[with_units(129, &owed)], &owed), [2]);

    let faults_at = |units, number| {
        let bytes = agreement_of(&[with_units(units, &owed)], &owed);
        faults(&bytes, Entry::Check, Answer::Check(Checked { number, parties: 0 }))
    };
    assert_eq!([faults_at(1, 0), faults_at(0, 15), faults_at(129, 2)], [0; 3]);
    assert_eq!([faults_at(1, 15), faults_at(0, 5), faults_at(129, 15)], [1; 3]);
}

/// What a call of some aim makes of a sized agreement whose main clause needs 3, and whether that is impossible.
fn followed(aim: Aim, number: u32, used: i64) -> (Option<String>, bool) {
    let owed = simple(60).obligation(0);
    let bytes = agreement_of(&[with_units(1, &owed)], &and(&instance(0, &[], &[]), &owed));
    let entry = Entry::Reading { table: Vec::new(), reading: Vec::new() };
    let call = Call { agreement: bytes.as_slice().into(), entry, aim };
    let table = with(&vec![0; CELLS], &[(USED, used)]);
    let answer = Answer::Reading { number, early: 0, cost: 0, forecast: None, table };
    let sizes = Sizes::of(&bytes).expect("nothing is wrong");
    let followed = Followed::of(&call, &answer, &sizes).expect("a sized agreement");
    (followed.case(), followed.fault().is_some())
}

/// "no residue reached from a sized agreement's start passes the main clause's need, so 11 never occurs from there"
#[test]
fn a_run_beyond_its_need_is_a_fault() {
    let found = |case: &str| Some(format!("reading: {case}"));
    assert_eq!(followed(Aim::Run, 0, 1), (found("less than the need"), false));
    assert_eq!(followed(Aim::Run, 0, 3), (found("the whole need"), false));
    assert!(followed(Aim::Run, 0, 5).1 && followed(Aim::Run, 11, 1).1);
    assert_eq!(followed(Aim::Run, 10, 1), (None, false));
    assert_eq!(followed(Aim::Made, 0, 5), (None, false));
    assert_eq!(followed(Aim::Made, 11, 3), (found("11 on a table that no run left"), false));
}

#[test]
fn fifteen_before_a_wrong_length_is_found() {
    let (right, short) = (vec![0; CELLS], vec![0; CELLS - 1]);
    let found = |entry: Entry, number| sized::before_6(&Call { agreement: [].into(), entry, aim: Aim::Run }, number);
    let read = |table: &[i64]| Entry::Reading { table: table.to_vec(), reading: Vec::new() };
    let previewed = |table: &[i64], second: &[i64]| Entry::Preview {
        table: table.to_vec(),
        reading: Vec::new(),
        second: second.to_vec(),
    };
    assert_eq!([found(Entry::Check, 15), found(read(&right), 15), found(read(&short), 6)], [None; 3]);
    assert_eq!(found(Entry::Start { table: short.clone() }, 15), Some("start"));
    assert_eq!(found(read(&short), 15), Some("reading"));
    assert_eq!(found(previewed(&right, &right), 15), None);
    assert_eq!(found(previewed(&short, &right), 15), Some("preview, its first table"));
    assert_eq!(found(previewed(&right, &short), 15), Some("preview, its second table"));
    assert_eq!(found(previewed(&short, &short), 15), Some("preview, both tables"));
}

/// The need that goes with an accepted agreement, worked out once more from its bytes.
#[test]
fn needs_worked_out_twice_are_the_same() {
    let mut random = Random::new(13);
    let mut compared = 0;
    for _ in 0..2_000 {
        let bytes = agreements::agreement(&mut random);
        let agreement = parse(&bytes).expect("an accepted agreement");
        let need = accept(&agreement).expect("an accepted agreement").need;
        let sizes = Sizes::of(&bytes).expect("an accepted agreement");
        assert_eq!(need, sizes.is_sized().then(|| sizes.main_need()));
        compared += usize::from(need.is_some());
    }
    assert!(compared > 300, "{compared}");
}

/// So many leaves joined by `and` in balance.
fn balanced(leaves: usize, leaf: &[u8]) -> Vec<u8> {
    match leaves {
        1 => leaf.to_vec(),
        _ => and(&balanced(leaves / 2, leaf), &balanced(leaves - leaves / 2, leaf)),
    }
}

/// How large the cost of a level at 100 is, what is activated, and in which corners.
fn costed((bytes, table): &(Vec<u8>, Vec<i64>)) -> (&'static str, Vec<String>, Vec<String>) {
    let agreement = parse(bytes).expect("an agreement");
    let accepted = accept(&agreement).expect("an accepted agreement");
    let mut after = table.clone();
    let taken = build::reading(100, 1, &[0]);
    let answer = reading(bytes, &mut after, &taken);
    let parsed = reference::reading::parse(&taken).expect("a record");
    let effect = Effect { before: table, after: &after, reading: &parsed };
    let costed = Costed::new(&accepted, &effect, answer.number, answer.early, answer.cost);
    assert_eq!(costed.fault(), None);
    let activated = costed.activated().map(activation_name).collect();
    let mut corners: Vec<String> = costed.corners().into_iter().map(corner_name).collect();
    corners.sort();
    (costed.case(), activated, corners)
}

#[test]
fn what_a_reading_activates_is_found() {
    let owed = simple(60).obligation(0);
    let activated = |main: &[u8]| costed(&begun(&[build::template(&[], 0, 1, &owed)], main)).1;
    assert_eq!(activated(&opening(5, 60).obligation(0)), Vec::<String>::new());
    let then = if_clause(&build::truth(1), &and(&instance(0, &[], &[]), &fulfilled()), &owed);
    let kinds = ["16 by a then", "17 by a then", "19 by a then", "20 by a then", "22 by a then"];
    assert_eq!(activated(&Wait { then: then.clone(), ..simple(60) }.obligation(0)), kinds);
    let inner = simple(-1).choice(&Wait { then, ..simple(60) }.obligation(0));
    let found = activated(&simple(-1).choice(&inner));
    let in_else = ["16", "17", "19", "20", "22"].map(|kind| format!("{kind} by a then in an else"));
    let others = ["17 by an else in an else", "18 by an else"].map(str::to_string);
    let mut expected = [in_else.to_vec(), others.to_vec()].concat();
    expected.sort();
    assert_eq!(found, expected);
}

#[test]
fn corners_of_the_cost_are_found() {
    let owed = simple(60).obligation(0);
    let goes_on = Wait { then: owed.clone(), ..simple(60) }.obligation(0);
    let doomed = simple(-1).choice(&simple(-1).obligation(0));
    let of_else = |otherwise: &[u8]| costed(&begun(&[], &simple(-1).choice(otherwise))).2;
    let alone = costed(&begun(&[], &opening(5, 60).obligation(0)));
    assert_eq!((alone.0, alone.2), ("1", vec!["nothing activated: one unit".to_string()]));
    let settled = [
        "activated: and fulfilled",
        "an `or` settled in an else drops what would take the reading: its right side",
        "an `or` settled in an else drops: its right side",
        "an else is settled: when activated",
    ];
    assert_eq!(of_else(&or(&fulfilled(), &owed)), settled);
    let later = opening(5, 60).obligation(0);
    let without_more = [settled[0], "an `or` settled in an else drops: its left side", settled[3]];
    assert_eq!(of_else(&or(&later, &fulfilled())), without_more);
    let dropped = ["a fulfilled `or` of an else drops: its left side", "a wait of an else: then", settled[0]];
    assert_eq!(of_else(&or(&goes_on, &owed)), dropped);
    let found = of_else(&or(&doomed, &goes_on));
    assert!(found.contains(&"an `or` of an else drops, as breached: its left side".to_string()), "{found:?}");
    let found = of_else(&and(&goes_on, &doomed));
    assert!(found.contains(&"a breached `and` of an else drops: its left side".to_string()), "{found:?}");
    let found = costed(&begun(&[], &or(&owed, &goes_on))).2;
    assert!(found.contains(&"a fulfilled `or` of the table drops: its right side".to_string()), "{found:?}");
    let crowd = Wait { then: balanced(65, &owed), ..simple(60) }.obligation(0);
    let (case, _, corners) = costed(&begun(&[], &crowd));
    assert_eq!((case, corners), ("refused with 11: below 1,000", vec!["refused with 11: by a then".to_string()]));
}

#[test]
fn a_seed_gives_the_same_calls() {
    let told = |seed| calls(seed).take(200).map(|call| format!("{call:?}")).collect::<Vec<_>>();
    assert!(told(5) == told(5));
    assert!(told(5) != told(6));
}

#[test]
fn agreements_made_valid_are_accepted() {
    let mut random = Random::new(11);
    for n in 0..2_000 {
        let bytes = agreements::agreement(&mut random);
        assert_eq!(check(&bytes).number, 0, "agreement {n}");
    }
}

#[test]
fn a_table_read_and_written_is_the_same() {
    let mut random = Random::new(12);
    for _ in 0..500 {
        let bytes = agreements::agreement(&mut random);
        let mut table = vec![0; CELLS];
        if start(&bytes, &mut table).number == 0 {
            let agreement = parse(&bytes).expect("an accepted agreement");
            let accepted = accept(&agreement).expect("an accepted agreement");
            let mut again = vec![-1; CELLS];
            table::read(&accepted, &table).expect("a well-typed table").write(&mut again);
            assert_eq!(table, again);
        }
    }
}

#[test]
fn the_program_ends_well_on_generated_inputs() {
    for seed in 0..60 {
        let text = watch(&input(seed));
        for (number, line) in text.lines().enumerate() {
            assert!(line.starts_with(&format!("{number} ")), "seed {seed}: {line}");
        }
    }
}
