//! Paper 02, No. 9: "Count one for each unit of the table read, which is every unit in use, and one for each clause
//! activated, in the sense of 01's activating; an else that follows the same reading is not counted again for that.
//! Sides that are later dropped count. On a fulfilled or breached table, and on a refusal other than 11, the count is
//! 0; on 11 it is the refused reading's, and not zero".
//!
//! The figures are worked out by hand and written as sums: first the units in use, then the clauses that each `then`
//! or else activates.

use reference::agreement::{Operator, Type};
use reference::build::*;
use reference::table::{BREACHED, FULFILLED, LAST, RUNNING, STATE, USED};
use reference::{reading, Taken};

#[path = "common/run.rs"]
mod run;
use run::{Run, BELL, LEVEL, START};

impl Run {
    /// The cost of an accepted reading.
    fn cost(&mut self, time: u32, kind: u8, values: &[i32]) -> u64 {
        let taken = self.take(&reference::build::reading(time, kind, values));
        assert_eq!(taken.number, 0, "reading at {time}");
        taken.cost
    }

    fn mark(&mut self, time: u32) -> u64 {
        self.cost(time, 0, &[])
    }

    fn level(&mut self, time: u32, value: i32) -> u64 {
        self.cost(time, LEVEL, &[value])
    }

    fn bell(&mut self, time: u32) -> u64 {
        self.cost(time, BELL, &[])
    }

    fn state(&self) -> i64 {
        self.table[STATE]
    }

    fn units(&self) -> i64 {
        self.table[USED]
    }
}

/// Party 0 owes a level from now on for 60 minutes, then `then`.
fn owed_then(then: Vec<u8>) -> Vec<u8> {
    Wait { then, ..simple(60) }.obligation(0)
}

fn owed() -> Vec<u8> {
    owed_then(fulfilled())
}

/// Party 0 owes a bell for so long.
fn bell_owed(within: i32) -> Vec<u8> {
    Wait { reading: BELL, ..simple(within) }.obligation(0)
}

/// Waits for a bell until minute 105, if activated at the start; then its else.
fn bell_or_else(otherwise: &[u8]) -> Vec<u8> {
    Wait { reading: BELL, ..simple(5) }.choice(otherwise)
}

/// Three clauses, none of which waits: an `and` and twice fulfilled.
fn three() -> Vec<u8> {
    and(&fulfilled(), &fulfilled())
}

fn named(template: u8) -> Vec<u8> {
    instance(template, &[], &[])
}

/// A template without values or parameters.
fn plain(body: &[u8]) -> Vec<u8> {
    template(&[], 0, 1, body)
}

/// So many leaves joined by `and` in balance: twice as many clauses less one.
fn balanced(leaves: usize, leaf: &[u8]) -> Vec<u8> {
    match leaves {
        1 => leaf.to_vec(),
        _ => and(&balanced(leaves / 2, leaf), &balanced(leaves - leaves / 2, leaf)),
    }
}

/// How two clauses are joined.
type Join = fn(&[u8], &[u8]) -> Vec<u8>;

const JOINS: [Join; 2] = [and, or];

/// The cost of a level at 110 that an obligation takes, the only unit, less the one for this unit.
fn by_then(templates: &[Vec<u8>], then: Vec<u8>) -> u64 {
    Run::with(templates, &owed_then(then)).level(110, 0) - 1
}

/// The cost of a mark that finds a choice late, the only unit, less the one for this unit.
fn by_else(templates: &[Vec<u8>], otherwise: &[u8]) -> u64 {
    Run::with(templates, &bell_or_else(otherwise)).mark(106) - 1
}

/// What activating a clause counts, as the `then` of an obligation and as the else of a choice.
fn activating(templates: &[Vec<u8>], clause: &[u8]) -> [u64; 2] {
    [by_then(templates, clause.to_vec()), by_else(templates, clause)]
}

/// "Count one for each unit of the table read": the only unit, whatever the reading is to it.
#[test]
fn a_unit_that_waits_on_counts_one() {
    let high = not(&binary(Operator::Less, &value(0), &number(250)));
    let mut run = Run::of(&Wait { condition: high, after: number(10), then: three(), ..simple(60) }.obligation(0));
    assert_eq!(run.mark(100), 1);
    assert_eq!(run.bell(105), 1);
    assert_eq!(run.level(109, 250), 1);
    assert_eq!(run.level(110, 249), 1);
    assert_eq!((run.state(), run.table[LAST]), (RUNNING, 110));
}

/// "which is every unit in use": the units of the joins too. So many waiting units have a join less than their number.
#[test]
fn every_unit_in_use_counts_one() {
    for join in JOINS {
        assert_eq!(Run::of(&join(&owed(), &owed())).mark(110), 3);
        assert_eq!(Run::of(&join(&owed(), &join(&owed(), &owed()))).mark(110), 5);
        assert_eq!(Run::of(&join(&join(&owed(), &owed()), &bell_owed(60))).mark(110), 5);
    }
    for leaves in [1, 2, 3, 8, 33, 64] {
        let mut run = Run::of(&balanced(leaves, &owed()));
        assert_eq!(run.mark(110), 2 * leaves as u64 - 1);
        assert_eq!(run.units(), 2 * leaves as i64 - 1);
    }
}

/// A breach activates nothing.
#[test]
fn a_breached_unit_counts_one() {
    let mut run = Run::of(&owed_then(three()));
    assert_eq!(run.mark(161), 1);
    assert_eq!(run.state(), BREACHED);
    let mut run = Run::of(&and(&owed_then(three()), &owed()));
    assert_eq!(run.level(161, 0), 3);
    assert_eq!(run.state(), BREACHED);
}

/// The unit and the fulfilled clause that its `then` is.
#[test]
fn fulfilled_counts_one() {
    assert_eq!(activating(&[], &fulfilled()), [1, 1]);
    let mut run = Run::of(&owed());
    assert_eq!(run.level(110, 0), 1 + 1);
    assert_eq!(run.state(), FULFILLED);
}

/// "an obligation or choice waits": its `then` and its else, here of three clauses each, are not activated with it.
#[test]
fn an_obligation_or_choice_counts_one() {
    assert_eq!(activating(&[], &owed_then(three())), [1, 1]);
    let choice = Wait { then: three(), ..simple(60) }.choice(&three());
    assert_eq!(activating(&[], &choice), [1, 1]);
}

/// "An if picks its side": itself and the side that it picks. The sides count three and one.
#[test]
fn an_if_counts_one_and_its_side() {
    assert_eq!(activating(&[], &if_clause(&truth(1), &three(), &fulfilled())), [1 + 3, 1 + 3]);
    assert_eq!(activating(&[], &if_clause(&truth(0), &three(), &fulfilled())), [1 + 1, 1 + 1]);
    let inner = if_clause(&truth(0), &three(), &owed());
    assert_eq!(activating(&[], &if_clause(&truth(1), &inner, &three())), [1 + 1 + 1, 1 + 1 + 1]);
}

/// The reading's number, value 0, picks the side.
#[test]
fn an_if_is_decided_when_it_is_activated() {
    let low = binary(Operator::Less, &value(0), &number(250));
    let run = Run::of(&owed_then(if_clause(&low, &three(), &owed())));
    assert_eq!(run.clone().level(110, 249), 1 + (1 + 3));
    assert_eq!(run.clone().level(110, 250), 1 + (1 + 1));
}

/// Itself and both of its sides; "Fulfilled beside `and` vanishes", and is activated all the same.
#[test]
fn an_and_counts_one_and_both_sides() {
    for (left, right) in [(owed(), owed()), (fulfilled(), owed()), (owed(), fulfilled()), (fulfilled(), fulfilled())] {
        assert_eq!(activating(&[], &and(&left, &right)), [1 + 1 + 1, 1 + 1 + 1]);
    }
    assert_eq!(activating(&[], &and(&three(), &and(&owed(), &three()))), [1 + 3 + (1 + 1 + 3), 9]);
}

/// Itself and both of its sides; "fulfilled on either side of `or` fulfils it", and the other side is activated all
/// the same: "Sides that are later dropped count."
#[test]
fn an_or_counts_one_and_both_sides() {
    for (left, right) in [(owed(), owed()), (fulfilled(), owed()), (owed(), fulfilled()), (fulfilled(), fulfilled())] {
        assert_eq!(activating(&[], &or(&left, &right)), [1 + 1 + 1, 1 + 1 + 1]);
    }
    let both = and(&owed(), &owed());
    assert_eq!(activating(&[], &or(&fulfilled(), &both)), [1 + 1 + 3, 1 + 1 + 3]);
    assert_eq!(activating(&[], &or(&both, &fulfilled())), [1 + 3 + 1, 1 + 3 + 1]);
}

/// "Activating an instance activates the template's body with the values given": itself and the body's clauses.
#[test]
fn an_instance_counts_one_and_its_body() {
    let templates = [plain(&owed()), plain(&named(0)), plain(&and(&named(1), &three()))];
    assert_eq!(activating(&templates, &named(0)), [1 + 1, 1 + 1]);
    assert_eq!(activating(&templates, &named(1)), [1 + (1 + 1), 3]);
    // Instance 2, the `and`, instance 1, instance 0, the obligation, and three.
    assert_eq!(activating(&templates, &named(2)), [1 + (1 + 3 + 3), 8]);
}

/// "Kinds 16 to 22 are clauses and 32 to 43 expressions": values, conditions and windows count nothing.
#[test]
fn expressions_are_no_clauses() {
    let sum = binary(Operator::Plus, &number(2), &binary(Operator::Times, &number(3), &number(4)));
    let body = Wait { after: sum.clone(), within: sum.clone(), ..simple(0) }.obligation(128);
    let templates = [template(&[Type::Number, Type::Number], 1, 0, &body)];
    assert_eq!(activating(&templates, &instance(0, &[sum.clone(), sum], &[1])), [1 + 1, 1 + 1]);
    assert_eq!(activating(&[], &if_clause(&not(&not(&truth(1))), &fulfilled(), &owed())), [1 + 1, 1 + 1]);
}

/// "It does not see this reading again": the second obligation takes the second level.
#[test]
fn a_then_does_not_follow() {
    let mut run = Run::of(&owed_then(owed_then(three())));
    assert_eq!(run.level(110, 0), 1 + 1);
    assert_eq!(run.level(110, 0), 1 + 3);
    assert_eq!(run.state(), FULFILLED);
}

/// Both sides take the level, one of them with three clauses in its `then`.
#[test]
fn both_sides_of_a_join_count() {
    for join in JOINS {
        assert_eq!(Run::of(&join(&owed_then(three()), &owed())).level(110, 0), 3 + 3 + 1);
        assert_eq!(Run::of(&join(&owed(), &owed_then(three()))).level(110, 0), 3 + 1 + 3);
        // One side waits on.
        assert_eq!(Run::of(&join(&bell_owed(60), &owed_then(three()))).level(110, 0), 3 + 3);
    }
}

/// Three choices and an obligation, each the else of the one before, ten minutes each: to 110, 120, 130, 140. Every
/// one is fulfilled by a level.
fn chain() -> Run {
    let last = simple(10).obligation(0);
    Run::of(&simple(10).choice(&simple(10).choice(&simple(10).choice(&last))))
}

/// The unit, and each else that a mark comes to. The obligation is breached after 140, which activates nothing.
#[test]
fn a_chain_of_elses_counts_each_else_once() {
    assert_eq!(chain().mark(110), 1);
    assert_eq!(chain().mark(111), 1 + 1);
    assert_eq!(chain().mark(120), 1 + 1);
    assert_eq!(chain().mark(121), 1 + 1 + 1);
    assert_eq!(chain().mark(131), 1 + 1 + 1 + 1);
    assert_eq!(chain().mark(141), 1 + 1 + 1 + 1);
    let mut run = chain();
    assert_eq!([111, 115, 131, 141].map(|time| run.mark(time)), [1 + 1, 1, 1 + 1 + 1, 1]);
    assert_eq!(run.state(), BREACHED);
}

/// The same, and the last else takes the level: its `then` is one clause more.
#[test]
fn a_chain_of_elses_counts_the_then_that_ends_it() {
    for (time, elses) in [(110, 0), (111, 1), (120, 1), (121, 2), (130, 2), (131, 3), (140, 3)] {
        let mut run = chain();
        assert_eq!(run.level(time, 0), 1 + elses + 1, "level at {time}");
        assert_eq!(run.state(), FULFILLED);
    }
}

/// "an else that follows the same reading is not counted again for that": the else is an `and` of two waits, three
/// clauses; both waits follow the level, and one takes it: three more.
#[test]
fn an_else_that_follows_is_not_counted_again() {
    let otherwise = and(&owed_then(three()), &bell_owed(60));
    let run = Run::of(&bell_or_else(&otherwise));
    assert_eq!(run.clone().mark(106), 1 + 3);
    assert_eq!(run.clone().level(106, 0), 1 + 3 + 3);
    // Afterwards they are units of the table: three, or the bell alone.
    let mut after_mark = run.clone();
    after_mark.mark(106);
    assert_eq!(after_mark.clone().mark(107), 3);
    assert_eq!(after_mark.level(107, 0), 3 + 3);
    let mut after_level = run;
    after_level.level(106, 0);
    assert_eq!(after_level.mark(107), 1);
}

/// The else is an `and` of a choice that is late at once and of an obligation: three clauses. The choice's else is an
/// obligation, one clause. Both obligations take the level: three clauses and one.
#[test]
fn an_else_in_an_else_and_the_thens_of_both() {
    let inner = simple(-1).choice(&owed_then(three()));
    let run = Run::of(&bell_or_else(&and(&inner, &owed())));
    assert_eq!(run.clone().level(106, 0), 1 + 3 + 1 + (3 + 1));
    assert_eq!(run.clone().mark(106), 1 + 3 + 1);
}

/// A `then` in an else is activated and waits: its own choice, late at once, is not followed.
#[test]
fn a_then_in_an_else_does_not_follow() {
    let then = and(&simple(-1).choice(&three()), &owed_then(three()));
    let mut run = Run::of(&bell_or_else(&owed_then(then)));
    // The else, one; the `and`, the choice and the obligation.
    assert_eq!(run.level(106, 0), 1 + 1 + 3);
    assert_eq!(run.units(), 3);
    // The units; the choice's else and the obligation's `then`.
    assert_eq!(run.level(106, 0), 3 + 3 + 3);
}

/// The window is late before it opens: rule 1 comes first.
#[test]
fn a_window_early_and_late_is_late() {
    let never = Wait { after: number(50), then: three(), ..simple(-60) };
    assert_eq!(Run::of(&never.choice(&owed_then(three()))).level(100, 0), 1 + 1 + 3);
    assert_eq!(Run::of(&never.obligation(0)).level(100, 0), 1);
}

/// "`or`: fulfilled beats all": one side is fulfilled by the level, the other has activated an `and` and two waits.
#[test]
fn a_side_dropped_by_a_fulfilled_or_counts() {
    let dropped = owed_then(and(&owed(), &owed()));
    for (main, activated) in [(or(&dropped, &owed()), 3 + 1), (or(&owed(), &dropped), 1 + 3)] {
        let mut run = Run::of(&main);
        assert_eq!(run.level(110, 0), 3 + activated);
        assert_eq!(run.state(), FULFILLED);
    }
}

/// "`and`: one breach decides": one side is breached at 105, the other has activated an `and` and two waits.
#[test]
fn a_side_dropped_by_a_breach_counts() {
    let dropped = owed_then(and(&owed(), &owed()));
    for main in [and(&dropped, &bell_owed(5)), and(&bell_owed(5), &dropped)] {
        let mut run = Run::of(&main);
        assert_eq!(run.level(106, 0), 3 + 3);
        assert_eq!(run.state(), BREACHED);
    }
}

/// "a breach leaves the other side": the breached side is late, and its else, one clause, is breached too.
#[test]
fn a_breached_side_of_an_or_counts() {
    let breached = bell_or_else(&bell_owed(0));
    for main in [or(&breached, &owed()), or(&owed(), &breached)] {
        let mut run = Run::of(&main);
        assert_eq!(run.mark(106), 3 + 1);
        assert_eq!((run.state(), run.units()), (RUNNING, 1));
        let mut run = Run::of(&main);
        assert_eq!(run.level(106, 0), 3 + 1 + 1);
        assert_eq!(run.state(), FULFILLED);
    }
}

/// In an else: the `or` and its two waits, three clauses; both take the level, the right one is fulfilled and the left
/// one with its `and` and two waits is dropped.
#[test]
fn a_side_dropped_in_an_else_counts() {
    let otherwise = or(&owed_then(and(&owed(), &owed())), &owed());
    let mut run = Run::of(&bell_or_else(&otherwise));
    assert_eq!(run.level(106, 0), 1 + 3 + (3 + 1));
    assert_eq!(run.state(), FULFILLED);
}

/// The else is activated as a whole first: the `or`, fulfilled and the wait are three clauses, and the `or` is
/// fulfilled. No wait is left to follow the level, so that no `then` is activated, and no else.
#[test]
fn an_or_settled_in_an_else_does_not_follow() {
    let would_take = owed_then(three());
    let would_be_late = simple(-1).choice(&three());
    for dropped in [would_take, would_be_late] {
        for otherwise in [or(&fulfilled(), &dropped), or(&dropped, &fulfilled())] {
            let mut run = Run::of(&bell_or_else(&otherwise));
            assert_eq!(run.level(106, 0), 1 + 3);
            assert_eq!(run.state(), FULFILLED);
        }
    }
}

/// A side that comes to fulfilled settles the `or` too: by an if, by an instance, by an `and` of fulfilled.
#[test]
fn an_or_settled_by_what_a_side_comes_to() {
    let picked = if_clause(&truth(1), &fulfilled(), &owed());
    let templates = [plain(&fulfilled())];
    for (side, clauses) in [(picked, 2), (named(0), 2), (three(), 3), (or(&owed(), &fulfilled()), 3)] {
        for otherwise in [or(&side, &owed_then(three())), or(&owed_then(three()), &side)] {
            let mut run = Run::with(&templates, &bell_or_else(&otherwise));
            assert_eq!(run.level(106, 0), 1 + (1 + clauses + 1));
            assert_eq!(run.state(), FULFILLED);
        }
    }
}

/// The else is an `and` of a settled `or`, three clauses, and of a wait, five in all. The wait beside the `or` follows
/// and takes the level, with one clause or three; the wait in the `or` does not.
#[test]
fn beside_an_or_settled_in_an_else() {
    let settled = or(&fulfilled(), &owed_then(three()));
    let both = Run::of(&bell_or_else(&and(&settled, &owed())));
    assert_eq!(both.clone().level(106, 0), 1 + 5 + 1);
    assert_eq!(both.clone().mark(106), 1 + 5);
    let both = Run::of(&bell_or_else(&and(&owed_then(three()), &settled)));
    assert_eq!(both.clone().level(106, 0), 1 + 5 + 3);
}

/// An `or` of which no side is fulfilled when activated: both follow.
#[test]
fn an_or_not_settled_in_an_else_follows() {
    let mut run = Run::of(&bell_or_else(&or(&bell_owed(60), &owed_then(three()))));
    assert_eq!(run.level(106, 0), 1 + 3 + 3);
    assert_eq!(run.state(), FULFILLED);
}

/// Fulfilled vanishes beside `and` in an else, and the other side follows.
#[test]
fn fulfilled_beside_and_in_an_else() {
    for otherwise in [and(&fulfilled(), &owed_then(three())), and(&owed_then(three()), &fulfilled())] {
        let mut run = Run::of(&bell_or_else(&otherwise));
        assert_eq!(run.level(106, 0), 1 + 3 + 3);
        assert_eq!(run.state(), FULFILLED);
    }
}

/// An if in an else activates and follows with one side only.
#[test]
fn an_if_in_an_else() {
    let sides = (owed_then(three()), owed());
    let cost = |picks| Run::of(&bell_or_else(&if_clause(&truth(picks), &sides.0, &sides.1))).level(106, 0);
    assert_eq!(cost(1), 1 + (1 + 1) + 3);
    assert_eq!(cost(0), 1 + (1 + 1) + 1);
}

/// Of several choices in the table each brings its own else: the units, then the obligation and its `then` of each.
#[test]
fn several_elses_at_once() {
    for leaves in [2, 5, 64] {
        let mut run = Run::of(&balanced(leaves, &bell_or_else(&owed())));
        assert_eq!(run.level(106, 0), (2 * leaves as u64 - 1) + leaves as u64 * (1 + 1));
        assert_eq!(run.state(), FULFILLED);
    }
}

/// The unit is replaced by its equal, so that no cell alters: the instance and the obligation are activated all the
/// same. A unit beside it finds the reading early, and is read.
#[test]
fn a_reading_that_alters_nothing_has_its_cost() {
    let mut run = Run::with(&[plain(&owed_then(named(0)))], &named(0));
    let before = run.table.clone();
    assert_eq!(run.level(100, 0), 1 + 2);
    assert_eq!(run.table, before);
    let to_open = Wait { after: number(20), ..simple(40) }.obligation(0);
    let mut run = Run::with(&[plain(&owed_then(named(0)))], &and(&to_open, &named(0)));
    let level = reference::build::reading(100, LEVEL, &[0]);
    assert_eq!(run.take(&level), Taken { number: 0, early: 1, cost: 3 + 2, forecast: Some((160, 1)) });
}

/// P15's agreement: "template 0 is an obligation then (template 0 and template 0)".
fn doubling() -> Run {
    Run::with(&[plain(&owed_then(and(&named(0), &named(0))))], &named(0))
}

/// A refusal with 11.
fn too_many(cost: u64) -> Taken {
    Taken { number: 11, early: 0, cost, forecast: None }
}

/// Each waiting unit activates an `and`, two instances and their two obligations: five clauses. Before reading n there
/// are w waiting units, w being 2 to the n − 1, and w − 1 joins: the cost is (2 w − 1) + 5 w.
#[test]
fn p15_and_its_costs() {
    let mut run = doubling();
    let expected = [1 + 5, 3 + 10, 7 + 20, 15 + 40, 31 + 80, 63 + 160];
    assert_eq!(expected, [6, 13, 27, 55, 111, 223]);
    for cost in expected {
        assert_eq!(run.level(110, 0), cost);
    }
    assert_eq!(run.units(), 127);
    // "on 11 it is the refused reading's, and not zero": 64 waiting units. The table is as before, and so is the cost.
    let before = run.table.clone();
    let seventh = reference::build::reading(120, LEVEL, &[0]);
    for _ in 0..2 {
        assert_eq!(run.take(&seventh), too_many(127 + 320));
        assert_eq!(run.table, before);
    }
    // A mark reads the units; the breach activates nothing.
    assert_eq!(run.mark(120), 127);
    assert_eq!(run.mark(171), 127);
    assert_eq!(run.state(), BREACHED);
}

/// The residue needs more units and more; the count goes on to the end. 65 waits with 64 joins are 129 units.
#[test]
fn refusal_11_by_a_then_counts_all() {
    for leaves in [65, 100, 128] {
        let mut run = Run::of(&owed_then(balanced(leaves, &owed())));
        let taken = run.take(&reference::build::reading(110, LEVEL, &[0]));
        assert_eq!(taken, too_many(1 + 2 * leaves as u64 - 1));
    }
    assert_eq!(Run::of(&owed_then(balanced(64, &owed()))).level(110, 0), 1 + 127);
}

/// The else is 65 waits and 64 joins. By a mark they are too many units. By a level each activates fulfilled, which
/// leaves nothing.
#[test]
fn refusal_11_by_an_else_counts_all() {
    let run = Run::of(&bell_or_else(&balanced(65, &owed())));
    let mark = reference::build::reading(106, 0, &[]);
    assert_eq!(run.clone().take(&mark), too_many(1 + 129));
    assert_eq!(run.clone().level(106, 0), 1 + 129 + 65);
}

/// Beside the 129 units that remain, an `or` of the table is fulfilled and drops what it activated: three and one.
#[test]
fn refusal_11_counts_dropped_sides() {
    let dropping = or(&owed_then(and(&owed(), &owed())), &owed());
    let mut run = Run::of(&and(&dropping, &owed_then(balanced(65, &owed()))));
    let taken = run.take(&reference::build::reading(110, LEVEL, &[0]));
    assert_eq!(taken, too_many(5 + (3 + 1) + 129));
    // Where the 129 units are dropped it is no refusal: "a side that an `or` drops costs nothing" speaks of units.
    let mut run = Run::of(&or(&owed(), &owed_then(balanced(65, &owed()))));
    assert_eq!(run.level(110, 0), 3 + 1 + 129);
    assert_eq!(run.state(), FULFILLED);
}

/// "On a fulfilled or breached table ... the count is 0".
#[test]
fn on_a_decided_table_the_count_is_0() {
    let mut fulfilled_by_reading = Run::of(&owed());
    assert_eq!(fulfilled_by_reading.level(110, 0), 1 + 1);
    let mut breached = Run::of(&owed());
    assert_eq!(breached.mark(161), 1);
    assert_eq!(breached.state(), BREACHED);
    for mut run in [fulfilled_by_reading, breached, Run::of(&fulfilled())] {
        assert_ne!(run.state(), RUNNING);
        for time in [161, 170] {
            assert_eq!([run.mark(time), run.level(time, 0), run.bell(time)], [0; 3]);
        }
    }
}

fn refused(number: u32) -> Taken {
    Taken { number, early: 0, cost: 0, forecast: None }
}

/// "on a refusal other than 11, the count is 0": a table of each state.
#[test]
fn refusals_8_9_and_10_cost_0() {
    let mut running = Run::of(&and(&owed(), &bell_owed(20)));
    assert_eq!(running.mark(110), 3);
    let (mut done, mut breached) = (running.clone(), running.clone());
    // Three units and fulfilled; the bell's unit and fulfilled.
    assert_eq!([done.level(110, 0), done.bell(110)], [3 + 1, 1 + 1]);
    assert_eq!(breached.mark(121), 3);
    assert_eq!([done.state(), breached.state()], [FULFILLED, BREACHED]);
    for mut run in [running, done, breached] {
        let before = run.table.clone();
        let level = reference::build::reading(130, LEVEL, &[0]);
        assert_eq!(run.take(&level[..12]), refused(8));
        assert_eq!(run.take(&record(65, &[&level[4..]])), refused(8));
        assert_eq!(run.take(&reference::build::reading(130, LEVEL, &[])), refused(9));
        assert_eq!(run.take(&reference::build::reading(130, 3, &[])), refused(9));
        assert_eq!(run.take(&reference::build::reading(109, LEVEL, &[0])), refused(10));
        assert_eq!(run.table, before);
    }
}

#[test]
fn refusals_1_to_7_cost_0() {
    let run = Run::of(&owed());
    let level = reference::build::reading(110, LEVEL, &[0]);
    let own_template = agreement(START, 2, &[reading_type(&[Type::Number])], &[plain(&named(0))], &owed());
    let pond = |main: &[u8]| agreement(START, 2, &[reading_type(&[Type::Number])], &[], main);
    let not_typed = Wait { after: truth(1), ..simple(60) }.obligation(0);
    let agreements =
        [Vec::new(), pond(&record(23, &[])), pond(&not_typed), own_template, pond(&balanced(129, &fulfilled()))];
    for (number, agreement) in (1..).zip(agreements) {
        assert_eq!(reading(&agreement, &mut run.table.clone(), &level), refused(number));
    }
    assert_eq!(reading(&run.agreement, &mut run.table[1..].to_vec(), &level), refused(6));
    let mut damaged = run.clone();
    damaged.table[STATE] = 9;
    assert_eq!(damaged.take(&level), refused(7));
    assert_eq!(run.clone().take(&level), Taken { number: 0, early: 0, cost: 1 + 1, forecast: None });
}

/// "It is at most 65,792 for each unit read": the most that the widths allow of one unit. A choice of width 256 has an
/// else of width 255, 128 waits and 127 joins. Each wait takes the level with a `then` of width 256: an instance whose
/// body is 128 fulfilled and 127 joins.
#[test]
fn the_most_for_one_unit() {
    let templates = [plain(&balanced(128, &fulfilled()))];
    let mut run = Run::with(&templates, &bell_or_else(&balanced(128, &owed_then(named(0)))));
    let cost = run.level(106, 0);
    assert_eq!(cost, 1 + 255 + 128 * 256);
    assert_eq!(cost, 33_024);
    assert!(cost <= 65_792);
    assert_eq!(run.state(), FULFILLED);
}

/// "so at most 8,421,376 a reading": 64 such choices under 63 joins, each in a `then` by an instance, which leaves
/// them a width of 255. So their elses have 127 waits and 126 joins, 253 clauses.
#[test]
fn about_the_most_for_a_table() {
    let body = bell_or_else(&balanced(127, &owed_then(named(0))));
    let templates = [plain(&balanced(128, &fulfilled())), plain(&body)];
    let mut run = Run::with(&templates, &balanced(64, &owed_then(named(1))));
    assert_eq!(run.level(100, 0), 127 + 64 * (1 + 1));
    let cost = run.level(106, 0);
    assert_eq!(cost, 127 + 64 * (253 + 127 * 256));
    assert_eq!(cost, 2_097_087);
    assert!(cost <= 8_421_376);
    assert_eq!(run.state(), FULFILLED);
}
