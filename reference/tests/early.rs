//! Paper 02, No. 8: "A reading answer gains a mark 'early', 1 or 0. It is 1 if and only if the reading is accepted,
//! the table was running and no unit or state altered, and at least one waiting unit wants this type, finds `where`
//! true, and has a first later than the reading."

use reference::agreement::{Operator, Type};
use reference::build::*;
use reference::rules::{Timing, Window};
use reference::table::{ACTIVATED, BREACHED, FULFILLED, HEAD, LAST, MOVED, RUNNING, STATE, UNIT, USED};
use reference::{reading, start, Taken, CELLS};

const START: u32 = 100;
/// Reading types: one with a number, one without values.
const LEVEL: u8 = 1;
const BELL: u8 = 2;

/// A number and a mark.
type Marked = (u32, u32);

const EARLY: Marked = (0, 1);
const NOT_EARLY: Marked = (0, 0);

fn refused(number: u32) -> Marked {
    (number, 0)
}

fn marked(taken: Taken) -> Marked {
    (taken.number, taken.early)
}

/// An agreement under way.
#[derive(Clone)]
struct Run {
    agreement: Vec<u8>,
    table: Vec<i64>,
}

impl Run {
    fn from(start_time: u32, templates: &[Vec<u8>], main: &[u8]) -> Run {
        let readings = [reading_type(&[Type::Number]), reading_type(&[])];
        let agreement = agreement(start_time, 2, &readings, templates, main);
        let mut table = vec![0; CELLS];
        assert_eq!(start(&agreement, &mut table).number, 0);
        Run { agreement, table }
    }

    fn with(templates: &[Vec<u8>], main: &[u8]) -> Run {
        Run::from(START, templates, main)
    }

    fn of(main: &[u8]) -> Run {
        Run::with(&[], main)
    }

    /// Takes any bytes as a reading.
    fn take(&mut self, bytes: &[u8]) -> Marked {
        marked(reading(&self.agreement, &mut self.table, bytes))
    }

    fn mark(&mut self, time: u32) -> Marked {
        self.take(&reference::build::reading(time, 0, &[]))
    }

    fn level(&mut self, time: u32, value: i32) -> Marked {
        self.take(&reference::build::reading(time, LEVEL, &[value]))
    }

    fn bell(&mut self, time: u32) -> Marked {
        self.take(&reference::build::reading(time, BELL, &[]))
    }

    fn state(&self) -> i64 {
        self.table[STATE]
    }

    /// A level that leaves every cell but the last reading time.
    fn idle_level(&mut self, time: u32) -> Marked {
        let mut expected = self.table.clone();
        expected[LAST] = i64::from(time);
        let taken = self.level(time, 0);
        assert_eq!(self.table, expected, "level at {time}");
        taken
    }
}

/// Waits for any level from `after` minutes on for so long, then is fulfilled.
fn opening(after: i32, within: i32) -> Wait {
    Wait { after: number(after), ..simple(within) }
}

/// Party 0 owes a level from 120 to 160, if activated at the start.
fn to_open() -> Vec<u8> {
    opening(20, 40).obligation(0)
}

/// Party 0 owes a level from now on for 60 minutes, then `then`.
fn owed_then(then: Vec<u8>) -> Vec<u8> {
    Wait { then, ..simple(60) }.obligation(0)
}

fn owed() -> Vec<u8> {
    owed_then(fulfilled())
}

/// Party 0 owes a bell.
fn bell_owed() -> Vec<u8> {
    Wait { reading: BELL, ..simple(300) }.obligation(0)
}

/// The value in sight of this name is 250 or more.
fn high(name: u8) -> Vec<u8> {
    not(&binary(Operator::Less, &value(name), &number(250)))
}

fn named(template: u8) -> Vec<u8> {
    instance(template, &[], &[])
}

/// A template without values or parameters.
fn plain(body: &[u8]) -> Vec<u8> {
    template(&[], 0, 1, body)
}

/// How two clauses are joined.
type Join = fn(&[u8], &[u8]) -> Vec<u8>;

/// "the window test must tell early from late"
#[test]
fn the_window_test_tells_early_from_late() {
    use Timing::{Early, EarlyAndLate, Late, Open};
    let window = Window { first: 120, last: 160 };
    assert_eq!([119, 120, 160, 161].map(|time| window.timing(time)), [Early, Open, Open, Late]);
    let minute = Window { first: 120, last: 120 };
    assert_eq!([119, 120, 121].map(|time| minute.timing(time)), [Early, Open, Late]);
    // Early until 119, late from 120 on: never open.
    let never = Window { first: 120, last: 119 };
    assert_eq!([119, 120].map(|time| never.timing(time)), [Early, Late]);
    let crossed = Window { first: 120, last: 110 };
    assert_eq!([110, 111, 119, 120].map(|time| crossed.timing(time)), [Early, EarlyAndLate, EarlyAndLate, Late]);
}

/// "measured an hour before the window and thought the obligation met"
#[test]
fn a_reading_before_the_window_is_early() {
    let mut run = Run::of(&opening(60, 30).obligation(0));
    assert_eq!(run.idle_level(100), EARLY);
    assert_eq!(run.idle_level(159), EARLY);
    assert_eq!(run.level(160, 0), NOT_EARLY);
    assert_eq!(run.state(), FULFILLED);
}

/// Each reading is judged by itself.
#[test]
fn every_such_reading_is_early() {
    let mut run = Run::of(&to_open());
    for time in [100, 101, 101, 110, 119, 119] {
        assert_eq!(run.idle_level(time), EARLY);
        assert_eq!(run.mark(time), NOT_EARLY);
    }
    assert_eq!(run.level(140, 0), NOT_EARLY);
}

#[test]
fn at_first_it_is_not_early() {
    assert_eq!(Run::of(&to_open()).level(119, 0), EARLY);
    assert_eq!(Run::of(&to_open()).level(120, 0), NOT_EARLY);
    assert_eq!(Run::of(&to_open()).level(160, 0), NOT_EARLY);
    assert_eq!(Run::of(&to_open()).level(161, 0), NOT_EARLY);
}

/// In the window with a false `where` nothing alters either.
#[test]
fn where_false_is_not_early() {
    let owed = Wait { condition: high(0), ..opening(20, 40) }.obligation(0);
    let mut run = Run::of(&owed);
    assert_eq!(run.level(110, 249), NOT_EARLY);
    assert_eq!(run.level(110, 250), EARLY);
    assert_eq!(run.level(119, 249), NOT_EARLY);
    assert_eq!(run.level(120, 249), NOT_EARLY);
    assert_eq!(run.state(), RUNNING);
}

/// `where` asks for a number that the other type does not have.
#[test]
fn another_type_is_not_early() {
    let mut run = Run::of(&Wait { condition: high(0), ..opening(20, 40) }.obligation(0));
    assert_eq!(run.bell(110), NOT_EARLY);
    let mut run = Run::of(&Wait { reading: BELL, ..opening(20, 40) }.obligation(0));
    assert_eq!(run.level(110, 0), NOT_EARLY);
    assert_eq!(run.bell(110), EARLY);
}

/// "Reading type 0 is a time mark without values; no clause wants it."
#[test]
fn a_time_mark_is_not_early() {
    let mut run = Run::of(&and(&to_open(), &Wait { reading: BELL, ..opening(20, 40) }.obligation(1)));
    for time in [100, 110, 119] {
        assert_eq!(run.mark(time), NOT_EARLY);
    }
    assert_eq!(run.level(119, 0), EARLY);
    assert_eq!(run.bell(119), EARLY);
}

#[test]
fn a_choice_is_a_waiting_unit() {
    let mut run = Run::of(&opening(20, 40).choice(&owed()));
    assert_eq!(run.idle_level(119), EARLY);
    assert_eq!(run.level(120, 0), NOT_EARLY);
    assert_eq!(run.state(), FULFILLED);
}

/// Of four units one finds the reading early; the others want the other type.
#[test]
fn one_early_unit_of_several_is_enough() {
    let joins: [(Join, Join); 4] = [(and, and), (and, or), (or, and), (or, or)];
    for early_one in 0..4 {
        let clause = |n| if n == early_one { to_open() } else { bell_owed() };
        for (inner, outer) in joins {
            let main = outer(&inner(&clause(0), &clause(1)), &inner(&clause(2), &clause(3)));
            assert_eq!(Run::of(&main).idle_level(110), EARLY, "unit {early_one}");
            let main = outer(&clause(0), &outer(&clause(1), &inner(&clause(2), &clause(3))));
            assert_eq!(Run::of(&main).idle_level(119), EARLY, "unit {early_one}");
        }
    }
}

/// No unit has all three: each has two of type, `where` and a later first. The open unit is replaced by its equal.
#[test]
fn the_conditions_must_meet_in_one_unit() {
    let other_type = Wait { reading: BELL, ..opening(20, 40) }.obligation(0);
    let false_where = Wait { condition: truth(0), ..opening(20, 40) }.obligation(0);
    let templates = [plain(&owed_then(named(0)))];
    let mut run = Run::with(&templates, &and(&and(&other_type, &false_where), &named(0)));
    assert_eq!(run.idle_level(100), NOT_EARLY);
    let mut run = Run::with(&templates, &and(&and(&other_type, &to_open()), &named(0)));
    assert_eq!(run.idle_level(100), EARLY);
}

/// "the reading is accepted"
#[test]
fn refusals_8_9_and_10_are_not_early() {
    let mut run = Run::of(&to_open());
    assert_eq!(run.mark(110), NOT_EARLY);
    let before = run.table.clone();
    let at_115 = reference::build::reading(115, LEVEL, &[0]);
    assert_eq!(run.take(&at_115[..12]), refused(8));
    assert_eq!(run.take(&record(65, &[&at_115[4..]])), refused(8));
    assert_eq!(run.take(&reference::build::reading(115, LEVEL, &[])), refused(9));
    assert_eq!(run.take(&reference::build::reading(115, LEVEL, &[0, 0])), refused(9));
    assert_eq!(run.level(115, 1_000_000_001), refused(9));
    assert_eq!(run.level(109, 0), refused(10));
    assert_eq!(run.table, before);
    assert_eq!(run.take(&at_115), EARLY);
}

/// 11 leaves the table: it was running and no unit altered, and a unit finds the reading early.
#[test]
fn refusal_11_is_not_early() {
    let growing = plain(&Wait { then: and(&named(0), &named(0)), ..simple(300) }.obligation(0));
    let mut run = Run::with(&[growing], &and(&named(0), &opening(200, 40).obligation(0)));
    for time in 101..106 {
        assert_eq!(run.level(time, 0), NOT_EARLY);
    }
    assert_eq!(run.table[USED], 65);
    let before = run.table.clone();
    assert_eq!(run.level(120, 0), refused(11));
    assert_eq!(run.table, before);
}

#[test]
fn refusals_1_to_7_are_not_early() {
    let run = Run::of(&to_open());
    let early = reference::build::reading(110, LEVEL, &[0]);
    let own_template = agreement(START, 2, &[reading_type(&[Type::Number])], &[plain(&named(0))], &to_open());
    let pond = |main: &[u8]| agreement(START, 2, &[reading_type(&[Type::Number])], &[], main);
    let not_typed = Wait { after: truth(1), ..simple(60) }.obligation(0);
    let agreements =
        [Vec::new(), pond(&record(23, &[])), pond(&not_typed), own_template, pond(&balanced(&vec![fulfilled(); 129]))];
    for (number, agreement) in (1..).zip(agreements) {
        assert_eq!(marked(reading(&agreement, &mut run.table.clone(), &early)), refused(number));
    }
    assert_eq!(marked(reading(&run.agreement, &mut run.table[1..].to_vec(), &early)), refused(6));
    let mut damaged = run.clone();
    damaged.table[STATE] = 9;
    assert_eq!(damaged.take(&early), refused(7));
    assert_eq!(run.clone().take(&early), EARLY);
}

/// Clauses joined by `and` in balance.
fn balanced(clauses: &[Vec<u8>]) -> Vec<u8> {
    if let [clause] = clauses {
        return clause.clone();
    }
    let (left, right) = clauses.split_at(clauses.len() / 2);
    and(&balanced(left), &balanced(right))
}

/// The units reach to the end of the table but one.
#[test]
fn any_unit_of_127_may_be_the_early_one() {
    for early_one in [0, 1, 31, 32, 62, 63] {
        let mut clauses = vec![bell_owed(); 64];
        assert_eq!(Run::of(&balanced(&clauses)).idle_level(110), NOT_EARLY);
        clauses[early_one] = to_open();
        let mut run = Run::of(&balanced(&clauses));
        assert_eq!(run.table[USED], 127);
        assert_eq!(run.idle_level(110), EARLY, "clause {early_one}");
    }
}

/// "the table was running": what is decided has no unit, whatever it had.
#[test]
fn on_a_fulfilled_or_breached_table_nothing_is_early() {
    let mut either = Run::of(&or(&to_open(), &bell_owed()));
    assert_eq!(either.level(105, 0), EARLY);
    assert_eq!(either.bell(106), NOT_EARLY);
    assert_eq!(either.state(), FULFILLED);
    assert_eq!(either.level(110, 0), NOT_EARLY);

    let mut both = Run::of(&and(&to_open(), &simple(5).obligation(1)));
    assert_eq!(both.mark(106), NOT_EARLY);
    assert_eq!(both.state(), BREACHED);
    assert_eq!(both.level(110, 0), NOT_EARLY);
    assert_eq!(Run::of(&fulfilled()).level(110, 0), NOT_EARLY);
}

/// One unit finds the reading early, another takes it.
#[test]
fn where_another_unit_alters_it_is_not_early() {
    let joins: [Join; 2] = [and, or];
    for join in joins {
        for main in [join(&to_open(), &owed_then(owed())), join(&owed_then(owed()), &to_open())] {
            let mut run = Run::of(&main);
            assert_eq!(run.level(110, 0), NOT_EARLY);
            assert_eq!((run.state(), run.table[MOVED]), (RUNNING, 110));
        }
    }
    // One unit vanishes; then the other is left alone.
    let mut both = Run::of(&and(&owed(), &to_open()));
    assert_eq!(both.level(110, 0), NOT_EARLY);
    assert_eq!((both.state(), both.table[USED]), (RUNNING, 1));
    assert_eq!(both.level(110, 0), EARLY);
}

/// The state alters beside a unit that finds the reading early.
#[test]
fn where_the_state_alters_it_is_not_early() {
    let mut either = Run::of(&or(&to_open(), &owed()));
    assert_eq!(either.level(110, 0), NOT_EARLY);
    assert_eq!(either.state(), FULFILLED);
    let mut both = Run::of(&and(&to_open(), &Wait { reading: BELL, ..simple(5) }.obligation(1)));
    assert_eq!(both.level(105, 0), EARLY);
    assert_eq!(both.level(106, 0), NOT_EARLY);
    assert_eq!(both.state(), BREACHED);
}

/// A choice is late beside it and its else waits on, or an `or` loses its late side: units alter.
#[test]
fn where_another_unit_is_late_it_is_not_early() {
    let late_choice = Wait { reading: BELL, ..simple(5) }.choice(&bell_owed());
    let mut run = Run::of(&and(&to_open(), &late_choice));
    assert_eq!(run.level(105, 0), EARLY);
    assert_eq!(run.level(106, 0), NOT_EARLY);
    assert_eq!(run.idle_level(107), EARLY);
    let mut run = Run::of(&or(&Wait { reading: BELL, ..simple(5) }.obligation(0), &to_open()));
    assert_eq!(run.level(106, 0), NOT_EARLY);
    assert_eq!(run.table[USED], 1);
    assert_eq!(run.idle_level(107), EARLY);
}

/// The unit that an else leaves is of the table from then on.
#[test]
fn the_reading_that_brings_an_else_is_not_early_the_next_is() {
    let mut run = Run::of(&simple(5).choice(&opening(50, 60).obligation(0)));
    assert_eq!(run.level(106, 0), NOT_EARLY);
    assert_eq!(run.table[HEAD + ACTIVATED], 105);
    assert_eq!(run.idle_level(106), EARLY);
    assert_eq!(run.idle_level(154), EARLY);
    assert_eq!(run.level(155, 0), NOT_EARLY);
    assert_eq!(run.state(), FULFILLED);
}

/// Clauses that wait only later are no units: in a `then`, in an else, in a template, in the other side of an if.
#[test]
fn what_is_not_activated_is_no_waiting_unit() {
    let bell = |then| Wait { reading: BELL, then, ..simple(60) };
    let mains = [
        bell(to_open()).obligation(0),
        Wait { condition: high(0), then: to_open(), ..simple(60) }.obligation(0),
        bell(fulfilled()).choice(&to_open()),
        Wait { condition: high(0), ..simple(60) }.choice(&to_open()),
        bell(named(0)).obligation(0),
        if_clause(&truth(0), &to_open(), &bell_owed()),
        if_clause(&truth(1), &bell_owed(), &to_open()),
    ];
    for main in mains {
        let mut run = Run::with(&[plain(&to_open())], &main);
        assert_eq!(run.idle_level(100), NOT_EARLY);
        assert_eq!(run.idle_level(110), NOT_EARLY);
    }
    assert_eq!(Run::with(&[plain(&to_open())], &named(0)).idle_level(110), EARLY);
    assert_eq!(Run::of(&if_clause(&truth(0), &bell_owed(), &to_open())).idle_level(110), EARLY);
}

/// The window has begun before the activation: it is open, or past.
#[test]
fn with_a_negative_after_nothing_is_early() {
    for after in [-1, -20, -1_000_000_000] {
        let false_where = Wait { condition: high(0), ..opening(after, 1_000_000_000) };
        assert_eq!(Run::of(&false_where.obligation(0)).idle_level(100), NOT_EARLY);
        assert_eq!(Run::of(&opening(after, 1_000_000_000).obligation(0)).level(100, 0), NOT_EARLY);
        assert_eq!(Run::of(&opening(after, 0).obligation(0)).level(100, 0), NOT_EARLY);
        // Replaced by its equal, so that nothing alters.
        let renewed = plain(&Wait { then: named(0), ..opening(after, 1_000_000_000) }.obligation(0));
        assert_eq!(Run::with(&[renewed], &named(0)).idle_level(100), NOT_EARLY);
    }
}

/// An obligation that is replaced by its equal in the minute of its activation: first is that minute or later.
#[test]
fn a_first_that_is_the_readings_time_is_not_later() {
    let renewed = |after| plain(&Wait { then: named(0), ..opening(after, 60) }.obligation(0));
    assert_eq!(Run::with(&[renewed(0)], &named(0)).idle_level(100), NOT_EARLY);
    assert_eq!(Run::with(&[renewed(1)], &named(0)).idle_level(100), EARLY);
    assert_eq!(Run::with(&[renewed(1)], &named(0)).level(101, 0), NOT_EARLY);
}

/// A is the unit's own, `after` and `where` see its values, and `where` the reading's after them.
#[test]
fn first_and_where_are_those_of_the_unit() {
    let above = binary(Operator::Less, &value(0), &value(2));
    let then = Wait { condition: above, after: value(0), ..simple(60) }.obligation(0);
    let mut run = Run::of(&owed_then(then));
    assert_eq!(run.level(110, 30), NOT_EARLY);
    assert_eq!(run.level(139, 30), NOT_EARLY);
    assert_eq!(run.level(139, 31), EARLY);
    assert_eq!(run.level(140, 30), NOT_EARLY);
    assert_eq!(run.state(), RUNNING);
    assert_eq!(run.level(140, 31), NOT_EARLY);
    assert_eq!(run.state(), FULFILLED);
}

/// Shares round down (No. 5), sums are held at an end, and the window is not.
#[test]
fn after_is_worked_out_by_the_rules() {
    let after = |expression| Wait { after: expression, ..simple(1_000_000_000) }.obligation(0);
    let share = binary(Operator::Times, &binary(Operator::Quotient, &number(-7), &number(2)), &number(-5));
    assert_eq!(Run::of(&after(share.clone())).level(119, 0), EARLY);
    assert_eq!(Run::of(&after(share)).level(120, 0), NOT_EARLY);
    let held = binary(Operator::Plus, &number(1_000_000_000), &number(1_000_000_000));
    assert_eq!(Run::of(&after(held.clone())).level(1_000_000_099, 0), EARLY);
    assert_eq!(Run::of(&after(held)).level(1_000_000_100, 0), NOT_EARLY);
}

/// First is beyond every reading, and beyond 32 bits.
#[test]
fn a_first_beyond_32_bits_is_later() {
    for after in [1, 11, 100, 1_000_000_000] {
        let mut run = Run::from(u32::MAX - 10, &[], &opening(after, 60).obligation(0));
        let at_the_end = if after > 10 { EARLY } else { NOT_EARLY };
        assert_eq!(run.level(u32::MAX - 10, 0), EARLY);
        assert_eq!(run.level(u32::MAX, 0), at_the_end);
    }
}

/// The window never opens: early until its last minute, late after it.
#[test]
fn with_last_before_first_a_reading_may_still_be_early() {
    let mut run = Run::of(&opening(50, -20).obligation(0));
    assert_eq!(run.idle_level(100), EARLY);
    assert_eq!(run.idle_level(130), EARLY);
    assert_eq!(run.level(131, 0), NOT_EARLY);
    assert_eq!((run.state(), run.table[LAST]), (BREACHED, 131));
}

/// Past and to open at once: rule 1 comes first, the obligation is breached, and the state altered.
#[test]
fn an_early_and_late_obligation_alters_the_state() {
    let mut run = Run::of(&opening(50, -60).obligation(0));
    assert_eq!(run.level(100, 0), NOT_EARLY);
    assert_eq!(run.state(), BREACHED);
    let mut run = Run::of(&or(&opening(50, -60).obligation(0), &bell_owed()));
    assert_eq!(run.level(100, 0), NOT_EARLY);
    assert_eq!((run.state(), run.table[USED]), (RUNNING, 1));
    let mut run = Run::of(&opening(50, -60).choice(&bell_owed()));
    assert_eq!(run.level(100, 0), NOT_EARLY);
    assert_eq!(run.state(), RUNNING);
}

/// "has a first later than the reading": nothing is asked of last. The choice is late, its else takes the reading and
/// names the choice once more: no cell alters, and the choice's first is later.
#[test]
fn an_early_and_late_choice_replaced_by_its_equal_is_early() {
    let choice = |after: i32, within| plain(&opening(after, within).choice(&owed_then(named(0))));
    assert_eq!(Run::with(&[choice(5, -6)], &named(0)).idle_level(100), EARLY);
    assert_eq!(Run::with(&[choice(1, -2)], &named(0)).idle_level(100), EARLY);
    // Late, and not early.
    assert_eq!(Run::with(&[choice(0, -1)], &named(0)).idle_level(100), NOT_EARLY);
    assert_eq!(Run::with(&[choice(-5, 0)], &named(0)).idle_level(100), NOT_EARLY);
    // Early, and not late: the else is not reached.
    assert_eq!(Run::with(&[choice(5, -5)], &named(0)).idle_level(100), EARLY);
    let false_where = Wait { condition: truth(0), ..opening(5, -6) };
    let choice = plain(&false_where.choice(&owed_then(named(0))));
    assert_eq!(Run::with(&[choice], &named(0)).idle_level(100), NOT_EARLY);
}

/// The `or` drops its breached side, and its other side becomes the same `or` again.
#[test]
fn an_early_and_late_obligation_replaced_by_its_equal_is_early() {
    let both = or(&named(0), &named(1));
    let templates =
        |after: i32, within| [plain(&opening(after, within).obligation(0)), plain(&owed_then(both.clone()))];
    assert_eq!(Run::with(&templates(5, -6), &both).idle_level(100), EARLY);
    assert_eq!(Run::with(&templates(0, -1), &both).idle_level(100), NOT_EARLY);
}

/// "Altered means that a unit cell or the state cell holds another number afterwards": the unit beside takes the
/// reading and is replaced by its equal, through its `then` or through its else.
#[test]
fn beside_a_unit_replaced_by_its_equal_it_is_early() {
    let again = owed_then(named(0));
    for template in [plain(&again), plain(&simple(-1).choice(&again))] {
        for main in [and(&to_open(), &named(0)), and(&named(0), &to_open()), or(&to_open(), &named(0))] {
            let mut run = Run::with(&[template.clone()], &main);
            assert_eq!(run.idle_level(100), EARLY);
            assert_eq!(run.idle_level(100), EARLY);
            // A minute later A alters.
            assert_eq!(run.level(101, 0), NOT_EARLY);
            assert_eq!(run.state(), RUNNING);
            assert_eq!(run.idle_level(101), EARLY);
        }
        assert_eq!(Run::with(&[template], &named(0)).idle_level(100), NOT_EARLY);
    }
}

/// Template 0 is fulfilled by the reading that makes template 1 into both of them.
#[test]
fn beside_units_that_take_turns_it_is_early() {
    let both = and(&named(0), &named(1));
    let templates = [plain(&owed()), plain(&owed_then(both.clone()))];
    assert_eq!(Run::with(&templates, &and(&both, &to_open())).idle_level(100), EARLY);
    assert_eq!(Run::with(&templates, &both).idle_level(100), NOT_EARLY);
}

/// The `or` is fulfilled and drops the unit, another unit brings an equal one: the table has it before and after.
#[test]
fn a_dropped_unit_replaced_by_its_equal_is_early() {
    let all = and(&or(&named(0), &named(1)), &named(2));
    let mut run = Run::with(&[plain(&to_open()), plain(&owed()), plain(&owed_then(all.clone()))], &all);
    assert_eq!(run.table[USED], 5);
    assert_eq!(run.idle_level(100), EARLY);
    assert_eq!(run.level(101, 0), NOT_EARLY);
    assert_eq!(run.table[HEAD + 2 * UNIT + ACTIVATED], 101);
    assert_eq!(run.idle_level(101), EARLY);
}

/// The else's unit finds the reading early, but it is in no table: the `or` is fulfilled and drops it, and the rest of
/// the else names the choice once more.
#[test]
fn a_unit_of_an_else_that_never_comes_into_the_table_is_none() {
    let otherwise = |dropped: &[u8]| and(&or(dropped, &owed()), &owed_then(named(0)));
    let choice = plain(&simple(-1).choice(&otherwise(&to_open())));
    assert_eq!(Run::with(&[choice.clone()], &named(0)).idle_level(100), NOT_EARLY);
    assert_eq!(Run::with(&[choice], &and(&named(0), &to_open())).idle_level(100), EARLY);
}

/// The same in a `then`: what it activates does not see the reading and is dropped at once.
#[test]
fn a_unit_of_a_then_that_never_comes_into_the_table_is_none() {
    let then = and(&or(&to_open(), &fulfilled()), &named(0));
    assert_eq!(Run::with(&[plain(&owed_then(then))], &named(0)).idle_level(100), NOT_EARLY);
}

/// An alteration in the same minute, before this reading or by it: cell 5 does not tell them apart.
#[test]
fn cell_5_does_not_decide() {
    let mut run = Run::of(&and(&bell_owed(), &and(&bell_owed(), &to_open())));
    assert_eq!(run.mark(109), NOT_EARLY);
    assert_eq!(run.bell(110), NOT_EARLY);
    assert_eq!(run.table[MOVED], 110);
    assert_eq!(run.idle_level(110), EARLY);

    let mut run = Run::of(&and(&owed_then(owed_then(owed())), &to_open()));
    for _ in 0..2 {
        assert_eq!(run.level(110, 0), NOT_EARLY);
        assert_eq!((run.state(), run.table[MOVED]), (RUNNING, 110));
    }
    let mut run = Run::of(&to_open());
    assert_eq!(run.mark(115), NOT_EARLY);
    for moved in [100, 107, 115] {
        run.table[MOVED] = moved;
        assert_eq!(run.idle_level(115), EARLY);
    }
}

/// A table that no run gives: the unit waits since another minute than its run's.
#[test]
fn first_is_counted_from_the_a_in_the_table() {
    let mut run = Run::of(&to_open());
    assert_eq!(run.mark(118), NOT_EARLY);
    for (activated, time, taken) in [(100, 119, EARLY), (110, 129, EARLY), (118, 137, EARLY), (110, 130, NOT_EARLY)] {
        let mut other = run.clone();
        other.table[HEAD + ACTIVATED] = activated;
        assert_eq!(other.level(time, 0), taken);
    }
}

/// Whom a unit blames does not matter, nor do its parameters.
#[test]
fn a_unit_of_a_template_with_parameters_and_values() {
    let body = Wait { condition: high(1), after: value(0), ..simple(60) }.obligation(128);
    let template = template(&[Type::Number], 1, 0, &body);
    let mut run = Run::with(&[template], &and(&instance(0, &[number(10)], &[0]), &instance(0, &[number(20)], &[1])));
    assert_eq!(run.level(109, 249), NOT_EARLY);
    assert_eq!(run.level(109, 250), EARLY);
    // Open for party 0: its unit is fulfilled, that of party 1 is left.
    assert_eq!(run.level(110, 250), NOT_EARLY);
    assert_eq!(run.table[USED], 1);
    assert_eq!(run.level(119, 250), EARLY);
    assert_eq!(run.level(120, 250), NOT_EARLY);
    assert_eq!(run.state(), FULFILLED);
}
