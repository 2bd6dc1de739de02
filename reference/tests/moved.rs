//! Paper 02, No. 1: "They want the time of the last reading that altered a unit or the state. Head cell 5 now holds
//! it. Altered means that a unit cell or the state cell holds another number afterwards. It begins as the start time
//! and lies from the start to the last reading time; a table where it doesn't is damaged under 7."

use reference::agreement::{Operator, Type};
use reference::build::*;
use reference::table::{ACTIVATED, AND, BREACHED, FULFILLED, HEAD, LAST, MOVED, OR, PARAMETERS, PLACE, RUNNING, SORT};
use reference::table::{STATE, TIME, UNIT, USED, VALUES};
use reference::{start, CELLS};

#[path = "common/run.rs"]
mod run;
use run::{Run, BELL, LEVEL};

impl Run {
    fn mark(&mut self, time: u32) {
        assert_eq!(self.take(&reference::build::reading(time, 0, &[])).number, 0, "mark at {time}");
    }

    fn level(&mut self, time: u32, value: i32) {
        assert_eq!(self.take(&reference::build::reading(time, LEVEL, &[value])).number, 0, "level at {time}");
    }

    fn bell(&mut self, time: u32) {
        assert_eq!(self.take(&reference::build::reading(time, BELL, &[])).number, 0, "bell at {time}");
    }

    /// The state, the last reading time and the time of the last alteration.
    fn head(&self) -> [i64; 3] {
        assert_eq!(self.table[MOVED + 1..HEAD], [0, 0], "cells 6 and 7 stay zero");
        [self.table[STATE], self.table[LAST], self.table[MOVED]]
    }

    fn set(&mut self, cell: usize, value: i64) {
        self.table[cell] = value;
    }

    /// Which cells another run's table has otherwise.
    fn differing(&self, other: &Run) -> Vec<usize> {
        (0..CELLS).filter(|cell| self.table[*cell] != other.table[*cell]).collect()
    }
}

/// Party 0 owes a level for so long.
fn owed(within: i32) -> Vec<u8> {
    simple(within).obligation(0)
}

/// Party 0 owes a level within 60, then `then`.
fn owed_then(then: Vec<u8>) -> Vec<u8> {
    Wait { then, ..simple(60) }.obligation(0)
}

fn named(template: u8) -> Vec<u8> {
    instance(template, &[], &[])
}

/// A template without values or parameters.
fn plain(body: &[u8]) -> Vec<u8> {
    template(&[], 0, 1, body)
}

/// "It begins as the start time".
#[test]
fn it_begins_as_the_start_time() {
    assert_eq!(Run::of(&owed(60)).table[..HEAD], [RUNNING, 100, 0, 0, 1, 100, 0, 0]);
    assert_eq!(Run::of(&fulfilled()).table[..HEAD], [FULFILLED, 100, 0, 0, 0, 100, 0, 0]);
    for time in [0, u32::MAX] {
        let agreement = agreement(time, 1, &[reading_type(&[])], &[], &owed(60));
        let mut table = vec![-1; CELLS];
        assert_eq!(start(&agreement, &mut table).number, 0);
        assert_eq!((table[LAST], table[MOVED]), (i64::from(time), i64::from(time)));
    }
}

/// "the last reading, which may be an idle mark"
#[test]
fn an_idle_mark_leaves_it() {
    let mut run = Run::of(&owed(60));
    let begun = run.clone();
    run.mark(110);
    assert_eq!(run.head(), [RUNNING, 110, 100]);
    run.mark(160);
    assert_eq!(run.head(), [RUNNING, 160, 100]);
    assert_eq!(run.differing(&begun), [LAST]);
}

/// Another reading type, before the first minute, and `where` false.
#[test]
fn a_reading_that_fits_nothing_leaves_it() {
    let high = not(&binary(Operator::Less, &value(0), &number(250)));
    let mut run = Run::of(&Wait { condition: high, after: number(20), ..simple(40) }.obligation(0));
    let begun = run.clone();
    run.bell(125);
    assert_eq!(run.head(), [RUNNING, 125, 100]);
    run.level(126, 249);
    assert_eq!(run.head(), [RUNNING, 126, 100]);
    assert_eq!(run.differing(&begun), [LAST]);
    let mut early = begun.clone();
    early.level(119, 250);
    assert_eq!(early.head(), [RUNNING, 119, 100]);
    assert_eq!(early.differing(&begun), [LAST]);
}

#[test]
fn a_reading_that_alters_moves_it() {
    let mut run = Run::of(&owed_then(owed_then(owed(60))));
    run.level(110, 0);
    assert_eq!(run.head(), [RUNNING, 110, 110]);
    run.mark(115);
    assert_eq!(run.head(), [RUNNING, 115, 110]);
    run.level(120, 0);
    assert_eq!(run.head(), [RUNNING, 120, 120]);
}

/// The time is the reading's: the else waits since 150, and a mark can alter too.
#[test]
fn an_else_by_a_mark_moves_it() {
    let mut run = Run::of(&simple(50).choice(&owed(100)));
    run.mark(150);
    assert_eq!(run.head(), [RUNNING, 150, 100]);
    run.mark(170);
    assert_eq!(run.head(), [RUNNING, 170, 170]);
    assert_eq!(run.table[HEAD + ACTIVATED], 150);
}

#[test]
fn a_side_that_vanishes_moves_it() {
    let mut either = Run::of(&or(&owed(50), &owed(60)));
    either.mark(155);
    assert_eq!((either.head(), either.table[USED]), ([RUNNING, 155, 155], 1));
    let mut both = Run::of(&and(&owed(60), &Wait { reading: BELL, ..simple(60) }.obligation(1)));
    both.bell(130);
    assert_eq!((both.head(), both.table[USED]), ([RUNNING, 130, 130], 1));
}

/// One reading alters at the time that another altered at.
#[test]
fn an_alteration_at_the_same_time() {
    let mut run = Run::of(&owed_then(owed_then(owed_then(owed(60)))));
    run.level(100, 0);
    assert_eq!(run.head(), [RUNNING, 100, 100]);
    run.level(110, 0);
    run.level(110, 0);
    assert_eq!(run.head(), [RUNNING, 110, 110]);
}

#[test]
fn a_fulfilment_moves_it_and_nothing_after() {
    let mut run = Run::of(&owed(60));
    run.mark(110);
    run.level(120, 0);
    assert_eq!(run.head(), [FULFILLED, 120, 120]);
    let fulfilled = run.clone();
    run.mark(130);
    assert_eq!(run.head(), [FULFILLED, 130, 120]);
    run.level(140, 0);
    assert_eq!(run.head(), [FULFILLED, 140, 120]);
    assert_eq!(run.differing(&fulfilled), [LAST]);
}

#[test]
fn a_breach_moves_it_and_nothing_after() {
    let mut run = Run::of(&owed(60));
    run.mark(110);
    run.mark(165);
    assert_eq!((run.head(), run.table[TIME]), ([BREACHED, 165, 165], 160));
    let breached = run.table.clone();
    run.mark(170);
    run.level(180, 0);
    assert_eq!(run.table, breached);
}

/// "Once breached, accepted readings alter no cell", even where cell 5 is earlier.
#[test]
fn a_breached_table_stays_as_it_is() {
    let mut run = Run::of(&owed(60));
    run.mark(165);
    run.set(MOVED, 100);
    let breached = run.table.clone();
    run.mark(170);
    assert_eq!(run.table, breached);
}

/// Template 0 is an obligation, then template 0 with the number `next` and the party and the parameters that it has.
fn renewing(next: Vec<u8>) -> Run {
    let then = instance(0, &[next, value(1)], &[128, 129]);
    let body = Wait { then, ..simple(60) }.obligation(128);
    let templates = [template(&[Type::Number, Type::Party], 2, 0, &body)];
    Run::with(&templates, &instance(0, &[number(5), party(1)], &[0, 1]))
}

/// In a run, cell 5 is at least every A: a unit and its equal show no difference. So it is set back, as a table may be.
#[test]
fn a_unit_replaced_by_its_equal_leaves_it() {
    let mut run = renewing(value(0));
    run.level(110, 0);
    assert_eq!((run.head(), run.table[HEAD + ACTIVATED]), ([RUNNING, 110, 110], 110));
    run.set(MOVED, 103);
    let before = run.table.clone();
    run.level(110, 0);
    assert_eq!(run.table, before);
    run.level(111, 0);
    assert_eq!(run.head(), [RUNNING, 111, 111]);
}

/// The choice's window is past at once; its else takes the reading and names the choice once more.
#[test]
fn a_choice_replaced_by_its_equal_through_its_else_leaves_it() {
    let else_clause = owed_then(named(0));
    let mut run = Run::with(&[plain(&simple(-1).choice(&else_clause))], &named(0));
    run.level(110, 0);
    run.set(MOVED, 100);
    let before = run.table.clone();
    run.level(110, 0);
    assert_eq!(run.table, before);
    // A mark leaves the else.
    run.mark(110);
    assert_eq!(run.head(), [RUNNING, 110, 110]);
}

/// Template 0 is fulfilled by the reading that makes template 1 into `turned`.
fn taking_turns(turned: Vec<u8>) -> Run {
    let templates = [plain(&owed(60)), plain(&owed_then(turned))];
    let mut run = Run::with(&templates, &owed_then(and(&named(0), &named(1))));
    run.level(110, 0);
    assert_eq!((run.head(), run.table[USED]), ([RUNNING, 110, 110], 3));
    run.set(MOVED, 100);
    run
}

/// Every unit is followed, one is fulfilled and one becomes two: all cells are the same.
#[test]
fn units_that_take_turns_leave_it() {
    let mut run = taking_turns(and(&named(0), &named(1)));
    let before = run.table.clone();
    run.level(110, 0);
    assert_eq!(run.table, before);
    run.level(112, 0);
    assert_eq!((run.head(), run.table[USED]), ([RUNNING, 112, 112], 3));
}

#[test]
fn a_join_alone_moves_it() {
    let mut run = taking_turns(or(&named(0), &named(1)));
    let before = run.clone();
    assert_eq!(run.table[HEAD + SORT], AND);
    run.level(110, 0);
    assert_eq!(run.table[HEAD + SORT], OR);
    assert_eq!(run.differing(&before), [MOVED, HEAD + SORT]);
    assert_eq!(run.head(), [RUNNING, 110, 110]);
}

#[test]
fn an_activation_alone_moves_it() {
    let mut run = renewing(value(0));
    let before = run.clone();
    run.level(101, 0);
    assert_eq!(run.differing(&before), [LAST, MOVED, HEAD + ACTIVATED]);
    assert_eq!(run.head(), [RUNNING, 101, 101]);
}

#[test]
fn a_value_alone_moves_it() {
    let mut run = renewing(value(2));
    run.level(110, 5);
    run.set(MOVED, 103);
    let before = run.clone();
    run.level(110, 5);
    assert_eq!(run.table, before.table);
    run.level(110, 6);
    assert_eq!(run.differing(&before), [MOVED, HEAD + VALUES]);
    assert_eq!(run.head(), [RUNNING, 110, 110]);
}

#[test]
fn a_place_or_a_parameter_alone_moves_it() {
    let body = |then| Wait { then, ..simple(60) }.obligation(128);
    let two = |template: u8, blame: u8| instance(template, &[], &[128, blame]);
    let templates = [body(two(1, 129)), body(two(1, 128))].map(|body| template(&[], 2, 0, &body));
    let mut run = Run::with(&templates, &owed_then(instance(0, &[], &[0, 1])));
    run.level(110, 0);
    run.set(MOVED, 109);
    let before = run.clone();
    run.level(110, 0);
    assert_eq!(run.differing(&before), [MOVED, HEAD + PLACE]);
    assert_eq!(run.head(), [RUNNING, 110, 110]);
    run.set(MOVED, 108);
    let before = run.clone();
    run.level(110, 0);
    assert_eq!(run.differing(&before), [MOVED, HEAD + PARAMETERS + 1]);
    assert_eq!(run.head(), [RUNNING, 110, 110]);
}

/// The last unit alone is followed.
#[test]
fn a_later_unit_alone_moves_it() {
    let bell = Wait { reading: BELL, then: owed(60), ..simple(60) }.obligation(1);
    let mut run = Run::of(&and(&and(&owed(90), &owed(90)), &bell));
    let last_unit = HEAD + 4 * UNIT;
    run.bell(110);
    assert_eq!(run.head(), [RUNNING, 110, 110]);
    assert_eq!(run.table[last_unit + ACTIVATED], 110);
}

/// P15's agreement: "six fitting readings leave 127 units, the seventh is refused with 11".
#[test]
fn refusal_11_leaves_it() {
    let mut run = Run::with(&[plain(&owed_then(and(&named(0), &named(0))))], &named(0));
    for time in 101..107 {
        run.level(time, 0);
        assert_eq!(run.head(), [RUNNING, i64::from(time), i64::from(time)]);
    }
    let before = run.table.clone();
    assert_eq!(run.take(&reference::build::reading(120, LEVEL, &[0])).number, 11);
    assert_eq!(run.table, before);
    run.mark(125);
    assert_eq!(run.head(), [RUNNING, 125, 106]);
}

#[test]
fn refusals_8_9_and_10_leave_it() {
    for run in [running(), decided(140, LEVEL), decided(170, 0)] {
        let refused = [
            (8, record(65, &[&[200, 0, 0, 0, 0]])),
            (9, reference::build::reading(200, LEVEL, &[])),
            (10, reference::build::reading(139, LEVEL, &[0])),
        ];
        for (number, bytes) in refused {
            let mut tried = run.clone();
            assert_eq!(tried.take(&bytes).number, number);
            assert_eq!(tried.table, run.table);
        }
    }
}

/// A running table: its unit waits since 120, and the last reading was at 140.
fn running() -> Run {
    let mut run = Run::of(&owed_then(owed(40)));
    run.level(120, 0);
    run.mark(140);
    assert_eq!(run.head(), [RUNNING, 140, 120]);
    run
}

/// The same decided by a reading: a level fulfils it, a mark after 160 breaches it.
fn decided(time: u32, kind: u8) -> Run {
    let mut run = running();
    match kind {
        LEVEL => run.level(time, 0),
        _ => run.mark(time),
    }
    assert_ne!(run.table[STATE], RUNNING);
    run
}

/// A table of each state, with times after 140.
fn each_state() -> [Run; 3] {
    let runs = [running(), decided(150, LEVEL), decided(170, 0)];
    assert_eq!(runs.each_ref().map(|run| run.table[STATE]), [RUNNING, FULFILLED, BREACHED]);
    runs
}

/// "a table where it doesn't is damaged under 7": before the start, after the last reading, negative, far off.
#[test]
fn outside_the_table_is_damaged() {
    for run in each_state() {
        let last = run.table[LAST];
        let before_start = [99, 98, 0];
        let after_last = [last + 1, last + 2, 0xFFFF_FFFF, 1 << 32, (1 << 32) + 120, i64::MAX];
        let negative = [-1, -100, -120, 120 - (1 << 32), i64::MIN, i64::MIN + 120];
        for moved in before_start.into_iter().chain(after_last).chain(negative) {
            let mut damaged = run.clone();
            damaged.set(MOVED, moved);
            let table = damaged.table.clone();
            for bytes in [reference::build::reading(200, 0, &[]), reference::build::reading(5, 9, &[]), Vec::new()] {
                let taken = damaged.take(&bytes);
                assert_eq!((taken.number, taken.forecast), (7, None), "cell 5 is {moved}: {:?}", run.head());
            }
            assert_eq!(damaged.table, table);
        }
    }
}

/// Both ends are inside, and nothing more is asked: it may be before a unit's A and before or after a breach.
#[test]
fn inside_the_table_is_accepted() {
    for run in each_state() {
        let last = run.table[LAST];
        for moved in [100, 101, 119, 120, 121, last - 1, last] {
            let mut other = run.clone();
            other.set(MOVED, moved);
            let table = other.table.clone();
            let mark = reference::build::reading(last as u32, 0, &[]);
            let taken = other.take(&mark);
            assert_eq!(taken.number, 0, "cell 5 is {moved}");
            assert_eq!(other.table, table, "cell 5 is {moved}");
            assert_eq!(taken, run.clone().take(&mark), "cell 5 is {moved}");
        }
    }
}

/// Start and last reading time are one: so is cell 5.
#[test]
fn only_the_start_is_inside_at_first() {
    for main in [owed(60), fulfilled()] {
        let run = Run::of(&main);
        for (moved, number) in [(99, 7), (100, 0), (101, 7)] {
            let mut other = run.clone();
            other.set(MOVED, moved);
            assert_eq!(other.take(&reference::build::reading(100, 0, &[])).number, number);
        }
    }
}

/// Wherever it was, a reading that alters sets it to its own time.
#[test]
fn it_moves_from_anywhere_inside() {
    for moved in [100, 119, 120, 139, 140] {
        let mut run = running();
        run.set(MOVED, moved);
        run.mark(150);
        assert_eq!(run.head(), [RUNNING, 150, moved]);
        run.level(155, 0);
        assert_eq!(run.head(), [FULFILLED, 155, 155]);
        let mut run = running();
        run.set(MOVED, moved);
        run.mark(165);
        assert_eq!(run.head(), [BREACHED, 165, 165]);
    }
}
