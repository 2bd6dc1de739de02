//! When a reading came too early, paper 02, No. 8: "It is 1 if and only if the reading is accepted, the table was
//! running and no unit or state altered, and at least one waiting unit wants this type, finds `where` true, and has a
//! first later than the reading."

#[path = "common/run.rs"]
mod run;

use givuntha::{record, Refusal, Refused, State, Table, Taken};
use reference::agreement::{Operator, Type};
use reference::build::{
    agreement, and, binary, instance, not, number, or, reading_type, simple, template, truth, value, Wait,
};
use run::Run;
use std::fs;
use std::path::Path;

/// The marks of readings that are accepted, whatever they cost.
const TAKEN: Result<bool, Refused> = Ok(false);
const EARLY: Result<bool, Refused> = Ok(true);
const STATE: usize = 0;
const LAST_READING: usize = 1;
const HEAD: usize = 8;

/// Start 100, two parties, two types of reading with a number each.
fn works(templates: &[Vec<u8>], main: &[u8]) -> Vec<u8> {
    let types = [reading_type(&[Type::Number]), reading_type(&[Type::Number])];
    agreement(100, 2, &types, templates, main)
}

fn run_of(main: &[u8]) -> Run {
    Run::of(works(&[], main))
}

/// A salinity not below 250, after 60 minutes within 60.
fn later() -> Wait {
    let low = binary(Operator::Less, &value(0), &number(250));
    Wait { condition: not(&low), after: number(60), ..simple(60) }
}

/// Party 0 owes it from 160 to 220.
fn owed_later() -> Run {
    run_of(&later().obligation(0))
}

fn salinity(time: u32, value: i32) -> Vec<u8> {
    record::reading(time, 1, &[value])
}

impl Run {
    /// Takes a reading, and answers whether it came too early.
    fn early(&mut self, record: &[u8]) -> Result<bool, Refused> {
        self.take(record).map(|taken| taken.early)
    }

    /// Takes a reading that is too early, and looks whether the last reading time is all that it alters.
    fn take_early(&mut self, record: &[u8]) {
        let mut expected = self.table.clone();
        assert_eq!(self.early(record), EARLY);
        expected.cells_mut()[LAST_READING] = i64::from(self.table.times().expect("its times").last_reading);
        assert_eq!(self.table, expected);
    }
}

#[test]
fn a_reading_before_the_window() {
    let mut run = owed_later();
    for time in [100, 110, 110, 159] {
        run.take_early(&salinity(time, 250));
        assert_eq!(run.table.times().map(|times| (times.last_reading, times.last_moved)), Some((time, 100)));
    }
    assert_eq!((run.early(&salinity(160, 250)), run.table.state()), (TAKEN, Some(State::Fulfilled)));
}

#[test]
fn the_first_minute_is_not_early() {
    assert_eq!(owed_later().early(&salinity(160, 250)), TAKEN);
}

#[test]
fn late_is_not_early() {
    let mut run = owed_later();
    assert_eq!(run.early(&salinity(221, 250)), TAKEN);
    assert!(matches!(run.table.state(), Some(State::Breached(_))));
}

#[test]
fn a_reading_that_nothing_waits_for() {
    for given in [salinity(110, 249), record::reading(110, 2, &[250]), record::mark(110)] {
        let mut run = owed_later();
        assert_eq!(run.early(&given), TAKEN);
        assert_eq!(run.table.state(), Some(State::Running));
    }
}

/// The window is open and `where` is false, or the type another: it waits, and not because it is early.
#[test]
fn a_reading_that_does_not_fit_the_open_window() {
    let mut run = owed_later();
    for given in [salinity(170, 249), record::reading(171, 2, &[250]), record::mark(172)] {
        assert_eq!(run.early(&given), TAKEN);
    }
}

#[test]
fn a_refused_reading_has_no_mark() {
    let mut run = owed_later();
    run.take_early(&salinity(110, 250));
    assert_eq!(run.early(&salinity(109, 250)), Err(Refused::Other(Refusal::ReadingTime)));
}

#[test]
fn a_fulfilled_table() {
    let mut run = run_of(&or(&later().obligation(0), &simple(5).obligation(0)));
    assert_eq!((run.early(&salinity(105, 250)), run.table.state()), (TAKEN, Some(State::Fulfilled)));
    assert_eq!(run.early(&salinity(110, 250)), TAKEN);
}

#[test]
fn a_breached_table() {
    let mut run = run_of(&and(&later().obligation(0), &simple(5).obligation(1)));
    assert_eq!(run.early(&salinity(110, 250)), TAKEN);
    assert!(matches!(run.table.state(), Some(State::Breached(_))));
    let before = run.table.clone();
    assert_eq!((run.early(&salinity(111, 250)), run.table), (TAKEN, before));
}

#[test]
fn a_reading_that_meets_another_unit() {
    let mut run = run_of(&and(&later().obligation(0), &simple(60).obligation(1)));
    assert_eq!(run.early(&salinity(110, 250)), TAKEN);
    run.take_early(&salinity(110, 250));
}

/// A choice lapses to its else, or a side of an `or` is missed: that alters units too.
#[test]
fn a_reading_that_finds_another_unit_late() {
    let choice = simple(5).choice(&Wait { reading: 2, ..simple(90) }.obligation(0));
    let missed = or(&simple(5).obligation(0), &Wait { reading: 2, ..simple(90) }.obligation(0));
    for other in [choice, missed] {
        let mut run = run_of(&and(&other, &later().obligation(0)));
        assert_eq!(run.early(&salinity(110, 250)), TAKEN);
        assert_eq!(run.table.state(), Some(State::Running));
        run.take_early(&salinity(110, 250));
    }
}

/// In the same minute the other unit is met and comes back as it was: each cell holds the number that it held.
#[test]
fn a_unit_that_comes_back_as_it_was_is_not_altered() {
    let again = instance(0, &[], &[]);
    let owed_again = Wait { then: again.clone(), ..simple(60) }.obligation(1);
    let mut run = Run::of(works(&[template(&[], 0, 2, &owed_again)], &and(&later().obligation(0), &again)));
    assert_eq!(run.early(&salinity(110, 250)), TAKEN);
    run.take_early(&salinity(110, 250));
    assert_eq!(run.early(&salinity(111, 250)), TAKEN);
}

/// Its first is the reading's own minute, or before it; met or lapsed it comes back as it was, and was not early.
#[test]
fn a_unit_that_comes_back_is_not_early_for_itself() {
    let again = instance(0, &[], &[]);
    let owed_again = Wait { then: again.clone(), ..simple(60) };
    let never = simple(-20).choice(&owed_again.obligation(0));
    let open_before = Wait { after: number(-5), then: again.clone(), ..simple(60) };
    for body in [owed_again.obligation(0), open_before.obligation(0), never] {
        let mut run = Run::of(works(&[template(&[], 0, 1, &body)], &again));
        assert_eq!(run.early(&salinity(110, 0)), TAKEN);
        let before = run.table.clone();
        assert_eq!((run.early(&salinity(110, 0)), run.table), (TAKEN, before));
    }
}

/// Any waiting unit will do: a choice, each side of an `and` and of an `or`, the first of many or the last.
#[test]
fn every_waiting_unit_counts() {
    let [early, idle] = [later().obligation(0), Wait { reading: 2, ..simple(90) }.obligation(0)];
    let sides = [and(&early, &idle), and(&idle, &early), or(&early, &idle), or(&idle, &early)];
    let far = (0..15).fold(early.clone(), |last, _| and(&idle, &last));
    let near = (0..15).fold(early, |first, _| and(&first, &idle));
    for main in sides.into_iter().chain([far, near, later().choice(&idle)]) {
        run_of(&main).take_early(&salinity(110, 250));
    }
    let idle_alone = run_of(&and(&idle, &idle)).early(&salinity(110, 250));
    assert_eq!(idle_alone, TAKEN);
}

/// One unit is of the type, one would find `where` true, one opens later; none is all three.
#[test]
fn no_unit_alone_is_early() {
    let refuses = Wait { condition: truth(0), ..later() }.obligation(0);
    let other_type = Wait { reading: 2, ..later() }.obligation(0);
    let open = Wait { condition: truth(0), ..simple(90) }.obligation(0);
    let mut run = run_of(&and(&refuses, &and(&other_type, &open)));
    assert_eq!(run.early(&salinity(110, 250)), TAKEN);
}

/// The window is counted from the activation, and `after` may be worked out from what was read.
#[test]
fn a_window_after_the_activation() {
    let then = Wait { after: value(0), ..simple(60) }.obligation(0);
    let mut run = run_of(&Wait { then, ..simple(60) }.obligation(0));
    assert_eq!(run.early(&salinity(130, 40)), TAKEN);
    run.take_early(&salinity(130, 0));
    run.take_early(&salinity(169, 0));
    assert_eq!((run.early(&salinity(170, 0)), run.table.state()), (TAKEN, Some(State::Fulfilled)));
}

/// `where` sees the values in sight at the clause and then those of this reading.
#[test]
fn where_with_a_value_in_sight() {
    let condition = binary(Operator::Equal, &value(0), &value(1));
    let body = Wait { condition, ..later() }.obligation(128);
    let main = instance(0, &[number(7)], &[1]);
    let mut run = Run::of(works(&[template(&[Type::Number], 1, 0, &body)], &main));
    assert_eq!(run.early(&salinity(110, 8)), TAKEN);
    run.take_early(&salinity(110, 7));
}

#[test]
fn a_window_that_opened_before_the_activation() {
    let mut run = run_of(&Wait { after: number(-5), ..later() }.obligation(0));
    assert_eq!(run.early(&salinity(100, 249)), TAKEN);
    assert_eq!((run.early(&salinity(100, 250)), run.table.state()), (TAKEN, Some(State::Fulfilled)));
}

/// From 110 to 90 is no time at all: the choice lapses, and its else takes the reading and leads back to it. In the
/// minute of its activation all cells stay, and its first is later than the reading, though its last is over.
#[test]
fn a_window_that_is_over_before_it_opens() {
    let again = instance(0, &[], &[]);
    let otherwise = Wait { then: again.clone(), ..simple(60) }.obligation(0);
    let never = Wait { after: number(10), ..simple(-20) }.choice(&otherwise);
    let mut run = Run::of(works(&[template(&[], 0, 1, &never)], &again));
    run.take_early(&salinity(100, 0));
    assert_eq!(run.early(&salinity(101, 0)), TAKEN);
    run.take_early(&salinity(101, 0));
}

#[test]
fn a_first_beyond_32_bits() {
    let main = Wait { after: number(1_000_000_000), ..simple(0) }.obligation(0);
    let mut run = Run::of(agreement(u32::MAX - 1, 1, &[reading_type(&[])], &[], &main));
    run.take_early(&record::reading(u32::MAX - 1, 1, &[]));
    run.take_early(&record::reading(u32::MAX, 1, &[]));
}

/// Every reading of every stream: marked only where the table was running and no unit or state altered.
#[test]
fn every_stream() {
    let (mut early, mut stayed) = (0, 0);
    for entry in fs::read_dir(Path::new(env!("CARGO_MANIFEST_DIR")).join("../../streams")).unwrap() {
        let path = entry.unwrap().path();
        if path.extension().is_none_or(|extension| extension != "in") {
            continue;
        }
        each_reading(&fs::read(&path).unwrap(), |before, after, taken| {
            let altered =
                before.cells()[STATE] != after.cells()[STATE] || before.cells()[HEAD..] != after.cells()[HEAD..];
            let may_be = before.state() == Some(State::Running) && !altered;
            assert!(may_be || !taken.early, "{}", path.display());
            (early, stayed) = (early + usize::from(taken.early), stayed + usize::from(may_be && !taken.early));
        });
    }
    assert!(early > 0 && stayed > 0, "{early} early, {stayed} not");
}

/// Gives away the tables before and after each accepted reading of a stream; none where its start is refused.
fn each_reading(mut stream: &[u8], mut judge: impl FnMut(&Table, &Table, Taken)) {
    let agreement = record::next(&mut stream).unwrap().unwrap_or_default();
    let Ok((mut table, _)) = Table::start(&agreement) else { return };
    while let Some(given) = record::next(&mut stream).unwrap() {
        let before = table.clone();
        if let Ok(taken) = table.reading(&agreement, &given) {
            judge(&before, &table, taken);
        }
    }
}
