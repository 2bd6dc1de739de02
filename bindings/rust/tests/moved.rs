//! When a run last moved, paper 02, No. 1: "the time of the last reading that altered a unit or the state. Head cell 5
//! now holds it. Altered means that a unit cell or the state cell holds another number afterwards. It begins as the
//! start time and lies from the start to the last reading time; a table where it doesn't is damaged under 7."

#[path = "common/pond.rs"]
mod pond;
#[path = "common/run.rs"]
mod run;
#[path = "common/sample.rs"]
mod sample;

use givuntha::{reading, record, Refusal, Refused, State, Table, Times};
use pond::pond;
use reference::build::{and, fulfilled, instance, simple, template, Wait};
use run::Run;
use sample::sample;
use std::fs;
use std::path::Path;

const STATE: usize = 0;
const LAST_MOVED: usize = 5;
const HEAD: usize = 8;

impl Run {
    fn accept(&mut self, record: &[u8]) {
        assert_eq!(self.take(record).map(|taken| taken.early), Ok(false));
    }

    /// The time of the last reading, and when it last moved.
    fn times(&self) -> (u32, u32) {
        let Times { last_reading, last_moved } = self.table.times().expect("its times");
        (last_reading, last_moved)
    }
}

fn salinity(time: u32, value: i32) -> Vec<u8> {
    record::reading(time, 1, &[value])
}

#[test]
fn it_begins_as_the_start() {
    assert_eq!(Run::of(sample()).times(), (100, 100));
    assert_eq!(Run::of(pond(&[], &fulfilled())).times(), (100, 100));
}

/// The heads that docs/FORMAT.md shows.
#[test]
fn the_sample_s_head() {
    let mut run = Run::of(sample());
    assert_eq!(run.table.cells()[..HEAD], [1, 100, 0, 0, 1, 100, 0, 0]);
    run.accept(&salinity(110, 240));
    assert_eq!(run.table.cells()[..HEAD], [1, 110, 0, 0, 1, 100, 0, 0]);
    run.accept(&salinity(160, 250));
    assert_eq!(run.table.cells()[..HEAD], [2, 160, 0, 0, 0, 160, 0, 0]);
}

#[test]
fn an_idle_reading_is_the_last_one_and_moves_nothing() {
    let mut run = Run::of(sample());
    run.accept(&record::mark(105));
    assert_eq!(run.times(), (105, 100));
    run.accept(&salinity(110, 240));
    assert_eq!(run.times(), (110, 100));
}

#[test]
fn a_reading_that_alters_a_unit_sets_it() {
    let two = Wait { then: simple(60).obligation(1), ..simple(60) }.obligation(0);
    let mut run = Run::of(pond(&[], &two));
    run.accept(&record::mark(110));
    run.accept(&salinity(120, 0));
    assert_eq!((run.table.state(), run.times()), (Some(State::Running), (120, 120)));
    run.accept(&record::mark(130));
    assert_eq!(run.times(), (130, 120));
}

/// The choice's time is over, so its else waits in its place from then on.
#[test]
fn a_mark_that_alters_a_unit_sets_it() {
    let mut run = Run::of(pond(&[], &simple(50).choice(&simple(90).obligation(0))));
    run.accept(&record::mark(150));
    assert_eq!(run.times(), (150, 100));
    run.accept(&record::mark(151));
    assert_eq!((run.table.state(), run.times()), (Some(State::Running), (151, 151)));
}

/// The obligation is met and owed anew; in the same minute each cell holds the number that it held.
#[test]
fn a_clause_that_comes_back_as_it_was_moves_nothing() {
    let again = instance(0, &[], &[]);
    let body = Wait { then: again.clone(), ..simple(60) }.obligation(0);
    let mut run = Run::of(pond(&[template(&[], 0, 1, &body)], &again));
    run.accept(&salinity(110, 0));
    assert_eq!(run.times(), (110, 110));
    let before = run.table.clone();
    run.accept(&salinity(110, 0));
    assert_eq!(run.table, before);
    run.accept(&salinity(111, 0));
    assert_eq!(run.times(), (111, 111));
}

#[test]
fn a_refused_reading_leaves_it() {
    let mut run = Run::of(sample());
    run.accept(&salinity(110, 240));
    let before = run.table.clone();
    let refused = [
        (salinity(160, 250)[..12].to_vec(), Refusal::ReadingForm),
        (record::reading(160, 2, &[250]), Refusal::ReadingTyping),
        (salinity(105, 250), Refusal::ReadingTime),
    ];
    for (record, refusal) in refused {
        assert_eq!(run.take(&record), Err(Refused::Other(refusal)));
        assert_eq!(run.table, before);
    }
    assert_eq!(run.times(), (110, 100));
}

#[test]
fn a_reading_with_too_many_units_leaves_it() {
    let again = instance(0, &[], &[]);
    let doubling = Wait { then: and(&again, &again), ..simple(60) }.obligation(0);
    let mut run = Run::of(pond(&[template(&[], 0, 1, &doubling)], &again));
    (101..107).for_each(|time| run.accept(&salinity(time, 0)));
    assert!(matches!(run.take(&salinity(107, 0)), Err(Refused::Units { .. })));
    assert_eq!(run.times(), (106, 106));
}

#[test]
fn a_fulfilled_run_keeps_it() {
    let mut run = Run::of(sample());
    run.accept(&salinity(150, 250));
    assert_eq!((run.table.state(), run.times()), (Some(State::Fulfilled), (150, 150)));
    run.accept(&salinity(170, 250));
    assert_eq!(run.times(), (170, 150));
}

/// It is the time of the reading that showed the breach, and not the breach's own.
#[test]
fn a_breached_run_keeps_it() {
    let mut run = Run::of(sample());
    run.accept(&record::mark(165));
    assert!(matches!(run.table.state(), Some(State::Breached(breach)) if breach.time == 160));
    assert_eq!(run.times(), (165, 165));
    run.accept(&record::mark(170));
    assert_eq!(run.times(), (165, 165));
}

/// A running, a fulfilled and a breached table.
fn in_each_state() -> [Run; 3] {
    let runs = [vec![record::mark(130)], vec![salinity(150, 250), record::mark(170)], vec![record::mark(165)]];
    runs.map(|records| {
        let mut run = Run::of(sample());
        records.iter().for_each(|record| run.accept(record));
        run
    })
}

#[test]
fn from_the_start_to_the_last_reading_it_is_in_order() {
    for run in in_each_state() {
        let (last_reading, _) = run.times();
        for moved in [100, 101, last_reading - 1, last_reading] {
            let mut cells = run.table.cells().to_vec();
            cells[LAST_MOVED] = i64::from(moved);
            assert!(reading(&run.agreement, &mut cells, &record::mark(last_reading)).is_ok(), "{moved}");
            assert_eq!(Times::of(&cells), Some(Times { last_reading, last_moved: moved }));
        }
    }
}

#[test]
fn elsewhere_it_is_refused_with_7() {
    for run in in_each_state() {
        let last_reading = i64::from(run.times().0);
        let beyond_32_bits = 1 << 32;
        for moved in [i64::MIN, -1, 0, 99, last_reading + 1, beyond_32_bits, beyond_32_bits + 100, i64::MAX] {
            let mut cells = run.table.cells().to_vec();
            cells[LAST_MOVED] = moved;
            let damaged = cells.clone();
            let answer = reading(&run.agreement, &mut cells, &record::mark(180));
            assert_eq!((answer, cells), (Err(Refused::Other(Refusal::TableContent)), damaged), "{moved}");
        }
    }
}

#[test]
fn cells_that_hold_no_times_have_none() {
    let (table, _) = Table::start(&sample()).unwrap();
    assert_eq!(Times::of(&table.cells()[1..]), None);
    for (cell, number) in [(1, -1), (1, 1 << 32), (LAST_MOVED, -1), (LAST_MOVED, 1 << 32)] {
        let mut cells = table.cells().to_vec();
        cells[cell] = number;
        assert_eq!(Times::of(&cells), None, "cell {cell}");
    }
}

/// Every reading of every stream, judged by the tables before and after it.
#[test]
fn every_stream() {
    let (mut moved, mut stayed) = (0, 0);
    for entry in fs::read_dir(Path::new(env!("CARGO_MANIFEST_DIR")).join("../../streams")).unwrap() {
        let path = entry.unwrap().path();
        if path.extension().is_none_or(|extension| extension != "in") {
            continue;
        }
        each_reading(&fs::read(&path).unwrap(), |before, after| {
            let altered =
                before.cells()[STATE] != after.cells()[STATE] || before.cells()[HEAD..] != after.cells()[HEAD..];
            let [was, is] = [before, after].map(|table| table.times().expect("its times"));
            let expected = if altered { is.last_reading } else { was.last_moved };
            assert_eq!(is.last_moved, expected, "{}", path.display());
            (moved, stayed) = (moved + usize::from(altered), stayed + usize::from(!altered));
        });
    }
    assert!(moved > 200 && stayed > 400, "{moved} moved, {stayed} stayed");
}

/// Gives away the tables before and after each reading of a stream; none where its start is refused.
fn each_reading(mut stream: &[u8], mut judge: impl FnMut(&Table, &Table)) {
    let agreement = record::next(&mut stream).unwrap().unwrap_or_default();
    let Ok((mut table, _)) = Table::start(&agreement) else { return };
    while let Some(given) = record::next(&mut stream).unwrap() {
        let before = table.clone();
        // A refused reading leaves the table, and so alters nothing.
        let _ = table.reading(&agreement, &given);
        judge(&before, &table);
    }
}
