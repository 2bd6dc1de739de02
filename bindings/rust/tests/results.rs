//! What `givuntha_start`, `givuntha_reading` and `givuntha_preview` write beside the table, called as C calls them: the
//! forecast's time and parties, and of a reading and its preview the mark `early` and the cost.

#[path = "common/pond.rs"]
mod pond;
#[path = "common/run.rs"]
mod run;
#[path = "common/sized.rs"]
mod sized;

use givuntha::{record, CELLS};
use pond::pond;
use reference::agreement::Type;
use reference::build::{agreement, and, fulfilled, instance, number, reading_type, simple, template, truth, Wait};
use run::Run;
use sized::sized;

extern "C" {
    fn givuntha_start(
        agreement: *const u8,
        agreement_bytes: usize,
        table: *mut i64,
        table_cells: usize,
        time: *mut u64,
        parties: *mut u64,
    ) -> u32;

    fn givuntha_reading(
        agreement: *const u8,
        agreement_bytes: usize,
        table: *mut i64,
        table_cells: usize,
        reading: *const u8,
        reading_bytes: usize,
        time: *mut u64,
        parties: *mut u64,
        early: *mut u64,
        cost: *mut u64,
    ) -> u32;

    fn givuntha_preview(
        agreement: *const u8,
        agreement_bytes: usize,
        table: *const i64,
        table_cells: usize,
        reading: *const u8,
        reading_bytes: usize,
        second: *mut i64,
        second_cells: usize,
        time: *mut u64,
        parties: *mut u64,
        early: *mut u64,
        cost: *mut u64,
    ) -> u32;
}

/// What a result may hold before a call.
const HELD: [u64; 5] = [0, 1, 2, 0x5555_5555_5555_5555, u64::MAX];

/// The number, and what the time and the parties hold after a start before which they held this.
fn raw_start(agreement: &[u8], cells: &[i64], held: [u64; 2]) -> (u32, [u64; 2]) {
    let (mut table, [mut time, mut parties]) = (cells.to_vec(), held);
    // SAFETY: the pointers come from slices and references, valid for the lengths beside them and apart.
    let number = unsafe {
        givuntha_start(agreement.as_ptr(), agreement.len(), table.as_mut_ptr(), table.len(), &mut time, &mut parties)
    };
    (number, [time, parties])
}

/// The number, and what time, parties, mark and cost hold after a reading before which they held this.
fn raw_reading(agreement: &[u8], cells: &[i64], reading: &[u8], held: [u64; 4]) -> (u32, [u64; 4]) {
    let (mut table, [mut time, mut parties, mut early, mut cost]) = (cells.to_vec(), held);
    // SAFETY: as in `raw_start`.
    let number = unsafe {
        givuntha_reading(
            agreement.as_ptr(),
            agreement.len(),
            table.as_mut_ptr(),
            table.len(),
            reading.as_ptr(),
            reading.len(),
            &mut time,
            &mut parties,
            &mut early,
            &mut cost,
        )
    };
    (number, [time, parties, early, cost])
}

/// The same of a preview of the reading, with a second table of so many cells.
fn raw_preview(agreement: &[u8], cells: &[i64], reading: &[u8], second: usize, held: [u64; 4]) -> (u32, [u64; 4]) {
    let (mut second, [mut time, mut parties, mut early, mut cost]) = (vec![7; second], held);
    // SAFETY: as in `raw_start`.
    let number = unsafe {
        givuntha_preview(
            agreement.as_ptr(),
            agreement.len(),
            cells.as_ptr(),
            cells.len(),
            reading.as_ptr(),
            reading.len(),
            second.as_mut_ptr(),
            second.len(),
            &mut time,
            &mut parties,
            &mut early,
            &mut cost,
        )
    };
    (number, [time, parties, early, cost])
}

/// Whatever they held before; each result of a start is all 64 bits.
fn assert_start_writes(agreement: &[u8], cells: &[i64], expected: (u32, [u64; 2])) {
    for held in HELD {
        assert_eq!(raw_start(agreement, cells, [held, !held]), expected, "{held}");
    }
}

/// Whatever they held before; each result of a reading is all 64 bits, and its preview writes the same.
fn assert_reading_writes(agreement: &[u8], cells: &[i64], reading: &[u8], expected: (u32, [u64; 4])) {
    for held in HELD {
        let held = [held, !held, !held, held];
        assert_eq!(raw_reading(agreement, cells, reading, held), expected, "{held:?}");
        assert_eq!(raw_preview(agreement, cells, reading, CELLS, held), expected, "a preview, {held:?}");
    }
}

/// After 60 minutes within 60, from 160 to 220.
fn later() -> Wait {
    Wait { after: number(60), ..simple(60) }
}

fn owed_later() -> Run {
    Run::of(pond(&[], &later().obligation(0)))
}

fn salinity(time: u32) -> Vec<u8> {
    record::reading(time, 1, &[250])
}

/// Agreements that are refused with 1 to 5 and 15.
fn refused_agreements() -> [(Vec<u8>, u32); 6] {
    let untyped = pond(&[], &Wait { after: truth(1), ..later() }.obligation(0));
    let itself = instance(0, &[], &[]);
    let unguarded = pond(&[template(&[], 0, 1, &itself)], &later().obligation(0));
    let half = (0..7).fold(later().obligation(0), |side, _| and(&side, &side));
    let wide = pond(&[], &and(&half, &later().obligation(0)));
    let over = pond(&[sized(&template(&[], 0, 1, &simple(60).obligation(0)), 0)], &later().obligation(0));
    [(vec![], 1), (pond(&[], &itself), 2), (untyped, 3), (unguarded, 4), (wide, 5), (over, 15)]
}

/// So many obligations that are 128 in the end, too many with their joins.
fn too_many() -> Vec<u8> {
    let half = (0..6).fold(simple(60).obligation(0), |side, _| and(&side, &side));
    and(&half, &half)
}

#[test]
fn an_accepted_start_writes_the_forecast() {
    let cells = [7; CELLS];
    assert_start_writes(&pond(&[], &later().obligation(0)), &cells, (0, [220, 1]));
    let both = and(&simple(60).obligation(0), &simple(60).obligation(1));
    assert_start_writes(&pond(&[], &both), &cells, (0, [160, 3]));
    assert_start_writes(&pond(&[], &fulfilled()), &cells, (0, [0, 0]));
    assert_start_writes(&pond(&[], &later().choice(&fulfilled())), &cells, (0, [0, 0]));
}

/// More than 32 bits of time, and the last of the parties that can be.
#[test]
fn a_forecast_may_be_large() {
    let far = simple(1_000_000_000).obligation(15);
    let agreement = agreement(u32::MAX, 16, &[reading_type(&[Type::Number])], &[], &far);
    assert_start_writes(&agreement, &[7; CELLS], (0, [5_294_967_295, 1 << 15]));
    let Run { agreement, table } = Run::of(agreement);
    assert_reading_writes(&agreement, table.cells(), &record::mark(u32::MAX), (0, [5_294_967_295, 1 << 15, 0, 1]));
}

#[test]
fn a_refused_start_sets_both_to_0() {
    for (agreement, number) in refused_agreements() {
        assert_start_writes(&agreement, &[7; CELLS], (number, [0, 0]));
    }
    assert_start_writes(&pond(&[], &later().obligation(0)), &[7; CELLS - 1], (6, [0, 0]));
    let crowd = pond(&[template(&[], 0, 1, &too_many())], &instance(0, &[], &[]));
    assert_start_writes(&crowd, &[7; CELLS], (11, [0, 0]));
}

/// One unit is read; what is taken activates fulfilled, a breach nothing.
#[test]
fn an_accepted_reading_writes_all() {
    let Run { agreement, table } = owed_later();
    assert_reading_writes(&agreement, table.cells(), &salinity(110), (0, [220, 1, 1, 1]));
    assert_reading_writes(&agreement, table.cells(), &salinity(160), (0, [0, 0, 0, 2]));
    for given in [salinity(221), record::mark(110), record::mark(160)] {
        assert_reading_writes(&agreement, table.cells(), &given, (0, [220, 1, 0, 1]));
    }
}

/// Not of the table before: its forecast is the first deadline's, or what an else comes to.
#[test]
fn the_forecast_is_that_of_the_table_that_is_left() {
    let then = simple(30).obligation(1);
    let Run { agreement, table } = Run::of(pond(&[], &Wait { then, ..simple(60) }.obligation(0)));
    assert_reading_writes(&agreement, table.cells(), &salinity(110), (0, [140, 2, 0, 2]));
    let missed = simple(10).choice(&simple(90).obligation(1));
    let Run { agreement, table } = Run::of(pond(&[], &missed));
    assert_start_writes(&agreement, table.cells(), (0, [200, 2]));
    assert_reading_writes(&agreement, table.cells(), &record::mark(111), (0, [200, 2, 0, 2]));
    assert_reading_writes(&agreement, table.cells(), &salinity(105), (0, [0, 0, 0, 2]));
}

/// A fulfilled table has no breach ahead, a breached one has its verdict.
#[test]
fn on_a_decided_table_mark_and_cost_are_0() {
    for (deciding, [time, parties]) in [(160, [0, 0]), (221, [220, 1])] {
        let mut run = owed_later();
        run.take(&salinity(deciding)).unwrap();
        for given in [salinity(230), record::mark(221)] {
            assert_reading_writes(&run.agreement, run.table.cells(), &given, (0, [time, parties, 0, 0]));
        }
    }
}

/// Each reading would be early, at a cost of 1 and with a breach ahead, were it not refused.
#[test]
fn refusals_1_to_10_and_15_set_all_to_0() {
    let Run { agreement, table } = owed_later();
    let (cells, given) = (table.cells(), salinity(110));
    for (agreement, number) in refused_agreements() {
        assert_reading_writes(&agreement, cells, &given, (number, [0; 4]));
    }
    assert_reading_writes(&agreement, &cells[1..], &given, (6, [0; 4]));
    assert_reading_writes(&agreement, &[0; CELLS], &given, (7, [0; 4]));
    assert_reading_writes(&agreement, cells, &given[..12], (8, [0; 4]));
    assert_reading_writes(&agreement, cells, &record::reading(110, 1, &[250, 0]), (9, [0; 4]));
    assert_reading_writes(&agreement, cells, &salinity(99), (10, [0; 4]));
}

/// A breached table has a verdict, which no refusal tells.
#[test]
fn a_refusal_on_a_breached_table_sets_all_to_0() {
    let mut run = owed_later();
    run.take(&salinity(221)).unwrap();
    for (given, number) in [(salinity(230)[..12].to_vec(), 8), (record::mark(220), 10)] {
        assert_reading_writes(&run.agreement, run.table.cells(), &given, (number, [0; 4]));
    }
}

/// One waits early. The other's `then` is 128 obligations and 127 `and`s, too many units; beside these 255 clauses the
/// three units of the table count.
#[test]
fn refusal_11_tells_the_cost_alone() {
    let grows = Wait { then: too_many(), ..simple(60) }.obligation(0);
    let Run { agreement, table } = Run::of(pond(&[], &and(&later().obligation(0), &grows)));
    assert_reading_writes(&agreement, table.cells(), &salinity(110), (11, [0, 0, 0, 258]));
}

/// The reading would be early, or refused with 11 at its cost; with a second table of another length nothing is told.
#[test]
fn a_preview_into_another_length_sets_all_to_0() {
    let grows = Wait { then: too_many(), ..simple(60) }.obligation(0);
    for run in [owed_later(), Run::of(pond(&[], &grows))] {
        for (length, held) in [0, CELLS - 1, CELLS + 1].into_iter().flat_map(|length| HELD.map(|held| (length, held))) {
            let told = raw_preview(&run.agreement, run.table.cells(), &salinity(110), length, [held; 4]);
            assert_eq!(told, (6, [0; 4]), "{length}, {held}");
        }
    }
}
