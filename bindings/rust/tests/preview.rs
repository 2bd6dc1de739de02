//! What a reading would do, paper 02, No. 6: "A preview takes agreement, table and reading, and writes the outcome into
//! a second table of the same length. It answers as the reading itself would on a copy, refusals included, and the
//! first table is only read. On a refusal the second table is untouched. A second table of wrong length counts under
//! 6."

#[path = "common/pond.rs"]
mod pond;
#[path = "common/run.rs"]
mod run;
#[path = "common/sample.rs"]
mod sample;
#[path = "common/sized.rs"]
mod sized;

use givuntha::{preview, reading, record, Breach, Parties, Refusal, Refused, State, Table, Taken, Times, CELLS};
use pond::pond;
use reference::build::{and, fulfilled, instance, number, or, simple, template, truth, Wait};
use reference::generate::{calls, Entry};
use run::Run;
use sample::sample;
use sized::sized;
use std::collections::BTreeMap;
use std::fs;
use std::path::Path;

const HEAD: usize = 8;
const GENERATED: usize = 20_000;

fn salinity(time: u32, value: i32) -> Vec<u8> {
    record::reading(time, 1, &[value])
}

fn run_of(main: &[u8]) -> Run {
    Run::of(pond(&[], main))
}

/// From 160 to 220.
fn later() -> Wait {
    Wait { after: number(60), ..simple(60) }
}

/// A breach by party 0.
fn party_0(time: u64) -> Option<Breach> {
    Some(Breach { time, parties: Parties::from_bits(1) })
}

/// Accepted, and not too early.
fn taken(ahead: Option<Breach>, cost: u64) -> Result<Taken, Refused> {
    Ok(Taken { ahead, early: false, cost })
}

/// What a second table may hold: nothing, anything, or a table of some run.
fn held() -> Vec<Vec<i64>> {
    let (other, _) = Table::start(&pond(&[], &and(&simple(5).obligation(1), &later().obligation(0)))).unwrap();
    vec![vec![0; CELLS], vec![-1; CELLS], (0..CELLS as i64).collect(), other.cells().to_vec()]
}

/// The answer to a preview, and what the second table holds afterwards; the first must be as it was.
fn previewed(agreement: &[u8], cells: &[i64], given: &[u8], held: &[i64]) -> (Result<Taken, Refused>, Vec<i64>) {
    let (first, mut second) = (cells.to_vec(), held.to_vec());
    let answer = preview(agreement, &first, given, &mut second);
    assert_eq!(first, cells);
    (answer, second)
}

/// The preview must answer as the reading on a copy, and write its cells, or none where it is refused.
fn as_on_a_copy(agreement: &[u8], cells: &[i64], given: &[u8], held: &[i64]) -> Result<Taken, Refused> {
    let mut copy = cells.to_vec();
    let answer = reading(agreement, &mut copy, given);
    let left = if answer.is_ok() { &copy[..] } else { held };
    assert_eq!(previewed(agreement, cells, given, held), (answer, left.to_vec()));
    answer
}

/// Refused so by a preview, whatever the second table holds, which is kept; and so by the reading.
fn assert_refused(agreement: &[u8], cells: &[i64], given: &[u8], refused: Refused) {
    for held in held() {
        assert_eq!(as_on_a_copy(agreement, cells, given, &held), Err(refused));
    }
}

impl Run {
    /// What the reading would do, by a table of one's own: this one must be as it was.
    fn foresee(&self, given: &[u8]) -> Result<(Taken, Table), Refused> {
        let before = self.table.clone();
        let foreseen = self.table.preview(&self.agreement, given);
        assert_eq!(self.table, before);
        foreseen
    }

    /// The reading must do what the preview told.
    fn take_as_foreseen(&mut self, given: &[u8]) -> Taken {
        let (foreseen, after) = self.foresee(given).expect("an accepted reading");
        assert_eq!((self.take(given), &self.table), (Ok(foreseen), &after));
        foreseen
    }
}

/// From one table: it would wait, be fulfilled, or be breached, and none of it is entered.
#[test]
fn the_sample_s_readings_before_they_are_entered() {
    let run = Run::of(sample());
    let unit = [17, 17, 100];
    let heads = [
        (salinity(110, 240), taken(party_0(160), 1), [1, 110, 0, 0, 1, 100, 0, 0], &unit[..]),
        (salinity(160, 250), taken(None, 2), [2, 160, 0, 0, 0, 160, 0, 0], &[]),
        (record::mark(161), taken(party_0(160), 1), [3, 161, 160, 1, 0, 161, 0, 0], &[]),
    ];
    for (given, answer, head, units) in heads {
        let mut after = [&head, units].concat();
        after.resize(CELLS, 0);
        for held in held() {
            assert_eq!(previewed(&run.agreement, run.table.cells(), &given, &held), (answer, after.clone()));
        }
        let (foreseen, table) = run.foresee(&given).unwrap();
        assert_eq!((Ok(foreseen), &table.cells()[..]), (answer, &after[..]));
    }
    assert_eq!(run.table.times(), Some(Times { last_reading: 100, last_moved: 100 }));
}

/// To go on with the second table is to have entered the reading.
#[test]
fn the_reading_does_what_was_foreseen() {
    let again = instance(0, &[], &[]);
    let doubling = Wait { then: and(&again, &again), ..simple(60) }.obligation(0);
    let mut run = Run::of(pond(&[template(&[], 0, 1, &doubling)], &again));
    let mut gone_on = run.table.clone();
    for (time, cost) in (101..107).zip([6, 13, 27, 55, 111, 223]) {
        let (foreseen, after) = gone_on.preview(&run.agreement, &salinity(time, 0)).unwrap();
        assert_eq!(foreseen, Taken { ahead: party_0(u64::from(time) + 60), early: false, cost });
        assert_eq!(run.take_as_foreseen(&salinity(time, 0)), foreseen);
        assert_eq!(run.table, after);
        gone_on = after;
    }
    assert_refused(&run.agreement, run.table.cells(), &salinity(107, 0), Refused::Units { cost: 447 });
}

/// Agreements that are refused with 1 to 5 and 15.
fn refused_agreements() -> [(Vec<u8>, Refusal); 6] {
    let itself = instance(0, &[], &[]);
    let untyped = pond(&[], &Wait { after: truth(1), ..later() }.obligation(0));
    let unguarded = pond(&[template(&[], 0, 0, &itself)], &fulfilled());
    [
        (vec![], Refusal::AgreementLength),
        (pond(&[], &itself), Refusal::AgreementForm),
        (untyped, Refusal::AgreementTyping),
        (unguarded, Refusal::AgreementGuards),
        (pond(&[], &and(&many(), &fulfilled())), Refusal::AgreementWidth),
        (pond(&[sized(&template(&[], 0, 0, &fulfilled()), 0)], &many()), Refusal::AgreementSize),
    ]
}

/// 128 obligations and 127 `and`s: too many units, and all but too wide.
fn many() -> Vec<u8> {
    (0..7).fold(simple(60).obligation(0), |side, _| and(&side, &side))
}

/// The obligation comes to too many units when it is met.
fn owed_then_many() -> Run {
    run_of(&Wait { then: many(), ..simple(60) }.obligation(0))
}

#[test]
fn refusals_1_to_5_and_15() {
    for (agreement, refusal) in refused_agreements() {
        let run = Run::of(sample());
        assert_refused(&agreement, run.table.cells(), &salinity(110, 240), Refused::Other(refusal));
    }
}

#[test]
fn refusal_6_by_the_first_table() {
    for length in [0, 1, CELLS - 1, CELLS + 1, 2 * CELLS] {
        assert_refused(&sample(), &vec![0; length], &record::mark(110), Refused::Other(Refusal::TableLength));
    }
}

/// Neither one that is too short is written, nor one that is too long.
#[test]
fn refusal_6_by_the_second_table() {
    let run = Run::of(sample());
    for length in [0, 1, CELLS - 1, CELLS + 1, 2 * CELLS] {
        for given in [salinity(160, 250), salinity(110, 240), record::mark(161)] {
            let held = vec![7; length];
            let answer = previewed(&run.agreement, run.table.cells(), &given, &held);
            assert_eq!(answer, (Err(Refused::Other(Refusal::TableLength)), held));
        }
    }
}

/// A second table of wrong length comes behind 5, beside the first's, and before 7 to 11.
#[test]
fn refusal_6_by_the_second_table_stands_in_its_order() {
    let run = Run::of(sample());
    let cells = run.table.cells();
    let answer = |agreement: &[u8], cells: &[i64], given: &[u8]| {
        let lengths = [0, CELLS - 1, CELLS + 1].map(|length| vec![7; length]);
        let numbers = lengths.map(|held| {
            let (answer, second) = previewed(agreement, cells, given, &held);
            assert_eq!(second, held);
            answer.map_err(|refused| (refused.number(), refused.cost()))
        });
        assert!(numbers.iter().all(|number| *number == numbers[0]), "{numbers:?}");
        numbers[0]
    };
    for (agreement, refusal) in refused_agreements() {
        assert_eq!(answer(&agreement, cells, &salinity(110, 240)), Err((refusal.number(), 0)));
    }
    let grows = owed_then_many();
    assert_eq!(answer(&grows.agreement, grows.table.cells(), &salinity(110, 0)), Err((6, 0)));
    assert_eq!(answer(&sample(), &cells[1..], &salinity(110, 240)), Err((6, 0)));
    assert_eq!(answer(&sample(), &[0; CELLS], &salinity(110, 240)), Err((6, 0)));
    for given in [salinity(110, 240)[..12].to_vec(), record::reading(110, 2, &[240]), salinity(99, 240)] {
        assert_eq!(answer(&sample(), cells, &given), Err((6, 0)));
    }
}

#[test]
fn refusal_7() {
    let run = Run::of(sample());
    for (cell, value) in [(0, 9), (1, 99), (4, 2), (5, 101), (7, 1), (8, 18), (10, 99), (CELLS - 1, 1)] {
        let mut cells = run.table.cells().to_vec();
        cells[cell] = value;
        assert_refused(&run.agreement, &cells, &record::mark(110), Refused::Other(Refusal::TableContent));
    }
    assert_refused(&sample(), &[0; CELLS], &record::mark(110), Refused::Other(Refusal::TableContent));
}

/// Of a running, a fulfilled and a breached table alike.
#[test]
fn refusals_8_to_10() {
    let entered = [salinity(120, 240), salinity(160, 250), record::mark(161)];
    for decides in entered {
        let mut run = Run::of(sample());
        run.take(&decides).unwrap();
        let refused = [
            (salinity(170, 250)[..12].to_vec(), Refusal::ReadingForm),
            (record::reading(170, 2, &[250]), Refusal::ReadingTyping),
            (salinity(119, 250), Refusal::ReadingTime),
        ];
        for (given, refusal) in refused {
            assert_refused(&run.agreement, run.table.cells(), &given, Refused::Other(refusal));
            assert_eq!(run.foresee(&given), Err(Refused::Other(refusal)));
        }
    }
}

/// Paper 02, No. 9: "on 11 it is the refused reading's, [..] (in a preview too)". One unit is read, and 255 clauses are
/// activated.
#[test]
fn refusal_11_has_its_cost() {
    let run = owed_then_many();
    let refused = Refused::Units { cost: 1 + 255 };
    assert_refused(&run.agreement, run.table.cells(), &salinity(110, 0), refused);
    assert_eq!(run.foresee(&salinity(110, 0)), Err(refused));
    assert_eq!(run.foresee(&record::mark(110)).map(|(taken, _)| taken), taken(party_0(160), 1));
}

/// Whether a unit or the state alters is seen by both tables: beside one that is met, the reading is not early.
#[test]
fn early_in_a_preview() {
    let alone = run_of(&later().obligation(0));
    let (early, after) = alone.foresee(&salinity(110, 0)).unwrap();
    assert_eq!(early, Taken { ahead: party_0(220), early: true, cost: 1 });
    assert_eq!(after.times(), Some(Times { last_reading: 110, last_moved: 100 }));
    assert_eq!(alone.foresee(&salinity(160, 0)).map(|(taken, _)| taken), taken(None, 2));
    let mut beside = run_of(&and(&later().obligation(0), &simple(60).obligation(1)));
    assert!(!beside.take_as_foreseen(&salinity(110, 0)).early);
    assert!(beside.take_as_foreseen(&salinity(120, 0)).early);
    assert!(!beside.take_as_foreseen(&record::mark(121)).early);
    for held in held() {
        let answer = as_on_a_copy(&alone.agreement, alone.table.cells(), &salinity(159, 0), &held);
        assert!(answer.unwrap().early);
    }
}

/// Its time alone goes on, and nothing is owed; a cost it has not.
#[test]
fn on_a_fulfilled_table() {
    let mut run = Run::of(sample());
    run.take(&salinity(150, 250)).unwrap();
    for given in [salinity(170, 0), record::mark(170)] {
        let (foreseen, after) = run.foresee(&given).unwrap();
        assert_eq!((Ok(foreseen), after.state()), (taken(None, 0), Some(State::Fulfilled)));
        assert_eq!(after.cells()[..HEAD], [2, 170, 0, 0, 0, 150, 0, 0]);
    }
    run.take_as_foreseen(&record::mark(180));
}

/// The reading alters no cell of it, so the second table becomes its equal.
#[test]
fn on_a_breached_table() {
    let mut run = Run::of(sample());
    run.take(&record::mark(165)).unwrap();
    for given in [salinity(170, 250), record::mark(165)] {
        for held in held() {
            let expected = (taken(party_0(160), 0), run.table.cells().to_vec());
            assert_eq!(previewed(&run.agreement, run.table.cells(), &given, &held), expected);
        }
        assert_eq!(run.take_as_foreseen(&given).cost, 0);
    }
}

/// Units that are dropped leave no trace in the second table, be it of the first or of what it held.
#[test]
fn a_table_that_becomes_smaller() {
    let mut run = run_of(&or(&and(&simple(5).obligation(0), &later().obligation(0)), &simple(90).obligation(0)));
    assert_eq!(run.table.cells()[4], 5);
    let (_, after) = run.foresee(&record::mark(106)).unwrap();
    assert_eq!(after.cells()[4], 1);
    assert!(after.cells()[HEAD + 24..].iter().all(|cell| *cell == 0));
    run.take_as_foreseen(&record::mark(106));
}

/// Of what is lent as the second table each cell is written, and no other.
#[test]
fn what_stands_around_the_second_table_is_left() {
    let run = Run::of(sample());
    let mut cells = vec![7; CELLS + 48];
    let [before, second, behind] = cells.get_disjoint_mut([0..24, 24..24 + CELLS, 24 + CELLS..48 + CELLS]).unwrap();
    preview(&run.agreement, run.table.cells(), &record::mark(161), second).unwrap();
    assert_eq!(second[..HEAD], [3, 161, 160, 1, 0, 161, 0, 0]);
    assert!(second[HEAD..].iter().all(|cell| *cell == 0));
    assert!(before.iter().chain(behind.iter()).all(|cell| *cell == 7));
}

/// Readings of every cause, on running, decided and damaged tables.
#[test]
fn of_generated_calls() {
    let (mut accepted, mut refused, mut early) = (0, BTreeMap::new(), 0);
    for (n, call) in calls(6).take(GENERATED).enumerate() {
        let Entry::Reading { table, reading } = &call.entry else { continue };
        let held: Vec<i64> = (0..CELLS).map(|cell| (cell * n) as i64).collect();
        match as_on_a_copy(&call.agreement, table, reading, &held) {
            Ok(taken) => (accepted, early) = (accepted + 1, early + usize::from(taken.early)),
            Err(why) => *refused.entry(why.refusal()).or_insert(0) += 1,
        }
    }
    assert!(accepted > 1000 && early > 0 && refused.keys().eq(&Refusal::ALL), "{accepted}, {refused:?}");
}

/// Each reading of every stream does what was foreseen.
#[test]
fn every_stream() {
    let (mut entered, mut refused) = (0, 0);
    for entry in fs::read_dir(Path::new(env!("CARGO_MANIFEST_DIR")).join("../../streams")).unwrap() {
        let path = entry.unwrap().path();
        if path.extension().is_none_or(|extension| extension != "in") {
            continue;
        }
        each_reading(&fs::read(&path).unwrap(), |foreseen, answer| {
            assert_eq!(foreseen, answer, "{}", path.display());
            (entered, refused) = (entered + usize::from(answer.is_ok()), refused + usize::from(answer.is_err()));
        });
    }
    assert!(entered > 500 && refused > 50, "{entered} entered, {refused} refused");
}

/// What a preview and then the reading itself answer, with the tables that they leave.
type Told = Result<(Taken, Table), Refused>;

/// Gives away what each reading of a stream was foreseen to do and what it did; none where its start is refused.
fn each_reading(mut stream: &[u8], mut judge: impl FnMut(Told, Told)) {
    let agreement = record::next(&mut stream).unwrap().unwrap_or_default();
    let Ok((table, _)) = Table::start(&agreement) else { return };
    let mut run = Run { agreement, table };
    while let Some(given) = record::next(&mut stream).unwrap() {
        let foreseen = run.foresee(&given);
        judge(foreseen, run.take(&given).map(|taken| (taken, run.table.clone())));
    }
}
