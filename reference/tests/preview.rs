//! Paper 02, No. 6: "A preview takes agreement, table and reading, and writes the outcome into a second table of the
//! same length. It answers as the reading itself would on a copy, refusals included, and the first table is only read.
//! On a refusal the second table is untouched. A second table of wrong length counts under 6."

use reference::agreement::{Operator, Type};
use reference::build::*;
use reference::table::{ACTIVATED, BLAMED, BREACHED, FULFILLED, HEAD, LAST, MOVED, RUNNING, STATE, TIME, UNIT, USED};
use reference::{check, preview, reading, Forecast, Taken, CELLS};

#[path = "common/run.rs"]
mod run;
use run::{Run, BELL, LEVEL, START};

fn mark(time: u32) -> Vec<u8> {
    reference::build::reading(time, 0, &[])
}

fn level(time: u32, value: i32) -> Vec<u8> {
    reference::build::reading(time, LEVEL, &[value])
}

fn bell(time: u32) -> Vec<u8> {
    reference::build::reading(time, BELL, &[])
}

fn accepted(early: u32, cost: u64, forecast: Forecast) -> Taken {
    Taken { number: 0, early, cost, forecast }
}

fn refused(number: u32) -> Taken {
    Taken { number, early: 0, cost: 0, forecast: None }
}

fn too_many(cost: u64) -> Taken {
    Taken { number: 11, early: 0, cost, forecast: None }
}

impl Run {
    /// Previews into a second table that holds sevens.
    fn preview(&self, taken: &[u8]) -> (Taken, Vec<i64>) {
        self.preview_over(vec![7; CELLS], taken)
    }

    /// The first table stays as it is.
    fn preview_over(&self, mut second: Vec<i64>, taken: &[u8]) -> (Taken, Vec<i64>) {
        let before = self.table.clone();
        let answer = preview(&self.agreement, &self.table, taken, &mut second);
        assert_eq!(self.table, before);
        (answer, second)
    }

    /// What an accepted preview answers, and the head of the table that it writes.
    fn foresees(&self, taken: &[u8]) -> (Taken, [i64; HEAD]) {
        let (answer, second) = self.preview(taken);
        assert_eq!(answer.number, 0, "{taken:?}");
        (answer, second[..HEAD].try_into().expect("a head"))
    }

    /// The reading itself on a copy.
    fn on_a_copy(&self, taken: &[u8]) -> (Taken, Vec<i64>) {
        let mut copy = self.clone();
        (copy.take(taken), copy.table)
    }
}

/// Party 0 owes a level within 60, then `then`.
fn owed_then(then: Vec<u8>) -> Vec<u8> {
    Wait { then, ..simple(60) }.obligation(0)
}

fn owed() -> Vec<u8> {
    owed_then(fulfilled())
}

/// So many leaves joined by `and` in balance.
fn balanced(leaves: usize, leaf: &[u8]) -> Vec<u8> {
    match leaves {
        1 => leaf.to_vec(),
        _ => and(&balanced(leaves / 2, leaf), &balanced(leaves - leaves / 2, leaf)),
    }
}

/// A level not below 250 is owed from 120 to 160, then a bell within 20 by party 1; after a mark at 110.
fn pond() -> Run {
    let high = not(&binary(Operator::Less, &value(0), &number(250)));
    let then = Wait { reading: BELL, ..simple(20) }.obligation(1);
    let mut run = Run::of(&Wait { condition: high, after: number(20), then, ..simple(40) }.obligation(0));
    assert_eq!(run.take(&mark(110)).number, 0);
    run
}

/// The pond fulfilled at 130.
fn fulfilled_pond() -> Run {
    let mut run = pond();
    assert_eq!([run.take(&level(120, 250)).number, run.take(&bell(130)).number], [0, 0]);
    assert_eq!(run.table[STATE], FULFILLED);
    run
}

/// The pond breached at 160, after a mark at 165.
fn breached_pond() -> Run {
    let mut run = pond();
    assert_eq!(run.take(&mark(165)).number, 0);
    assert_eq!(run.table[STATE], BREACHED);
    run
}

/// Its 129 units after a level are too many.
fn crowded() -> Run {
    Run::of(&owed_then(balanced(65, &owed())))
}

/// An agreement of each of the refusals 1 to 5.
fn bad_agreements() -> [Vec<u8>; 5] {
    let with = |templates: &[Vec<u8>], main: &[u8]| agreement(START, 2, &[reading_type(&[])], templates, main);
    let own = template(&[], 0, 0, &instance(0, &[], &[]));
    let untyped = Wait { after: truth(1), ..simple(60) }.obligation(0);
    let wide = with(&[], &balanced(129, &fulfilled()));
    [Vec::new(), with(&[], &record(23, &[])), with(&[], &untyped), with(&[own], &fulfilled()), wide]
}

/// Contents that a second table may have held.
fn contents() -> Vec<Vec<i64>> {
    let of_runs = [pond(), fulfilled_pond(), breached_pond(), crowded()].map(|run| run.table);
    let garbage = (0..CELLS as i64).map(|cell| (cell + 1) * 7_919 % 1_000_003 - 500_000).collect();
    of_runs.into_iter().chain([vec![0; CELLS], vec![-1; CELLS], vec![i64::MAX; CELLS], garbage]).collect()
}

#[test]
fn a_reading_that_waits_on() {
    let (answer, head) = pond().foresees(&mark(115));
    assert_eq!((answer, head), (accepted(0, 1, Some((160, 1))), [RUNNING, 115, 0, 0, 1, 100, 0, 0]));
    let (answer, head) = pond().foresees(&level(130, 249));
    assert_eq!((answer, head), (accepted(0, 1, Some((160, 1))), [RUNNING, 130, 0, 0, 1, 100, 0, 0]));
}

/// "It is 1 if and only if ...": judged by the first table, whatever the second held.
#[test]
fn a_reading_that_comes_too_early() {
    for second in contents() {
        let (answer, second) = pond().preview_over(second, &level(119, 250));
        assert_eq!(answer, accepted(1, 1, Some((160, 1))));
        assert_eq!(second[..HEAD], [RUNNING, 119, 0, 0, 1, 100, 0, 0]);
    }
}

#[test]
fn a_reading_that_alters() {
    let (answer, second) = pond().preview(&level(120, 250));
    assert_eq!(answer, accepted(0, 2, Some((140, 2))));
    assert_eq!(second[..HEAD], [RUNNING, 120, 0, 0, 1, 120, 0, 0]);
    let place = second[HEAD + 1];
    // The reading's value and the remaining time are in sight there.
    let unit = [17, place, 120, 0, 0, 0, 0, 0, 250, 40];
    assert_eq!(second[HEAD..HEAD + 10], unit);
    assert_eq!(second[HEAD + 10..], vec![0; CELLS - HEAD - 10]);
}

#[test]
fn a_reading_that_decides() {
    let mut run = pond();
    let (answer, head) = run.foresees(&mark(161));
    assert_eq!((answer, head), (accepted(0, 1, Some((160, 1))), [BREACHED, 161, 160, 1, 0, 161, 0, 0]));
    assert_eq!(run.take(&level(120, 250)).number, 0);
    let (answer, head) = run.foresees(&bell(130));
    assert_eq!((answer, head), (accepted(0, 2, None), [FULFILLED, 130, 0, 0, 0, 130, 0, 0]));
}

/// "accepted readings ... set the last reading time" on a fulfilled table, and alter nothing else.
#[test]
fn on_a_fulfilled_table() {
    for taken in [mark(140), level(140, 250), bell(140)] {
        let (answer, second) = fulfilled_pond().preview(&taken);
        assert_eq!(answer, accepted(0, 0, None));
        assert_eq!(second[..HEAD], [FULFILLED, 140, 0, 0, 0, 130, 0, 0]);
        assert_eq!(second[HEAD..], vec![0; CELLS - HEAD]);
    }
}

/// "Once breached, accepted readings alter no cell": the second becomes as the first is, and the verdict is told.
#[test]
fn on_a_breached_table() {
    let run = breached_pond();
    for taken in [mark(165), mark(170), level(170, 250), bell(170)] {
        for second in contents() {
            let (answer, second) = run.preview_over(second, &taken);
            assert_eq!(answer, accepted(0, 0, Some((160, 1))));
            assert_eq!(second, run.table);
        }
    }
    assert_eq!(run.table[..HEAD], [BREACHED, 165, 160, 1, 0, 165, 0, 0]);
}

/// Every cell is written, whatever the second held: its head, its units, and the cells that are in no use afterwards.
#[test]
fn what_the_second_held_does_not_matter() {
    let ponds = [pond(), fulfilled_pond(), breached_pond()];
    for (run, taken) in ponds.iter().flat_map(|run| [mark(170), level(170, 250), bell(170)].map(|taken| (run, taken))) {
        for second in contents() {
            assert_eq!(run.preview_over(second, &taken), run.on_a_copy(&taken));
        }
    }
    let run = crowded();
    for second in contents() {
        assert_eq!(run.preview_over(second, &mark(120)), run.on_a_copy(&mark(120)));
    }
}

/// A second that is the first's own copy, or that holds the outcome already: the reading alters all the same.
#[test]
fn altered_is_judged_by_the_first() {
    let run = pond();
    let (answer, outcome) = run.on_a_copy(&level(120, 250));
    for second in [run.table.clone(), outcome.clone()] {
        assert_eq!(run.preview_over(second, &level(120, 250)), (answer, outcome.clone()));
    }
    assert_eq!((outcome[MOVED], answer.early), (120, 0));
}

/// "On a refusal the second table is untouched": each number, whatever the second held.
#[test]
fn a_refusal_keeps_the_second() {
    let kept = |run: &Run, taken: &[u8], expected: Taken| {
        for second in contents() {
            assert_eq!(run.preview_over(second.clone(), taken), (expected, second));
        }
        assert_eq!(run.on_a_copy(taken), (expected, run.table.clone()));
    };
    let run = pond();
    for (number, agreement) in (1..).zip(bad_agreements()) {
        assert_eq!(check(&agreement).number, number);
        kept(&Run { agreement, table: run.table.clone() }, &mark(120), refused(number));
    }
    for length in [0, CELLS - 1, CELLS + 1] {
        kept(&Run { agreement: run.agreement.clone(), table: vec![0; length] }, &mark(120), refused(6));
    }
    for (cell, number) in
        [(STATE, 9), (LAST, 99), (TIME, 1), (BLAMED, 1), (USED, 2), (MOVED, 99), (HEAD + ACTIVATED, 99)]
    {
        let mut damaged = run.clone();
        damaged.table[cell] = number;
        kept(&damaged, &mark(120), refused(7));
    }
    for run in [run, fulfilled_pond(), breached_pond()] {
        kept(&run, &[], refused(8));
        kept(&run, &level(170, 250)[..12], refused(8));
        kept(&run, &reference::build::reading(170, LEVEL, &[]), refused(9));
        kept(&run, &reference::build::reading(170, 3, &[]), refused(9));
        kept(&run, &mark(109), refused(10));
    }
    kept(&crowded(), &level(110, 0), too_many(1 + 129));
}

/// Lengths that are wrong: "table not 3,080 cells".
const WRONG: [usize; 5] = [0, HEAD, CELLS - 1, CELLS + 1, 2 * CELLS];

/// "A second table of wrong length counts under 6", be the first right or not. Two of the same wrong length are no
/// better.
#[test]
fn a_length_is_wrong() {
    let run = pond();
    for length in WRONG {
        assert_eq!(run.preview_over(vec![7; length], &mark(120)), (refused(6), vec![7; length]));
        let short = Run { table: vec![0; length], ..run.clone() };
        assert_eq!(short.preview(&mark(120)), (refused(6), vec![7; CELLS]));
        for other in WRONG {
            assert_eq!(short.preview_over(vec![7; other], &mark(120)), (refused(6), vec![7; other]));
        }
    }
    assert_eq!(run.preview(&mark(120)).0.number, 0);
}

/// The first's own cells, cut short or with zeros after them: nothing but the length is wrong.
#[test]
fn a_longer_or_shorter_copy_is_wrong() {
    let run = pond();
    for length in WRONG {
        let mut second = run.table.clone();
        second.resize(length, 0);
        assert_eq!(run.preview_over(second.clone(), &level(120, 250)), (refused(6), second));
    }
}

/// "The lowest number that applies is returned": 1 to 5 before the second's length.
#[test]
fn numbers_1_to_5_come_before_the_second_s_length() {
    let tables = [pond().table, vec![0; CELLS], vec![0; CELLS - 1]];
    for (number, agreement) in (1..).zip(bad_agreements()) {
        for (length, table) in WRONG.iter().flat_map(|length| tables.iter().map(move |table| (*length, table))) {
            let run = Run { agreement: agreement.clone(), table: table.clone() };
            for taken in [mark(120), Vec::new()] {
                assert_eq!(run.preview_over(vec![7; length], &taken), (refused(number), vec![7; length]));
            }
        }
    }
}

/// 7 to 11 after the second's length; 6 has no cost, though the reading would be refused with 11.
#[test]
fn the_second_s_length_comes_before_7_to_11() {
    let mut damaged = pond();
    damaged.table[STATE] = 9;
    let cases = [
        (7, damaged.clone(), mark(120)),
        (7, damaged, Vec::new()),
        (8, pond(), Vec::new()),
        (9, pond(), reference::build::reading(120, 3, &[])),
        (10, pond(), mark(109)),
        (10, breached_pond(), mark(109)),
        (11, crowded(), level(110, 0)),
    ];
    for (number, run, taken) in cases {
        assert_eq!(run.on_a_copy(&taken).0.number, number);
        assert_eq!(run.preview(&taken).0.number, number);
        for length in WRONG {
            assert_eq!(run.preview_over(vec![7; length], &taken), (refused(6), vec![7; length]));
        }
    }
}

/// P15: "six fitting readings leave 127 units, the seventh is refused with 11". Paper 02, No. 9: "on 11 it is the
/// refused reading's, and not zero ... (in a preview too)". 64 waiting units activate five clauses each.
#[test]
fn p15_in_previews() {
    let named = instance(0, &[], &[]);
    let mut run = Run::with(&[template(&[], 0, 1, &owed_then(and(&named, &named)))], &named);
    for cost in [6, 13, 27, 55, 111, 223] {
        let (answer, second) = run.preview(&level(110, 0));
        assert_eq!(answer, accepted(0, cost, Some((170, 1))));
        assert_eq!(run.take(&level(110, 0)), answer);
        assert_eq!(run.table, second);
    }
    assert_eq!(run.table[USED], 127);
    for second in contents() {
        assert_eq!(run.preview_over(second.clone(), &level(120, 0)), (too_many(127 + 320), second));
    }
    assert_eq!(run.take(&level(120, 0)), too_many(127 + 320));
}

/// 129 units by an else are too many, and so has 11 its cost too.
#[test]
fn refusal_11_by_an_else() {
    let run = Run::of(&simple(5).choice(&balanced(65, &owed())));
    assert_eq!(run.preview(&mark(106)), (too_many(1 + 129), vec![7; CELLS]));
    // By a level each of the 65 activates fulfilled, and nothing is left.
    assert_eq!(run.preview(&level(106, 0)).0, accepted(0, 1 + 129 + 65, None));
}

/// The readings of a run, some of them refused.
fn readings() -> Vec<Vec<u8>> {
    let unfit = reference::build::reading(130, LEVEL, &[]);
    let to_the_bell = vec![mark(110), level(115, 300), level(121, 249), unfit, level(122, 250), mark(121), Vec::new()];
    to_the_bell.into_iter().chain([bell(130), level(130, 1), bell(142), mark(143), mark(200)]).collect()
}

/// A preview and then the reading: the same answer, and the cells that the preview wrote. A run of which each reading
/// is previewed goes as one without previews.
#[test]
fn a_preview_and_then_the_reading() {
    for mut run in [pond(), fulfilled_pond(), breached_pond(), crowded()] {
        let mut alone = run.clone();
        let mut second = vec![0; CELLS];
        for taken in readings() {
            let held = second.clone();
            let foreseen = preview(&run.agreement, &run.table, &taken, &mut second);
            assert_eq!(run.table, alone.table);
            assert_eq!(run.take(&taken), foreseen, "{taken:?}");
            assert_eq!(alone.take(&taken), foreseen, "{taken:?}");
            assert_eq!(second, if foreseen.number == 0 { &run.table } else { &held }[..]);
        }
    }
}

/// What is previewed can be previewed on: the second table is one that readings and previews take.
#[test]
fn a_preview_of_what_a_preview_wrote() {
    let mut run = pond();
    let (mut first, mut second) = (run.table.clone(), vec![7; CELLS]);
    for taken in readings() {
        let foreseen = preview(&run.agreement, &first, &taken, &mut second);
        assert_eq!(run.take(&taken), foreseen);
        if foreseen.number == 0 {
            std::mem::swap(&mut first, &mut second);
        }
        assert_eq!(first, run.table);
    }
}

/// The same reading previewed twice, and another in between: none of them is taken.
#[test]
fn previews_are_not_taken() {
    let run = pond();
    let foreseen = run.preview(&level(120, 250));
    assert_eq!(run.preview(&mark(500)).1[STATE], BREACHED);
    assert_eq!(run.preview(&level(120, 250)), foreseen);
    assert_eq!(run.preview(&mark(110)).0.number, 0);
}

/// A table that no run left: an `and` of two units whose last reading time and cell 5 lie anywhere.
#[test]
fn on_a_table_made_without_a_run() {
    let mut run = Run::of(&and(&owed(), &Wait { reading: BELL, ..simple(60) }.obligation(1)));
    run.table[LAST] = 150;
    run.table[MOVED] = 133;
    run.table[HEAD + UNIT + ACTIVATED] = 120;
    let (answer, head) = run.foresees(&mark(155));
    assert_eq!((answer, head), (accepted(0, 3, Some((160, 2))), [RUNNING, 155, 0, 0, 3, 133, 0, 0]));
    let (answer, head) = run.foresees(&level(155, 0));
    assert_eq!((answer, head), (accepted(0, 4, Some((160, 2))), [RUNNING, 155, 0, 0, 1, 155, 0, 0]));
    assert_eq!(run.preview(&mark(149)).0, refused(10));
}

/// The papers' sample agreement: "party 0 owes a salinity not below 250 within 60"; P2, P3, P5, P6.
#[test]
fn the_pond_trials() {
    let low = binary(Operator::Less, &value(0), &number(250));
    let main = Wait { condition: not(&low), ..simple(60) }.obligation(0);
    let agreement = agreement(START, 2, &[reading_type(&[Type::Number])], &[], &main);
    let mut table = vec![0; CELLS];
    assert_eq!(reference::start(&agreement, &mut table).number, 0);
    let foresees = |table: &[i64], taken: &[u8]| {
        let mut second = vec![7; CELLS];
        let answer = preview(&agreement, table, taken, &mut second);
        (answer, second[..HEAD].to_vec())
    };
    let live = |time| (accepted(0, 1, Some((160, 1))), vec![RUNNING, time, 0, 0, 1, 100, 0, 0]);
    assert_eq!(foresees(&table, &level(110, 240)), live(110));
    assert_eq!(foresees(&table, &mark(160)), live(160));
    let done = (accepted(0, 2, None), vec![FULFILLED, 160, 0, 0, 0, 160, 0, 0]);
    assert_eq!(foresees(&table, &level(160, 250)), done);
    let breach = vec![BREACHED, 161, 160, 1, 0, 161, 0, 0];
    assert_eq!(foresees(&table, &mark(161)), (accepted(0, 1, Some((160, 1))), breach.clone()));
    assert_eq!(reading(&agreement, &mut table, &mark(161)).number, 0);
    assert_eq!(foresees(&table, &level(161, 250)), (accepted(0, 0, Some((160, 1))), breach));
}
