//! Paper 02, No. 2: "Start and reading both answer with the forecast of the table they leave; a refusal gives zeros
//! for it. The separate forecast entry goes ... What was said of a forecast now belongs to the joined answers."

use reference::agreement::{Operator, Type};
use reference::build::*;
use reference::table::{ACTIVATED, BLAMED, BREACHED, FULFILLED, HEAD, LAST, RUNNING, STATE, TIME, USED, VALUES};
use reference::{reading, start, Forecast, Started, Taken, CELLS};

#[path = "common/run.rs"]
mod run;
use run::{Run, BELL, LEVEL, START};

impl Run {
    /// What an accepted reading tells.
    fn told(&mut self, time: u32, kind: u8, values: &[i32]) -> Forecast {
        let taken = self.take(&reference::build::reading(time, kind, values));
        assert_eq!(taken.number, 0, "reading at {time}");
        taken.forecast
    }

    fn mark(&mut self, time: u32) -> Forecast {
        self.told(time, 0, &[])
    }

    fn level(&mut self, time: u32) -> Forecast {
        self.told(time, LEVEL, &[0])
    }

    fn bell(&mut self, time: u32) -> Forecast {
        self.told(time, BELL, &[])
    }

    fn state(&self) -> i64 {
        self.table[STATE]
    }

    /// What starting its agreement once more tells.
    fn start(&self) -> Forecast {
        let started = start(&self.agreement, &mut self.table.clone());
        assert_eq!(started.number, 0);
        started.forecast
    }
}

/// A party owes a level for so long.
fn owed(party: u8, within: i32) -> Vec<u8> {
    simple(within).obligation(party)
}

/// Party 1 owes a bell within 60.
fn bell_owed() -> Vec<u8> {
    Wait { reading: BELL, ..simple(60) }.obligation(1)
}

/// Party 0 owes a level within 60, then `then`.
fn owed_then(then: Vec<u8>) -> Vec<u8> {
    Wait { then, ..simple(60) }.obligation(0)
}

/// A level within 60 may come, then `then`. Nobody is blamed if it does not.
fn free_then(then: Vec<u8>) -> Vec<u8> {
    Wait { then, ..simple(60) }.choice(&fulfilled())
}

/// So many leaves joined by `and` in balance.
fn balanced(leaves: usize, leaf: &[u8]) -> Vec<u8> {
    match leaves {
        1 => leaf.to_vec(),
        _ => and(&balanced(leaves / 2, leaf), &balanced(leaves - leaves / 2, leaf)),
    }
}

/// What a start at 100 tells.
fn by_start(main: &[u8]) -> Forecast {
    Run::of(main).start()
}

#[test]
fn a_start_tells_of_an_obligation() {
    assert_eq!(by_start(&owed(0, 60)), Some((160, 1)));
    assert_eq!(by_start(&owed(1, 59)), Some((159, 2)));
    let opening = Wait { after: number(20), ..simple(40) }.obligation(1);
    assert_eq!(by_start(&opening), Some((160, 2)));
}

/// "a choice gives what its else, activated at that time, gives; fulfilled gives none."
#[test]
fn a_start_tells_of_a_choice() {
    assert_eq!(by_start(&simple(50).choice(&owed(1, 20))), Some((170, 2)));
    assert_eq!(by_start(&simple(50).choice(&simple(-70).choice(&owed(1, -1)))), Some((150, 2)));
    assert_eq!(by_start(&simple(50).choice(&fulfilled())), None);
    assert_eq!(by_start(&fulfilled()), None);
}

/// "`and` treats none as later than every time; `or` with a none is none."
#[test]
fn a_start_tells_of_joins() {
    let none = free_then(fulfilled());
    assert_eq!(by_start(&and(&owed(0, 60), &owed(1, 50))), Some((150, 2)));
    assert_eq!(by_start(&and(&owed(0, 60), &owed(1, 60))), Some((160, 3)));
    assert_eq!(by_start(&and(&none, &owed(1, 60))), Some((160, 2)));
    assert_eq!(by_start(&and(&owed(0, 60), &none)), Some((160, 1)));
    assert_eq!(by_start(&or(&owed(1, 60), &owed(1, 50))), Some((160, 2)));
    assert_eq!(by_start(&or(&none, &owed(1, 60))), None);
    assert_eq!(by_start(&or(&owed(0, 60), &none)), None);
}

/// "its breach at the later of A and last"
#[test]
fn a_start_tells_of_a_window_past() {
    assert_eq!(by_start(&owed(0, -5)), Some((100, 1)));
}

/// A breach at minute 0 is none of the zeros: a party is blamed.
#[test]
fn a_start_tells_of_minute_0() {
    let agreement = agreement(0, 1, &[reading_type(&[])], &[], &owed(0, 0));
    let mut table = vec![0; CELLS];
    assert_eq!(start(&agreement, &mut table), Started { number: 0, forecast: Some((0, 1)) });
    let mark = |time| reference::build::reading(time, 0, &[]);
    let taken = reading(&agreement, &mut table, &mark(0));
    assert_eq!((taken.forecast, table[STATE]), (Some((0, 1)), RUNNING));
    let taken = reading(&agreement, &mut table, &mark(1));
    assert_eq!((taken.forecast, table[STATE]), (Some((0, 1)), BREACHED));
}

/// "A forecast time may exceed 32 bits."
#[test]
fn a_told_time_may_exceed_32_bits() {
    let most = 1_000_000_000;
    let far = Wait { after: number(most), ..simple(most) }.obligation(0);
    let agreement = agreement(u32::MAX, 1, &[reading_type(&[])], &[], &and(&owed_then(far.clone()), &far));
    let mut table = vec![0; CELLS];
    assert_eq!(start(&agreement, &mut table).forecast, Some((4_294_967_355, 1)));
    let taken = reading(&agreement, &mut table, &reference::build::reading(u32::MAX, 1, &[]));
    assert_eq!((taken.number, taken.forecast), (0, Some((6_294_967_295, 1))));
}

/// "Start ignores the table's earlier contents": a verdict that it held is not told.
#[test]
fn a_start_tells_of_the_table_that_it_leaves() {
    let mut run = Run::of(&owed(0, 60));
    run.mark(161);
    let other = agreement(200, 2, &[reading_type(&[])], &[], &owed(1, 5));
    assert_eq!(run.state(), BREACHED);
    assert_eq!(start(&other, &mut run.table), Started { number: 0, forecast: Some((205, 2)) });
    assert_eq!(start(&run.agreement, &mut run.table), Started { number: 0, forecast: Some((160, 1)) });
}

/// A mark, another type, before the first minute, and `where` false: each tells what the start told.
#[test]
fn a_reading_that_waits_tells_the_same() {
    let high = not(&binary(Operator::Less, &value(0), &number(250)));
    let mut run = Run::of(&Wait { condition: high, after: number(20), ..simple(40) }.obligation(0));
    assert_eq!(run.start(), Some((160, 1)));
    assert_eq!(run.mark(105), Some((160, 1)));
    assert_eq!(run.bell(110), Some((160, 1)));
    let too_early = run.take(&reference::build::reading(119, LEVEL, &[250]));
    assert_eq!(too_early, Taken { number: 0, early: 1, cost: 1, forecast: Some((160, 1)) });
    assert_eq!(run.told(130, LEVEL, &[249]), Some((160, 1)));
    assert_eq!(run.mark(160), Some((160, 1)));
    assert_eq!((run.state(), run.table[LAST]), (RUNNING, 160));
}

#[test]
fn a_reading_that_waits_tells_none_again() {
    let mut run = Run::of(&free_then(fulfilled()));
    assert_eq!([run.start(), run.mark(110), run.bell(120), run.mark(160)], [None; 4]);
    assert_eq!(run.state(), RUNNING);
}

/// The table before would tell 160.
#[test]
fn a_reading_that_alters_tells_of_the_table_that_it_leaves() {
    for (within, then) in [(5, 115), (50, 160), (51, 161), (600, 710), (-5, 110)] {
        let mut run = Run::of(&owed_then(owed(1, within)));
        assert_eq!(run.start(), Some((160, 1)));
        assert_eq!(run.level(110), Some((then, 2)));
        assert_eq!(run.state(), RUNNING);
    }
}

#[test]
fn a_reading_that_alters_tells_a_breach_or_none() {
    let mut run = Run::of(&free_then(owed(0, 20)));
    assert_eq!((run.start(), run.level(110)), (None, Some((130, 1))));
    let mut run = Run::of(&owed_then(free_then(fulfilled())));
    assert_eq!((run.start(), run.level(110)), (Some((160, 1)), None));
    assert_eq!(run.state(), RUNNING);
}

/// The remaining time, value 1 in a `then`, is counted from the reading.
#[test]
fn values_of_the_reading_are_in_the_forecast_told() {
    let by_value = |name| Wait { within: value(name), ..simple(0) }.obligation(0);
    assert_eq!(Run::of(&owed_then(by_value(0))).told(110, LEVEL, &[7]), Some((117, 1)));
    assert_eq!(Run::of(&owed_then(by_value(1))).told(110, LEVEL, &[7]), Some((160, 1)));
}

#[test]
fn a_side_that_goes_is_not_told() {
    let mut both = Run::of(&and(&owed(0, 60), &bell_owed()));
    assert_eq!((both.start(), both.bell(110)), (Some((160, 3)), Some((160, 1))));
    let mut both = Run::of(&and(&owed(0, 60), &bell_owed()));
    assert_eq!((both.level(110), both.bell(120)), (Some((160, 2)), None));
    assert_eq!(both.state(), FULFILLED);
    let mut either = Run::of(&or(&owed(0, 50), &owed(0, 60)));
    assert_eq!((either.start(), either.mark(155)), (Some((160, 1)), Some((160, 1))));
    assert_eq!(either.state(), RUNNING);
}

/// The else waits since 150.
#[test]
fn an_else_is_told() {
    let run = Run::of(&simple(50).choice(&owed(0, 20)));
    assert_eq!(run.start(), Some((170, 1)));
    let mut waits = run.clone();
    assert_eq!((waits.mark(160), waits.state()), (Some((170, 1)), RUNNING));
    let mut taken = run.clone();
    assert_eq!((taken.level(165), taken.state()), (None, FULFILLED));
    let mut late = run.clone();
    assert_eq!((late.mark(171), late.state()), (Some((170, 1)), BREACHED));
    let mut goes_on = Run::of(&simple(50).choice(&owed_then(owed(1, 7))));
    assert_eq!((goes_on.level(165), goes_on.state()), (Some((172, 2)), RUNNING));
}

#[test]
fn a_reading_that_fulfils_tells_none() {
    let mut run = Run::of(&owed(0, 60));
    assert_eq!((run.start(), run.level(160), run.state()), (Some((160, 1)), None, FULFILLED));
    let mut run = Run::of(&or(&owed(0, 60), &owed(0, 90)));
    assert_eq!((run.start(), run.level(170), run.state()), (Some((190, 1)), None, FULFILLED));
    let mut run = Run::of(&simple(50).choice(&fulfilled()));
    assert_eq!((run.start(), run.mark(151), run.state()), (None, None, FULFILLED));
}

#[test]
fn on_a_fulfilled_table_none_is_told() {
    let mut by_reading = Run::of(&owed(0, 60));
    by_reading.level(110);
    for mut run in [by_reading, Run::of(&fulfilled())] {
        assert_eq!(run.state(), FULFILLED);
        assert_eq!([run.mark(161), run.level(170), run.bell(u32::MAX)], [None; 3]);
    }
}

#[test]
fn a_reading_that_breaches_tells_its_verdict() {
    for time in [161, 500, u32::MAX] {
        let mut run = Run::of(&owed(0, 60));
        assert_eq!((run.mark(time), run.state()), (Some((160, 1)), BREACHED));
        let mut run = Run::of(&owed(0, 60));
        assert_eq!((run.level(time), run.state()), (Some((160, 1)), BREACHED));
    }
    let mut both = Run::of(&and(&owed(0, 60), &owed(1, 60)));
    assert_eq!((both.mark(161), both.state()), (Some((160, 3)), BREACHED));
    let mut either = Run::of(&or(&owed(1, 50), &owed(1, 60)));
    assert_eq!((either.mark(161), either.state()), (Some((160, 2)), BREACHED));
}

/// "A breached table gives its verdict": whatever the reading, and whatever a run would have blamed.
#[test]
fn on_a_breached_table_its_verdict_is_told() {
    let mut run = Run::of(&and(&owed(0, 60), &owed(1, 90)));
    run.mark(170);
    assert_eq!([run.table[TIME], run.table[BLAMED]], [160, 1]);
    assert_eq!([run.mark(170), run.level(180), run.bell(900)], [Some((160, 1)); 3]);
    for (time, blamed) in [(100, 2), (170, 3), (165, 1)] {
        run.table[TIME] = time;
        run.table[BLAMED] = blamed;
        let table = run.table.clone();
        assert_eq!([run.mark(200), run.level(200)], [Some((time, blamed as u32)); 2]);
        assert_eq!(run.table, table);
    }
}

/// Party 0 is late at 100 and party 1 only after it: the breach at 100 blames party 0 alone. The table before would
/// have told both, as any later mark does.
#[test]
fn a_verdict_is_told_and_not_the_forecast_before() {
    let run = Run::of(&and(&owed(0, -5), &owed(1, 0)));
    assert_eq!(run.start(), Some((100, 3)));
    let mut at_once = run.clone();
    assert_eq!((at_once.mark(100), at_once.state()), (Some((100, 1)), BREACHED));
    assert_eq!(at_once.mark(200), Some((100, 1)));
    assert_eq!(run.clone().mark(101), Some((100, 3)));
}

/// "the last reading, which may be an idle mark": it leaves every cell but the last reading time.
#[test]
fn an_idle_mark_tells_the_same() {
    let mains = [owed(0, 60), and(&owed(0, 60), &bell_owed()), or(&owed(1, 50), &owed(1, 60)), free_then(owed(0, 9))];
    for main in mains {
        let mut run = Run::of(&main);
        let mut expected = run.table.clone();
        for time in [100, 110, 150] {
            expected[LAST] = i64::from(time);
            assert_eq!(run.mark(time), run.start(), "at {time}");
            assert_eq!(run.table, expected);
        }
    }
}

/// What is told is the given table's, by its A and its values, be they of a run or not.
#[test]
fn a_table_without_a_run_is_told() {
    let by_value = template(&[Type::Number], 0, 1, &Wait { within: value(0), ..simple(0) }.obligation(0));
    let mut run = Run::with(&[by_value], &instance(0, &[number(60)], &[]));
    assert_eq!(run.mark(140), Some((160, 1)));
    run.table[HEAD + ACTIVATED] = 105;
    assert_eq!(run.mark(140), Some((165, 1)));
    run.table[HEAD + VALUES] = 95;
    assert_eq!(run.mark(150), Some((200, 1)));
    run.table[STATE] = FULFILLED;
    run.table[USED] = 0;
    run.table[HEAD..].fill(0);
    assert_eq!(run.mark(150), None);
}

/// "An accepted mark later than a forecast time gives just that breach; with forecast none, no mark breaches." It holds
/// of what a start tells, and of what a reading tells after it.
#[test]
fn marks_keep_to_what_is_told() {
    let mains = [
        owed(0, 60),
        owed(1, -5),
        owed_then(owed(1, 20)),
        owed_then(owed(0, -1)),
        free_then(owed(1, 20)),
        and(&owed(0, 60), &bell_owed()),
        and(&owed(0, -5), &owed(1, 0)),
        or(&owed_then(owed(0, 9)), &simple(70).choice(&owed(0, 7))),
        simple(10).choice(&owed_then(owed(1, 30))),
        simple(10).choice(&simple(5).choice(&fulfilled())),
    ];
    let mut kept = 0;
    for main in mains {
        let run = Run::of(&main);
        keeps(&run, run.start());
        for taken in [(100, 0), (100, LEVEL), (105, BELL), (112, LEVEL), (150, 0), (165, LEVEL)] {
            let mut run = run.clone();
            let (time, kind) = taken;
            let told = run.told(time, kind, if kind == LEVEL { &[0] } else { &[] });
            keeps(&run, told);
            kept += usize::from(run.state() == RUNNING && told.is_some());
        }
    }
    assert!(kept >= 20, "{kept} readings left a running table with a breach to come");
}

fn keeps(run: &Run, told: Forecast) {
    let Some((time, parties)) = told else {
        let mut left = run.clone();
        assert_eq!(left.mark(u32::MAX), None);
        assert_eq!(left.state(), FULFILLED);
        return;
    };
    let after = u32::try_from(time + 1).expect("32 bits").max(run.table[LAST] as u32);
    for later in [after, after + 1, u32::MAX] {
        let mut left = run.clone();
        assert_eq!(left.mark(later), told);
        assert_eq!([left.table[STATE], left.table[TIME], left.table[BLAMED]], [BREACHED, time, i64::from(parties)]);
    }
}

/// Agreements refused with 1 to 5, in this order.
fn refused_agreements() -> [Vec<u8>; 5] {
    let readings = [reading_type(&[Type::Number])];
    let pond = |main: &[u8]| agreement(START, 2, &readings, &[], main);
    let not_typed = Wait { after: truth(1), ..simple(60) }.obligation(0);
    let own_template = template(&[], 0, 1, &instance(0, &[], &[]));
    [
        Vec::new(),
        pond(&record(23, &[])),
        pond(&not_typed),
        agreement(START, 2, &readings, &[own_template], &owed(0, 60)),
        pond(&balanced(129, &fulfilled())),
    ]
}

/// "a refusal gives zeros for it": a start.
#[test]
fn a_refused_start_tells_none() {
    let mut breached = Run::of(&owed(0, 60));
    breached.mark(161);
    for given in [vec![0; CELLS], Run::of(&owed(0, 60)).table, breached.table] {
        let mut table = given.clone();
        for (number, agreement) in (1..).zip(refused_agreements()) {
            assert_eq!(start(&agreement, &mut table), Started { number, forecast: None });
        }
        let agreement = agreement(START, 2, &[reading_type(&[])], &[], &owed(0, 60));
        assert_eq!(start(&agreement, &mut table[1..]), Started { number: 6, forecast: None });
        assert_eq!(table, given);
    }
}

/// 65 obligations of party 0 would be late at 160.
#[test]
fn a_start_refused_with_11_tells_none() {
    let pond = |leaves| agreement(START, 1, &[reading_type(&[])], &[], &balanced(leaves, &owed(0, 60)));
    let mut table = vec![0; CELLS];
    assert_eq!(start(&pond(65), &mut table), Started { number: 11, forecast: None });
    assert_eq!(start(&pond(64), &mut table), Started { number: 0, forecast: Some((160, 1)) });
    let left = table.clone();
    assert_eq!(start(&pond(65), &mut table), Started { number: 11, forecast: None });
    assert_eq!(table, left);
}

fn refused(number: u32) -> Taken {
    Taken { number, early: 0, cost: 0, forecast: None }
}

#[test]
fn readings_refused_with_1_to_7_tell_none() {
    let mut breached = Run::of(&owed(0, 60));
    breached.mark(161);
    for run in [Run::of(&owed(0, 60)), breached] {
        let mark = reference::build::reading(170, 0, &[]);
        for (number, agreement) in (1..).zip(refused_agreements()) {
            assert_eq!(reading(&agreement, &mut run.table.clone(), &mark), refused(number));
        }
        assert_eq!(reading(&run.agreement, &mut run.table[1..].to_vec(), &mark), refused(6));
        for (cell, number) in [(STATE, 9), (LAST, 99), (7, 1)] {
            let mut damaged = run.clone();
            damaged.table[cell] = number;
            assert_eq!(damaged.take(&mark), refused(7));
        }
        assert_eq!(run.clone().mark(170), Some((160, 1)));
    }
}

/// The table given has a breach to tell, and is told again by the next accepted reading.
#[test]
fn readings_refused_with_8_to_10_tell_none() {
    let mut running = Run::of(&owed(0, 60));
    running.mark(110);
    let mut breached = running.clone();
    breached.mark(161);
    for mut run in [running, breached] {
        let before = run.table.clone();
        let level = reference::build::reading(170, LEVEL, &[0]);
        assert_eq!(run.take(&[]), refused(8));
        assert_eq!(run.take(&level[..12]), refused(8));
        assert_eq!(run.take(&record(65, &[&level[4..]])), refused(8));
        assert_eq!(run.take(&reference::build::reading(170, LEVEL, &[])), refused(9));
        assert_eq!(run.take(&reference::build::reading(170, 3, &[])), refused(9));
        assert_eq!(run.take(&reference::build::reading(170, LEVEL, &[1_000_000_001])), refused(9));
        assert_eq!(run.take(&reference::build::reading(109, 0, &[])), refused(10));
        assert_eq!(run.table, before);
        assert_eq!(run.mark(170), Some((160, 1)));
    }
}

/// P15's agreement. The seventh level is refused; the units given would be late at 160 to 170, and so would those that
/// are too many. Its cost is told and no forecast; a mark then tells what the sixth level told.
#[test]
fn a_reading_refused_with_11_tells_none() {
    let named = instance(0, &[], &[]);
    let mut run = Run::with(&[template(&[], 0, 1, &owed_then(and(&named, &named)))], &named);
    for time in 101..107 {
        assert_eq!(run.level(time), Some((i64::from(time) + 60, 1)));
    }
    let before = run.table.clone();
    let seventh = run.take(&reference::build::reading(107, LEVEL, &[0]));
    assert_eq!(seventh, Taken { number: 11, early: 0, cost: 127 + 320, forecast: None });
    assert_eq!(run.table, before);
    assert_eq!(run.mark(107), Some((166, 1)));
    assert_eq!((run.mark(167), run.state()), (Some((166, 1)), BREACHED));
}

/// 65 waits by a `then` and by an else.
#[test]
fn readings_refused_with_11_tell_none() {
    let crowd = balanced(65, &owed(0, 90));
    let mut by_then = Run::of(&owed_then(crowd.clone()));
    let taken = by_then.take(&reference::build::reading(110, LEVEL, &[0]));
    assert_eq!(taken, Taken { number: 11, early: 0, cost: 1 + 129, forecast: None });
    assert_eq!(by_then.mark(110), Some((160, 1)));
    let mut by_else = Run::of(&simple(5).choice(&crowd));
    assert_eq!(by_else.start(), Some((195, 1)));
    let taken = by_else.take(&reference::build::reading(106, 0, &[]));
    assert_eq!(taken, Taken { number: 11, early: 0, cost: 1 + 129, forecast: None });
    assert_eq!((by_else.mark(105), by_else.level(106)), (Some((195, 1)), None));
    assert_eq!(by_else.state(), FULFILLED);
}
