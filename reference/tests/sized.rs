//! Paper 02, No. 7: "Template kind 4 is kind 3 with a byte after the declared parties: its units, 0 to 128. An
//! agreement whose templates are all of kind 4, and which has at least one, is sized." "Show that no residue reached
//! from a sized agreement's start passes the main clause's need, so 11 never occurs from there. New numbers: 15, in a
//! sized agreement a body's need is above its declared units or the main clause's above 128; it comes after 5 and
//! before 6, in every entry that makes 5."

use reference::agreement::{parse, Type};
use reference::build::*;
use reference::check::accept;
use reference::generate::sized::{at_its_limits, beyond_a_limit};
use reference::generate::{agreements, random::Random, readings};
use reference::table::{self, AND, FULFILLED, HEAD, PARAMETERS, PLACE, RUNNING, STATE, UNIT, UNITS, USED, VALUES};
use reference::{check, preview, reading, start, Checked, Started, Taken, CELLS};

#[path = "common/run.rs"]
mod run;
use run::{Run, BELL, LEVEL, START};

const ACCEPTED: u32 = 0;
const RECORDS: u32 = 2;
const TOO_WIDE: u32 = 5;
const TOO_MANY_UNITS: u32 = 11;
const NEEDS_TOO_MUCH: u32 = 15;

fn agreement_of(templates: &[Vec<u8>], main: &[u8]) -> Vec<u8> {
    agreement(START, 2, &[reading_type(&[Type::Number]), reading_type(&[])], templates, main)
}

fn number_of(templates: &[Vec<u8>], main: &[u8]) -> u32 {
    check(&agreement_of(templates, main)).number
}

/// The need that goes with an accepted sized agreement.
fn need_of(templates: &[Vec<u8>], main: &[u8]) -> Option<u32> {
    let agreement = parse(&agreement_of(templates, main)).expect("an accepted agreement");
    accept(&agreement).map(|accepted| accepted.need).expect("an accepted agreement")
}

/// A template of kind 4 for party 0.
fn sized(units: u8, body: &[u8]) -> Vec<u8> {
    sized_template(&[], 0, 1, units, body)
}

/// The same of kind 3.
fn of_kind_3(body: &[u8]) -> Vec<u8> {
    template(&[], 0, 1, body)
}

fn named(template: u8) -> Vec<u8> {
    instance(template, &[], &[])
}

/// Party 0 owes a level within 60, then `then`.
fn owed_then(then: Vec<u8>) -> Vec<u8> {
    Wait { then, ..simple(60) }.obligation(0)
}

fn owed() -> Vec<u8> {
    owed_then(fulfilled())
}

fn choice(then: Vec<u8>, otherwise: &[u8]) -> Vec<u8> {
    Wait { then, ..simple(60) }.choice(otherwise)
}

fn either(left: &[u8], right: &[u8]) -> Vec<u8> {
    if_clause(&truth(1), left, right)
}

/// Obligations and fulfilled joined by `and`: a need of so many.
fn needing(need: usize) -> Vec<u8> {
    match need {
        0 => fulfilled(),
        1 => owed(),
        _ => {
            let half = (need - 1) / 2;
            and(&needing(half), &needing(need - 1 - half))
        }
    }
}

/// So many leaves joined by `and` in balance.
fn balanced(leaves: usize, leaf: &[u8]) -> Vec<u8> {
    match leaves {
        1 => leaf.to_vec(),
        _ => and(&balanced(leaves / 2, leaf), &balanced(leaves - leaves / 2, leaf)),
    }
}

/// Clauses and what they need; template 0 declares 7, template 1 nothing.
fn needs() -> Vec<(Vec<u8>, usize)> {
    let nothing = fulfilled();
    vec![
        (nothing.clone(), 0),
        (owed_then(nothing.clone()), 1),
        (owed_then(needing(1)), 1),
        (owed_then(needing(7)), 7),
        (choice(nothing.clone(), &nothing), 1),
        (choice(needing(7), &nothing), 7),
        (choice(nothing.clone(), &needing(7)), 7),
        (choice(needing(7), &needing(6)), 7),
        (choice(needing(6), &needing(7)), 7),
        (either(&nothing, &nothing), 0),
        (either(&needing(7), &needing(6)), 7),
        (either(&needing(6), &needing(7)), 7),
        (and(&nothing, &nothing), 1),
        (and(&needing(3), &needing(4)), 8),
        (or(&nothing, &nothing), 1),
        (or(&needing(3), &needing(4)), 8),
        (named(0), 7),
        (named(1), 0),
        (and(&named(0), &named(1)), 8),
        (owed_then(and(&named(0), &named(0))), 15),
        (owed_then(choice(either(&owed(), &or(&named(0), &owed())), &owed_then(needing(5)))), 9),
    ]
}

/// Those that [`needs`] names.
fn named_by_needs() -> [Vec<u8>; 2] {
    [sized(7, &needing(7)), sized(0, &fulfilled())]
}

/// Other units than its need, and the number.
#[test]
fn a_body_may_need_what_it_declares_and_no_more() {
    for (body, need) in needs() {
        let number = |units: usize| {
            let [seven, none] = named_by_needs();
            number_of(&[seven, none, sized(units as u8, &body)], &fulfilled())
        };
        assert_eq!([number(need), number(need + 1), number(128)], [ACCEPTED; 3], "{need}: {body:?}");
        if need > 0 {
            assert_eq!([number(need - 1), number(0)], [NEEDS_TOO_MUCH; 2], "{need}: {body:?}");
        }
    }
}

/// Beside what fills it up to 128 or 129.
#[test]
fn the_main_clause_may_need_128_and_no_more() {
    for (clause, need) in needs() {
        let beside = |more: usize| and(&clause, &needing(more));
        assert_eq!(need_of(&named_by_needs(), &clause), Some(need as u32), "{clause:?}");
        assert_eq!(need_of(&named_by_needs(), &beside(127 - need)), Some(128), "{clause:?}");
        assert_eq!(number_of(&named_by_needs(), &beside(128 - need)), NEEDS_TOO_MUCH, "{clause:?}");
    }
}

/// Each kind of clause as the main clause itself.
#[test]
fn each_main_clause_at_128_and_at_129() {
    let unused = [sized(0, &fulfilled())];
    let with_parts: [&dyn Fn(usize) -> Vec<u8>; 7] = [
        &|need| owed_then(needing(need)),
        &|need| choice(needing(need), &needing(5)),
        &|need| choice(needing(5), &needing(need)),
        &|need| either(&needing(need), &needing(5)),
        &|need| either(&needing(5), &needing(need)),
        &|need| and(&needing(64), &needing(need - 65)),
        &|need| or(&needing(need - 65), &needing(64)),
    ];
    for (n, main) in with_parts.iter().enumerate() {
        assert_eq!(need_of(&unused, &main(128)), Some(128), "{n}");
        assert_eq!(number_of(&unused, &main(129)), NEEDS_TOO_MUCH, "{n}");
    }
    // The most that an instance may need.
    assert_eq!(need_of(&[sized(128, &fulfilled())], &named(0)), Some(128));
}

#[test]
fn each_body_at_128_and_at_129() {
    let named_first = sized(128, &needing(128));
    let number = |body: &[u8]| number_of(&[named_first.clone(), sized(128, body)], &fulfilled());
    assert_eq!([number(&needing(128)), number(&owed_then(needing(128))), number(&named(0))], [ACCEPTED; 3]);
    assert_eq!([number(&needing(129)), number(&owed_then(needing(129)))], [NEEDS_TOO_MUCH; 2]);
    assert_eq!(number(&and(&named(0), &fulfilled())), NEEDS_TOO_MUCH);
}

/// "An instance needs its template's units": what the template declares, not what its body needs.
#[test]
fn an_instance_needs_what_is_declared() {
    let wasteful = [sized(128, &fulfilled())];
    assert_eq!(need_of(&wasteful, &named(0)), Some(128));
    assert_eq!(number_of(&wasteful, &or(&named(0), &fulfilled())), NEEDS_TOO_MUCH);
    assert_eq!(number_of(&wasteful, &owed_then(and(&named(0), &fulfilled()))), NEEDS_TOO_MUCH);
    let thrifty = [sized(0, &fulfilled())];
    assert_eq!(need_of(&thrifty, &and(&named(0), &and(&named(0), &named(0)))), Some(2));
}

/// A body may name itself and later templates in a `then`: what they declare counts.
#[test]
fn bodies_that_name_each_other() {
    let again = |template| owed_then(named(template));
    assert_eq!(number_of(&[sized(1, &again(0))], &named(0)), ACCEPTED);
    assert_eq!(number_of(&[sized(0, &again(0))], &named(0)), NEEDS_TOO_MUCH);
    assert_eq!(number_of(&[sized(1, &again(1)), sized(1, &again(0))], &named(0)), ACCEPTED);
    assert_eq!(number_of(&[sized(1, &again(1)), sized(2, &again(0))], &named(0)), NEEDS_TOO_MUCH);
    assert_eq!(number_of(&[sized(2, &again(1)), sized(2, &again(0))], &named(0)), ACCEPTED);
    // In an else only earlier ones.
    let by_else = |units| sized(units, &choice(fulfilled(), &named(0)));
    assert_eq!(number_of(&[sized(2, &again(0)), by_else(2)], &named(1)), ACCEPTED);
    assert_eq!(number_of(&[sized(2, &again(0)), by_else(1)], &named(1)), NEEDS_TOO_MUCH);
}

/// "a body's need is above its declared units", be it named or not.
#[test]
fn an_unused_template_counts() {
    let bodies = |units: [u8; 3]| units.map(|units| sized(units, &needing(3)));
    assert_eq!(number_of(&bodies([3, 3, 3]), &fulfilled()), ACCEPTED);
    for units in [[2, 3, 3], [3, 2, 3], [3, 3, 2]] {
        assert_eq!(number_of(&bodies(units), &fulfilled()), NEEDS_TOO_MUCH, "{units:?}");
        assert_eq!(number_of(&bodies(units), &needing(128)), NEEDS_TOO_MUCH, "{units:?}");
    }
}

/// "its units, 0 to 128"; "units above 128, is refusal 2".
#[test]
fn units_0_to_128() {
    let number = |units| number_of(&[sized(units, &fulfilled())], &fulfilled());
    assert_eq!([0, 1, 127, 128].map(number), [ACCEPTED; 4]);
    assert_eq!([129, 130, 192, 255].map(number), [RECORDS; 4]);
    let second = |units| number_of(&[sized(0, &fulfilled()), sized(units, &needing(128))], &fulfilled());
    assert_eq!([127, 128, 129].map(second), [NEEDS_TOO_MUCH, ACCEPTED, RECORDS]);
}

/// "Mixing kinds 3 and 4 ... is refusal 2", in whatever order, and before all later numbers.
#[test]
fn kinds_are_not_mixed() {
    let body = owed();
    let (three, four) = (of_kind_3(&body), sized(1, &body));
    let number = |kinds: &[u8]| {
        let templates: Vec<_> =
            kinds.iter().map(|kind| if *kind == 3 { three.clone() } else { four.clone() }).collect();
        number_of(&templates, &named(0))
    };
    for alike in [&[3][..], &[4], &[3, 3], &[4, 4], &[3; 32], &[4; 32]] {
        assert_eq!(number(alike), ACCEPTED, "{alike:?}");
    }
    for mixed in [&[3, 4][..], &[4, 3], &[3, 3, 4], &[4, 4, 3], &[3, 4, 3], &[4, 3, 4]] {
        assert_eq!(number(mixed), RECORDS, "{mixed:?}");
    }
    let untyped = Wait { within: truth(1), ..simple(60) }.obligation(0);
    assert_eq!(number_of(&[three.clone(), sized(0, &body)], &fulfilled()), RECORDS);
    assert_eq!(number_of(&[sized(0, &untyped), three], &balanced(129, &fulfilled())), RECORDS);
}

#[test]
fn other_kinds_are_no_templates() {
    let parts: [&[u8]; 4] = [&[0, 0], &[1, 0], &[0], &fulfilled()];
    for kind in [0, 1, 2, 3, 5, 16, 259, 260, 1_024] {
        assert_eq!(number_of(&[record(kind, &parts)], &fulfilled()), RECORDS, "{kind}");
    }
    assert_eq!(number_of(&[record(4, &parts)], &fulfilled()), ACCEPTED);
    // The byte is missing.
    assert_eq!(number_of(&[record(4, &[parts[0], parts[1], parts[3]])], &fulfilled()), RECORDS);
    assert_eq!(number_of(&[record(3, &[parts[0], parts[1], parts[3]])], &fulfilled()), ACCEPTED);
    assert_eq!(number_of(&[record(4, &parts[..2])], &fulfilled()), RECORDS);
}

/// "a byte after the declared parties": value types, party parameters and declared parties stand before it.
#[test]
fn what_stands_before_the_units() {
    let types =
        [Type::Number, Type::Truth, Type::Party, Type::Party, Type::Truth, Type::Number, Type::Number, Type::Truth];
    let body = and(&simple(60).obligation(131), &simple(50).obligation(1));
    let given: Vec<_> = [number(7), truth(1), party(1), party(0), truth(0), number(-7), number(0), truth(1)].into();
    let main = instance(0, &given, &[0, 0, 0, 1]);
    let written = |units: u8| {
        let parts: [&[u8]; 6] = [&[8], &[1, 2, 3, 3, 2, 1, 1, 2], &[4], &[0b10, 0], &[units], &body];
        record(4, &parts)
    };
    assert_eq!(written(3), sized_template(&types, 4, 0b10, 3, &body));
    assert_eq!(check(&agreement_of(&[written(3)], &main)), Checked { number: ACCEPTED, parties: 0b11 });
    assert_eq!(check(&agreement_of(&[written(2)], &main)), Checked { number: NEEDS_TOO_MUCH, parties: 0 });
    assert_eq!(check(&agreement_of(&[written(129)], &main)), Checked { number: RECORDS, parties: 0 });
    let run = Run::with(&[written(128)], &main);
    let unit = &run.table[HEAD + UNIT..HEAD + 2 * UNIT];
    assert_eq!(unit[PARAMETERS..PARAMETERS + 4], [0, 0, 0, 1]);
    assert_eq!(unit[VALUES..VALUES + 9], [7, 1, 1, 0, 0, -7, 0, 1, 0]);
}

/// An agreement that is refused with 15, for its body or for its main clause.
fn needing_too_much() -> [Vec<u8>; 2] {
    [agreement_of(&[sized(2, &needing(3))], &named(0)), agreement_of(&[sized(3, &needing(3))], &needing(129))]
}

/// What each entry answers to an agreement, whatever the tables and the reading are: check, start, reading, preview.
fn by_every_entry(agreement: &[u8], table: &[i64], second: &[i64], taken: &[u8]) -> [u32; 4] {
    let checked = check(agreement);
    let mut lent = table.to_vec();
    let started = start(agreement, &mut lent);
    assert_eq!(started, Started { number: started.number, forecast: None });
    assert_eq!(lent, table);
    let refused = |number| Taken { number, early: 0, cost: 0, forecast: None };
    let read = reading(agreement, &mut lent, taken);
    assert_eq!((read, &lent[..]), (refused(read.number), table));
    let mut left = second.to_vec();
    let previewed = preview(agreement, table, taken, &mut left);
    assert_eq!((previewed, &left[..]), (refused(previewed.number), second));
    assert_eq!(checked, Checked { number: checked.number, parties: 0 });
    [checked.number, started.number, read.number, previewed.number]
}

/// "it comes after 5 and before 6, in every entry that makes 5": before 6 to 11, though they are lower numbers.
#[test]
fn numbers_6_to_11_come_after_15() {
    let mark = reference::build::reading(120, 0, &[]);
    let too_early = reference::build::reading(99, 0, &[]);
    let tables =
        [vec![0; CELLS], vec![7; CELLS], Run::of(&owed()).table, vec![], vec![0; CELLS - 1], vec![7; CELLS + 1]];
    for agreement in needing_too_much() {
        for (table, second) in tables.iter().flat_map(|table| tables.iter().map(move |second| (table, second))) {
            for taken in [&mark[..], &too_early, &[], &mark[..8]] {
                assert_eq!(by_every_entry(&agreement, table, second, taken), [NEEDS_TOO_MUCH; 4]);
            }
        }
    }
}

#[test]
fn numbers_1_to_5_come_before_15() {
    let mut longer = agreement_of(&[sized(0, &owed())], &fulfilled());
    longer.push(0);
    let untyped = Wait { within: truth(1), ..simple(60) }.obligation(0);
    let agreements = [
        longer,
        agreement_of(&[sized(0, &owed())], &record(23, &[])),
        agreement_of(&[sized(0, &owed())], &untyped),
        agreement_of(&[sized(0, &and(&named(0), &owed()))], &fulfilled()),
        agreement_of(&[sized(0, &owed())], &balanced(129, &fulfilled())),
    ];
    for (number, agreement) in (1..).zip(agreements) {
        let table = vec![7; CELLS - 1];
        assert_eq!(by_every_entry(&agreement, &table, &table, &[]), [number; 4]);
    }
    // 130 fulfilled and 129 `and`: the main clause's need is too big as well.
    let both = agreement_of(&[sized(0, &fulfilled())], &balanced(130, &fulfilled()));
    assert_eq!(check(&both).number, TOO_WIDE);
}

/// "check also returns the main clause's parties"
#[test]
fn check_tells_the_parties_of_a_sized_agreement() {
    let templates = [sized_template(&[], 1, 0b10, 1, &simple(60).obligation(128))];
    let checked = |main: &[u8]| check(&agreement_of(&templates, main));
    assert_eq!(checked(&fulfilled()), Checked { number: ACCEPTED, parties: 0 });
    assert_eq!(checked(&owed()), Checked { number: ACCEPTED, parties: 0b01 });
    assert_eq!(checked(&instance(0, &[], &[0])), Checked { number: ACCEPTED, parties: 0b11 });
    assert_eq!(checked(&balanced(65, &owed())), Checked { number: NEEDS_TOO_MUCH, parties: 0 });
}

/// P15's template, of kind 3 or 4.
fn doubling(units: Option<u8>) -> Vec<u8> {
    let body = owed_then(and(&named(0), &named(0)));
    units.map_or_else(|| of_kind_3(&body), |units| sized(units, &body))
}

/// P15 by templates of kind 3: "six fitting readings leave 127 units, the seventh is refused with 11".
#[test]
fn kind_3_may_need_any_size() {
    let mut run = Run::with(&[doubling(None)], &named(0));
    let level = reference::build::reading(110, LEVEL, &[0]);
    for _ in 0..6 {
        assert_eq!(run.take(&level).number, ACCEPTED);
    }
    assert_eq!((run.table[USED], run.take(&level).number), (127, TOO_MANY_UNITS));
    let large = [of_kind_3(&needing(129)), of_kind_3(&fulfilled())];
    assert_eq!([need_of(&large, &named(0)), need_of(&large, &needing(200))], [None, None]);
}

/// No units will do for P15's template: twice as many and one more are always needed.
#[test]
fn p15_s_template_of_kind_4_needs_too_much() {
    for units in 0..=128 {
        assert_eq!(number_of(&[doubling(Some(units))], &named(0)), NEEDS_TOO_MUCH);
        assert_eq!(number_of(&[doubling(Some(units))], &fulfilled()), NEEDS_TOO_MUCH);
    }
}

/// "and which has at least one": an agreement without templates is not sized, and may be refused with 11.
#[test]
fn without_templates_any_need_will_do() {
    assert_eq!(need_of(&[], &owed()), None);
    let crowd = balanced(65, &owed());
    assert_eq!(check(&agreement_of(&[], &crowd)), Checked { number: ACCEPTED, parties: 1 });
    let mut table = vec![0; CELLS];
    assert_eq!(start(&agreement_of(&[], &crowd), &mut table), Started { number: TOO_MANY_UNITS, forecast: None });
    let mut run = Run::of(&owed_then(crowd.clone()));
    let taken = run.take(&reference::build::reading(110, LEVEL, &[0]));
    assert_eq!((taken.number, taken.cost), (TOO_MANY_UNITS, 1 + 129));
    // With a template, be it unused, they are refused.
    let unused = [sized(0, &fulfilled())];
    assert_eq!([number_of(&unused, &crowd), number_of(&unused, &owed_then(crowd))], [NEEDS_TOO_MUCH; 2]);
}

/// Seven templates, each an obligation then twice the one before: they declare 1, 3, 7, ... 127.
fn seven_doublings() -> Vec<Vec<u8>> {
    let body = |n: u8| match n {
        0 => owed(),
        _ => owed_then(and(&named(n - 1), &named(n - 1))),
    };
    (0..7).map(|n| sized((2 << n) - 1, &body(n))).collect()
}

/// As long as P15 runs, and then fulfilled.
#[test]
fn a_run_uses_its_whole_need() {
    let templates = seven_doublings();
    assert_eq!(need_of(&templates, &named(6)), Some(127));
    let mut run = Run::with(&templates, &named(6));
    let level = reference::build::reading(110, LEVEL, &[0]);
    for units in [3, 7, 15, 31, 63, 127] {
        assert_eq!((run.take(&level).number, run.table[STATE], run.table[USED]), (ACCEPTED, RUNNING, units));
    }
    assert_eq!((run.take(&level).number, run.table[STATE], run.table[USED]), (ACCEPTED, FULFILLED, 0));
}

/// A need of 128 is met by 127 units: joins and what waits are an odd number together.
#[test]
fn a_need_of_128() {
    let run = Run::with(&[sized(128, &needing(128))], &named(0));
    assert_eq!((run.table[STATE], run.table[USED]), (RUNNING, 127));
    let mut run = Run::with(&[sized(128, &needing(128))], &choice(fulfilled(), &named(0)));
    assert_eq!(run.table[USED], 1);
    let bell = reference::build::reading(161, BELL, &[]);
    assert_eq!((run.take(&bell).number, run.table[USED]), (ACCEPTED, 127));
}

/// Units are asked for when an agreement is checked, and nothing else comes of them: but for the places of the
/// clauses, runs are those of the same agreement with templates of kind 3.
#[test]
fn runs_are_those_of_kind_3() {
    let body = choice(and(&owed(), &owed()), &simple(20).obligation(0));
    let main = and(&named(0), &or(&named(1), &owed()));
    let mut with_units = Run::with(&[sized(3, &body), sized(1, &owed())], &main);
    let mut without = Run::with(&[of_kind_3(&body), of_kind_3(&owed())], &main);
    let without_places = |table: &[i64]| {
        let mut table = table.to_vec();
        table[HEAD..].chunks_exact_mut(UNIT).for_each(|unit| unit[PLACE] = 0);
        table
    };
    let mark = |time| reference::build::reading(time, 0, &[]);
    let level = |time| reference::build::reading(time, LEVEL, &[0]);
    for taken in [mark(110), level(120), mark(119), level(130), Vec::new(), mark(200), level(200)] {
        assert_eq!(with_units.take(&taken), without.take(&taken));
        assert_eq!(without_places(&with_units.table), without_places(&without.table));
    }
}

/// "so 11 never occurs from there": on a table that no run left it may. Two of the units of which a start leaves one.
#[test]
fn a_table_that_no_run_left_may_become_too_large() {
    let mut run = Run::with(&[sized(127, &needing(127))], &owed_then(named(0)));
    let unit = run.table[HEAD..HEAD + UNIT].to_vec();
    run.table[HEAD] = AND;
    run.table[HEAD + 1..HEAD + UNIT].fill(0);
    run.table[HEAD + UNIT..HEAD + 2 * UNIT].copy_from_slice(&unit);
    run.table[HEAD + 2 * UNIT..HEAD + 3 * UNIT].copy_from_slice(&unit);
    run.table[USED] = 3;
    let before = run.table.clone();
    assert_eq!(run.take(&reference::build::reading(110, BELL, &[])).number, ACCEPTED);
    let taken = run.take(&reference::build::reading(110, LEVEL, &[0]));
    assert_eq!((taken.number, taken.cost), (TOO_MANY_UNITS, 3 + 2 * (1 + 127)));
    assert_eq!(run.table[HEAD..], before[HEAD..]);
}

/// A run of a sized agreement under random readings, each previewed first. Gives the most units in use.
fn most_units_in_a_run(random: &mut Random, bytes: &[u8], need: i64) -> i64 {
    let agreement = parse(bytes).expect("an accepted agreement");
    let accepted = accept(&agreement).expect("an accepted agreement");
    let mut table = vec![7; CELLS];
    assert_eq!(start(bytes, &mut table).number, ACCEPTED);
    let mut most = table[USED];
    for _ in 0..20 {
        let state = table::read(&accepted, &table).expect("a well-typed table");
        let taken = readings::reading(random, &agreement, &state);
        let mut second = vec![7; CELLS];
        let foreseen = preview(bytes, &table, &taken, &mut second);
        assert_eq!(reading(bytes, &mut table, &taken), foreseen);
        assert_ne!(foreseen.number, TOO_MANY_UNITS);
        most = most.max(table[USED]);
    }
    assert!(most <= need, "{most} of {need}");
    most
}

/// "no residue reached from a sized agreement's start passes the main clause's need, so 11 never occurs from there"
#[test]
fn runs_of_sized_agreements_stay_within_their_needs() {
    let mut random = Random::new(7);
    let (mut runs, mut whole, mut large) = (0, 0, 0);
    while runs < 2_000 {
        let of_limits = random.chance(40);
        let bytes = if of_limits { at_its_limits(&mut random) } else { agreements::agreement(&mut random) };
        let agreement = parse(&bytes).expect("an accepted agreement");
        let Some(need) = accept(&agreement).expect("an accepted agreement").need else { continue };
        assert!(need as usize <= UNITS);
        let most = most_units_in_a_run(&mut random, &bytes, i64::from(need));
        runs += 1;
        whole += usize::from(need > 0 && most == i64::from(need));
        large += usize::from(most > 100);
    }
    assert!(whole > 300 && large > 100, "{whole} use their whole need, {large} over 100 units");
}

#[test]
fn agreements_made_at_their_limits_are_accepted_and_those_beyond_are_not() {
    let mut random = Random::new(8);
    for n in 0..1_000 {
        assert_eq!(check(&at_its_limits(&mut random)).number, ACCEPTED, "agreement {n}");
        assert_eq!(check(&beyond_a_limit(&mut random)).number, NEEDS_TOO_MUCH, "agreement {n}");
    }
}
