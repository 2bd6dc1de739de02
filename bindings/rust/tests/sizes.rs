//! Agreements whose size is known beforehand, paper 02, No. 7: "Template kind 4 is kind 3 with a byte after the
//! declared parties: its units, 0 to 128. An agreement whose templates are all of kind 4, and which has at least one,
//! is sized. [..] in a sized agreement a body's need is above its declared units or the main clause's above 128".

#[path = "common/pond.rs"]
mod pond;
#[path = "common/run.rs"]
mod run;
#[path = "common/sized.rs"]
mod sized;

use givuntha::{check, preview, reading, record, start, Parties, Refusal, Refused, Table, CELLS};
use pond::pond;
use reference::agreement::Type;
use reference::build::{
    and, fulfilled, if_clause, instance, number, or, party, record as made, simple, template, truth, Wait,
};
use run::Run;
use sized::sized;

const UNITS: usize = 4;

/// Party 0 owes a salinity within 60.
fn owed() -> Vec<u8> {
    simple(60).obligation(0)
}

/// The same, with this `then`.
fn owed_then(then: &[u8]) -> Vec<u8> {
    Wait { then: then.to_vec(), ..simple(60) }.obligation(0)
}

/// So many obligations joined by `and` in balance; they need twice as many units less one.
fn all_owed(count: usize) -> Vec<u8> {
    match count {
        1 => owed(),
        _ => and(&all_owed(count / 2), &all_owed(count - count / 2)),
    }
}

/// A template without values and party parameters, and one of kind 4.
fn plain(body: &[u8]) -> Vec<u8> {
    template(&[], 0, 3, body)
}

fn with_units(units: u8, body: &[u8]) -> Vec<u8> {
    sized(&plain(body), units)
}

fn instance_of(number: u8) -> Vec<u8> {
    instance(number, &[], &[])
}

/// The answer of `check` as a number.
fn number_of(agreement: &[u8]) -> u32 {
    check(agreement).map_or_else(Refusal::number, |_| 0)
}

/// The answers with so many units declared, and with one unit less: the body needs just so many.
fn assert_needs(before: &[Vec<u8>], body: &[u8], need: u8) {
    let answer = |units| number_of(&pond(&[before, &[with_units(units, body)]].concat(), &fulfilled()));
    assert_eq!(answer(need), 0, "{need}");
    if let Some(less) = need.checked_sub(1) {
        assert_eq!(answer(less), 15, "{less}");
    }
}

/// "The need of fulfilled is 0. For an obligation it is the larger of 1 and the need of `then`. For a choice it is the
/// largest of 1 and the needs of its two clauses. For an if it is the larger of both. For `and` and `or` it is 1 and
/// both together."
#[test]
fn what_each_clause_needs() {
    let (three, five) = (all_owed(2), all_owed(3));
    assert_needs(&[], &fulfilled(), 0);
    assert_needs(&[], &owed(), 1);
    assert_needs(&[], &owed_then(&three), 3);
    assert_needs(&[], &simple(60).choice(&fulfilled()), 1);
    assert_needs(&[], &Wait { then: five.clone(), ..simple(60) }.choice(&three), 5);
    assert_needs(&[], &Wait { then: three.clone(), ..simple(60) }.choice(&five), 5);
    assert_needs(&[], &if_clause(&truth(1), &fulfilled(), &fulfilled()), 0);
    assert_needs(&[], &if_clause(&truth(1), &owed(), &three), 3);
    assert_needs(&[], &if_clause(&truth(1), &three, &owed()), 3);
    assert_needs(&[], &and(&fulfilled(), &fulfilled()), 1);
    assert_needs(&[], &and(&three, &five), 9);
    assert_needs(&[], &or(&owed(), &or(&owed(), &fulfilled())), 4);
}

/// "An instance needs its template's units": what is declared, and not what the body needs.
#[test]
fn what_an_instance_needs() {
    let before = [with_units(7, &owed()), with_units(5, &fulfilled())];
    assert_needs(&before, &instance_of(0), 7);
    assert_needs(&before, &instance_of(1), 5);
    assert_needs(&before, &and(&instance_of(0), &instance_of(1)), 13);
    assert_needs(&[], &owed_then(&instance_of(0)), 1);
}

/// A clause that begins anew beside another needs the more the more is declared.
#[test]
fn no_units_do() {
    for units in [0, 1, 2, 64, 127, 128] {
        let body = owed_then(&and(&instance_of(0), &fulfilled()));
        assert_eq!(number_of(&pond(&[with_units(units, &body)], &fulfilled())), 15, "{units}");
    }
}

/// 128 is the most; so it is where nothing is wrong but the main clause's need.
#[test]
fn what_the_main_clause_may_need() {
    let agreement = |units, main: &[u8]| pond(&[with_units(units, &owed())], main);
    assert_eq!(number_of(&agreement(128, &instance_of(0))), 0);
    assert_eq!(number_of(&agreement(127, &and(&instance_of(0), &fulfilled()))), 0);
    assert_eq!(number_of(&agreement(128, &and(&instance_of(0), &fulfilled()))), 15);
    assert_eq!(number_of(&agreement(1, &all_owed(64))), 0);
    assert_eq!(number_of(&agreement(1, &all_owed(65))), 15);
}

/// "Mixing kinds 3 and 4, or units above 128, is refusal 2." So are a byte too many or too few.
#[test]
fn what_is_refused_with_2() {
    let number = |templates: &[Vec<u8>]| number_of(&pond(templates, &fulfilled()));
    let (kind_3, kind_4) = (plain(&fulfilled()), with_units(0, &fulfilled()));
    assert_eq!(number(&[kind_3.clone(), kind_3.clone()]), 0);
    assert_eq!(number(&[kind_4.clone(), kind_4.clone()]), 0);
    assert_eq!(number(&[kind_3.clone(), kind_4.clone()]), 2);
    assert_eq!(number(&[kind_4.clone(), kind_3.clone()]), 2);
    assert_eq!(number(&[kind_4.clone(), kind_4.clone(), kind_3.clone()]), 2);
    for units in [129, 200, 255] {
        assert_eq!(number(&[with_units(units, &fulfilled())]), 2, "{units}");
    }
    for (template, kind) in [(&kind_3, 4), (&kind_4, 3), (&kind_4, 5), (&kind_3, 2)] {
        assert_eq!(number(&[[&template[..2], &[kind], &template[3..]].concat()]), 2, "{kind}");
    }
}

/// Without templates, or with those of kind 3, an agreement is not sized, whatever it needs.
#[test]
fn what_is_not_sized() {
    let large = all_owed(65);
    for templates in [vec![], vec![plain(&large)], vec![plain(&fulfilled()), plain(&large)]] {
        let agreement = pond(&templates, &large);
        assert_eq!(number_of(&agreement), 0);
        assert_eq!(start(&agreement, &mut [0; CELLS]), Err(Refusal::Units));
    }
    let sized = pond(&[with_units(0, &fulfilled())], &large);
    assert_eq!(start(&sized, &mut [0; CELLS]), Err(Refusal::AgreementSize));
}

/// "it comes after 5 and before 6": agreements of which more is wrong than a body's need.
#[test]
fn it_comes_after_5() {
    let over = with_units(0, &owed());
    let untyped = Wait { after: truth(1), ..simple(60) }.obligation(0);
    let wide = owed_then(&and(&all_owed(128), &owed()));
    assert_eq!(number_of(&pond(&[over.clone(), with_units(129, &owed())], &fulfilled())), 2);
    assert_eq!(number_of(&pond(std::slice::from_ref(&over), &untyped)), 3);
    assert_eq!(number_of(&pond(&[over.clone(), with_units(1, &instance_of(1))], &fulfilled())), 4);
    assert_eq!(number_of(&pond(std::slice::from_ref(&over), &wide)), 5);
    assert_eq!(number_of(&pond(&[over], &fulfilled())), 15);
}

/// "and before 6, in every entry that makes 5": before what is wrong with any table or reading.
#[test]
fn it_comes_before_6_in_every_entry() {
    let agreement = pond(&[with_units(0, &owed())], &owed());
    let (refusal, refused) = (Refusal::AgreementSize, Refused::Other(Refusal::AgreementSize));
    assert_eq!(check(&agreement), Err(refusal));
    assert_eq!(Table::start(&agreement), Err(refusal));
    for length in [0, CELLS - 1, CELLS] {
        let cells = vec![7; length];
        let (mut lent, mut second) = (cells.clone(), cells.clone());
        assert_eq!(start(&agreement, &mut lent), Err(refusal));
        for given in [record::mark(99), record::mark(110), vec![]] {
            assert_eq!(reading(&agreement, &mut lent, &given), Err(refused));
            assert_eq!(preview(&agreement, &cells, &given, &mut second), Err(refused));
        }
        assert_eq!((&lent, &second), (&cells, &cells));
    }
}

/// The place of its units behind values, party parameter and declared parties, byte by byte; and check says of a sized
/// agreement what it says of every one.
#[test]
fn by_hand() {
    let values = [number(1), party(1)];
    let body = Wait { within: reference::build::value(0), ..simple(0) }.obligation(128);
    let head = [2, 1, 3, 1, 2, 0];
    let with = |units: u8| {
        let template = made(4, &[&head, &[units], &body]);
        pond(&[template], &and(&instance(0, &values, &[0]), &owed()))
    };
    assert_eq!(with(1)[17..28], [39, 0, 4, 0, 2, 1, 3, 1, 2, 0, 1]);
    assert_eq!(number_of(&with(0)), 15);
    for units in [1, 126] {
        assert_eq!(check(&with(units)), Ok(Parties::from_bits(3)));
    }
    assert_eq!(number_of(&with(127)), 15);
    let kind_3 = template(&[Type::Number, Type::Party], 1, 2, &body);
    assert_eq!(sized(&kind_3, 9), made(4, &[&head, &[9], &body]));
}

/// An obligation comes to 64, which need all 127 units; the same agreement of kind 3 comes to the same.
#[test]
fn a_run_that_uses_its_whole_need() {
    let then = owed_then(&all_owed(64));
    let agreement = |template| pond(&[template], &instance_of(0));
    let mut run = Run::of(agreement(with_units(127, &then)));
    let mut other = Run::of(agreement(plain(&then)));
    for (given, units) in [(record::mark(105), 1), (record::reading(110, 1, &[0]), 127), (record::mark(170), 127)] {
        let taken = run.take(&given);
        assert!(taken.is_ok());
        assert_eq!(taken, other.take(&given));
        assert_eq!(run.table.cells()[UNITS], units);
    }
    assert_eq!(number_of(&agreement(with_units(126, &then))), 15);
}

/// The paper's P15 grows without end: of kind 3 the seventh reading is refused with 11, of kind 4 the agreement is
/// refused. Where it begins anew alone it is accepted, and no reading is refused.
#[test]
fn what_grows_and_what_does_not() {
    let (twice, once) = (owed_then(&and(&instance_of(0), &instance_of(0))), owed_then(&instance_of(0)));
    let mut grows = Run::of(pond(&[plain(&twice)], &instance_of(0)));
    let answers: Vec<_> = (101..108).map(|time| grows.take(&record::reading(time, 1, &[0])).is_ok()).collect();
    assert_eq!(answers, [true, true, true, true, true, true, false]);
    assert_eq!(number_of(&pond(&[with_units(128, &twice)], &instance_of(0))), 15);
    let mut stays = Run::of(pond(&[with_units(1, &once)], &instance_of(0)));
    for time in 101..400 {
        assert!(stays.take(&record::reading(time, 1, &[0])).is_ok());
        assert_eq!(stays.table.cells()[UNITS], 1);
    }
}
