//! Agreements, tables and readings to measure, and the stream that makes each of them.

use crate::size::Template;
use reference::agreement::{Operator, Type};
use reference::build::*;
use reference::{entries, CELLS};

/// One measurement's material: an agreement, a table of a run of it, and a reading to take there.
pub struct Case {
    pub name: String,
    pub agreement: Vec<u8>,
    /// The readings of the run before that one.
    pub before: Vec<u8>,
    pub table: Vec<i64>,
    pub reading: Vec<u8>,
}

/// A window that no reading of these cases leaves.
const LONG: i32 = 1_000_000;

impl Case {
    /// The run after some readings, each of which must be taken.
    fn after(name: &str, agreement: Vec<u8>, before: &[Vec<u8>], reading: Vec<u8>) -> Case {
        let mut table = vec![0; CELLS];
        assert_eq!(entries::start(&agreement, &mut table).number, 0, "{name}: start");
        for earlier in before {
            let taken = entries::reading(&agreement, &mut table, earlier);
            assert_eq!(taken.number, 0, "{name}: an earlier reading");
        }
        Case { name: name.to_string(), agreement, before: before.concat(), table, reading }
    }

    /// What `brinewatch` reads to take this reading last.
    pub fn stream(&self) -> Vec<u8> {
        [&self.agreement[..], &self.before, &self.reading].concat()
    }

    /// 64 units at choices, given a reading of type 2 that finds all of them late.
    fn late(name: &str, agreement: Vec<u8>, values: &[i32]) -> Case {
        Case::after(name, agreement, &[reading(105, 1, &[])], reading(1000, 2, values))
    }

    pub fn units(&self) -> i64 {
        self.table[4]
    }
}

/// The cases of the comparison.
pub fn all() -> Vec<Case> {
    let mut cases = sample_cases();
    cases.push(small_clauses(32));
    cases.push(expressions(768));
    cases.extend(unit_cases());
    cases.push(activations(128, 128));
    cases.extend([sized_clauses(32), too_small(), deep(), chained()]);
    cases
}

/// Paper 01's sample: a salinity not below 250 within 60.
fn sample() -> Vec<u8> {
    let low = binary(Operator::Less, &value(0), &number(250));
    let wait = Wait { condition: not(&low), ..simple(60) };
    agreement(100, 2, &[reading_type(&[Type::Number])], &[], &wait.obligation(0))
}

fn sample_cases() -> Vec<Case> {
    vec![
        Case::after("sample, waits", sample(), &[], reading(110, 1, &[240])),
        Case::after("sample, fulfils", sample(), &[], reading(160, 1, &[250])),
        Case::after("sample, breaches", sample(), &[], reading(161, 0, &[])),
        Case::after("sample, refused", sample(), &[], reading(99, 1, &[250])),
    ]
}

/// Templates of 14 obligations each, 16 KB where there are 32; the main clause is one obligation.
pub fn small_clauses(templates: usize) -> Case {
    waits_on("small clauses", of_templates(&vec![template(&[], 0, 1, &fourteen()); templates]))
}

/// The same with units (paper 02, No. 7), as many as each body needs.
pub fn sized_clauses(templates: usize) -> Case {
    waits_on("sized clauses", of_templates(&vec![sized(27, fourteen()); templates]))
}

/// The last body needs one unit more than it has.
fn too_small() -> Case {
    let mut templates = vec![sized(27, fourteen()); 32];
    templates[31] = sized(26, fourteen());
    let agreement = of_templates(&templates);
    let name = "sized clauses, refused with 15".to_string();
    Case { name, agreement, before: Vec::new(), table: vec![0; CELLS], reading: reading(110, 0, &[]) }
}

/// Templates whose clauses nest as deep as records may.
fn deep() -> Case {
    let body = (3..24).fold(fulfilled(), |inner, _| and(&fulfilled(), &inner));
    waits_on("sized clauses, 24 deep", of_templates(&vec![sized(21, body); 32]))
}

/// P15 as a sized agreement, after six fitting readings: template n is an obligation then two of template n - 1.
fn chained() -> Case {
    let mut templates = vec![sized(1, simple(LONG).obligation(0))];
    for n in 0..6 {
        let again = instance(n, &[], &[]);
        let wait = Wait { then: and(&again, &again), ..simple(LONG) };
        templates.push(sized((4 << n) - 1, wait.obligation(0)));
    }
    let bytes = agreement(100, 2, &[reading_type(&[])], &templates, &instance(6, &[], &[]));
    Case::after("127 units, sized, waits", bytes, &vec![reading(105, 1, &[]); 6], reading(110, 0, &[]))
}

fn sized(units: usize, body: Vec<u8>) -> Vec<u8> {
    Template { units: Some(units), ..Template::new(body) }.bytes()
}

fn fourteen() -> Vec<u8> {
    tree(14, &simple(60).obligation(0))
}

fn of_templates(templates: &[Vec<u8>]) -> Vec<u8> {
    agreement(100, 2, &[reading_type(&[])], templates, &simple(LONG).obligation(0))
}

fn waits_on(what: &str, agreement: Vec<u8>) -> Case {
    Case::after(&format!("{what}, {} bytes", agreement.len()), agreement, &[], reading(110, 0, &[]))
}

/// One obligation whose condition adds up so many pairs of values, 16 KB where there are 768.
pub fn expressions(pairs: usize) -> Case {
    let pair = binary(Operator::Times, &value(0), &number(3));
    let sum = sums(pairs, &pair);
    let condition = binary(Operator::Less, &sum, &number(0));
    let main = Wait { condition, ..simple(LONG) }.obligation(0);
    let bytes = agreement(100, 2, &[reading_type(&[Type::Number])], &[], &main);
    Case::after(&format!("expressions, {} bytes", bytes.len()), bytes, &[], reading(110, 1, &[7]))
}

fn unit_cases() -> Vec<Case> {
    vec![doubled(6, "waits", reading(110, 0, &[])), doubled(6, "refused with 11", reading(110, 1, &[])), wide()]
}

/// "template 0 is an obligation then (template 0 and template 0)", after so many fitting readings.
pub fn doubled(readings: u32, what: &str, last: Vec<u8>) -> Case {
    let again = instance(0, &[], &[]);
    let wait = Wait { then: and(&again, &again), ..simple(LONG) };
    let bytes =
        agreement(100, 2, &[reading_type(&[])], &[template(&[], 0, 1, &wait.obligation(0))], &instance(0, &[], &[]));
    let before: Vec<Vec<u8>> = (0..readings).map(|_| reading(105, 1, &[])).collect();
    let name = format!("{} units, {what}", 2usize.pow(readings + 1) - 1);
    Case::after(&name, bytes, &before, last)
}

/// 127 units at 64 clauses of their own.
fn wide() -> Case {
    let bytes = agreement(100, 2, &[reading_type(&[])], &[], &tree(64, &simple(LONG).obligation(0)));
    Case::after("127 units of 64 clauses", bytes, &[], reading(110, 0, &[]))
}

/// 64 units at choices that a reading finds late: each activates an else of so many obligations, and each of
/// these takes the same reading and activates so many fulfilled clauses under joins. No width allows more than
/// 128 and 128, and no else of such a width activates more.
pub fn activations(obligations: usize, fulfilments: usize) -> Case {
    let settled = template(&[], 0, 0, &tree(fulfilments, &fulfilled()));
    let prompt = Wait { reading: 2, then: instance(0, &[], &[]), ..simple(LONG) }.obligation(0);
    let clauses = 64 * (2 * obligations - 1 + obligations * 2 * fulfilments);
    let bytes = late_choices(&[settled], &[], &tree(obligations, &prompt));
    Case::late(&format!("{clauses} activations"), bytes, &[])
}

/// Readings built to cost or to last as much as can be.
pub fn heaviest() -> Vec<Case> {
    vec![activations(128, 128), passed_over(), evaluations()]
}

/// Each else is fulfilled when it is activated, beside as many obligations as its width allows: these are
/// activated, but follow nothing, and their `then`s do not count.
fn passed_over() -> Case {
    let settled = template(&[], 0, 0, &tree(128, &fulfilled()));
    let prompt = Wait { reading: 2, then: instance(0, &[], &[]), ..simple(LONG) }.obligation(0);
    let bytes = late_choices(&[settled], &[], &or(&fulfilled(), &tree(127, &prompt)));
    Case::late("an `or` fulfilled at once", bytes, &[])
}

/// 120 obligations in each else, 64 instances in the `then` of each, and one expression that every one of these
/// evaluates, as long as the agreement has bytes left. The else is doubled by templates: that costs it 8
/// obligations, and leaves the expression more bytes.
fn evaluations() -> Case {
    let most = (1..).take_while(|pairs| evaluating(pairs + 1).len() <= 16_384).last().expect("one that fits");
    Case::late("one expression 491520 times", evaluating(most), &[7])
}

fn evaluating(pairs: usize) -> Vec<u8> {
    let (none, number) = (&[][..], &[Type::Number][..]);
    let prompt = Wait { reading: 2, then: instance(2, &[value(0)], &[]), ..simple(LONG) }.obligation(0);
    let twice = |k| and(&instance(k, &[], &[]), &instance(k, &[], &[]));
    let templates = [
        template(number, 0, 0, &fulfilled()),
        template(number, 0, 0, &instance(0, &[mixed(pairs, 0)], &[])),
        template(number, 0, 0, &tree(64, &instance(1, &[value(0)], &[]))),
        template(none, 0, 1, &tree(15, &prompt)),
        template(none, 0, 1, &twice(3)),
        template(none, 0, 1, &twice(4)),
    ];
    late_choices(&templates, number, &twice(5))
}

/// An agreement of 64 obligations that lead to choices with this else.
fn late_choices(templates: &[Vec<u8>], values: &[Type], otherwise: &[u8]) -> Vec<u8> {
    let first = Wait { then: simple(60).choice(otherwise), ..simple(LONG) }.obligation(0);
    let all = [templates, &[template(&[], 0, 1, &first)]].concat();
    let main = tree(64, &instance(templates.len() as u8, &[], &[]));
    agreement(100, 1, &[reading_type(&[]), reading_type(values)], &all, &main)
}

/// So many pairs of values under operators that take turns, in balance.
fn mixed(pairs: usize, level: usize) -> Vec<u8> {
    let operator = [Operator::Times, Operator::Minus, Operator::Plus][level % 3];
    match pairs {
        1 => binary(operator, &value(0), &value(0)),
        _ => binary(operator, &mixed(pairs / 2, level + 1), &mixed(pairs - pairs / 2, level + 1)),
    }
}

/// So many leaves joined by `and`, in balance.
pub fn tree(leaves: usize, leaf: &[u8]) -> Vec<u8> {
    match leaves {
        1 => leaf.to_vec(),
        _ => and(&tree(leaves / 2, leaf), &tree(leaves - leaves / 2, leaf)),
    }
}

/// So many terms added up, in balance.
fn sums(terms: usize, term: &[u8]) -> Vec<u8> {
    match terms {
        1 => term.to_vec(),
        _ => binary(Operator::Plus, &sums(terms / 2, term), &sums(terms - terms / 2, term)),
    }
}
