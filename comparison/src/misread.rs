//! Ways to read paper 02, No. 7 wrongly, in words, and whether an agreement would fit by them.

use crate::size::{clauses, kind, need_by, together, Parts, Size};
use crate::size::{AND, CHOICE, FULFILLED, IF, INSTANCE, MOST, OBLIGATION, OR};

/// Needs of some kinds, read otherwise; None of the others.
type Need = fn(u16, &[usize]) -> Option<usize>;
const NEEDS: [(&str, Need); 13] = [
    ("fulfilled: 1", |kind, _| (kind == FULFILLED).then_some(1)),
    ("obligation: 1", |kind, _| (kind == OBLIGATION).then_some(1)),
    ("obligation: the need of `then`", |kind, needs| (kind == OBLIGATION).then(|| needs[0])),
    ("obligation: 1 and the need of `then`", |kind, needs| (kind == OBLIGATION).then(|| 1 + needs[0])),
    ("choice: the larger of 1 and the need of `then`", |kind, needs| (kind == CHOICE).then(|| needs[0].max(1))),
    ("choice: the larger of 1 and the need of else", |kind, needs| (kind == CHOICE).then(|| needs[1].max(1))),
    ("choice: the larger of both", |kind, needs| (kind == CHOICE).then(|| needs[0].max(needs[1]))),
    ("choice: both together", |kind, needs| (kind == CHOICE).then(|| (needs[0] + needs[1]).max(1))),
    ("if: the need of its first", |kind, needs| (kind == IF).then(|| needs[0])),
    ("if: the need of its second", |kind, needs| (kind == IF).then(|| needs[1])),
    ("if: both together", |kind, needs| (kind == IF).then(|| needs[0] + needs[1])),
    ("join: both together", |kind, needs| is_join(kind).then(|| needs[0] + needs[1])),
    ("join: 1 and the larger of both", |kind, needs| is_join(kind).then(|| 1 + needs[0].max(needs[1]))),
];

/// Other tests of what fits.
type Fits = fn(&Parts, &Size) -> bool;
const TESTS: [(&str, Fits); 6] = [
    ("instance: the need of its template's body", |parts, size| {
        let least = parts.least_units(&vec![0; size.units.len()]);
        let fewer = |least: &Vec<usize>| least.iter().zip(&size.units).all(|(least, units)| least <= units);
        least.filter(fewer).is_some_and(|least| parts.declaring(&least).fits())
    }),
    ("the main clause is not judged", |_, size| size.bodies_fit()),
    ("the main clause needs less than 128", |_, size| size.bodies_fit() && size.main < MOST),
    ("no body is judged", |_, size| size.main_fits()),
    ("a body needs less than its units", |_, size| {
        size.main_fits() && size.bodies.iter().zip(&size.units).all(|(need, units)| need < units)
    }),
    ("no body is judged to which the main clause does not lead", |parts, size| {
        size.main_fits() && reached(parts).into_iter().all(|template| size.body_fits(template))
    }),
];

fn is_join(kind: u16) -> bool {
    kind == AND || kind == OR
}

pub fn all() -> Vec<String> {
    NEEDS
        .iter()
        .map(|(words, _)| words)
        .chain(TESTS.iter().map(|(words, _)| words))
        .map(|words| words.to_string())
        .collect()
}

/// The wrong readings by which a sized agreement would have another number of 0 and 15.
pub fn otherwise(parts: &Parts, size: &Size) -> Vec<&'static str> {
    let by_need = NEEDS.iter().filter(|(_, need)| fits_by(*need, parts, size) != size.fits()).map(|(words, _)| *words);
    by_need.chain(TESTS.iter().filter(|(_, fits)| fits(parts, size) != size.fits()).map(|(words, _)| *words)).collect()
}

fn fits_by(read: Need, parts: &Parts, size: &Size) -> bool {
    let of = |kind, needs: &[usize]| read(kind, needs).unwrap_or_else(|| together(kind, needs));
    let need = |clause| need_by(&of, clause, &size.units);
    need(&parts.main) <= MOST && parts.templates.iter().zip(&size.units).all(|(this, units)| need(&this.body) <= *units)
}

/// The templates that the main clause names, or one that it leads to.
fn reached(parts: &Parts) -> Vec<usize> {
    let mut found = Vec::new();
    let mut left = vec![&parts.main[..]];
    while let Some(clause) = left.pop() {
        left.extend(clauses(clause));
        if kind(clause) == INSTANCE && !found.contains(&usize::from(clause[4])) {
            found.push(usize::from(clause[4]));
            left.push(&parts.templates[usize::from(clause[4])].body);
        }
    }
    found
}
