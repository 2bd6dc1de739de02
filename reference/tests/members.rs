//! Paper 02, No. 4: "Show that for every set, parameters too, it is the number of members in the
//! definitions; no answer changes." Tried by the entries, with every member and every pair of
//! members: "The two sides of an `or` together have at most one member; a parameter counts as a
//! member of its own." What is expected is said by which members were put in, never by a count.

use reference::build::*;
use reference::table::{FULFILLED, HEAD, LAST, OR, PARAMETERS, SORT, STATE, UNIT};
use reference::{check, reading, start, Checked, Started, CELLS};

const ACCEPTED: u32 = 0;
const NOT_TYPED: u32 = 3;
const ILL_TYPED_TABLE: u32 = 7;

const EVERY_PARTY: u16 = 0xFFFF;
const FOUR_PARAMETERS: u8 = 4;

/// The blame bytes: "a party below the party count, or 128 to 131 for the template's party parameter 0 to 3".
const MEMBERS: [u8; 20] = [0, 1, 2, 3, 4, 5, 6, 7, 8, 9, 10, 11, 12, 13, 14, 15, 128, 129, 130, 131];
const PARTIES: [u8; 16] = [0, 1, 2, 3, 4, 5, 6, 7, 8, 9, 10, 11, 12, 13, 14, 15];

/// An agreement of 16 parties.
fn sixteen(templates: &[Vec<u8>], main: &[u8]) -> Vec<u8> {
    agreement(100, 16, &[reading_type(&[])], templates, main)
}

/// What check answers to a clause in the body of a template with every party declared and four parameters. A second
/// template, for instances, has four parameters and declares none.
fn number_in_a_template(clause: &[u8]) -> u32 {
    let tried = template(&[], FOUR_PARAMETERS, EVERY_PARTY, clause);
    let named = template(&[], FOUR_PARAMETERS, 0, &fulfilled());
    check(&sixteen(&[named, tried], &fulfilled())).number
}

fn owed(member: u8) -> Vec<u8> {
    simple(60).obligation(member)
}

/// A choice without a party.
fn nobody() -> Vec<u8> {
    simple(60).choice(&fulfilled())
}

/// Obligations of all of these, joined by `and` in balance.
fn all_owe(members: &[u8]) -> Vec<u8> {
    match members {
        [member] => owed(*member),
        _ => {
            let (left, right) = members.split_at(members.len() / 2);
            and(&all_owe(left), &all_owe(right))
        }
    }
}

/// Every two different ones, each two once.
fn pairs(members: &[u8]) -> Vec<(u8, u8)> {
    let with_later = |n: usize| members[n + 1..].iter().map(move |later| (members[n], *later));
    (0..members.len()).flat_map(with_later).collect()
}

/// Clauses that have just these two members, which may be one: in an `and`, an if, a `then`, an else, an instance.
fn clauses_of(one: u8, other: u8) -> [Vec<u8>; 6] {
    [
        and(&owed(one), &owed(other)),
        if_clause(&truth(0), &owed(one), &owed(other)),
        Wait { then: owed(other), ..simple(60) }.obligation(one),
        Wait { then: owed(other), ..simple(60) }.choice(&owed(one)),
        simple(60).choice(&and(&nobody(), &and(&owed(other), &owed(one)))),
        instance(0, &[], &[one, other, one, other]),
    ]
}

#[test]
fn a_member_alone_is_one() {
    for member in MEMBERS {
        let owed = owed(member);
        assert_eq!(number_in_a_template(&or(&owed, &owed)), ACCEPTED, "{member} on both sides");
        assert_eq!(number_in_a_template(&or(&owed, &nobody())), ACCEPTED, "{member} on the left");
        assert_eq!(number_in_a_template(&or(&fulfilled(), &owed)), ACCEPTED, "{member} on the right");
        for clause in clauses_of(member, member) {
            assert_eq!(number_in_a_template(&or(&clause, &owed)), ACCEPTED, "{member}, and {clause:?}");
        }
    }
}

#[test]
fn two_members_on_two_sides_are_two() {
    let pairs = pairs(&MEMBERS);
    assert_eq!(pairs.len(), 190);
    for (one, other) in pairs {
        assert_eq!(number_in_a_template(&or(&owed(one), &owed(other))), NOT_TYPED, "{one} or {other}");
        assert_eq!(number_in_a_template(&or(&owed(other), &owed(one))), NOT_TYPED, "{other} or {one}");
        assert_eq!(number_in_a_template(&and(&owed(one), &owed(other))), ACCEPTED, "{one} and {other}");
    }
}

#[test]
fn two_members_inside_a_side_are_two() {
    for (one, other) in pairs(&MEMBERS) {
        for clause in clauses_of(one, other) {
            assert_eq!(number_in_a_template(&or(&clause, &fulfilled())), NOT_TYPED, "left: {clause:?}");
            assert_eq!(number_in_a_template(&or(&nobody(), &clause)), NOT_TYPED, "right: {clause:?}");
            assert_eq!(number_in_a_template(&clause), ACCEPTED, "without an `or`: {clause:?}");
        }
    }
}

#[test]
fn no_member_is_none() {
    for side in [fulfilled(), nobody(), or(&nobody(), &fulfilled())] {
        assert_eq!(number_in_a_template(&or(&side, &side)), ACCEPTED);
        assert_eq!(check(&sixteen(&[], &or(&side, &side))), Checked { number: ACCEPTED, parties: 0 });
    }
}

#[test]
fn all_members_are_more_than_one() {
    let (left, right) = MEMBERS.split_at(10);
    assert_eq!(number_in_a_template(&or(&all_owe(left), &all_owe(right))), NOT_TYPED);
    assert_eq!(number_in_a_template(&or(&all_owe(&MEMBERS), &fulfilled())), NOT_TYPED);
    assert_eq!(number_in_a_template(&or(&all_owe(&MEMBERS), &all_owe(&MEMBERS))), NOT_TYPED);
    assert_eq!(number_in_a_template(&all_owe(&MEMBERS)), ACCEPTED);
}

/// "of an instance, the template's declared parties and the instance's blames": here no blame, and none in the body.
#[test]
fn declared_parties_are_members() {
    let declaring = |bits: u16| check(&sixteen(&[template(&[], 0, bits, &fulfilled())], &or_of_instance())).number;
    assert_eq!(declaring(0), ACCEPTED);
    assert_eq!(declaring(EVERY_PARTY), NOT_TYPED);
    for party in PARTIES {
        assert_eq!(declaring(1 << party), ACCEPTED, "{party}");
    }
    for (one, other) in pairs(&PARTIES) {
        assert_eq!(declaring(1 << one | 1 << other), NOT_TYPED, "{one} and {other}");
    }
}

fn or_of_instance() -> Vec<u8> {
    or(&instance(0, &[], &[]), &fulfilled())
}

#[test]
fn the_main_clause_is_no_exception() {
    for party in PARTIES {
        let checked = check(&sixteen(&[], &or(&owed(party), &owed(party))));
        assert_eq!(checked, Checked { number: ACCEPTED, parties: 1 << party });
    }
    for (one, other) in pairs(&PARTIES) {
        let checked = check(&sixteen(&[], &or(&owed(one), &owed(other))));
        assert_eq!(checked, Checked { number: NOT_TYPED, parties: 0 }, "{one} or {other}");
    }
}

/// A table under way, whose units the trials change.
struct Underway {
    agreement: Vec<u8>,
    table: Vec<i64>,
}

impl Underway {
    /// The clause on trial is an `and` beside obligations of every party, so that every party is the main clause's. It
    /// begins with unit 1.
    fn of(templates: &[Vec<u8>], tried: &[u8]) -> Underway {
        let agreement = sixteen(templates, &and(tried, &all_owe(&PARTIES)));
        let mut table = vec![0; CELLS];
        assert_eq!(start(&agreement, &mut table).number, ACCEPTED);
        Underway { agreement, table }
    }

    fn set(&mut self, unit: usize, cell: usize, value: i64) {
        self.table[HEAD + unit * UNIT + cell] = value;
    }

    /// The cells of parameters 0 to 3 of a unit.
    fn name(&mut self, unit: usize, parties: [u8; 4]) {
        for (parameter, party) in parties.into_iter().enumerate() {
            self.set(unit, PARAMETERS + parameter, i64::from(party));
        }
    }

    /// What a mark answers to the table. An accepted one at the last reading time moves nothing, and tells a forecast:
    /// every party owes. A refused one tells none.
    fn number(&self) -> u32 {
        let mut lent = self.table.clone();
        let mark = reference::build::reading(self.table[LAST] as u32, 0, &[]);
        let taken = reading(&self.agreement, &mut lent, &mark);
        assert_eq!(taken.forecast.is_some(), taken.number == ACCEPTED);
        assert_eq!(lent, self.table);
        taken.number
    }
}

/// The number of a table in which an `or` unit joins two obligations by constant blames.
fn number_of_constants(left: u8, right: u8) -> u32 {
    let mut started = Underway::of(&[], &and(&owed(left), &owed(right)));
    assert_eq!(started.number(), ACCEPTED, "as an `and`: {left}, {right}");
    started.set(1, SORT, OR);
    started.number()
}

#[test]
fn constant_blames_at_an_or_unit() {
    for party in PARTIES {
        assert_eq!(number_of_constants(party, party), ACCEPTED, "{party} on both sides");
    }
    for (one, other) in pairs(&PARTIES) {
        assert_eq!(number_of_constants(one, other), ILL_TYPED_TABLE, "{one} or {other}");
        assert_eq!(number_of_constants(other, one), ILL_TYPED_TABLE, "{other} or {one}");
    }
}

/// A pair inside one side of an `or` unit: in an `and` unit, and in the `then` of a single unit.
#[test]
fn two_parties_inside_a_side_of_an_or_unit() {
    for (one, other) in pairs(&PARTIES) {
        let in_then = Wait { then: owed(other), ..simple(60) }.obligation(one);
        for side in [and(&owed(one), &owed(other)), in_then] {
            for tried in [and(&side, &nobody()), and(&nobody(), &side)] {
                let mut started = Underway::of(&[], &tried);
                assert_eq!(started.number(), ACCEPTED);
                started.set(1, SORT, OR);
                assert_eq!(started.number(), ILL_TYPED_TABLE, "{one} and {other} in {side:?}");
            }
        }
    }
}

#[test]
fn no_party_and_all_parties_at_an_or_unit() {
    let mut started = Underway::of(&[], &or(&nobody(), &nobody()));
    assert_eq!(started.number(), ACCEPTED);
    started.set(0, SORT, OR);
    assert_eq!(started.number(), ILL_TYPED_TABLE);
}

/// Two units of one template that blames all of its four parameters, joined by an `or` unit. At
/// first all are party 0.
fn or_of_parameters() -> Underway {
    let then = all_owe(&[129, 130, 131]);
    let body = Wait { then, ..simple(60) }.obligation(128);
    let named = instance(0, &[], &[0; 4]);
    let started = Underway::of(&[template(&[], FOUR_PARAMETERS, 0, &body)], &or(&named, &named));
    assert_eq!(started.number(), ACCEPTED);
    started
}

/// Eight parameter cells that name one party are one member; if one of them names another party, they are two.
#[test]
fn parameter_cells_at_an_or_unit() {
    let mut started = or_of_parameters();
    for party in PARTIES {
        started.name(2, [party; 4]);
        started.name(3, [party; 4]);
        assert_eq!(started.number(), ACCEPTED, "{party} in all cells");
        for other in PARTIES.into_iter().filter(|other| *other != party) {
            for (unit, parameter) in (2..4).flat_map(|unit| (0..4).map(move |parameter| (unit, parameter))) {
                let mut parties = [party; 4];
                parties[parameter] = other;
                started.name(unit, parties);
                assert_eq!(started.number(), ILL_TYPED_TABLE, "{other} in cell {parameter} of unit {unit}");
                started.name(unit, [party; 4]);
            }
        }
    }
}

/// A parameter cell beside a constant blame; "a party parameter may go unused", and is then no member.
#[test]
fn a_parameter_cell_and_a_constant_blame() {
    for constant in PARTIES {
        for parameter in 0..4 {
            let used = template(&[], FOUR_PARAMETERS, 0, &owed(128 + parameter));
            let mut started = Underway::of(&[used], &or(&owed(constant), &instance(0, &[], &[constant; 4])));
            for party in PARTIES {
                let unused = 15 - party;
                let mut parties = [unused; 4];
                parties[usize::from(parameter)] = party;
                started.name(3, parties);
                let expected = if party == constant { ACCEPTED } else { ILL_TYPED_TABLE };
                assert_eq!(started.number(), expected, "{constant} or {party} by parameter {parameter}");
            }
        }
    }
}

/// An `or` that check accepts is an `or` unit that every later entry accepts, and its reading fulfils it.
#[test]
fn an_or_of_one_party_runs() {
    for party in PARTIES {
        let agreement = sixteen(&[], &or(&owed(party), &owed(party)));
        let mut table = vec![0; CELLS];
        let forecast = Some((160, 1 << party));
        assert_eq!(start(&agreement, &mut table), Started { number: ACCEPTED, forecast });
        assert_eq!(table[HEAD + SORT], OR);
        let mark = reading(&agreement, &mut table, &reference::build::reading(105, 0, &[]));
        assert_eq!((mark.number, mark.forecast), (ACCEPTED, forecast));
        let fitting = reading(&agreement, &mut table, &reference::build::reading(110, 1, &[]));
        assert_eq!((fitting.number, fitting.forecast), (ACCEPTED, None));
        assert_eq!(table[STATE], FULFILLED);
    }
}
