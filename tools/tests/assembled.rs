//! Each construct assembled to exact bytes, those of the second monitor's builders.

use reference::agreement::{Operator, Type};
use reference::build::{self, simple, Wait};
use tools::assemble;

fn hex(text: &str) -> Vec<u8> {
    let digits: Vec<u32> = text.chars().filter_map(|c| c.to_digit(16)).collect();
    digits.chunks(2).map(|pair| (pair[0] * 16 + pair[1]) as u8).collect()
}

/// The sample agreement as the paper prints it.
const SAMPLE: &str = "40 00 01 00 64 00 00 00 02 01 00 | 06 00 02 00 01 01 | 2F 00 11 00 00 01 |
    15 00 24 00 11 00 2A 00 05 00 23 00 00 08 00 20 00 FA 00 00 00 |
    08 00 20 00 00 00 00 00 | 08 00 20 00 3C 00 00 00 | 04 00 10 00";

#[test]
fn the_sample_agreement() {
    let assembled = assemble(include_bytes!("sample.csl")).expect("a right text");
    assert_eq!(assembled.bytes, hex(SAMPLE));
    assert!(!assembled.dated);
}

fn bytes(text: &str) -> Vec<u8> {
    assemble(text.as_bytes()).unwrap_or_else(|fault| panic!("{fault}\n{text}")).bytes
}

fn reading_types() -> Vec<Vec<u8>> {
    vec![
        build::reading_type(&[Type::Number]),
        build::reading_type(&[Type::Truth, Type::Party]),
        build::reading_type(&[]),
    ]
}

const DECLARATIONS: &str = "parties A, B, C readings N(n: number) T(t: truth, p: party) E()";

/// The text of a main clause gives this record.
fn main_is(text: &str, main: &[u8]) {
    let whole = format!("{DECLARATIONS} in {text} starting 7");
    assert!(bytes(&whole) == build::agreement(7, 3, &reading_types(), &[], main), "{text}");
}

/// The text of a template and the main clause `t(..)` gives this record.
fn template_is(text: &str, template: &[u8], instance: &str, main: &[u8]) {
    let whole = format!("{DECLARATIONS} letrec {text} in {instance} starting 7");
    assert!(bytes(&whole) == build::agreement(7, 3, &reading_types(), &[template.to_vec()], main), "{text}");
}

/// A condition on a reading of type 2, whose values are 0 and 1, gives this record.
fn condition_is(text: &str, condition: &[u8]) {
    let wait = Wait { reading: 2, condition: condition.to_vec(), ..simple(5) };
    main_is(&format!("<A> T(t, p) where {text} due within 5"), &wait.obligation(0));
}

/// The same of an expression on a reading of type 1, whose value is 0, in a comparison.
fn number_is(text: &str, number: &[u8]) {
    let condition = build::binary(Operator::Equal, &build::value(0), number);
    let wait = Wait { condition, ..simple(5) };
    main_is(&format!("<A> N(n) where n = {text} due within 5"), &wait.obligation(0));
}

fn binary(operator: Operator, left: &[u8], right: &[u8]) -> Vec<u8> {
    build::binary(operator, left, right)
}

/// An obligation of a party to read an E within so many minutes.
fn owed(party: u8, within: i32) -> Vec<u8> {
    Wait { reading: 3, ..simple(within) }.obligation(party)
}

#[test]
fn fulfilment() {
    main_is("fulfilment", &build::fulfilled());
    main_is("((fulfilment))", &build::fulfilled());
}

#[test]
fn obligations() {
    let whole = Wait {
        reading: 1,
        condition: binary(Operator::Less, &build::value(0), &build::number(3)),
        after: build::number(10),
        within: build::number(20),
        // The reading's value is 0, the remaining time 1.
        then: Wait { within: build::value(1), ..simple(0) }.obligation(1),
    };
    main_is("<C> N(n) where n < 3 due after 10 within 20 remaining z then <B> N(_) due within z", &whole.obligation(2));
    main_is("<C> N(n) where n < 3 due within 20 after 10 remaining z then <B> N(_) due within z", &whole.obligation(2));
    main_is("<A> N(_) due within 60", &simple(60).obligation(0));
    main_is("<A> N(_) due immediately", &simple(0).obligation(0));
    main_is("<A> N(_) due immediately after 9", &Wait { after: build::number(9), ..simple(0) }.obligation(0));
}

#[test]
fn choices() {
    main_is("if N(_) due within 60", &simple(60).choice(&build::fulfilled()));
    main_is("if N(_) due within 60 else <B> E() due within 5", &simple(60).choice(&owed(1, 5)));
    let wait = Wait { then: owed(0, 4), ..simple(60) };
    main_is("if N(_) due within 60 then <A> E() due within 4 else <B> E() due within 5", &wait.choice(&owed(1, 5)));
}

#[test]
fn ifs() {
    let (yes, no) = (build::truth(1), build::fulfilled());
    main_is("if true then <A> E() due within 1", &build::if_clause(&yes, &owed(0, 1), &no));
    main_is(
        "if true then <A> E() due within 1 else <B> E() due within 2",
        &build::if_clause(&yes, &owed(0, 1), &owed(1, 2)),
    );
    main_is("if (true) then fulfilment", &build::if_clause(&yes, &no, &no));
}

#[test]
fn a_dangling_else_belongs_to_the_nearest_if() {
    let inner = |otherwise: &[u8]| simple(2).choice(otherwise);
    let outer = |then: Vec<u8>, otherwise: &[u8]| Wait { then, ..simple(1) }.choice(otherwise);
    main_is(
        "if N(_) due within 1 then if N(_) due within 2 else <A> E() due within 3",
        &outer(inner(&owed(0, 3)), &build::fulfilled()),
    );
    main_is(
        "if N(_) due within 1 then (if N(_) due within 2) else <A> E() due within 3",
        &outer(inner(&build::fulfilled()), &owed(0, 3)),
    );
    main_is(
        "if N(_) due within 1 then if N(_) due within 2 else fulfilment else <A> E() due within 3",
        &outer(inner(&build::fulfilled()), &owed(0, 3)),
    );
}

#[test]
fn joins() {
    let (a, b, c) = (owed(0, 1), owed(1, 2), owed(2, 3));
    let (ta, tb, tc) = ("<A> E() due within 1", "<B> E() due within 2", "<C> E() due within 3");
    main_is(&format!("{ta} and {tb} and {tc}"), &build::and(&build::and(&a, &b), &c));
    main_is(&format!("{ta} and ({tb} and {tc})"), &build::and(&a, &build::and(&b, &c)));
    main_is(&format!("{ta} or {tb} or {tc}"), &build::or(&build::or(&a, &b), &c));
    main_is(&format!("{ta} or {tb} and {tc}"), &build::or(&a, &build::and(&b, &c)));
    main_is(&format!("{ta} and {tb} or {tc}"), &build::or(&build::and(&a, &b), &c));
    main_is(&format!("({ta} or {tb}) and {tc}"), &build::and(&build::or(&a, &b), &c));
}

#[test]
fn then_and_else_reach_far_to_the_right() {
    let (a, b) = (owed(0, 1), owed(1, 2));
    let both = Wait { reading: 3, then: build::and(&a, &b), ..simple(5) };
    main_is("<C> E() due within 5 then <A> E() due within 1 and <B> E() due within 2", &both.obligation(2));
    let first = Wait { reading: 3, then: a.clone(), ..simple(5) };
    main_is(
        "(<C> E() due within 5 then <A> E() due within 1) and <B> E() due within 2",
        &build::and(&first.obligation(2), &b),
    );
    main_is(
        "if false then fulfilment else <A> E() due within 1 or <B> E() due within 2",
        &build::if_clause(&build::truth(0), &build::fulfilled(), &build::or(&a, &b)),
    );
}

#[test]
fn templates_and_instances() {
    let body = Wait { within: build::value(0), ..simple(0) }.obligation(129);
    template_is(
        "t(x: number, y: truth, z: party)<q, r> declares A, C = <r> N(_) due within x",
        &build::template(&[Type::Number, Type::Truth, Type::Party], 2, 0b101, &body),
        "t(1 + 2, true, B)<C, A>",
        &build::instance(
            0,
            &[binary(Operator::Plus, &build::number(1), &build::number(2)), build::truth(1), build::party(1)],
            &[2, 0],
        ),
    );
    template_is(
        "t() = fulfilment",
        &build::template(&[], 0, 0, &build::fulfilled()),
        "t()",
        &build::instance(0, &[], &[]),
    );
    // `>` and `=` without a blank between are no comparison.
    template_is(
        "t()<q>=<q> N(_) due within 5",
        &build::template(&[], 1, 0, &simple(5).obligation(128)),
        "t()<B>",
        &build::instance(0, &[], &[1]),
    );
}

/// The bytes of an agreement with two templates of kind 4, by hand.
const SIZED: &str = "40 00 01 00 07 00 00 00 02 01 02 | 05 00 02 00 00 |
    10 00 04 00 02 01 03 01 02 00 07 | 05 00 16 00 01 | 0D 00 04 00 00 00 00 00 80 | 04 00 10 00 |
    13 00 16 00 00 | 08 00 20 00 01 00 00 00 | 05 00 22 00 01 | 00";

#[test]
fn templates_that_declare_their_units() {
    let text = "parties A, B readings E()
        letrec f(x: number, y: party)<p> declares B sized 7 = g() g() sized 128 = fulfilment
        in f(1, B)<A> starting 7";
    assert_eq!(bytes(text), hex(SIZED));
    let without = text.replace("sized 7 ", "").replace("sized 128 ", "");
    let f = build::template(&[Type::Number, Type::Party], 1, 2, &build::instance(1, &[], &[]));
    let templates = [f, build::template(&[], 0, 0, &build::fulfilled())];
    let main = build::instance(0, &[build::number(1), build::party(1)], &[0]);
    assert_eq!(bytes(&without), build::agreement(7, 2, &[build::reading_type(&[])], &templates, &main));
    for units in ["0", "1", "128"] {
        let one = assemble(
            format!("parties A readings E() letrec f() sized {units} = fulfilment in f() starting 0").as_bytes(),
        );
        let one = one.unwrap_or_else(|fault| panic!("{fault}"));
        assert_eq!(one.agreement.templates[0].head.units.map(|units| units.to_string()).as_deref(), Some(units));
    }
}

#[test]
fn templates_may_name_later_ones() {
    let text =
        format!("{DECLARATIONS} letrec f() = <A> E() due within 1 then g(3) g(x: number) = f() in g(4) starting 0");
    let then = build::instance(1, &[build::number(3)], &[]);
    let f = build::template(&[], 0, 0, &Wait { reading: 3, then, ..simple(1) }.obligation(0));
    let g = build::template(&[Type::Number], 0, 0, &build::instance(0, &[], &[]));
    let main = build::instance(1, &[build::number(4)], &[]);
    assert_eq!(bytes(&text), build::agreement(0, 3, &reading_types(), &[f, g], &main));
}

#[test]
fn values_in_sight_are_numbered() {
    // The template's 0 and 1, then T's 2 and 3, its remaining time 4, then N's 5; else sees only 0 and 1.
    let inner = Wait {
        condition: binary(Operator::Equal, &build::value(5), &build::value(4)),
        after: build::value(0),
        within: build::value(4),
        ..simple(0)
    };
    let outer = Wait {
        reading: 2,
        condition: binary(Operator::And, &build::value(2), &build::value(1)),
        then: inner.obligation(0),
        ..simple(9)
    };
    let otherwise = Wait { within: build::value(0), ..simple(0) }.obligation(1);
    let body = outer.choice(&otherwise);
    template_is(
        "t(x: number, y: truth) =
           if T(b, p) where b && y due within 9 remaining z
           then <A> N(n) where n = z due after x within z
           else <B> N(_) due within x",
        &build::template(&[Type::Number, Type::Truth], 0, 0, &body),
        "t(0, false)",
        &build::instance(0, &[build::number(0), build::truth(0)], &[]),
    );
}

#[test]
fn an_inner_name_hides_an_outer_one() {
    let inner = Wait { condition: binary(Operator::Equal, &build::value(2), &build::number(0)), ..simple(1) };
    let outer = Wait { then: inner.obligation(0), ..simple(1) };
    main_is("<A> N(n) due within 1 then <A> N(n) where n = 0 due within 1", &outer.obligation(0));
    // A value called like a party is the value; `number` is no reserved word.
    let hidden = Wait { condition: binary(Operator::Equal, &build::value(0), &build::number(1)), ..simple(1) };
    main_is("<A> N(C) where C = 1 due within 1", &hidden.obligation(0));
    main_is("<A> N(number) where number = 1 due within 1", &hidden.obligation(0));
}

#[test]
fn literals() {
    condition_is("true", &build::truth(1));
    condition_is("false", &build::truth(0));
    condition_is("p = B", &binary(Operator::Equal, &build::value(1), &build::party(1)));
    number_is("240", &build::number(240));
    number_is("-5", &build::number(-5));
    number_is("- 5", &build::number(-5));
    number_is("1000000000", &build::number(1_000_000_000));
    number_is("-1000000000", &build::number(-1_000_000_000));
    for (text, minutes) in [("5m", 5), ("12h", 720), ("30D", 43_200), ("2W", 20_160), ("1M", 43_200), ("1Y", 525_600)] {
        number_is(text, &build::number(minutes));
    }
    number_is("-9D", &build::number(-9 * 1440));
}

#[test]
fn arithmetic() {
    let (one, two, three) = (build::number(1), build::number(2), build::number(3));
    number_is("1 + 2 * 3", &binary(Operator::Plus, &one, &binary(Operator::Times, &two, &three)));
    number_is("(1 + 2) * 3", &binary(Operator::Times, &binary(Operator::Plus, &one, &two), &three));
    number_is("1 - 2 - 3", &binary(Operator::Minus, &binary(Operator::Minus, &one, &two), &three));
    number_is("1 - (2 - 3)", &binary(Operator::Minus, &one, &binary(Operator::Minus, &two, &three)));
    number_is("1 / 2 * 3", &binary(Operator::Times, &binary(Operator::Quotient, &one, &two), &three));
    number_is("1 -3", &binary(Operator::Minus, &one, &three));
    number_is("1 - -3", &binary(Operator::Minus, &one, &build::number(-3)));
}

#[test]
fn truths() {
    let (t, yes) = (build::value(0), build::truth(1));
    let less = binary(Operator::Less, &build::number(1), &build::number(2));
    let and = |left: &[u8], right: &[u8]| binary(Operator::And, left, right);
    condition_is("t && true && 1 < 2", &and(&and(&t, &yes), &less));
    condition_is("t && (true && 1 < 2)", &and(&t, &and(&yes, &less)));
    condition_is("!t && true", &and(&build::not(&t), &yes));
    condition_is("!(t && true)", &build::not(&and(&t, &yes)));
    condition_is("!!t", &build::not(&build::not(&t)));
    condition_is("(1 < 2) = t", &binary(Operator::Equal, &less, &t));
    condition_is("¬t ∧ true", &and(&build::not(&t), &yes));
}

/// As CSL derives it: `||` from `!` and `&&`, `<=` from `<`, `=` and `||`, `!=` from `!` and `=`.
#[test]
fn sugar() {
    let (one, two) = (build::number(1), build::number(2));
    let or = |left: &[u8], right: &[u8]| build::not(&binary(Operator::And, &build::not(left), &build::not(right)));
    let less = |left: &[u8], right: &[u8]| binary(Operator::Less, left, right);
    let equal = |left: &[u8], right: &[u8]| binary(Operator::Equal, left, right);
    condition_is("t || true", &or(&build::value(0), &build::truth(1)));
    condition_is("t ∨ true", &or(&build::value(0), &build::truth(1)));
    condition_is("1 <= 2", &or(&less(&one, &two), &equal(&one, &two)));
    condition_is("1 > 2", &less(&two, &one));
    condition_is("1 >= 2", &or(&less(&two, &one), &equal(&two, &one)));
    condition_is("1 != 2", &build::not(&equal(&one, &two)));
    condition_is("1 ≤ 2", &or(&less(&one, &two), &equal(&one, &two)));
    condition_is("1 ≥ 2", &or(&less(&two, &one), &equal(&two, &one)));
    condition_is("1 ≠ 2", &build::not(&equal(&one, &two)));
    let (t, yes, no) = (build::value(0), build::truth(1), build::truth(0));
    condition_is("t || true && false", &or(&t, &binary(Operator::And, &yes, &no)));
}

#[test]
fn sums_end_before_and_or() {
    let sum = binary(Operator::Plus, &build::number(1), &build::number(2));
    let left = Wait { reading: 3, within: sum, ..simple(0) }.obligation(0);
    main_is("<A> E() due within 1 + 2 and <B> E() due within 2", &build::and(&left, &owed(1, 2)));
    let truth = Wait { within: binary(Operator::Less, &build::number(1), &build::number(2)), ..simple(0) };
    main_is("<A> N(_) due within (1 < 2)", &truth.obligation(0));
}

#[test]
fn starts() {
    let start = |text: &str| {
        let assembled = assemble(format!("parties A readings E() in fulfilment starting {text}").as_bytes());
        let assembled = assembled.unwrap_or_else(|fault| panic!("{fault}"));
        (assembled.agreement.start, assembled.dated)
    };
    assert_eq!(start("0"), (0, false));
    assert_eq!(start("4294967295"), (u32::MAX, false));
    assert_eq!(start("2D"), (2880, false));
    assert_eq!(start("1970-01-01"), (0, true));
    assert_eq!(start("2011-01-01"), (21_564_000, true));
    assert_eq!(start("2011-01-01T09:30"), (21_564_570, true));
}

#[test]
fn comments_blanks_and_letters() {
    let text = "-- a comment\r\n\tparties Käufer,_2 -- another\nreadings E() in fulfilment starting 0--end";
    assert_eq!(bytes(text), build::agreement(0, 2, &[build::reading_type(&[])], &[], &build::fulfilled()));
}

/// What is as large as may be is assembled.
#[test]
fn the_greatest() {
    let names = |prefix: &str, count: usize| (0..count).map(|n| format!("{prefix}{n}")).collect::<Vec<_>>();
    let parties = names("P", 16).join(", ");
    let readings = names("R", 16).join("(a: number, b: truth, c: party, d: number) ");
    let templates: String = names("t", 32)
        .iter()
        .map(|t| {
            let values = names("x", 8).join(": number, ");
            format!("{t}({values}: number)<{}> declares {parties} = fulfilment ", names("q", 4).join(", "))
        })
        .collect();
    let main = (0..21).fold("fulfilment".to_string(), |main, _| format!("if true then {main}"));
    let text = format!("parties {parties} readings {readings}() letrec {templates} in {main} starting 0");
    assert_eq!(reference::check(&bytes(&text)).number, 0);
}
