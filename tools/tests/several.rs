//! Several mistakes of grammar in one text: each is told, and none that is only the trace of another.

mod common;

use common::{examples, read, text};
use reference::generate::random::Random;
use tools::check::{check, Verdict};
use tools::parse::parse_all;
use tools::text::{tokens, Token};

/// The faults of a text, of which no record can be written.
fn faults(text: &str) -> Vec<String> {
    let Err(refused) = check(text.as_bytes()) else { panic!("accepted: {text}") };
    assert_eq!(refused.verdict, Verdict::NoRecord);
    refused.faults.iter().map(ToString::to_string).collect()
}

/// The agreements of the examples.
fn texts() -> Vec<String> {
    let mut files: Vec<String> = examples().into_iter().map(|(text, _)| text).collect();
    files.dedup();
    assert!(files.len() >= 8, "{files:?}");
    files.iter().map(|file| text(&read(file))).collect()
}

#[test]
fn one_in_each_section() {
    let text = "\
parties Keeper Buyer
readings
  Salinity(level number)
  Lifted(pond: nmber)
  Paid(coins: number)
letrec
  watch(limit: number)<who> =
    <who> Salinity(level) were level >= limit due within 60
  again() declares Keeper =
    if Lifted(p) due wthin 5 then again()
  last(n: number) = <Keeper> Paid(c) where c = n and c > 0 due within 5
in
  watch(250)<Keeper> and
starting 2011-1-1
";
    assert_eq!(
        faults(text),
        [
            "1:16: expected `readings`, found `Buyer`",
            "3:18: expected `:`, found `number`",
            "4:16: expected `number`, `truth` or `party`, found `nmber`; did you mean `number`?",
            "8:27: expected `due`, found `were`; did you mean `where`?",
            "10:22: expected `immediately`, `after` or `within`, found `wthin`; did you mean `within`?",
            "11:50: expected `due`, found `and`: `and` joins clauses, `&&` joins truths",
            "14:1: expected a clause, found `starting`",
            "14:14: expected the end of the text, found `-`: \
             a date has two digits for month and day, as in 2011-01-01",
        ]
    );
}

#[test]
fn several_in_one_clause() {
    let text = "\
parties Buyer, Seller
readings Delivered() Paid(coins: number)
in
  <Seller> Delivered() due wthin 7D
  then <Buyer> Paid(c) where c = 100
         and c < 200 due within 30D
       then <Seller> Delivered() due within 7D
  and (fulfilment
       or <Buyer> Paid(c) due 5)
starting 2026-03-01T09
";
    assert_eq!(
        faults(text),
        [
            "4:28: expected `immediately`, `after` or `within`, found `wthin`; did you mean `within`?",
            "6:10: expected `due`, found `and`: `and` joins clauses, `&&` joins truths",
            "9:31: expected `immediately`, `after` or `within`, found a number",
            "10:10: a time of day is two digits, `:` and two digits: write 2026-03-01T09:30",
        ]
    );
}

/// A template that is sized is one like any other: reading goes on there.
#[test]
fn one_in_each_template() {
    let text = "\
parties A
readings E()
letrec
  f() sized 1 = <A> E() deu within 1
  g()<p> sized 1 = <p> E() due withn 1
  h() declares A sized = fulfilment
  i() declares A sized 1 = fulfilment or
in f()
starting 0
";
    assert_eq!(
        faults(text),
        [
            "4:25: expected `due`, found `deu`; did you mean `due`?",
            "5:32: expected `immediately`, `after` or `within`, found `withn`; did you mean `within`?",
            "6:24: expected a number of units, found `=`",
            "8:1: expected a clause, found `in`",
        ]
    );
}

/// What a word is exchanged for.
const OTHERS: [&str; 14] = ["", "and", "in", "(", ")", "x", ";", "=", "then", "<", "5", "letrec", ",", "due"];

/// One word exchanged or left out, anywhere: one fault at the most.
#[test]
fn one_mistake_is_told_once() {
    let mut wrong = 0;
    for text in texts() {
        for token in tokens(&text).iter().filter(|token| token.token != Token::End) {
            for other in OTHERS {
                let damaged = format!("{}{other}{}", &text[..token.span.start], &text[token.span.end..]);
                let faults = parse_all(&damaged).err().unwrap_or_default();
                assert!(faults.len() <= 1, "{:?} for {:?}: {faults:?}", other, token);
                wrong += faults.len();
            }
        }
    }
    assert!(wrong > 20_000, "{wrong}");
}

/// The text with a few words, at these places among its tokens, exchanged for others or left out.
fn exchanged(random: &mut Random, text: &str, at: &[usize]) -> String {
    let tokens = tokens(text);
    let mut damaged = text.to_string();
    for at in at.iter().rev() {
        let span = tokens[*at].span;
        damaged.replace_range(span.start..span.end, random.pick(&OTHERS));
    }
    damaged
}

/// So many different places among the tokens of a text, in order.
fn places(random: &mut Random, text: &str, count: usize) -> Vec<usize> {
    let last = tokens(text).len() - 1;
    let mut at: Vec<usize> = (0..count).map(|_| random.below(last)).collect();
    at.sort_unstable();
    at.dedup();
    at
}

/// Several words exchanged or left out: no more faults than these, and most of them.
#[test]
fn no_more_faults_than_mistakes() {
    let mut random = Random::new(22);
    let texts = texts();
    let (mut there, mut told) = (0, 0);
    for _ in 0..4_000 {
        let text = &texts[random.below(texts.len())];
        let count = 2 + random.below(3);
        let at = places(&mut random, text, count);
        let damaged = exchanged(&mut random, text, &at);
        let faults = parse_all(&damaged).err().unwrap_or_default();
        assert!(faults.len() <= at.len(), "{faults:?}\n{damaged}");
        (there, told) = (there + at.len(), told + faults.len());
    }
    assert!(2 * told > there, "{told} of {there}");
}

/// A few signs that stand for nothing: what is told is told of them, the first always.
#[test]
fn no_trace_is_told_as_a_mistake() {
    let mut random = Random::new(21);
    let texts = texts();
    let (mut there, mut told) = (0, 0);
    for _ in 0..4_000 {
        let text = &texts[random.below(texts.len())];
        let starts: Vec<usize> = tokens(text).iter().map(|token| token.span.start).collect();
        let count = 2 + random.below(4);
        let at = places(&mut random, text, count);
        let mut damaged = text.to_string();
        at.iter().rev().for_each(|at| damaged.insert_str(starts[*at], "; "));
        let faults = parse_all(&damaged).expect_err("a fault");
        let first = tokens(&damaged).iter().find(|token| matches!(token.token, Token::Wrong(_))).map(|t| t.span.at);
        assert_eq!(Some(faults[0].at), first, "{damaged}");
        let nothing = |fault: &tools::fault::Fault| fault.what == "`;` stands for nothing here";
        assert!(faults.iter().all(nothing), "{faults:?}\n{damaged}");
        assert!(faults.is_sorted_by_key(|fault| fault.at) && faults.len() <= at.len(), "{faults:?}");
        (there, told) = (there + at.len(), told + faults.len());
    }
    assert!(2 * told > there, "{told} of {there}");
}

/// What is too long is told once, not of each part behind.
#[test]
fn too_long_is_told_once() {
    let templates = |n| format!("t{n}() = {}\n", vec!["fulfilment"; 1_000].join(" and "));
    let text: String = (0..8).map(templates).collect();
    assert_eq!(faults(&format!("parties A readings E()\nletrec\n{text}in fulfilment\nstarting 0")).len(), 1);
}
