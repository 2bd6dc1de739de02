//! What `check` explains is what the proved check decides, on generated agreements, valid and with slips.
//!
//! `AGREEMENTS=100000 cargo test --release --test judged` takes that many instead of the few of every day.

#[path = "common/sized.rs"]
mod sized;

use reference::generate::{agreements, damage, random::Random};
use sized::declaring;
use tools::check::{check, Verdict};
use tools::disassemble;
use tools::sizes::Sizes;

/// How many agreements are tried where nothing else is said.
const FEW: usize = 12_000;

fn count() -> usize {
    std::env::var("AGREEMENTS").ok().and_then(|count| count.parse().ok()).unwrap_or(FEW)
}

/// The number that a text is refused with, 0 if it is accepted; none if it stands for no record. The explanation must
/// not differ from the library.
fn number(text: &str) -> Option<u32> {
    match check(text.as_bytes()) {
        Ok(accepted) => {
            let bits = givuntha::check(&accepted.assembled.bytes).map(givuntha::Parties::bits);
            assert_eq!(bits, Ok(accepted.parties.bits()));
            Some(0)
        }
        Err(refused) => {
            assert!(!refused.faults.is_empty(), "{text}");
            assert!(refused.faults.is_sorted_by_key(|fault| fault.at), "{text}");
            match refused.verdict {
                Verdict::Refused(refusal) => Some(refusal.number()),
                Verdict::NoRecord => None,
                Verdict::Disagreement(_) => panic!("{}", refused.told("text", text.as_bytes()) + "\n" + text),
            }
        }
    }
}

fn library(bytes: &[u8]) -> u32 {
    givuntha::check(bytes).map_or_else(givuntha::Refusal::number, |_| 0)
}

/// The answers that a text can have; the last is no record.
const ANSWERS: [Option<u32>; 8] = [Some(0), Some(1), Some(2), Some(3), Some(4), Some(5), Some(15), None];

/// How often each was met.
#[derive(Debug, Default)]
struct Met([usize; 8]);

impl Met {
    /// How many were judged by the library.
    fn all(&self) -> usize {
        self.0[..7].iter().sum()
    }

    fn add(&mut self, number: Option<u32>) {
        self.0[ANSWERS.iter().position(|answer| *answer == number).expect("an answer of check")] += 1;
    }
}

/// Records with and without damages, printed as text: the number is the library's for the record itself.
#[test]
fn records_as_text() {
    let mut random = Random::new(11);
    let mut met = Met::default();
    while met.all() < count() / 2 {
        let mut bytes = agreements::agreement(&mut random);
        if random.chance(80) {
            let damage = random.pick(&damage::Damage::ALL[14..]);
            bytes = damage.of(&mut random, &bytes).unwrap_or(bytes);
        }
        // A record that names what is not there has no text.
        let Ok(text) = disassemble(&bytes) else { continue };
        let number = number(&text);
        assert_eq!(number, Some(library(&bytes)), "{text}");
        met.add(number);
    }
    println!("records as text: {met:?}");
    let [accepted, _, _, typing, guards, widths, ..] = met.0;
    assert!(accepted.min(typing) > count() / 20 && guards.min(widths) > count() / 50, "{met:?}");
}

/// Texts with a few words exchanged for others of their sort; those that stand for no record are not counted.
#[test]
fn texts_with_slips() {
    let mut random = Random::new(12);
    let mut met = Met::default();
    while met.all() < count() / 2 {
        let Ok(text) = disassemble(&agreements::agreement(&mut random)) else { panic!("an accepted agreement") };
        met.add(number(&slipped(&mut random, &text)));
    }
    println!("texts with slips: {met:?}");
    let [accepted, _, form, typing, guards, ..] = met.0;
    assert!(accepted.min(typing) > count() / 20, "{met:?}");
    assert!(form.min(guards) > count() / 200, "{met:?}");
}

/// Texts whose templates declare units: the least that do or some more, one less, any, too many, or some none.
#[test]
fn texts_with_units() {
    let mut random = Random::new(13);
    let mut met = Met::default();
    while met.all() < count() / 2 {
        let Ok(text) = disassemble(&agreements::agreement(&mut random)) else { panic!("an accepted agreement") };
        let mut least = Sizes::of("text", text.as_bytes()).templates.into_iter().map(|least| least.units);
        let slips = random.chance(50);
        let units = declaring(&text, || {
            let least = least.next().unwrap_or_else(|| random.below(129));
            match random.below(if slips { 40 } else { 4 }) {
                0..4 => Some(least + random.below(3)),
                4 => Some(least.saturating_sub(1)),
                5 => Some(random.below(129)),
                6 if random.chance(20) => Some(129 + random.below(200)),
                7 if random.chance(20) => None,
                _ => Some(least),
            }
        });
        let text = if random.chance(10) { slipped(&mut random, &units) } else { units };
        met.add(number(&text));
    }
    println!("texts with units: {met:?}");
    let [accepted, _, form, typing, _, _, size, _] = met.0;
    assert!(accepted.min(size) > count() / 20 && form.min(typing) > count() / 500, "{met:?}");
}

/// The same text with two templates exchanged, or with one to three words exchanged.
fn slipped(random: &mut Random, text: &str) -> String {
    if random.chance(30) {
        return reordered(random, text);
    }
    let mut words = words(text);
    let open = open(&words);
    for _ in 0..1 + random.below(3) {
        let Some(at) = random.any(&open) else { break };
        words[at] = exchanged(random, words[at], &words);
    }
    words.concat()
}

/// The words that can be exchanged: not those that are declared or bound where they stand.
fn open(words: &[&str]) -> Vec<usize> {
    let mut binds = false;
    let mut open = Vec::new();
    for (n, word) in words.iter().enumerate() {
        match *word {
            "(" => binds = n > 0 && words[n - 1].starts_with('R'),
            ")" => binds = false,
            _ if binds || words.get(n + 1) == Some(&":") || sort(word).is_none() => {}
            _ => open.push(n),
        }
    }
    open
}

/// The lines of a template are those from its head to the next head.
fn reordered(random: &mut Random, text: &str) -> String {
    let Some((before, rest)) = text.split_once("\nletrec\n") else { return text.to_string() };
    let Some((templates, after)) = rest.split_once("\nin\n") else { return text.to_string() };
    let mut blocks: Vec<String> = Vec::new();
    for line in templates.lines() {
        match blocks.last_mut().filter(|_| !line.starts_with("  T")) {
            Some(block) => block.push_str(line),
            None => blocks.push(line.to_string()),
        }
    }
    let (one, other) = (random.below(blocks.len()), random.below(blocks.len()));
    blocks.swap(one, other);
    format!("{before}\nletrec\n{}\nin\n{after}", blocks.join("\n"))
}

const OPERATORS: [&str; 12] = ["+", "-", "*", "/", "&&", "||", "<", "=", "<=", ">", ">=", "!="];
const JOINS: [&str; 2] = ["and", "or"];
const LITERALS: [&str; 6] = ["true", "false", "0", "P0", "!1", "1000000001"];

/// What a word can be exchanged for.
#[derive(Clone, Copy, PartialEq, Eq)]
enum Sort {
    Operator,
    Join,
    Number,
    /// Parties, templates, values and party parameters have invented names: a letter and a number.
    Name(char),
}

fn sort(word: &str) -> Option<Sort> {
    let first = word.chars().next()?;
    let numbered = word.len() > 1 && word[1..].chars().all(|c| c.is_ascii_digit());
    match first {
        _ if OPERATORS.contains(&word) => Some(Sort::Operator),
        _ if JOINS.contains(&word) => Some(Sort::Join),
        '0'..='9' => Some(Sort::Number),
        'P' | 'T' | 'v' | 'p' if numbered => Some(Sort::Name(first)),
        _ => None,
    }
}

/// Another word of the same sort, or now and then a literal.
fn exchanged<'w>(random: &mut Random, word: &'w str, words: &[&'w str]) -> &'w str {
    match sort(word) {
        Some(Sort::Operator) => random.pick(&OPERATORS),
        Some(Sort::Join) => random.pick(&JOINS),
        Some(Sort::Number | Sort::Name('v')) if random.chance(80) => random.pick(&LITERALS),
        wanted => {
            let alike: Vec<&str> = words.iter().copied().filter(|word| sort(word) == wanted).collect();
            random.any(&alike).unwrap_or(word)
        }
    }
}

/// Names, numbers, signs and what is between them.
fn words(text: &str) -> Vec<&str> {
    let sort = |c: char| match c {
        _ if c.is_alphanumeric() => 0,
        _ if c.is_whitespace() => 1,
        '(' | ')' | ',' | '!' | ':' => 2,
        _ => 3,
    };
    let mut words = Vec::new();
    let mut rest = text;
    while let Some(first) = rest.chars().next() {
        let same = |c: char| sort(c) == sort(first) && sort(c) != 2;
        let end = rest[1..].find(|c| !same(c)).map_or(rest.len(), |end| end + 1);
        let (word, after) = rest.split_at(end);
        words.push(word);
        rest = after;
    }
    words
}

/// Limits of the record that a text can pass: each is refused with the number of its explanation.
#[test]
fn limits() {
    let nested = |count| (0..count).fold("fulfilment".to_string(), |clause, _| format!("if true then {clause}"));
    let wide = |count| vec!["fulfilment"; count].join(" and ");
    let many = |count, item: &str| (0..count).map(|n| format!("{item}{n}")).collect::<Vec<_>>().join(", ");
    let text = |parties: usize, main: &str| {
        format!(
            "parties {} readings N(n: number) letrec f(x: number)<p> = fulfilment in {main} starting 0",
            many(parties, "P")
        )
    };
    let values = (0..9).fold(String::new(), |then, _| format!("<P0> N(_) due within 1 then {then}")) + "fulfilment";
    for (parties, main, expected) in [
        (16, nested(22), Some(0)),
        (16, nested(23), Some(2)),
        (17, "fulfilment".to_string(), Some(2)),
        (300, "<P299> N(n) due within 1".to_string(), Some(2)),
        (1, "f()<P0>".to_string(), Some(2)),
        (1, "f(1)<P0, P0>".to_string(), Some(2)),
        (1, "f(true, 1)".to_string(), Some(2)),
        (1, values, Some(3)),
        (1, "f(1000000001)<P0>".to_string(), Some(3)),
        (1, "f(-99999999999999999999)<P0>".to_string(), Some(3)),
        (1, wide(20), Some(0)),
        (1, format!("f({})<P0>", vec!["1"; 23].join(" + ")), Some(2)),
        (1, format!("f({})<P0>", vec!["(1 + 1)"; 900].join(" + ")), Some(2)),
        (1, "g()".to_string(), None),
    ] {
        assert_eq!(number(&text(parties, &main)), expected, "{main}");
    }
}

/// Counts that are passed: refusal 2.
#[test]
fn counts() {
    let many = |count: usize, item: &str| (0..count).map(|n| item.replace('#', &n.to_string())).collect::<Vec<_>>();
    let text = |readings: &str, templates: &str| {
        format!("parties A, B readings {readings} letrec {templates} in fulfilment starting 0")
    };
    let template = "t() = fulfilment";
    for (count, over) in [(16, Some(0)), (17, Some(2)), (300, Some(2))] {
        assert_eq!(number(&text(&many(count, "R#()").join(" "), template)), over);
    }
    for (count, over) in [(4, Some(0)), (5, Some(2)), (300, Some(2))] {
        assert_eq!(number(&text(&format!("R({})", many(count, "x#: truth").join(", ")), template)), over);
        assert_eq!(number(&text("R()", &format!("t()<{}> = fulfilment", many(count, "p#").join(", ")))), over);
    }
    for (count, over) in [(8, Some(0)), (9, Some(2))] {
        assert_eq!(number(&text("R()", &format!("t({}) = fulfilment", many(count, "x#: party").join(", ")))), over);
    }
    for (count, over) in [(32, Some(0)), (33, Some(2)), (300, Some(2))] {
        assert_eq!(number(&text("R()", &many(count, "t#() = fulfilment").join(" "))), over);
    }
    assert_eq!(number(&text("", template)), Some(2));
}
