//! What is wrong with a text, with its line and column.

use reference::generate::{agreements, random::Random};
use tools::{assemble, disassemble};

fn fault(text: &str) -> String {
    match assemble(text.as_bytes()) {
        Ok(_) => panic!("assembled: {text}"),
        Err(fault) => fault.to_string(),
    }
}

/// The fault of a main clause on line 4, which begins at column 1.
fn main_fault(main: &str) -> String {
    fault(&format!(
        "parties A, B\nreadings N(n: number) E()\nletrec f(x: number)<p> = fulfilment g() = fulfilment in\n{main}\nstarting 0"
    ))
}

/// The fault of a template on line 2.
fn template_fault(template: &str) -> String {
    fault(&format!("parties A, B readings N(n: number) letrec\n{template}\nin fulfilment starting 0"))
}

#[test]
fn names_that_nobody_has() {
    assert_eq!(main_fault("<C> N(n) due within 5"), "4:2: unknown party `C`");
    assert_eq!(main_fault("<A> M(n) due within 5"), "4:5: unknown reading `M`");
    assert_eq!(main_fault("if M(n) due within 5"), "4:4: unknown reading `M`");
    assert_eq!(main_fault("h()"), "4:1: unknown template `h`");
    assert_eq!(main_fault("<A> N(n) where m < 1 due within 5"), "4:16: unknown value `m`");
    let seen = "is not in sight here: `where` and `then` see the values of a reading, and `then` the remaining time";
    assert_eq!(main_fault("<A> N(n) due within n"), format!("4:21: `n` {seen}"));
    assert_eq!(main_fault("<A> N(n) due within 1 after n"), format!("4:29: `n` {seen}"));
    assert_eq!(main_fault("<A> N(n) where z = 1 due within 5 remaining z"), format!("4:16: `z` {seen}"));
    assert_eq!(main_fault("if N(n) due within 5 else if n < 1 then fulfilment"), format!("4:30: `n` {seen}"));
    assert_eq!(main_fault("<A> N(n) due within 5 and <A> N(_) where n = 1 due within 5"), "4:42: unknown value `n`");
    assert_eq!(main_fault("<A> N(_) where _ = 1 due within 5"), "4:16: unknown value `_`");
    assert_eq!(main_fault("f(1)<C>"), "4:6: unknown party `C`");
    assert_eq!(template_fault("f() declares A, C = fulfilment"), "2:17: unknown party `C`");
}

#[test]
fn names_of_another_sort() {
    let what = "is a party parameter; those are no values, so no expression has them";
    assert_eq!(template_fault("f()<p> = <p> N(n) where n = p due within 1"), format!("2:29: `p` {what}"));
    let what = "is a value here; to blame is a party or a party parameter";
    assert_eq!(template_fault("f(p: party) = <p> N(n) due within 1"), format!("2:16: `p` {what}"));
    assert_eq!(main_fault("<A> N(B) due within 1 then <B> E() due within 1"), format!("4:29: `B` {what}"));
}

#[test]
fn names_twice() {
    let rest = "in fulfilment starting 0";
    assert_eq!(fault(&format!("parties A, A readings E() {rest}")), "1:12: the party `A` is named twice");
    assert_eq!(fault(&format!("parties A readings E() E() {rest}")), "1:24: the reading `E` is named twice");
    assert_eq!(template_fault("f() = fulfilment f() = fulfilment"), "2:18: the template `f` is named twice");
    assert_eq!(template_fault("f(x: number, x: truth) = fulfilment"), "2:14: the value `x` is named twice");
    assert_eq!(template_fault("f(x: number)<x> = fulfilment"), "2:14: the value `x` is named twice");
    assert_eq!(template_fault("f() declares A, A = fulfilment"), "2:17: the party `A` is named twice");
    assert_eq!(main_fault("<A> N(n) due within 5 remaining n"), "4:33: the value `n` is named twice");
    assert_eq!(fault(&format!("parties _ readings E() {rest}")), "1:9: `_` names no party");
    assert_eq!(
        fault(&format!("parties A readings mark() {rest}")),
        "1:20: `mark` is the name of the time mark, type 0"
    );
}

#[test]
fn wrong_counts() {
    assert_eq!(main_fault("<A> N() due within 5"), "4:5: `N` has 1 value, 0 named here");
    assert_eq!(main_fault("<A> E(x, y) due within 5"), "4:5: `E` has 0 values, 2 named here");
    assert_eq!(main_fault("f()<A>"), "4:1: `f` has 1 value, 0 given here");
    assert_eq!(main_fault("g(1, 2)"), "4:1: `g` has 0 values, 2 given here");
    assert_eq!(main_fault("f(1)"), "4:1: `f` has 1 party parameter, 0 given here");
    assert_eq!(main_fault("g()<A, B>"), "4:1: `g` has 0 party parameters, 2 given here");
    assert_eq!(
        fault("parties A readings\nin fulfilment starting 0"),
        "2:4: no reading is declared: at least 1 is needed"
    );
}

fn many(count: usize, item: impl Fn(usize) -> String, between: &str) -> String {
    (0..count).map(item).collect::<Vec<_>>().join(between)
}

#[test]
fn too_many() {
    let parties = many(17, |n| format!("P{n}"), ",\n");
    assert_eq!(
        fault(&format!("parties {parties} readings E() in fulfilment starting 0")),
        "17:1: too many parties: 17, at most 16"
    );
    let readings = many(17, |n| format!("R{n}()"), "\n");
    assert_eq!(
        fault(&format!("parties A readings {readings} in fulfilment starting 0")),
        "17:1: too many readings: 17, at most 16"
    );
    let values = |count| many(count, |n| format!("x{n}: number"), ",\n");
    assert_eq!(
        fault(&format!("parties A readings R({}) in fulfilment starting 0", values(5))),
        "5:1: too many values of a reading: 5, at most 4"
    );
    let templates = many(33, |n| format!("t{n}() = fulfilment"), "\n");
    assert_eq!(template_fault(&templates), "34:1: too many templates: 33, at most 32");
    assert_eq!(
        template_fault(&format!("t({}) = fulfilment", values(9))),
        "10:1: too many values of a template: 9, at most 8"
    );
    assert_eq!(
        template_fault(&format!("t()<{}> = fulfilment", many(5, |n| format!("q{n}"), ",\n"))),
        "6:1: too many party parameters: 5, at most 4"
    );
}

/// Units are a number from 0 to 128, behind the declared parties, of all templates or of none.
#[test]
fn units() {
    assert_eq!(template_fault("f() sized = fulfilment"), "2:11: expected a number of units, found `=`");
    assert_eq!(template_fault("f() sized ? = fulfilment"), "2:11: `?` stands for nothing here");
    assert_eq!(template_fault("f() sized -1 = fulfilment"), "2:11: expected a number of units, found `-`");
    assert_eq!(template_fault("f() sized n = fulfilment"), "2:11: expected a number of units, found `n`");
    assert_eq!(template_fault("f() sized 3 declares A = fulfilment"), "2:13: expected `=`, found `declares`");
    assert_eq!(template_fault("f() declares A 3 = fulfilment"), "2:16: expected `=`, found a number");
    assert_eq!(template_fault("f() sizd 3 = fulfilment"), "2:5: expected `=`, found `sizd`; did you mean `sized`?");
    assert_eq!(template_fault("sized() = fulfilment"), "2:1: expected `in`, found `sized`");
    assert_eq!(template_fault("f() sized 129 = fulfilment"), "2:11: too many units: 129, at most 128");
    assert_eq!(template_fault("f() sized 1000000001 = fulfilment"), "2:11: too many units: 1000000001, at most 128");
    let mixed = "`g` declares no units, and `f` does: all templates are sized or none is";
    assert_eq!(template_fault("f() sized 0 = fulfilment\ng() = fulfilment"), format!("3:1: {mixed}"));
    assert_eq!(template_fault("g() = fulfilment\nf() sized 0 = fulfilment"), format!("2:1: {mixed}"));
}

#[test]
fn too_much_in_sight() {
    // 8 of the template, and 2 with each reading: the fifth would make it 18.
    let values = many(8, |n| format!("x{n}: number"), ", ");
    let chain = |count| many(count, |_| "<A> N(_) due within 1".to_string(), " then\n");
    let text = |count| {
        format!(
            "parties A readings N(n: number) letrec t({values}) declares A =\n{}\nin fulfilment starting 0",
            chain(count)
        )
    };
    assert!(assemble(text(4).as_bytes()).is_ok());
    assert_eq!(
        fault(&text(5)),
        "6:5: 18 values would be in sight in the `then` of this `N`, 2 over the 16 there may be: \
         16 from outside, 1 of the reading and the remaining time"
    );
}

#[test]
fn too_deep() {
    let nested = |count| (0..count).fold("fulfilment".to_string(), |clause, _| format!("if true then\n{clause}"));
    let text = |count| format!("parties A readings E() in\n{}\nstarting 0", nested(count));
    assert!(assemble(text(22).as_bytes()).is_ok());
    assert_eq!(fault(&text(23)), "24:4: records nested deeper than 24");
    let sum = |count| many(count, |_| "1".to_string(), "\n+ ");
    let text = |count| format!("parties A readings E() in <A> E() due within {} starting 0", sum(count));
    assert!(assemble(text(22).as_bytes()).is_ok());
    assert_eq!(fault(&text(23)), "1:46: records nested deeper than 24");
    let parentheses = |count| format!("{}fulfilment{}", "(".repeat(count), ")".repeat(count));
    assert!(assemble(format!("parties A readings E() in {} starting 0", parentheses(150)).as_bytes()).is_ok());
    assert_eq!(main_fault(&parentheses(1_000_000)), "4:201: over 200 clauses and parentheses inside each other");
    assert!(main_fault(&format!("if {}true then fulfilment", "!".repeat(1_000_000))).contains("over 200"));
}

#[test]
fn too_long() {
    // 64 obligations of 93 bytes and a bit over 16,384 bytes with all of them in each of 3 templates.
    let owed = "<A> E() where 1 + 2 + 3 < 4 due within 5 + 6 + 7";
    let balanced = |leaves: usize| {
        let mut row = vec![owed.to_string(); leaves];
        while row.len() > 1 {
            row = row.chunks(2).map(|pair| format!("({})", pair.join("\nand "))).collect();
        }
        row.concat()
    };
    let text = |count| {
        let templates = many(count, |n| format!("t{n}() declares A = {}", balanced(64)), "\n");
        format!("parties A readings E() letrec {templates} in fulfilment starting 0")
    };
    let one = assemble(text(1).as_bytes()).expect("a right text").bytes.len();
    let most = 16_384 / one;
    assert!(assemble(text(most).as_bytes()).is_ok());
    assert!(fault(&text(most + 1)).ends_with(": the record would be over 16,384 bytes"));
    assert!(
        main_fault(&format!("if 1 {} < 1 then fulfilment", "+ 1 ".repeat(1_000_000))).ends_with("over 16,384 bytes")
    );
    assert!(main_fault(&format!("g() {}", "and g() ".repeat(1_000_000))).ends_with("over 16,384 bytes"));
}

/// 2,045 `fulfilment` and the `and`s between them fill a record to the last byte; its units are one byte too many.
#[test]
fn too_long_by_its_units() {
    fn joined(count: usize) -> String {
        match count {
            1 => "fulfilment".to_string(),
            _ => format!("({} and {})", joined(count / 2), joined(count - count / 2)),
        }
    }
    let text =
        |sized: &str| format!("parties A readings E() letrec f(){sized} = {} in fulfilment starting 0", joined(2_045));
    assert_eq!(assemble(text("").as_bytes()).map(|assembled| assembled.bytes.len()).ok(), Some(16_384));
    assert!(fault(&text(" sized 128")).ends_with(": the record would be over 16,384 bytes"));
}

#[test]
fn numbers_and_times() {
    let beyond = "a number beyond plus or minus 1,000,000,000";
    assert_eq!(main_fault("if 1000000001 < 1 then fulfilment"), format!("4:4: {beyond}"));
    assert_eq!(main_fault("if -1000000001 < 1 then fulfilment"), format!("4:4: {beyond}"));
    assert_eq!(main_fault("if 99999999999999999999999 < 1 then fulfilment"), format!("4:4: {beyond}"));
    assert_eq!(main_fault("if 1 < 2000Y then fulfilment"), format!("4:8: {beyond}"));
    assert_eq!(main_fault("if 1 < 5d then fulfilment"), "4:8: `d` is no unit of time: m, h, D, W, M and Y are");
    let starting = |time: &str| fault(&format!("parties A readings E() in fulfilment\nstarting {time}"));
    assert_eq!(starting("4294967296"), "2:10: a start beyond 4,294,967,295 minutes");
    assert_eq!(starting("-5"), "2:10: expected a time in minutes or a date, found `-`");
    assert_eq!(starting("2011-02-29"), "2:10: `2011-02-29` is no date from 1970-01-01 on");
    assert_eq!(starting("1969-12-31"), "2:10: `1969-12-31` is no date from 1970-01-01 on");
    assert_eq!(starting("2011-01-01T25:00"), "2:10: `2011-01-01T25:00` is no date from 1970-01-01 on");
    assert_eq!(
        main_fault("if 1 < 2011-01-01 then fulfilment"),
        "4:8: a date stands only after `starting`; a difference needs blanks around `-`"
    );
}

#[test]
fn grammar() {
    assert_eq!(fault(""), "1:1: expected `parties`, found the end of the text");
    assert_eq!(fault("parties\n"), "2:1: expected a party's name, found the end of the text");
    assert_eq!(fault("parties in"), "1:9: expected a party's name, found `in`");
    assert_eq!(fault("parties A readings E in"), "1:22: expected `(`, found `in`");
    assert_eq!(fault("parties A readings E(x: day)"), "1:25: expected `number`, `truth` or `party`, found `day`");
    assert_eq!(main_fault("due"), "4:1: expected a clause, found `due`");
    assert_eq!(main_fault("<A> N(n)"), "5:1: expected `due`, found `starting`");
    assert_eq!(main_fault("<A> N(n) due 5"), "4:14: expected `immediately`, `after` or `within`, found a number");
    assert_eq!(main_fault("<A> N(n) due after 5"), "5:1: expected `within`, found `starting`");
    assert_eq!(main_fault("<A> N(n) due immediately within 5"), "4:26: expected `starting`, found `within`");
    assert_eq!(main_fault("<A N(n) due within 5"), "4:4: expected `>`, found `N`");
    assert_eq!(main_fault("(g()"), "5:1: expected `)`, found `starting`");
    assert_eq!(main_fault("if 1 < 2 < 3 then g()"), "4:10: a second comparison: one of the two needs parentheses");
    assert_eq!(main_fault("if then g()"), "4:4: expected an expression, found `then`");
    assert_eq!(
        main_fault("if -n < 1 then g()"),
        "4:4: expected an expression, found `-`: \
         a minus sign may stand before a number only; `0 - n` is the negative of `n`"
    );
    assert_eq!(
        main_fault("g() else g()"),
        "4:5: expected `starting`, found `else`: \
         only an `if` has an `else`; an obligation that is not met in time is its party's breach"
    );
    assert_eq!(main_fault("g() ; g()"), "4:5: `;` stands for nothing here");
    assert_eq!(main_fault("g()\nstarting 5 g()"), "5:12: expected the end of the text, found `g`");
    assert_eq!(
        assemble(b"parties\n\xc3\xa4\xff").err().map(|fault| fault.to_string()).as_deref(),
        Some("2:2: bytes that are no UTF-8 text")
    );
}

/// What was perhaps meant.
#[test]
fn hints() {
    let found = |main: &str| main_fault(main);
    assert_eq!(found("<A> N(n) were n = 1 due within 5"), "4:10: expected `due`, found `were`; did you mean `where`?");
    assert_eq!(
        found("<A> N(n) where n = 1 and n = 2 due within 5"),
        "4:22: expected `due`, found `and`: `and` joins clauses, `&&` joins truths"
    );
    assert_eq!(
        found("if 1 = 1 or 1 = 2 then g()"),
        "4:10: expected `then`, found `or`: `or` joins clauses, `||` joins truths"
    );
    assert_eq!(
        found("if (1 = 1 and 1 = 2) then g()"),
        "4:11: expected `)`, found `and`: `and` joins clauses, `&&` joins truths"
    );
    assert_eq!(found("g() && g()"), "4:5: expected `starting`, found `&&`: `&&` joins truths, `and` joins clauses");
    assert_eq!(
        found("<A> N(n) due within 5 else g()"),
        "4:23: expected `starting`, found `else`: only an `if` has an `else`; \
         an obligation that is not met in time is its party's breach"
    );
    assert_eq!(found("if 1 == 1 then g()"), "4:7: expected an expression, found `=`: one `=` compares");
    assert_eq!(found("fulfillment"), "4:1: `fulfillment` begins no clause; did you mean `fulfilment`?");
    assert_eq!(found("g() adn g()"), "4:5: expected `starting`, found `adn`; did you mean `and`?");
    assert_eq!(found("g() and"), "5:1: expected a clause, found `starting`");
    assert_eq!(fault("partys A"), "1:1: expected `parties`, found `partys`; did you mean `parties`?");
    assert_eq!(
        fault("parties A readings E(x: bool)"),
        "1:25: expected `number`, `truth` or `party`, found `bool`; did you mean `truth`?"
    );
}

/// A name with a slip of the hand.
#[test]
fn nearest_names() {
    let text = |main: &str| {
        format!(
            "parties Buyer, Seller readings Payment(amount: number) letrec\n\
             deliver(price: number)<who> declares Seller, Bayer = <woh> Payment(a) where a >= prize due within 5\n\
             in {main} starting 0"
        )
    };
    let Err(refused) = tools::check::check(text("delivr(5)<Seler> and <Byuer> Paymet(amont) due within 1").as_bytes())
    else {
        panic!("accepted")
    };
    let told: Vec<String> = refused.faults.iter().map(ToString::to_string).collect();
    assert_eq!(
        told,
        [
            "2:46: unknown party `Bayer`; did you mean `Buyer`?",
            "2:55: unknown party `woh`; did you mean `who`?",
            "2:82: unknown value `prize`; did you mean `price`?",
            "3:4: unknown template `delivr`; did you mean `deliver`?",
            "3:14: unknown party `Seler`; did you mean `Seller`?",
            "3:26: unknown party `Byuer`; did you mean `Buyer`?",
            "3:33: unknown reading `Paymet`; did you mean `Payment`?",
        ]
    );
}

#[test]
fn times_of_other_programs() {
    let starting = |time: &str| fault(&format!("parties A readings E() in fulfilment\nstarting {time}"));
    assert_eq!(starting("2011-01-01 09:30"), "2:10: a `T` stands between date and time of day: write 2011-01-01T09:30");
    assert_eq!(starting("2011-01-01T09:30:15"), "2:10: times are in minutes, without seconds: write 2011-01-01T09:30");
    let zone = "2:10: times have no zone: write 2011-01-01T09:30, with all times of an agreement on one clock";
    assert_eq!(starting("2011-01-01T09:30Z"), zone);
    assert_eq!(starting("2011-01-01T09:30+02:00"), zone);
    assert_eq!(
        starting("2011-1-1"),
        "2:14: expected the end of the text, found `-`: a date has two digits for month and day, as in 2011-01-01"
    );
}

/// Texts with pieces left out, doubled or exchanged end in a fault or a record, never in a panic.
#[test]
fn damaged_texts() {
    let mut random = Random::new(4);
    let (mut right, mut wrong) = (0, 0);
    for _ in 0..1_500 {
        let text = disassemble(&agreements::agreement(&mut random)).expect("an accepted agreement");
        let mut pieces: Vec<&str> = text.split_inclusive(|c: char| " (),<>:".contains(c)).collect();
        for _ in 0..1 + random.below(3) {
            let (at, other) = (random.below(pieces.len()), random.below(pieces.len()));
            match random.below(3) {
                0 => pieces[at] = "",
                1 => pieces.insert(at, pieces[other]),
                _ => pieces.swap(at, other),
            }
        }
        match assemble(pieces.concat().as_bytes()) {
            Ok(_) => right += 1,
            Err(_) => wrong += 1,
        }
    }
    assert!(right > 100 && wrong > 500, "{right} right, {wrong} wrong");
}
