//! Agreements of known size (paper 02, No. 7): what clauses need, the least units of a text, and what is said where
//! none do, in words and in JSON. That the least do, and no less, is the proved check's answer.

mod common;

#[path = "common/json.rs"]
mod parser;
#[path = "common/sized.rs"]
mod sized;

use common::{agreement, complaint, examples, read, text, written};
use parser::{parse, Value};
use reference::generate::{agreements, random::Random};
use sized::declaring;
use tools::check::{check, Verdict};
use tools::disassemble;
use tools::sizes::Sizes;

const CONTRACTOR: &str = "examples/contractor/agreement.csl";

/// A text with these templates on line 2 and this main clause on line 4.
fn with(templates: &str, main: &str) -> String {
    format!("parties A, B readings N(n: number) E() letrec\n{templates}\nin\n{main}\nstarting 0")
}

/// The number that a text is refused with, 0 if it is accepted. The explanation must not differ from the library.
fn number(text: &str) -> u32 {
    match check(text.as_bytes()) {
        Ok(_) => 0,
        Err(refused) => match refused.verdict {
            Verdict::Refused(refusal) => refusal.number(),
            _ => panic!("{}", refused.told("text", text.as_bytes())),
        },
    }
}

/// The least units of the templates, and what the main clause then needs.
fn least(text: &str) -> (Vec<usize>, usize) {
    let found = Sizes::of("text", text.as_bytes());
    assert_eq!(found.because, None, "{text}");
    (found.templates.iter().map(|least| least.units).collect(), found.main.expect("a need"))
}

/// Why a text has no sizes, without the line that is shown of it.
fn because(text: &str) -> Vec<String> {
    let found = Sizes::of("text", text.as_bytes());
    let lines = found.because.unwrap_or_else(|| panic!("it has: {text}"));
    lines.lines().filter(|line| !line.starts_with("  ")).map(str::to_string).collect()
}

/// So many times a clause, joined in balance.
fn joined(count: usize, word: &str, clause: &str) -> String {
    match count {
        1 => clause.to_string(),
        _ => format!("({} {word} {})", joined(count / 2, word, clause), joined(count - count / 2, word, clause)),
    }
}

fn owed(count: usize) -> String {
    joined(count, "and", "<A> E() due within 1")
}

#[test]
fn what_each_clause_needs() {
    let (three, five) = (owed(2), owed(3));
    let bodies = [
        ("fulfilment".to_string(), 0),
        ("<A> E() due within 1".to_string(), 1),
        (format!("<A> E() due within 1 then {three}"), 3),
        ("if E() due within 1".to_string(), 1),
        (format!("if E() due within 1 then {three}"), 3),
        (format!("if E() due within 1 else {three}"), 3),
        (format!("if E() due within 1 then {five} else {three}"), 5),
        (format!("if E() due within 1 then {three} else {five}"), 5),
        ("if true then fulfilment".to_string(), 0),
        (format!("if true then {three}"), 3),
        (format!("if true then fulfilment else {three}"), 3),
        (format!("if false then {five} else {three}"), 5),
        ("fulfilment and fulfilment".to_string(), 1),
        ("fulfilment or fulfilment".to_string(), 1),
        (format!("{three} and {five}"), 9),
        (joined(4, "or", "<A> E() due within 1"), 7),
    ];
    for (body, need) in bodies {
        let template = |sized: &str| with(&format!("f() declares A{sized} = {body}"), "f()");
        assert_eq!(least(&template("")), (vec![need], need), "{body}");
        assert_eq!(number(&template(&format!(" sized {need}"))), 0, "{body}");
        if let Some(less) = need.checked_sub(1) {
            assert_eq!(number(&template(&format!(" sized {less}"))), 15, "{body}");
        }
    }
}

/// "An instance needs its template's units": of those that are declared, also where its body needs less.
#[test]
fn what_an_instance_needs() {
    let text = |f: &str, g: &str| {
        with(&format!("f() declares A{f} = {}\ng() declares A{g} = f() and f()", owed(2)), "g() and f()")
    };
    assert_eq!(least(&text("", "")), (vec![3, 7], 11));
    assert_eq!(number(&text(" sized 3", " sized 7")), 0);
    assert_eq!(number(&text(" sized 4", " sized 7")), 15);
    assert_eq!(number(&text(" sized 4", " sized 9")), 0);
    // What is declared now does not matter to what is least.
    assert_eq!(least(&text(" sized 4", " sized 9")), (vec![3, 7], 11));
    assert_eq!(least(&text(" sized 100", "")), (vec![3, 7], 11));
    assert_eq!(least(&text(" sized 1", " sized 4000")), (vec![3, 7], 11));
}

/// Templates that name themselves and each other need what the largest of them needs.
#[test]
fn templates_that_name_one_another() {
    let owes = |then: &str| format!("<A> E() due within 1 then {then}");
    let itself = with(&format!("f() declares A = {}", owes("f()")), "f() and f()");
    assert_eq!(least(&itself), (vec![1], 3));
    let ring = format!(
        "f() declares A = {}\ng() declares A = {}\nh() declares A = if E() due within 1 then f() else {}\n\
         i() declares A = {}",
        owes("g()"),
        owes("h()"),
        owed(4),
        owes("(f() and h())")
    );
    assert_eq!(least(&with(&ring, "i() or f()")), (vec![7, 7, 7, 15], 23));
    // The last is named by the first: what it needs comes round only in a further turn.
    let chain: String = (0..31).map(|n| format!("t{n}() declares A = {}\n", owes(&format!("t{}()", n + 1)))).collect();
    let last = format!("t31() declares A = {}", owed(5));
    assert_eq!(least(&with(&format!("{chain}{last}"), "t0()")), (vec![9; 32], 9));
}

/// An `and` or `or` around an instance that comes to the same template again: no units do.
#[test]
fn no_units_do() {
    let rule = |name: &str| format!("the more units `{name}` declares, the more it needs");
    let cannot = "text: it cannot be sized".to_string();
    for word in ["and", "or"] {
        let body = format!("<A> E() due within 1 then (f() {word} fulfilment)");
        let text = with(&format!("f() declares A = {body}"), "f()");
        let told = format!("text:2:45: `f` names itself beside another clause: {}", rule("f"));
        assert_eq!(because(&text), [told, cannot.clone()]);
        for units in [0, 1, 2, 64, 127, 128] {
            assert_eq!(number(&with(&format!("f() declares A sized {units} = {body}"), "f()")), 15);
        }
    }
    let text = with(
        "f() declares A = if E() due within 1 then (if true then g() and h())\n\
         h() declares A = if E() due within 1 then <A> E() due within 1 then f()\n\
         g() declares A = h()\ni() declares A = f() and f()",
        "i()",
    );
    assert_eq!(
        because(&text),
        [
            format!("text:2:57: `f` names `g` beside another clause, and `g` names `h`, `h` names `f`: {}", rule("f")),
            format!("text:2:65: `f` names `h` beside another clause, and `h` names `f`: {}", rule("f")),
            cannot,
        ]
    );
}

/// No template begins anew, and yet one needs too much.
#[test]
fn more_than_can_be_declared() {
    let cannot = "text: it cannot be sized".to_string();
    let told = |place: &str, name: &str, need: usize| {
        format!("text:{place}: the body of `{name}` needs {need} units or more, and at most 128 can be declared")
    };
    let text = with(&format!("f() declares A = {}", owed(65)), "fulfilment");
    assert_eq!(because(&text), [told("2:1", "f", 129), cannot.clone()]);
    assert_eq!(least(&with(&format!("f() declares A = {}", owed(64)), "f()")), (vec![127], 127));
    assert_eq!(least(&with(&format!("f() declares A = {} and fulfilment", owed(64)), "f()")), (vec![128], 128));
    let text = with(&format!("f() declares A = {}\ng() declares A = f() and f()", owed(33)), "f()");
    assert_eq!(because(&text), [told("3:1", "g", 131), cannot]);
}

/// 128 are the most that the main clause may need; by 129 the library refuses with 15.
#[test]
fn what_the_main_clause_may_need() {
    let text = |main: &str| with(&format!("f() declares A = {}\ng() declares A = f()", owed(21)), main);
    assert_eq!(least(&text("f() and g() and f()")), (vec![41, 41], 125));
    assert_eq!(least(&text("f() and g() and f() and fulfilment and fulfilment and fulfilment")), (vec![41, 41], 128));
    let main = text("f() and g() and f() and fulfilment and fulfilment and fulfilment and fulfilment");
    let refused = "in a sized agreement a body's need above its declared units, or the main clause's above 128";
    assert_eq!(
        because(&main),
        [
            "text:5:1: the main clause needs 129 units, 1 over the 128 there may be (refusal 15)".to_string(),
            format!("text: refused with 15: {refused}"),
            "text: the least units that do are 41 for `f` and 41 for `g`".to_string(),
        ]
    );
    let found = Sizes::of("text", main.as_bytes());
    assert_eq!((found.main, found.templates.len()), (Some(129), 2));
}

/// Without a template nothing is sized, whatever is needed; the template that is proposed there makes it so.
#[test]
fn without_templates() {
    let large = check(format!("parties A readings E() in {} starting 0", owed(65)).as_bytes());
    assert_eq!(large.map(|accepted| accepted.need).ok(), Some(None));

    let text = |templates: &str| format!("parties A readings E()\n{templates}in\n<A> E() due within 1\nstarting 0");
    let what = "without a template no agreement is sized; one that is not named would do: ";
    let proposed = "none() sized 0 = fulfilment";
    let told = because(&text(""));
    assert_eq!(told, [format!("text:3:1: {what}`{proposed}`"), "text: it cannot be sized".to_string()]);
    let sized = text(&format!("letrec {proposed}\n"));
    assert_eq!(least(&sized), (vec![0], 1));
    let accepted = check(sized.as_bytes()).map(|accepted| accepted.told("text"));
    let expected = "text: accepted; 60 bytes; it can blame A; sized, it needs 1 of 128 units\n";
    assert_eq!(accepted.ok().as_deref(), Some(expected));
}

/// What is wrong with a text whatever it declares, is told as `check` tells it.
#[test]
fn a_text_that_is_refused() {
    let untyped = with("f() declares A = <A> E() due within true", "f()");
    for input in [untyped.as_bytes(), b"parties", b"\xff"] {
        assert_eq!(complaint(&["sizes", "-"], input, 2), complaint(&["check", "-"], input, 2));
    }
    assert!(complaint(&["sizes", "-"], untyped.as_bytes(), 2).ends_with(
        ": refused with 3: not typed; name, literal, \
         blame or declared party out of range; over 16 in sight\n"
    ));
    assert!(complaint(&["sizes", "no such file"], b"", 2).starts_with("no such file: "));
}

#[test]
fn by_the_command() {
    let shown = "stand_by sized 3\nharvest sized 3\npay sized 3\nthe main clause needs 11 of 128 units\n";
    assert_eq!(written(&["sizes", CONTRACTOR], b"", 0), shown);
    let page = text(&read("examples/contractor/README.md"));
    assert!(page.contains(&format!("```\n$ agreement sizes {CONTRACTOR}\n{shown}```\n")));
    let accepted = written(&["check", CONTRACTOR], b"", 0);
    assert!(page.contains(&format!("```\n$ agreement check {CONTRACTOR}\n{accepted}```\n")));
    let other = text(&read(CONTRACTOR)).replacen("sized 3", "sized 5", 1);
    assert_eq!(written(&["sizes", "-"], other.as_bytes(), 0), shown.replacen("3\n", "3 (it declares 5)\n", 1));
    let pond = "examples/pond/agreement.csl";
    let told = complaint(&["sizes", pond], b"", 2);
    assert!(page.contains(&format!("```\n$ agreement sizes {pond}\n{told}```\n")), "{told}");
    for arguments in [&["sizes"][..], &["sizes", "a", "b"], &["sizes", "--json"], &["sizes", "--jsn", "a"]] {
        assert_eq!(complaint(arguments, b"", 3), "usage: agreement sizes [--json] FILE\n", "{arguments:?}");
    }
}

/// The object of a text, and what is complained of.
fn object(input: &[u8], status: i32) -> (Value, String) {
    let output = agreement(&["sizes", "--json", "-"], input);
    assert_eq!(output.status.code(), Some(status));
    let line = text(&output.stdout);
    (parse(&line).unwrap_or_else(|what| panic!("{what}: {line}")), text(&output.stderr))
}

#[test]
fn in_json() {
    let source = text(&read(CONTRACTOR)).replacen(" sized 3", "", 1).replacen("sized 3", "sized 5", 1);
    let (found, complained) = object(source.as_bytes(), 0);
    assert_eq!(
        (found.get("fits"), found.get("because"), complained),
        (&Value::Truth(true), &Value::Null, String::new())
    );
    assert_eq!((found.get("main").number(), found.get("most").number()), (11, 128));
    let templates: Vec<_> = found.get("templates").list().iter().map(|one| (one.get("template").text(), one)).collect();
    let expected = [("stand_by", 14, Value::Null), ("harvest", 31, Value::Number(5)), ("pay", 45, Value::Number(3))];
    for ((name, one), (wanted, line, declared)) in templates.iter().zip(&expected) {
        assert_eq!((name, one.get("line").number(), one.get("units").number()), (wanted, *line, 3));
        assert_eq!(one.get("declared"), declared);
    }
    assert_eq!(templates.len(), 3);
    let endless = with("f() = if E() due within 1 then (f() and f())", "f()");
    let large = with(&format!("f() declares A = {}", owed(40)), "f() and f()");
    for (input, units, main) in
        [(endless, 0, Value::Null), (large, 1, Value::Number(159)), ("parties".into(), 0, Value::Null)]
    {
        let (found, complained) = object(input.as_bytes(), 2);
        assert_eq!(*found.get("fits"), Value::Truth(false));
        assert_eq!(format!("{}\n", found.get("because").text()), complained);
        assert_eq!((found.get("templates").list().len(), found.get("main")), (units, &main));
    }
}

/// What is said of each mistake with units: 2 where they cannot be declared, 15 where they do not suffice.
#[test]
fn what_check_says() {
    let faults = |templates: &str, main: &str| {
        let text = with(templates, main);
        let Err(refused) = check(text.as_bytes()) else { panic!("accepted: {text}") };
        assert!(matches!(refused.verdict, Verdict::Refused(_)), "{}", refused.told("text", text.as_bytes()));
        let told = refused.faults.iter().map(|fault| format!("{fault} ({})", fault.refusal.unwrap_or(0)));
        told.collect::<Vec<_>>()
    };
    let tells = "`agreement sizes` tells how many would do (15)";
    let (two, five) = (owed(2), owed(3));
    assert_eq!(
        faults(&format!("f() declares A sized 2 = {two}\ng() declares A sized 1 = {five} and f()"), &owed(65)),
        [
            format!("2:22: the body of `f` needs 3 units, 1 over the 2 that it declares; {tells}"),
            format!("3:22: the body of `g` needs 8 units, 7 over the 1 that it declares; {tells}"),
            "5:1: the main clause needs 129 units, 1 over the 128 there may be (15)".to_string(),
        ]
    );
    assert_eq!(faults("f() sized 129 = fulfilment", "fulfilment"), ["2:11: too many units: 129, at most 128 (2)"]);
    let huge = "99999999999999999999";
    assert_eq!(
        faults(&format!("f() sized {huge} = fulfilment"), "fulfilment"),
        [format!("2:11: too many units: {}, at most 128 (2)", i64::MAX)]
    );
    let mixed = |other: &str, one: &str| {
        format!("`{other}` declares no units, and `{one}` does: all templates are sized or none is (2)")
    };
    assert_eq!(
        faults("f() = fulfilment\ng() sized 0 = fulfilment\nh() = fulfilment", "f()"),
        [format!("2:1: {}", mixed("f", "g")), format!("4:1: {}", mixed("h", "g"))]
    );
    // Where they are mixed it is not sized, and nothing is said of what is needed.
    assert_eq!(faults(&format!("f() declares A = {two}\ng() declares A sized 0 = {two}"), "f()").len(), 1);
}

/// It comes after what is refused with less; of all that is wrong each is told.
#[test]
fn it_comes_last() {
    let two = owed(2);
    let over = format!("f() declares A sized 0 = {two}");
    let wide = format!("<A> E() due within 1 then {}", owed(129));
    assert_eq!(number(&with(&over, "fulfilment")), 15);
    assert_eq!(number(&with(&over, &wide)), 5);
    assert_eq!(number(&with(&format!("{over}\ng() sized 1 = g()"), "fulfilment")), 4);
    assert_eq!(number(&with(&over, "<A> E() due within true")), 3);
    assert_eq!(number(&with(&format!("{over}\ng() sized 129 = fulfilment"), "fulfilment")), 2);
}

/// A run of a refused agreement is not begun.
#[test]
fn what_a_run_says() {
    let over = with(&format!("f() declares A sized 0 = {}", owed(2)), "f()");
    let told = complaint(&["run", "-", "/dev/null"], over.as_bytes(), 2);
    assert_eq!(told, complaint(&["check", "-"], over.as_bytes(), 2));
    let record = tools::assemble(over.as_bytes()).unwrap_or_else(|fault| panic!("{fault}")).bytes;
    assert_eq!(written(&["run", "--records", "-"], &record, 2), "0 - REFUSED 15\n");
}

/// The examples that are sized, and those that can be and cannot.
#[test]
fn the_examples() {
    let (mut sized, mut can, mut cannot) = (Vec::new(), Vec::new(), Vec::new());
    let mut names: Vec<String> = examples().into_iter().map(|(text, _)| text).collect();
    names.dedup();
    for name in names {
        let source = read(&name);
        let accepted = check(&source).unwrap_or_else(|refused| panic!("{}", refused.told(&name, &source)));
        let folder = name.split('/').nth(1).expect("a folder").to_string();
        match (accepted.need, Sizes::of(&name, &source).because) {
            (Some(need), None) => sized.push((folder, need)),
            (None, None) => can.push(folder),
            (None, Some(_)) => cannot.push(folder),
            (Some(_), Some(because)) => panic!("{because}"),
        }
    }
    assert_eq!(sized, [("contractor".to_string(), 11)]);
    assert_eq!(can, ["instalments", "non_disclosure", "sale", "sale_four_paragraphs"]);
    assert_eq!(cannot, ["lease", "lease_as_printed", "master_sale", "pond"]);
}

/// Each pond needs three units, and one more to join it to the others; in groups, for records nest 24 deep.
#[test]
fn as_many_as_there_is_room_for() {
    let contractor = text(&read(CONTRACTOR));
    let main = "stand_by(1, 90D) and stand_by(2, 90D) and stand_by(3, 90D)";
    assert!(contractor.contains(main));
    let calling = |count: usize| {
        let calls: Vec<String> = (1..=count).map(|n| format!("stand_by({n}, 90D)")).collect();
        let groups: Vec<String> = calls.chunks(8).map(|group| format!("({})", group.join(" and "))).collect();
        contractor.replace(main, &groups.join(" and "))
    };
    assert_eq!((least(&calling(32)), number(&calling(32))), ((vec![3; 3], 127), 0));
    assert_eq!((Sizes::of("text", calling(33).as_bytes()).main, number(&calling(33))), (Some(131), 15));
}

/// On generated agreements: with the least units the library accepts or refuses the main clause alone; with one unit
/// less, wherever it is, it refuses with 15, and so it does with any units where none are found.
#[test]
fn the_least_are_the_least() {
    let mut random = Random::new(71);
    let (mut accepted, mut large, mut none) = (0, 0, 0);
    while accepted < 300 || none < 40 {
        let text = disassemble(&agreements::agreement(&mut random)).unwrap_or_else(|fault| panic!("{fault}"));
        let found = Sizes::of("text", text.as_bytes());
        let least: Vec<usize> = found.templates.iter().map(|least| least.units).collect();
        let with = |units: &[usize]| {
            let mut units = units.iter().copied();
            number(&declaring(&text, || units.next()))
        };
        match found.main {
            Some(need) => {
                assert_eq!(with(&least), if need > 128 { 15 } else { 0 }, "{text}");
                (accepted, large) = (accepted + 1, large + usize::from(need > 128));
            }
            None if text.contains("\nletrec\n") => {
                let units: Vec<usize> = (0..32).map(|_| random.below(129)).collect();
                assert_eq!((with(&units), with(&[128; 32])), (15, 15), "{text}");
                none += 1;
            }
            None => {}
        }
        for n in (0..least.len()).filter(|n| least[*n] > 0) {
            let mut less = least.clone();
            less[n] -= 1;
            assert_eq!(with(&less), 15, "{n}: {text}");
        }
    }
    println!("{accepted} with least units, {large} of them too large; {none} with none");
}
