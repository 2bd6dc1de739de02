//! What a reading costs is the library's figure: with each reading in JSON, and in words where it is asked for.

mod common;

#[path = "common/json.rs"]
mod json;

use common::{agreement, examples, read, text, written};
use json::{parse, Value};

const POND: &str = "examples/pond/agreement.csl";
const WHAT_IT_COSTS: &str = "examples/pond/what_it_costs.readings";
const MASTER_SALE: &str = "examples/master_sale/agreement.csl";
const MANY_ORDERS: &str = "examples/master_sale/many_orders.readings";
const SAMPLE: &str = "tools/tests/sample.csl";

/// What is told with costs: the costs, and the other lines.
fn split(told: &str) -> (Vec<i64>, String) {
    let cost = |line: &str| line.strip_prefix("    cost    ").map(|cost| cost.parse().expect("a number"));
    let others = told.lines().filter(|line| cost(line).is_none()).map(|line| format!("{line}\n"));
    (told.lines().filter_map(cost).collect(), others.collect())
}

/// The objects of the readings. The start has no cost.
fn objects(text_file: &str, readings: &str, input: &[u8]) -> Vec<Value> {
    let output = agreement(&["run", "--json", text_file, readings], input);
    let objects: Vec<Value> = text(&output.stdout).lines().map(|line| parse(line).expect("an object")).collect();
    let [start, readings @ .., _] = &objects[..] else { panic!("a start and an end") };
    assert_eq!(*start.get("cost"), Value::Null);
    readings.to_vec()
}

fn costs(objects: &[Value]) -> Vec<i64> {
    objects.iter().map(|object| object.get("cost").number()).collect()
}

#[test]
fn word_for_word() {
    let lines = b"110 Salinity 240\n105 Salinity 250\n160 Salinity 250\n170 mark\n";
    let expected = "\
100  start
    new     Keeper owes Salinity(level) where level >= 250, from 100 to 160 (line 5)
    ahead   a breach at 160 by Keeper, if only time goes on
            Keeper would miss Salinity(level) where level >= 250 (line 5)
110  Salinity 240
    nothing changes
    ahead   a breach at 160 by Keeper, if only time goes on
            Keeper would miss Salinity(level) where level >= 250 (line 5)
    cost    1
105  Salinity 250
    REFUSED with 10: time below the last reading time
    cost    0
160  Salinity 250
    met     Keeper owed Salinity(level) where level >= 250 (line 5)
    FULFILLED
    cost    2
170  mark
    nothing changes
    FULFILLED
    cost    0

FULFILLED, shown by 160 Salinity 250 at -:3
";
    assert_eq!(written(&["run", "--cost", SAMPLE, "-"], lines, 0), expected);
    assert_eq!(written(&["run", "--cost", "--follow", SAMPLE], lines, 0), expected);
    assert_eq!(written(&["run", SAMPLE, "-"], lines, 0), split(expected).1);
    assert_eq!(costs(&objects(SAMPLE, "-", lines)), [1, 0, 2, 0]);
}

#[test]
fn a_breach() {
    assert_eq!(costs(&objects(SAMPLE, "-", b"160 mark\n161 mark\n170 mark\n")), [1, 1, 0]);
}

/// The figures that stand in the readings' comments; the pond's page shows what is said of one.
#[test]
fn in_a_pond() {
    let told = written(&["run", "--cost", POND, WHAT_IT_COSTS], b"", 0);
    let figures = [3, 3 + 2, 3 + 5, 0, 5 + 2, 5 + 1 + 2, 5 + 1, 5 + 1, 3 + 2, 0];
    assert_eq!(split(&told).0, figures);
    let page = text(&read("examples/pond/README.md"));
    let shown = page.split("```\n").find(|block| block.contains("    cost    ")).expect("what it shows");
    assert!(told.contains(shown), "{shown}");
}

/// Each order activates seven clauses beside the units of those before it, also where it is refused with 11.
#[test]
fn of_a_reading_refused_with_11() {
    let told = written(&["run", "--cost", MASTER_SALE, MANY_ORDERS], b"", 1);
    let mut figures: Vec<i64> = (0..64).map(|open| 2 * open + 1 + 7).collect();
    figures.extend([127 + 7, 127 + 2, 127 + 1, 127 + 7, 127 + 1, 125 + 7, 127 + 2]);
    assert_eq!(split(&told).0, figures);
    let expected = "\
2011-07-01  Request Customer Vendor 1
    REFUSED with 11: the residue by the rules needs over 128 units
    cost    134
";
    assert!(told.contains(expected), "{told}");
    assert!(text(&read("examples/master_sale/README.md")).contains(&format!("```\n{expected}```\n")));
}

/// Without being asked the words say nothing of it; asked, they say what the objects say.
#[test]
fn of_every_example() {
    let mut refused = [0; 12];
    for (agreement_text, readings) in examples() {
        let with = text(&agreement(&["run", "--cost", &agreement_text, &readings], b"").stdout);
        let without = text(&agreement(&["run", &agreement_text, &readings], b"").stdout);
        let objects = objects(&agreement_text, &readings, b"");
        assert_eq!(split(&with), (costs(&objects), without), "{readings}");
        for object in objects.iter().filter(|object| object.get("verdict").text() == "REFUSED") {
            let number = object.get("refusal").get("number").number();
            assert_eq!(number == 11, object.get("cost").number() > 0, "{readings}");
            refused[number as usize] += 1;
        }
    }
    assert!([9, 10, 11].iter().all(|&number| refused[number] > 0), "{refused:?}");
}

/// The objects have it in any case.
#[test]
fn asked_for_with_json() {
    for rest in [&[POND, WHAT_IT_COSTS][..], &["--follow", POND]] {
        let told = |options: &[&str]| written(&[options, rest].concat(), b"2026-06-03T07:30 Salinity 1 249\n", 0);
        assert_eq!(told(&["run", "--json", "--cost"]), told(&["run", "--json"]));
    }
}

/// A page has the words of a run without its costs, and a picture none.
#[test]
fn not_in_pictures() {
    for arguments in [&["timeline", POND, WHAT_IT_COSTS][..], &["timeline", "--html", POND, WHAT_IT_COSTS]] {
        assert!(!written(arguments, b"", 0).contains("    cost    "));
    }
}
