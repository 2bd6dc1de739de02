//! `agreement timeline`: the pictures of all examples are well formed, name every duty, and no two
//! texts of one overlap.

mod common;

#[path = "common/json.rs"]
mod json;
#[path = "common/xml.rs"]
mod xml;

use common::{agreement, complaint, examples, text, written};
use xml::{overlapping, parse, Element};

fn picture(text: &str, readings: &str) -> Element {
    let svg = written(&["timeline", text, readings], b"", 0);
    parse(&svg).unwrap_or_else(|what| panic!("{readings}: {what}"))
}

#[test]
fn no_two_texts_overlap() {
    for (text, readings) in examples() {
        let picture = picture(&text, &readings);
        assert_eq!(overlapping(&picture), None, "{readings}");
        assert!(picture.all().iter().filter(|element| element.name == "text").count() > 5, "{readings}");
    }
}

/// Every window that the story tells of is there, with the whole of its words to point at.
#[test]
fn every_duty_is_named() {
    for (agreement_text, readings) in examples() {
        let picture = picture(&agreement_text, &readings);
        let titles: Vec<&str> =
            picture.all().into_iter().filter(|e| e.name == "title").map(|e| e.text.as_str()).collect();
        let names: Vec<&str> =
            picture.all().into_iter().filter(|e| e.get("class") == Some("duty")).map(|e| e.text.as_str()).collect();
        let told = text(&agreement(&["run", "--json", &agreement_text, &readings], b"").stdout);
        let mut windows = 0;
        for event in told.lines().map(|line| json::parse(line).expect("an object")) {
            let json::Value::Object(members) = &event else { panic!("no object") };
            let changes = members.iter().find(|(name, _)| name == "changes").map_or(&[][..], |(_, list)| list.list());
            for clause in changes.iter().filter(|change| change.get("change").text() == "new").map(|c| c.get("clause"))
            {
                let reading = clause.get("reading").text();
                let (name, date) = (reading.split('(').next().expect("a name"), clause.get("last_date").text());
                let is_it = |title: &&str| title.contains(reading) && title.contains(&format!(" to {date}"));
                assert!(titles.iter().any(is_it), "{readings}: {reading} to {date}");
                assert!(names.iter().any(|label| label.starts_with(&format!("{name}("))), "{readings}: {name}");
                windows += 1;
            }
        }
        assert!(names.len() >= windows, "{readings}: {} bars for {windows} windows", names.len());
    }
}

#[test]
fn what_decides_is_marked() {
    let says = |readings: &str, class: &str| {
        let picture = picture("examples/pond/agreement.csl", &format!("examples/pond/{readings}.readings"));
        let count = |class: &str| picture.all().iter().filter(|element| element.get("class") == Some(class)).count();
        let text = picture.all().iter().find(|e| e.get("class") == Some(class)).map(|e| e.text.clone());
        (text.unwrap_or_default(), count("broken"), count("ahead"))
    };
    let breach = "breach 2026-06-12T08:00 by Harvester and Washery".to_string();
    // Two broken windows, and one more in the legend.
    assert_eq!(says("two_ponds", "says-breach"), (breach, 3, 0));
    let ahead = "ahead: breach 2026-06-12T10:03 by Harvester".to_string();
    assert_eq!(says("refused", "says-forecast"), (ahead, 0, 2));
    assert_eq!(says("good_season", "says-fulfilled"), ("fulfilled 2026-08-30T06:01".to_string(), 0, 0));
    assert_eq!(says("lifted_twice", "says-forecast"), (String::new(), 0, 0));
}

/// A window that would make the rest too small is cut, and a refused reading does not widen the picture.
#[test]
fn what_lies_too_far_is_cut() {
    let text = "parties A readings N() in <A> N() due within 10 and if N() due within 100000 starting 0";
    let file = std::env::temp_dir().join(format!("agreement-far-{}.csl", std::process::id()));
    std::fs::write(&file, text).expect("a file");
    let svg = written(&["timeline", &file.to_string_lossy(), "-"], b"5 mark\n! 4000000000 7\n", 0);
    std::fs::remove_file(&file).expect("the file");
    let picture = parse(&svg).expect("a picture");
    let of =
        |class: &str| picture.all().into_iter().filter(|e| e.get("class") == Some(class)).collect::<Vec<_>>().len();
    assert_eq!((of("beyond"), of("tick tick-refused")), (1, 2));
    let dates: Vec<&str> =
        picture.all().into_iter().filter(|e| e.get("class") == Some("date")).map(|e| e.text.as_str()).collect();
    assert!(dates.contains(&"0") && dates.contains(&"10"), "{dates:?}");
}

#[test]
fn odd_names_and_endless_windows() {
    let agreement_text = "\
parties Ärztekammer_der_Stadt_und_des_Umlandes, B
readings \u{6536}\u{7a6b}(n: number, a: truth) N()
in <Ärztekammer_der_Stadt_und_des_Umlandes> \u{6536}\u{7a6b}(n, a) where n < 3 && a due within 1000000000
   and <B> N() due after -20 within 5 and if N() due within -3 then fulfilment else <B> N() due after 1000000000 within 3
starting 4294967290
";
    let folder = std::env::temp_dir().join(format!("agreement-timeline-{}", std::process::id()));
    std::fs::create_dir_all(&folder).expect("a folder");
    let file = folder.join("odd.csl");
    std::fs::write(&file, agreement_text).expect("a file");
    for readings in [&b""[..], b"4294967295 mark\n", b"4294967291 N\n! 4294967291 9 1 2 3 4\n"] {
        let svg = written(&["timeline", &file.to_string_lossy(), "-"], readings, 0);
        let picture = parse(&svg).expect("a picture");
        assert!(picture.all().iter().any(|element| element.text == "\u{c4}rztekammer…"), "{svg}");
    }
    std::fs::remove_dir_all(&folder).expect("the folder");
}

#[test]
fn a_page_has_the_picture_and_the_story() {
    let (text, readings) = ("examples/pond/agreement.csl", "examples/pond/pumps_fail.readings");
    let page = written(&["timeline", "--html", text, readings], b"", 0);
    assert!(page.starts_with("<!doctype html>\n") && page.contains("<title>pumps fail</title>"));
    assert!(page.contains(&written(&["timeline", text, readings], b"", 0)));
    let story = written(&["run", text, readings], b"", 1);
    let escaped = story.replace('&', "&amp;").replace('<', "&lt;").replace('>', "&gt;");
    assert!(page.contains(&escaped));
}

#[test]
fn the_same_run_gives_the_same_picture() {
    let arguments = ["timeline", "examples/sale/agreement.csl", "examples/sale/fined.readings"];
    assert_eq!(written(&arguments, b"", 0), written(&arguments, b"", 0));
}

#[test]
fn what_is_wrong() {
    assert!(complaint(&["timeline", "a"], b"", 3).starts_with("usage: agreement timeline [--html] TEXT READINGS\n"));
    assert!(complaint(&["timeline", "no such file", "-"], b"", 2).starts_with("no such file: "));
    let untyped = b"parties A readings N() in if 1 then fulfilment starting 0";
    let refused = complaint(&["timeline", "-", "/dev/null"], untyped, 2);
    assert!(refused.contains("\n-: refused with 3: not typed; "), "{refused}");
}
