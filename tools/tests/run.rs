//! `agreement run`: its words, and how it ends.

mod common;

use common::{agreement, complaint, text, written};

const POND: &str = "examples/pond/agreement.csl";

fn pond(readings: &str, status: i32) -> String {
    written(&["run", POND, &format!("examples/pond/{readings}.readings")], b"", status)
}

#[test]
fn a_breach_word_for_word() {
    let expected = "\
2026-06-01T06:00  start
    new     Salinity(p, g) where p = 1 && 250 <= g may come, from 2026-06-01T06:00 to 2026-08-30T06:00 (line 17)
    new     Salinity(p, g) where p = 2 && 250 <= g may come, from 2026-06-01T06:00 to 2026-08-30T06:00 (line 17)
    ahead   no breach, if only time goes on
2026-06-03T07:30  Salinity 2 250
    came    Salinity(p, g) where p = 2 && 250 <= g (line 17)
    new     Lifted(p) where p = 2 may come, from 2026-06-03T07:30 to 2026-06-03T11:30 (line 27)
    ahead   a breach at 2026-06-06T11:30 by Pumps, if only time goes on
            Pumps would miss Paid(from, to, c) where from = Pumps && to = Harvester && c = 500 (line 33)
2026-06-06T11:30  mark
    lapsed  Lifted(p) where p = 2, due by 2026-06-03T11:30 (line 27)
    new     Pumps owes Paid(from, to, c) where from = Pumps && to = Harvester && c = 500, from 2026-06-03T11:30 to \
     2026-06-06T11:30 (line 33)
    ahead   a breach at 2026-06-06T11:30 by Pumps, if only time goes on
            Pumps would miss Paid(from, to, c) where from = Pumps && to = Harvester && c = 500 (line 33)
2026-06-06T11:31  Paid Pumps Harvester 500
    missed  Pumps owed Paid(from, to, c) where from = Pumps && to = Harvester && c = 500, due by 2026-06-06T11:30 \
     (line 33)
    BREACHED at 2026-06-06T11:30 by Pumps

BREACHED at 2026-06-06T11:30 by Pumps
  Pumps owed Paid(from, to, c) where from = Pumps && to = Harvester && c = 500
    due from 2026-06-03T11:30 to 2026-06-06T11:30
    written at examples/pond/agreement.csl:33:7
  shown by 2026-06-06T11:31 Paid Pumps Harvester 500 at examples/pond/pumps_fail.readings:5
";
    assert_eq!(pond("pumps_fail", 1), expected);
}

/// One mark shows it though the penalty was never looked at before: the duty is in the else of a
/// choice that is late itself.
#[test]
fn a_duty_behind_a_late_choice() {
    let told = agreement(&["run", POND, "-"], b"2026-06-03T07:30 Salinity 2 250\n2026-07-01 mark\n");
    assert_eq!(told.status.code(), Some(1));
    let expected = "
BREACHED at 2026-06-06T11:30 by Pumps
  Pumps owed Paid(from, to, c) where from = Pumps && to = Harvester && c = 500
    due from 2026-06-03T11:30 to 2026-06-06T11:30
    written at examples/pond/agreement.csl:33:7
  shown by 2026-07-01 mark at -:2
";
    assert!(text(&told.stdout).ends_with(expected), "{}", text(&told.stdout));
}

#[test]
fn two_parties_in_one_minute() {
    let expected = "
BREACHED at 2026-06-12T08:00 by Harvester and Washery
  Washery owed Washed(p, w) where p = 1 && w = 35
    due from 2026-06-10T08:00 to 2026-06-12T08:00
    written at examples/pond/agreement.csl:46:5
  Harvester owed Harvested(p, t) where p = 2 && 0 < t
    due from 2026-06-08T08:00 to 2026-06-12T08:00
    written at examples/pond/agreement.csl:42:5
  shown by 2026-06-12T08:01 mark at examples/pond/two_ponds.readings:8
";
    assert!(pond("two_ponds", 1).ends_with(expected));
}

#[test]
fn fulfilled_and_running() {
    let fulfilled = "\nFULFILLED, shown by 2026-08-30T06:01 mark at examples/pond/good_season.readings:8\n";
    assert!(pond("good_season", 0).ends_with(fulfilled));
    let running = "
RUNNING, last moved at 2026-06-03T10:03
  all of
    Harvester owes Harvested(p, t) where p = 1 && 0 < t, from 2026-06-08T10:03 to 2026-06-12T10:03 (line 42)
    Salinity(p, g) where p = 1 && 250 <= g may come, from 2026-06-03T10:03 to 2026-08-30T06:00 (line 17)
    Salinity(p, g) where p = 2 && 250 <= g may come, from 2026-06-01T06:00 to 2026-08-30T06:00 (line 17)
";
    let told = pond("refused", 0);
    assert!(told.ends_with(running), "{told}");
    let refused = "2026-06-03T09:59  Lifted 1\n    REFUSED with 10: time below the last reading time\n";
    assert!(told.contains(refused), "{told}");
}

/// The earlier side of an `or` is missed and nobody is blamed for it.
#[test]
fn one_side_of_an_or_is_enough() {
    let told = written(&["run", "examples/sale/agreement.csl", "examples/sale/fined.readings"], b"", 0);
    let missed =
        "    missed  Buyer owed Payment(s, r, a) where s = Buyer && r = Seller && a = 100, due by 2011-01-31 (line 30)
    ahead   a breach at 2011-02-14 by Buyer, if only time goes on
            Buyer would miss Payment(s, r, a) where s = Buyer && r = Seller && a = 110 (line 34)
";
    assert!(told.contains(missed), "{told}");
}

#[test]
fn minutes_where_the_text_has_no_date() {
    let told = written(&["run", "tools/tests/sample.csl", "-"], b"110 Salinity 240\n161 mark\n165 mark\n", 1);
    let expected = "\
100  start
    new     Keeper owes Salinity(level) where level >= 250, from 100 to 160 (line 5)
    ahead   a breach at 160 by Keeper, if only time goes on
            Keeper would miss Salinity(level) where level >= 250 (line 5)
110  Salinity 240
    nothing changes
    ahead   a breach at 160 by Keeper, if only time goes on
            Keeper would miss Salinity(level) where level >= 250 (line 5)
161  mark
    missed  Keeper owed Salinity(level) where level >= 250, due by 160 (line 5)
    BREACHED at 160 by Keeper
165  mark
    nothing changes
    BREACHED at 160 by Keeper

BREACHED at 160 by Keeper
  Keeper owed Salinity(level) where level >= 250
    due from 100 to 160
    written at tools/tests/sample.csl:5:3
  shown by 161 mark at -:2
";
    assert_eq!(told, expected);
}

/// Each reading meets both clauses, and each follows the other.
const IN_TURN: &str = "\
parties A readings N() letrec
first() declares A = <A> N() due within 5 then second()
second() declares A = <A> N() due within 5 then first()
in first() and second() starting 100
";

/// In one minute the two take each other's places: what waits is as before, and yet not where it was.
#[test]
fn clauses_that_change_places() {
    let file = std::env::temp_dir().join(format!("agreement-in-turn-{}", std::process::id()));
    std::fs::write(&file, IN_TURN).expect("a file");
    let told = written(&["run", &file.to_string_lossy(), "-"], b"101 N\n101 N\n103 mark\n", 0);
    std::fs::remove_file(&file).expect("the file");
    let expected = "\
101  N
    met     A owed N() (line 3)
    met     A owed N() (line 2)
    new     A owes N(), from 101 to 106 (line 2)
    new     A owes N(), from 101 to 106 (line 3)
    ahead   a breach at 106 by A, if only time goes on
            A would miss N() (line 2)
            A would miss N() (line 3)
103  mark
    nothing changes
    ahead   a breach at 106 by A, if only time goes on
            A would miss N() (line 2)
            A would miss N() (line 3)

RUNNING, last moved at 101
  all of
    A owes N(), from 101 to 106 (line 2)
    A owes N(), from 101 to 106 (line 3)
";
    assert!(told.ends_with(expected), "{told}");
}

#[test]
fn what_is_wrong_is_refused_with_2() {
    let lines = ["run", POND, "-"];
    let told = complaint(&lines, b"2026-06-03 Lifted 1\n2026-06-04 Lift 1\n", 2);
    assert!(told.starts_with("-:2:12: unknown reading `Lift`"), "{told}");
    assert!(complaint(&["run", POND, "no such file"], b"", 2).starts_with("no such file: "));
    let no_text = "-:1:8: expected a party's name, found the end of the text\n";
    assert!(complaint(&["run", "-", "none"], b"parties", 2).starts_with(no_text));
}

/// What `check` says of a text, `run` says too.
#[test]
fn a_text_that_is_refused() {
    let untyped = b"parties A readings N() in if 1 then fulfilment starting 0";
    let told = complaint(&["run", "-", "/dev/null"], untyped, 2);
    assert_eq!(told, complaint(&["check", "-"], untyped, 2));
    assert!(told.contains("\n-: refused with 3: not typed; "), "{told}");
    let output = agreement(&["run", "--json", "-", "/dev/null"], untyped);
    assert_eq!(output.status.code(), Some(2));
    let object = text(&output.stdout);
    assert!(object.starts_with("{\"end\":\"refused\",\"refusal\":null,\"because\":\"-:1:30: "), "{object}");
}

/// Accepted, but 131 units are needed at the start: each template has two of the one before.
#[test]
fn a_start_that_is_refused() {
    let templates: String = (1..6).map(|n| format!("t{n}() declares A = t{}() and t{}()\n", n - 1, n - 1)).collect();
    let first = "parties A readings N() letrec t0() declares A = <A> N() due within 1 and <A> N() due within 2\n";
    let large = format!("{first}{templates}in t5() and t0() starting 0");
    let told = "-: the agreement is refused with 11: the residue by the rules needs over 128 units\n";
    assert_eq!(complaint(&["run", "-", "/dev/null"], large.as_bytes(), 2), told);
    let output = agreement(&["run", "--json", "-", "/dev/null"], large.as_bytes());
    assert_eq!((output.status.code(), text(&output.stderr).as_str()), (Some(2), told));
    assert!(text(&output.stdout).starts_with("{\"end\":\"refused\",\"refusal\":{\"number\":11,\"because\":"));
}

#[test]
fn wrong_arguments_give_3() {
    let wrong: [&[&str]; 17] = [
        &["run"],
        &["run", POND],
        &["run", POND, "a", "b"],
        &["run", "--follow", POND, "a"],
        &["run", "--records"],
        &["run", "--json", "--records", "a"],
        &["run", "--cost", "--records", "a"],
        &["run", "--jsn", POND, "a"],
        &["run", "--costs", POND, "a"],
        &["run", POND, "a", "--preview"],
        &["run", "--preview", "110 mark"],
        &["run", "--preview", "110 mark", POND],
        &["run", "--preview", "--json", POND, "a"],
        &["run", "--preview", "110 mark", "--preview", "120 mark", POND, "a"],
        &["run", "--preview", "110 mark", POND, "a", "b"],
        &["run", "--preview", "110 mark", "--follow", POND],
        &["run", "--preview", "110 mark", "--records", "a"],
    ];
    for arguments in wrong {
        assert!(
            complaint(arguments, b"", 3).starts_with("usage: agreement run [--json] [--cost] TEXT READINGS\n"),
            "{arguments:?}"
        );
    }
}
