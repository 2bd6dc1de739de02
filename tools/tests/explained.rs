//! Tables in words: known runs word for word, and random tables against the second monitor.

use reference::agreement::parse;
use reference::build;
use reference::check::accept;
use reference::generate::readings::collect;
use reference::generate::{calls, Entry};
use reference::rules::Outcome;
use reference::table::{State, LAST, MOVED};
use reference::{reading, start, CELLS};
use tools::decode::decode;
use tools::explain::Context;
use tools::{assemble, explain, Assembled};

fn bytes(table: &[i64]) -> Vec<u8> {
    table.iter().flat_map(|cell| cell.to_le_bytes()).collect()
}

fn assembled(text: &str) -> Assembled {
    assemble(text.as_bytes()).unwrap_or_else(|fault| panic!("{fault}"))
}

/// The table after readings, all of which are taken.
fn run(agreement: &[u8], readings: &[(u32, u8, &[i32])]) -> Vec<i64> {
    let mut table = vec![0; CELLS];
    assert_eq!(start(agreement, &mut table).number, 0);
    for (time, kind, values) in readings {
        assert_eq!(reading(agreement, &mut table, &build::reading(*time, *kind, values)).number, 0);
    }
    table
}

fn told(text: &str, readings: &[(u32, u8, &[i32])]) -> String {
    let assembled = assembled(text);
    let table = run(&assembled.bytes, readings);
    let context = Context { agreement: &assembled.agreement, dated: assembled.dated };
    explain(&bytes(&table), Some(context)).unwrap_or_else(|what| panic!("{what}"))
}

const SAMPLE: &str = include_str!("sample.csl");

#[test]
fn the_sample() {
    let waiting = "\
Keeper owes Salinity(level)
  where level >= 250
  from 100 to 160
  then fulfilment
  else a breach at 160
";
    assert_eq!(told(SAMPLE, &[]), format!("running, last reading at 100, last moved at 100\n{waiting}"));
    let low: (u32, u8, &[i32]) = (110, 1, &[240]);
    assert_eq!(told(SAMPLE, &[low]), format!("running, last reading at 110, last moved at 100\n{waiting}"));
    let kept: (u32, u8, &[i32]) = (160, 1, &[250]);
    assert_eq!(told(SAMPLE, &[low, kept]), "fulfilled, last reading at 160, last moved at 160\n");
    let late: (u32, u8, &[i32]) = (170, 0, &[]);
    assert_eq!(told(SAMPLE, &[low, kept, late]), "fulfilled, last reading at 170, last moved at 160\n");
    assert_eq!(told(SAMPLE, &[late]), "breached at 160 by Keeper, last reading at 170, last moved at 170\n");
}

const SALE: &str = include_str!("sale.csl");
const DAY: u32 = 21_564_000;

#[test]
fn a_sale_with_dates() {
    let delivered: (u32, u8, &[i32]) = (DAY, 1, &[1, 1]);
    let paid: (u32, u8, &[i32]) = (DAY, 2, &[0, 100]);
    let expected = "\
running, last reading at 21564000 (2011-01-01), last moved at 21564000 (2011-01-01)
both of
  one of
    Buyer owes Payment(s, a)
      where s = Buyer && a = 100
      from 21564000 (2011-01-01) to 21607200 (2011-01-31)
      then fulfilment
      else a breach at 21607200 (2011-01-31)
    Buyer owes Payment(s, a)
      where s = Buyer && a = 110
      from 21607200 (2011-01-31) to 21627360 (2011-02-14)
      then fulfilment
      else a breach at 21627360 (2011-02-14)
  Return(s, g) may come
    where s = Buyer && g = 1
    from 21564000 (2011-01-01) to 21584160 (2011-01-15)
    then <Seller> Payment(s, a) where s = Seller && a = 200 due within 7D
    else at 21584160 (2011-01-15): fulfilment
";
    assert_eq!(told(SALE, &[delivered, paid]), expected);
    assert!(include_str!("../README.md").contains(expected));
    let idle = told(SALE, &[delivered, paid, (DAY + 1440, 0, &[])]);
    let moved_before = "running, last reading at 21565440 (2011-01-02), last moved at 21564000 (2011-01-01)\nboth of\n";
    assert!(idle.starts_with(moved_before), "{idle}");
    let late = told(SALE, &[delivered, paid, (DAY + 45 * 1440, 0, &[])]);
    let breached = "breached at 21627360 (2011-02-14) by Buyer, ";
    let times = "last reading at 21628800 (2011-02-15), last moved at 21628800 (2011-02-15)\n";
    assert_eq!(late, format!("{breached}{times}"));
}

#[test]
fn names_are_invented_for_a_record() {
    let record = assembled(SALE).bytes;
    let agreement = decode(&record).expect("a record");
    let table = bytes(&run(&record, &[]));
    let words = explain(&table, Some(Context { agreement: &agreement, dated: false })).expect("a table");
    let first = "running, last reading at 21564000, last moved at 21564000\n";
    assert!(words.starts_with(&format!("{first}P1 owes R1(v3, v4)\n  where v3 = P1 && v4 = 1\n")), "{words}");
    assert!(words.contains("\n  from 21564000 to 21564000\n  then "), "{words}");
}

#[test]
fn without_the_agreement_the_layout_is_told() {
    let record = assembled(SALE).bytes;
    let table = bytes(&run(&record, &[(DAY, 1, &[1, 1]), (DAY, 2, &[0, 100])]));
    let words = explain(&table, None).expect("a table");
    let first = "running, last reading at 21564000, last moved at 21564000\n";
    assert!(words.starts_with(&format!("{first}both of\n  one of\n    an obligation at byte ")), "{words}");
    assert!(words.contains("\n  a choice at byte "), "{words}");
    let late = bytes(&run(&record, &[(DAY + 1, 0, &[])]));
    let breached = "breached at 21564000 by P1, last reading at 21564001, last moved at 21564001\n";
    assert_eq!(explain(&late, None).as_deref(), Ok(breached));
}

#[test]
fn sugar_joins_and_empty_windows() {
    let text = "\
parties A
readings N(n: number, b: truth)
in (<A> N(n, b) where n <= 5 || b || n != 7 due after 90 within -5 and <A> N(n, _) where n > 3 due within 1)
   and if N(_, _) due within 61 then fulfilment else (<A> N(x, _) where x >= 0 due within 90)
starting 10
";
    let expected = "\
running, last reading at 10, last moved at 10
all of
  A owes N(n, b)
    where n <= 5 || b || n != 7
    from 100 to 95, which is no time at all
    then fulfilment
    else a breach at 95
  A owes N(n, _)
    where 3 < n
    from 10 to 11
    then fulfilment
    else a breach at 11
  N(_, _) may come
    from 10 to 71
    then fulfilment
    else at 71: <A> N(x, _) where 0 <= x due within 90
";
    assert_eq!(told(text, &[]), expected);
}

#[test]
fn long_clauses_are_mentioned() {
    let owed = "<A> N(n) where n = 111111 + 222222 && n = 3 due within 7";
    let then = [owed; 4].join(" and ");
    let text = format!("parties A readings N(n: number) in <A> N(_) due within 5 then {then} starting 0");
    assert!(told(&text, &[]).contains("\n  then more than fits here\n"));
}

/// Every table of generated calls: told exactly if the second monitor reads it.
#[test]
fn generated_tables() {
    let (mut right, mut wrong) = (0, 0);
    for call in calls(7).take(30_000) {
        let (Entry::Start { table } | Entry::Reading { table, .. }) = &call.entry else { continue };
        let parsed = parse(&call.agreement).ok();
        let Some(accepted) = parsed.as_ref().and_then(|agreement| accept(agreement).ok()) else { continue };
        let agreement = decode(&call.agreement).expect("an accepted agreement");
        let words = explain(&bytes(table), Some(Context { agreement: &agreement, dated: false }));
        let read = reference::table::read(&accepted, table);
        assert_eq!(words.is_ok(), read.is_ok(), "{words:?}");
        match (words, read) {
            (Ok(words), Ok(state)) => {
                right += 1;
                assert_eq!(told_windows(&words), windows(&state), "{words}");
                assert_eq!(told_times(&words), (state.last, state.moved), "{words}");
            }
            _ => wrong += 1,
        }
        // Without the agreement it must only not panic.
        let _ = explain(&bytes(table), None);
    }
    assert!(right > 5_000 && wrong > 3_000, "{right} right, {wrong} wrong");
}

/// The last reading time of a table and when it last moved, as its words have them.
fn told_times(words: &str) -> (i64, i64) {
    let first = words.lines().next().expect("a line");
    let times = first.split_once(", last reading at ").expect("a last reading").1;
    let (last, moved) = times.split_once(", last moved at ").expect("a last move");
    (last.parse().expect("a time"), moved.parse().expect("a time"))
}

/// The windows of a table as its words have them.
fn told_windows(words: &str) -> Vec<(i64, i64)> {
    let window = |line: &str| {
        let (first, last) = line.trim_start().strip_prefix("from ")?.split_once(" to ")?;
        let last = last.strip_suffix(", which is no time at all").unwrap_or(last);
        Some((first.parse().expect("a time"), last.parse().expect("a time")))
    };
    words.lines().filter_map(window).collect()
}

/// The windows of a table as the second monitor has them.
fn windows(state: &State) -> Vec<(i64, i64)> {
    let mut units = Vec::new();
    if let Outcome::Running(residue) = &state.outcome {
        collect(residue, &mut units);
    }
    units.iter().map(|waiting| waiting.window()).map(|window| (window.first, window.last)).collect()
}

/// A damaged agreement that can still be read may be untyped; telling its table must not panic.
#[test]
fn damaged_agreements() {
    let mut told = 0;
    for call in calls(8).take(20_000) {
        let Ok(agreement) = decode(&call.agreement) else { continue };
        let (Entry::Start { table } | Entry::Reading { table, .. }) = &call.entry else { continue };
        let _ = explain(&bytes(table), Some(Context { agreement: &agreement, dated: true }));
        told += 1;
    }
    assert!(told > 5_000, "{told}");
}

#[test]
fn what_is_wrong_is_said() {
    let assembled = assembled(SAMPLE);
    let right = run(&assembled.bytes, &[(110, 1, &[240])]);
    let wrong = |cell: usize, value: i64| {
        let mut table = right.clone();
        table[cell] = value;
        let context = Context { agreement: &assembled.agreement, dated: false };
        explain(&bytes(&table), Some(context)).expect_err("a wrong table")
    };
    assert_eq!(wrong(0, 9), "state 9, where 1, 2 and 3 are states");
    assert_eq!(wrong(0, 2), "something other than 0 in the number of units in use of a table that is not running");
    assert_eq!(
        wrong(2, 5),
        "something other than 0 in the breach time or the blamed parties of a table that is not breached"
    );
    assert_eq!(wrong(6, 5), "something other than 0 in cells 6 and 7 of the head");
    assert_eq!(wrong(7, 5), "something other than 0 in cells 6 and 7 of the head");
    assert_eq!(wrong(1, -1), "the last reading time is -1, which is no time of a reading");
    assert_eq!(wrong(1, 99), "last moved at 100, where the last reading was at 99");
    assert_eq!(wrong(5, 111), "last moved at 111, where the last reading was at 110");
    assert_eq!(wrong(5, 99), "last moved at 99, before the start 100");
    assert_eq!(wrong(4, 129), "129 units in use, where a running table has 1 to 128");
    assert_eq!(wrong(4, 2), "unit 1 belongs to nothing: the units before it are whole");
    assert_eq!(wrong(8, 16), "unit 0 is of sort 16, where 17, 18, 20 and 21 are sorts");
    assert_eq!(wrong(8, 18), "unit 0 is a choice at byte 17, where none begins");
    assert_eq!(wrong(9, 18), "unit 0 is an obligation at byte 18, where none begins");
    assert_eq!(wrong(10, 99), "unit 0 waits since 99, before the start 100");
    assert_eq!(wrong(10, 111), "unit 0 waits since 111, where the last reading was at 110");
    assert_eq!(wrong(11, 1), "unit 0 has more party parameters than its template");
    assert_eq!(wrong(15, 1), "something other than 0 in cell 7 of unit 0");
    assert_eq!(wrong(16, 1), "unit 0 has more values than are in sight there");
    assert_eq!(wrong(3_000, 1), "something other than 0 in the units beyond those in use");
    assert_eq!(explain(&[0; 8], None), Err("8 bytes, where a table has 24,640".to_string()));
}

/// When a table of the sample last moved, in each state: told exactly if the second monitor reads the table, and
/// without the agreement also before the start, which is not known then.
#[test]
fn when_it_last_moved_in_each_state() {
    let assembled = assembled(SAMPLE);
    let parsed = parse(&assembled.bytes).expect("a record");
    let accepted = accept(&parsed).expect("an accepted agreement");
    let states: [&[(u32, u8, &[i32])]; 3] = [&[(130, 0, &[])], &[(130, 1, &[250])], &[(161, 0, &[])]];
    for readings in states {
        let right = run(&assembled.bytes, readings);
        let last = right[LAST];
        for moved in [i64::MIN, -1, 0, 99, 100, 101, last, last + 1, 1 << 32, i64::MAX] {
            let mut table = right.clone();
            table[MOVED] = moved;
            let context = Context { agreement: &assembled.agreement, dated: false };
            let told = explain(&bytes(&table), Some(context)).map(|words| told_times(&words));
            let after = format!("last moved at {moved}, where the last reading was at {last}");
            let before = format!("last moved at {moved}, before the start 100");
            let expected = match moved {
                100.. if moved <= last => Ok((last, moved)),
                0..100 => Err(before),
                _ => Err(after.clone()),
            };
            assert_eq!(told.is_ok(), reference::table::read(&accepted, &table).is_ok(), "{moved}");
            assert_eq!(told, expected);
            let by_layout = explain(&bytes(&table), None).map(|words| told_times(&words));
            assert_eq!(by_layout, if (0..=last).contains(&moved) { Ok((last, moved)) } else { Err(after) });
        }
    }
}
