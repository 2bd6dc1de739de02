//! Lines of text as reading records.

use reference::build::reading;
use reference::reading::parse;
use tools::readings::readings;
use tools::{assemble, Assembled};

const TEXT: &str = "\
parties Buyer, Seller
readings
  Payment(sender: party, amount: number)
  Flag(on: truth)
  Ping()
in fulfilment starting 0
";

fn agreement() -> Assembled {
    assemble(TEXT.as_bytes()).unwrap_or_else(|fault| panic!("{fault}"))
}

fn plain(lines: &str) -> Result<Vec<u8>, String> {
    readings(lines.as_bytes(), None).map_err(|fault| fault.to_string())
}

fn named(lines: &str) -> Result<Vec<u8>, String> {
    readings(lines.as_bytes(), Some(&agreement().agreement)).map_err(|fault| fault.to_string())
}

#[test]
fn numbers_without_the_agreement() {
    assert_eq!(plain("110 1 240\n"), Ok(reading(110, 1, &[240])));
    assert_eq!(plain("110 mark"), Ok(reading(110, 0, &[])));
    assert_eq!(plain("0 255 1 -2 2147483647 -2147483648"), Ok(reading(0, 255, &[1, -2, i32::MAX, i32::MIN])));
    assert_eq!(plain("4294967295 2 true false 0"), Ok(reading(u32::MAX, 2, &[1, 0, 0])));
    assert_eq!(plain("2011-01-01 1"), Ok(reading(21_564_000, 1, &[])));
    assert_eq!(plain("2011-01-01T09:30 1 30D"), Ok(reading(21_564_570, 1, &[43_200])));
}

#[test]
fn streams() {
    let lines = "-- a comment\n\n  110 1 240 -- too little\r\n\t105 1 250\n160 1 250";
    let expected = [reading(110, 1, &[240]), reading(105, 1, &[250]), reading(160, 1, &[250])].concat();
    assert_eq!(plain(lines), Ok(expected));
    assert_eq!(plain(""), Ok(Vec::new()));
}

#[test]
fn names_with_the_agreement() {
    assert_eq!(named("5 Payment Seller 100"), Ok(reading(5, 1, &[1, 100])));
    assert_eq!(named("5 1 0 100"), Ok(reading(5, 1, &[0, 100])));
    assert_eq!(named("5 Flag true\n6 Flag 0"), Ok([reading(5, 2, &[1]), reading(6, 2, &[0])].concat()));
    assert_eq!(named("5 Ping\n6 mark\n7 0"), Ok([reading(5, 3, &[]), reading(6, 0, &[]), reading(7, 0, &[])].concat()));
}

/// A line that begins with `!` is written although the monitor refuses it.
#[test]
fn lines_meant_to_be_refused() {
    for line in ["110 1 0 7 8", "110 4", "110 Flag 2", "110 Payment 2 5", "110 Payment true Buyer", "110 Ping 1 2 3 4"]
    {
        assert!(named(line).is_err(), "{line}");
        let written = named(&format!("! {line}")).unwrap_or_else(|fault| panic!("{fault}"));
        assert!(parse(&written).is_ok());
        assert_eq!(named(&format!("  !{line}")), Ok(written));
    }
    assert_eq!(named("! 110 Payment Buyer 1000000001"), Ok(reading(110, 1, &[0, 1_000_000_001])));
    assert_eq!(plain("! 110 1 240"), Ok(reading(110, 1, &[240])));
}

#[test]
fn what_cannot_be_stored() {
    for line in ["110 1 1 2 3 4 5", "! 110 1 1 2 3 4 5"] {
        let column = if line.starts_with('!') { 17 } else { 15 };
        assert_eq!(plain(line), Err(format!("1:{column}: a fifth value: a reading record holds at most 4")));
    }
    assert_eq!(plain("\n1 1 2147483648"), Err("2:5: `2147483648` does not fit in 32 bits".into()));
    assert_eq!(plain("1 1 -2147483649"), Err("1:5: `-2147483649` does not fit in 32 bits".into()));
    assert_eq!(plain("4294967296 1"), Err("1:1: a time beyond 4,294,967,295 minutes".into()));
    assert_eq!(plain("1 256"), Err("1:3: a type over 255 does not fit in its byte".into()));
    assert_eq!(plain("5"), Err("1:2: a reading is a time, a type and values".into()));
    assert_eq!(plain("!"), Err("1:2: a reading is a time, a type and values".into()));
    let wanted = "minutes, or a date such as 2011-01-01 or 2011-01-01T09:30 are";
    for time in ["-5", "noon", "2011-1-1", "2011/01/01", "09:30"] {
        assert_eq!(plain(&format!("{time} 1")), Err(format!("1:1: `{time}` is no time: {wanted}")));
    }
    assert_eq!(plain("2011-02-30 1"), Err("1:1: `2011-02-30` is no date from 1970-01-01 on".into()));
    assert_eq!(plain("5x 1"), Err("1:1: `x` is no unit of time: m, h, D, W, M and Y are".into()));
    assert_eq!(plain("5 1 7q"), Err("1:5: `q` is no unit of time: m, h, D, W, M and Y are".into()));
    assert_eq!(plain("5 Ping"), Err("1:3: `Ping` is no number, and names need the agreement's text (--for)".into()));
    assert_eq!(
        plain("5 1 Buyer"),
        Err("1:5: `Buyer` is no number, and names need the agreement's text (--for)".into())
    );
}

#[test]
fn times_of_other_programs() {
    assert_eq!(
        plain("2011-01-01 09:30 1 5"),
        Err("1:1: a `T` stands between date and time of day: write 2011-01-01T09:30".into())
    );
    assert_eq!(
        plain("2011-01-01T09:30:00 1"),
        Err("1:1: times are in minutes, without seconds: write 2011-01-01T09:30".into())
    );
    let zone = "1:1: times have no zone: write 2011-01-01T09:30, with all times of an agreement on one clock";
    assert_eq!(plain("2011-01-01T09:30Z 1"), Err(zone.into()));
    assert_eq!(plain("2011-01-01T09:30-05:00 1"), Err(zone.into()));
}

#[test]
fn what_the_agreement_refuses() {
    assert_eq!(named("5 Pong"), Err("1:3: unknown reading `Pong`; did you mean `Ping`?".into()));
    assert_eq!(named("5 Payment Bayer 5"), Err("1:11: unknown party `Bayer`; did you mean `Buyer`?".into()));
    assert_eq!(named("! 5 Payment Broker 5"), Err("1:13: unknown party `Broker`".into()));
    assert_eq!(named("5 payment Buyer 5"), Err("1:3: unknown reading `payment`; did you mean `Payment`?".into()));
    assert_eq!(named("5 Mark"), Err("1:3: unknown reading `Mark`; did you mean `mark`?".into()));
    assert_eq!(named("5 4"), Err("1:3: type 4 is none of the agreement's readings".into()));
    assert_eq!(named("5 Payment 1"), Err("1:3: `Payment` has 2 values, 1 given here".into()));
    assert_eq!(named("5 mark 1"), Err("1:3: `mark` has 0 values, 1 given here".into()));
    assert_eq!(named("5 Payment 2 5"), Err("1:11: `sender` is a party, and `2` is none".into()));
    assert_eq!(named("5 Payment true 5"), Err("1:11: `sender` is a party, and `true` is none".into()));
    let number = "`amount` is a number from -1,000,000,000 to 1,000,000,000, and";
    assert_eq!(named("5 Payment 1 1000000001"), Err(format!("1:13: {number} `1000000001` is none")));
    assert_eq!(named("5 Payment 1 Seller"), Err(format!("1:13: {number} `Seller` is none")));
    assert_eq!(named("5 Flag 2"), Err("1:8: `on` is true or false, and `2` is none".into()));
}
