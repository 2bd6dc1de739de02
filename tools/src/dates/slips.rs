//! Times as other programs write them, and what is wanted in their place.

use super::{after, DATE, MINUTE};

/// What is wrong with the time that a text begins with, if it is such a one: its length, and what is wanted.
pub fn slip(text: &str) -> Option<(usize, String)> {
    let (end, what) = apart(text).or_else(|| clock(text)).or_else(|| seconds(text)).or_else(|| zone(text))?;
    Some((text.len() - end.len(), what))
}

/// A slip: the text after it, and what is wanted.
type Slip<'t> = Option<(&'t str, String)>;

/// A time of day after a blank.
fn apart(text: &str) -> Slip<'_> {
    const CLOCK: &str = "00:00";
    let rest = after(text, DATE)?.strip_prefix([' ', '\t'])?.trim_start_matches([' ', '\t']);
    let end = after(rest, CLOCK)?;
    let (date, clock) = (&text[..DATE.len()], &rest[..CLOCK.len()]);
    Some((end, format!("a `T` stands between date and time of day: write {date}T{clock}")))
}

/// A `T`, and no time of day in four digits.
fn clock(text: &str) -> Slip<'_> {
    if after(text, MINUTE).is_some() {
        return None;
    }
    let rest = after(text, DATE)?.strip_prefix(['T', 't'])?;
    let end = rest.trim_start_matches(|c: char| c.is_ascii_alphanumeric() || c == ':');
    let date = &text[..DATE.len()];
    Some((end, format!("a time of day is two digits, `:` and two digits: write {date}T09:30")))
}

fn seconds(text: &str) -> Slip<'_> {
    let rest = after(text, MINUTE)?;
    let rest = after(rest, ":00").or_else(|| after(rest, ".0"))?;
    let end = rest.trim_start_matches(|c: char| c.is_ascii_digit() || c == '.');
    let minute = &text[..MINUTE.len()];
    Some((end, format!("times are in minutes, without seconds: write {minute}")))
}

fn zone(text: &str) -> Slip<'_> {
    let rest = after(text, MINUTE)?;
    let zone = after(rest, "+00").or_else(|| after(rest, "-00")).or_else(|| rest.strip_prefix(['Z', 'z']))?;
    let end = zone.trim_start_matches(|c: char| c.is_ascii_digit() || c == ':');
    let minute = &text[..MINUTE.len()];
    Some((end, format!("times have no zone: write {minute}, with all times of an agreement on one clock")))
}

#[cfg(test)]
mod tests {
    use super::slip;

    #[test]
    fn times_of_other_programs() {
        for (time, length, wanted) in [
            ("2026-06-01 06:00", 16, "a `T` stands between date and time of day: write 2026-06-01T06:00"),
            ("2026-06-01T06:00:30 mark", 19, "times are in minutes, without seconds: write 2026-06-01T06:00"),
            ("2026-06-01T06:00:30.25Z", 22, "times are in minutes, without seconds: write 2026-06-01T06:00"),
            ("2026-06-01T6:00", 15, "a time of day is two digits, `:` and two digits: write 2026-06-01T09:30"),
            ("2026-06-01t06:00", 16, "a time of day is two digits, `:` and two digits: write 2026-06-01T09:30"),
        ] {
            assert_eq!(slip(time), Some((length, wanted.to_string())), "{time}");
        }
        for time in ["2026-06-01T06:00Z", "2026-06-01T06:00+02:00", "2026-06-01T06:00-0530"] {
            let (length, what) = slip(time).expect(time);
            assert!(length == time.len() && what.starts_with("times have no zone: write 2026-06-01T06:00,"), "{what}");
        }
        for time in ["2026-06-01", "2026-06-01T06:00", "2026-06-01 Paid 7", "2026-06-01T06:00--why", "5 06:00", "2026"]
        {
            assert_eq!(slip(time), None, "{time}");
        }
    }
}
