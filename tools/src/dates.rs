//! Dates as minutes since 1970-01-01T00:00, without zones.

mod slips;

pub use slips::slip;

const DAY: i64 = 24 * 60;

/// How a time is written, for messages.
pub const WANTED: &str = "minutes, or a date such as 2011-01-01 or 2011-01-01T09:30";

const DATE: &str = "0000-00-00";
const MINUTE: &str = "0000-00-00T00:00";

/// What follows a beginning that a pattern describes; in the pattern `0` is any digit.
fn after<'t>(text: &'t str, pattern: &str) -> Option<&'t str> {
    let mut bytes = text.bytes();
    let fits = pattern.bytes().all(|wanted| match bytes.next() {
        Some(found) if wanted == b'0' => found.is_ascii_digit(),
        found => found == Some(wanted),
    });
    if fits {
        text.get(pattern.len()..)
    } else {
        None
    }
}

/// The bytes of a text's beginning that have the shape of a date, or of a date and a time of day.
pub fn shape(text: &str) -> Option<usize> {
    let ended = |rest: &str| !rest.starts_with(|next: char| next.is_ascii_alphanumeric());
    [MINUTE, DATE].into_iter().find(|pattern| after(text, pattern).is_some_and(ended)).map(str::len)
}

/// What is wrong with a text that only looks like a date.
pub fn no_date(date: &str) -> String {
    format!("`{date}` is no date from 1970-01-01 on")
}

/// The minutes of a date such as 2011-01-01 or 2011-01-01T09:30; none if there is no such day or
/// minute, or if it lies before 1970.
pub fn minutes(date: &str) -> Option<u32> {
    if shape(date) != Some(date.len()) {
        return None;
    }
    let field = |from: usize, to: usize| date.get(from..to)?.parse::<i64>().ok();
    let (year, month, day) = (field(0, 4)?, field(5, 7)?, field(8, 10)?);
    let (hour, minute) = if date.len() > 10 { (field(11, 13)?, field(14, 16)?) } else { (0, 0) };
    let exists = (1..=12).contains(&month) && (1..=days_in(year, month)).contains(&day) && hour < 24 && minute < 60;
    if !exists {
        return None;
    }
    u32::try_from(days(year, month, day) * DAY + hour * 60 + minute).ok()
}

/// The date of a minute; the time of day is left out at midnight.
pub fn date(minutes: i64) -> String {
    let (days_since, minute) = (minutes.div_euclid(DAY), minutes.rem_euclid(DAY));
    // An average year has 365.2425 days, so this guess is off by a year at most.
    let mut year = 1970 + (days_since * 400).div_euclid(146_097);
    while days(year, 1, 1) > days_since {
        year -= 1;
    }
    while days(year + 1, 1, 1) <= days_since {
        year += 1;
    }
    let mut month = 12;
    while days(year, month, 1) > days_since {
        month -= 1;
    }
    let day = days_since - days(year, month, 1) + 1;
    let date = format!("{year:04}-{month:02}-{day:02}");
    match minute {
        0 => date,
        _ => format!("{date}T{:02}:{:02}", minute / 60, minute % 60),
    }
}

/// The days from 1970-01-01 to a day.
fn days(year: i64, month: i64, day: i64) -> i64 {
    let before = year - 1;
    let leaps = |year: i64| year.div_euclid(4) - year.div_euclid(100) + year.div_euclid(400);
    let whole_years = 365 * (year - 1970) + leaps(before) - leaps(1969);
    let whole_months: i64 = (1..month).map(|month| days_in(year, month)).sum();
    whole_years + whole_months + day - 1
}

fn days_in(year: i64, month: i64) -> i64 {
    match month {
        4 | 6 | 9 | 11 => 30,
        2 if is_leap(year) => 29,
        2 => 28,
        _ => 31,
    }
}

fn is_leap(year: i64) -> bool {
    year % 4 == 0 && (year % 100 != 0 || year % 400 == 0)
}

#[cfg(test)]
mod tests {
    use super::*;

    #[test]
    fn known_days() {
        // As `date -u -d DAY +%s` has them, in minutes.
        let known = [
            ("1970-01-01", 0),
            ("1970-01-02", 1_440),
            ("1972-02-29", 1_136_160),
            ("2000-02-29", 15_863_040),
            ("2000-03-01", 15_864_480),
            ("2011-01-01", 21_564_000),
            ("2011-01-01T09:30", 21_564_570),
            ("2011-02-14", 21_627_360),
            ("2100-03-01", 68_459_040),
            ("9999-12-31T23:59", 4_223_371_679),
        ];
        for (day, expected) in known {
            assert_eq!(minutes(day), Some(expected), "{day}");
            assert_eq!(date(i64::from(expected)), day);
        }
    }

    #[test]
    fn days_that_do_not_exist() {
        for day in ["2011-02-29", "1900-02-29", "2100-02-29", "2011-13-01", "2011-00-01", "2011-04-31", "2011-01-00"] {
            assert_eq!(minutes(day), None, "{day}");
        }
        for time in ["2011-01-01T24:00", "2011-01-01T09:60", "1969-12-31", "2011-1-1", "", "2011-01-01T", "2011-01-01x"]
        {
            assert_eq!(minutes(time), None, "{time}");
        }
    }

    #[test]
    fn every_day_follows_the_one_before() {
        let mut before = String::new();
        for day in -800_000..4_000_000 {
            let now = date(day * DAY);
            let length = now.len() - 6;
            if now[..length].parse::<i64>().is_ok_and(|year| year >= 0) && before.len() == now.len() {
                assert!(before < now, "{before} {now}");
            }
            if (0..2_932_896).contains(&day) {
                assert_eq!(minutes(&now).map(i64::from), Some(day * DAY));
            }
            before = now;
        }
    }

    #[test]
    fn before_and_after_the_dates_that_can_be_written() {
        assert_eq!(date(-1), "1969-12-31T23:59");
        assert_eq!(date(4_294_967_295), "10136-02-16T04:15");
    }
}
