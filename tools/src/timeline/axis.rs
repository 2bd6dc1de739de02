//! The times written at the axis.

use crate::dates;

const HOUR: i64 = 60;
const DAY: i64 = 24 * HOUR;
/// 1970-01-05.
const MONDAY: i64 = 4 * DAY;

/// A time and what is written at it.
pub struct Label {
    pub time: i64,
    pub text: String,
}

/// The labels from start to end with the smallest step that leaves at most `most` of them.
pub fn labels(start: i64, end: i64, dated: bool, most: usize) -> Vec<Label> {
    let steps = if dated { date_steps() } else { number_steps() };
    let fits = |step: &Step| step.times(start, end, most);
    let times = steps.iter().find_map(fits).unwrap_or_default();
    times.into_iter().map(|time| label(time, dated)).collect()
}

pub fn label(time: i64, dated: bool) -> Label {
    Label { time, text: if dated { dates::date(time) } else { time.to_string() } }
}

#[derive(Clone, Copy)]
enum Step {
    Minutes(i64),
    Mondays,
    /// The first and the sixteenth of every month.
    HalfMonths,
    /// The first of every so manieth month.
    Months(i64),
}

fn date_steps() -> Vec<Step> {
    let minutes = [1, 5, 15, 30, HOUR, 3 * HOUR, 6 * HOUR, 12 * HOUR, DAY, 2 * DAY];
    let months = [1, 2, 3, 6].into_iter().chain((0..4).flat_map(|ten| [12, 24, 60].map(|n| n * 10_i64.pow(ten))));
    let days = minutes.map(Step::Minutes).into_iter().chain([Step::Mondays, Step::HalfMonths]);
    days.chain(months.map(Step::Months)).chain(number_steps()).collect()
}

fn number_steps() -> Vec<Step> {
    (0..18).flat_map(|ten| [1, 2, 5].map(|n| Step::Minutes(n * 10_i64.pow(ten)))).collect()
}

impl Step {
    /// The times of this step; none where there are more than `most`.
    fn times(self, start: i64, end: i64, most: usize) -> Option<Vec<i64>> {
        let times: Vec<i64> = match self {
            Step::Minutes(step) => multiples(start, end, step, 0, most),
            Step::Mondays => multiples(start, end, 7 * DAY, MONDAY, most),
            Step::HalfMonths => {
                let firsts = months(start - 31 * DAY, end, 1, most)?;
                let halves = firsts.into_iter().flat_map(|first| [first, first + 15 * DAY]);
                halves.filter(|time| (start..=end).contains(time)).collect()
            }
            Step::Months(step) => months(start, end, step, most)?,
        };
        (times.len() <= most && !times.is_empty()).then_some(times)
    }
}

/// The times that are `beyond` more than a multiple of a step, and one too many at most.
fn multiples(start: i64, end: i64, step: i64, beyond: i64, most: usize) -> Vec<i64> {
    let first = start + (beyond - start).rem_euclid(step);
    (0..).map(|n| first + n * step).take_while(|time| *time <= end).take(most + 1).collect()
}

/// The firsts of months, counted from January. None beyond the years that a date can name.
fn months(start: i64, end: i64, step: i64, most: usize) -> Option<Vec<i64>> {
    let year: i64 = dates::date(start).split('-').next()?.parse().ok()?;
    let mut times = Vec::new();
    let mut month = year * 12 - (year * 12).rem_euclid(step);
    while times.len() <= most {
        let day = format!("{:04}-{:02}-01", month.div_euclid(12), month.rem_euclid(12) + 1);
        // Before 1970 there is no minute: those months lie before every start.
        let time = if month < 1970 * 12 { -1 } else { i64::from(dates::minutes(&day)?) };
        if time > end {
            break;
        }
        if time >= start {
            times.push(time);
        }
        month += step;
    }
    Some(times)
}

#[cfg(test)]
mod tests {
    use super::*;

    fn texts(start: &str, end: &str, most: usize) -> Vec<String> {
        let minute = |date: &str| i64::from(dates::minutes(date).expect("a date"));
        labels(minute(start), minute(end), true, most).into_iter().map(|label| label.text).collect()
    }

    #[test]
    fn dates_are_whole() {
        assert_eq!(
            texts("2026-06-01T06:00", "2026-06-05", 4),
            ["2026-06-02", "2026-06-03", "2026-06-04", "2026-06-05"]
        );
        assert_eq!(texts("2026-06-01T06:00", "2026-06-20", 3), ["2026-06-08", "2026-06-15"]);
        assert_eq!(texts("2026-06-10", "2026-08-10", 4), ["2026-06-16", "2026-07-01", "2026-07-16", "2026-08-01"]);
        assert_eq!(texts("2026-06-01T06:00", "2026-08-30", 3), ["2026-07-01", "2026-08-01"]);
        assert_eq!(texts("2011-01-01", "2016-01-01", 3), ["2012-01-01", "2014-01-01", "2016-01-01"]);
        assert_eq!(texts("2011-01-01", "2011-01-01T02:00", 3), ["2011-01-01", "2011-01-01T01:00", "2011-01-01T02:00"]);
    }

    #[test]
    fn minutes_are_round() {
        let texts = |start, end| labels(start, end, false, 6).into_iter().map(|label| label.text).collect::<Vec<_>>();
        assert_eq!(texts(100, 161), ["100", "120", "140", "160"]);
        assert_eq!(texts(0, 1), ["0", "1"]);
    }

    #[test]
    fn the_ends_of_time_have_labels_too() {
        for dated in [false, true] {
            for end in [1, 4_294_967_295, 5_000_000_000] {
                let labels = labels(0, end, dated, 8);
                assert!((1..=8).contains(&labels.len()), "{end}");
            }
            assert!(labels(4_294_967_290, 4_294_967_295, dated, 8).len() <= 8);
        }
    }
}
