//! Numbers as they are written: digits, and perhaps a unit of time.

/// The minutes of a unit: 30D is 30 days.
fn minutes(unit: char) -> Option<i64> {
    match unit {
        'm' => Some(1),
        'h' => Some(60),
        'D' => Some(24 * 60),
        'W' => Some(7 * 24 * 60),
        'M' => Some(30 * 24 * 60),
        'Y' => Some(365 * 24 * 60),
        _ => None,
    }
}

/// The number that a word stands for, held at the end of 64 bits; or what is wrong with the word.
pub fn number(word: &str) -> Result<i64, String> {
    let end = word.find(|c: char| !c.is_ascii_digit()).unwrap_or(word.len());
    let (digits, unit) = word.split_at(end);
    if digits.is_empty() {
        return Err(format!("`{word}` is no number"));
    }
    let mut letters = unit.chars();
    let minutes = match (letters.next(), letters.next()) {
        (None, _) => Some(1),
        (Some(letter), None) => minutes(letter),
        _ => None,
    };
    let minutes = minutes.ok_or_else(|| format!("`{unit}` is no unit of time: m, h, D, W, M and Y are"))?;
    Ok(digits.parse().unwrap_or(i64::MAX).saturating_mul(minutes))
}

#[cfg(test)]
mod tests {
    use super::number;

    #[test]
    fn units() {
        let known = [("0", 0), ("240", 240), ("5m", 5), ("12h", 720), ("30D", 43_200), ("2W", 20_160)];
        for (word, expected) in known.into_iter().chain([("1M", 43_200), ("1Y", 525_600)]) {
            assert_eq!(number(word), Ok(expected), "{word}");
        }
    }

    #[test]
    fn what_is_no_number() {
        assert_eq!(number("30d"), Err("`d` is no unit of time: m, h, D, W, M and Y are".into()));
        assert_eq!(number("1Dx"), Err("`Dx` is no unit of time: m, h, D, W, M and Y are".into()));
        assert_eq!(number("x"), Err("`x` is no number".into()));
    }

    #[test]
    fn great_numbers_are_held() {
        assert_eq!(number("99999999999999999999999"), Ok(i64::MAX));
        assert_eq!(number("9223372036854775807D"), Ok(i64::MAX));
    }
}
