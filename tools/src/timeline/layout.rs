//! Where things stand: times across, rows down, and how wide a text is.

/// The picture's width, and the columns where its times begin and end.
pub const WIDTH: i64 = 960;
pub const LEFT: i64 = 112;
pub const RIGHT: i64 = 840;
/// Texts may go on to here.
pub const EDGE: i64 = WIDTH - 12;
/// The width of a character of a label; a little more than it is, so that texts never touch.
const CHARACTER: i64 = 7;
/// What is left free between two things in a row.
const GAP: i64 = 8;

/// Minutes to columns.
pub struct Scale {
    pub start: i64,
    pub end: i64,
}

impl Scale {
    /// The column of a time; those beyond the ends are held there.
    pub fn x(&self, time: i64) -> i64 {
        let (time, whole) = (time.clamp(self.start, self.end), (self.end - self.start).max(1));
        let across = i128::from(time - self.start) * i128::from(RIGHT - LEFT) / i128::from(whole);
        LEFT + i64::try_from(across).unwrap_or(0)
    }
}

/// The columns that a text takes.
pub fn width(text: &str) -> i64 {
    text.chars().map(|character| if is_wide(character) { 2 * CHARACTER } else { CHARACTER }).sum()
}

/// Whether a character is as wide as two, as those of East Asia are.
fn is_wide(character: char) -> bool {
    matches!(character, '\u{1100}'..='\u{115f}' | '\u{2e80}'..='\u{ffdc}' | '\u{1f000}'..)
}

/// The text, or as much of its beginning as fits with a sign that something is missing.
pub fn clipped(text: &str, most: i64) -> String {
    if width(text) <= most {
        return text.to_string();
    }
    let mut kept = String::new();
    for character in text.chars() {
        if width(&kept) + width("…") + width(character.encode_utf8(&mut [0; 4])) > most {
            break;
        }
        kept.push(character);
    }
    kept.trim_end().to_string() + "…"
}

/// What a thing takes across, its text included.
#[derive(Clone, Copy)]
pub struct Span {
    pub from: i64,
    pub to: i64,
}

impl Span {
    /// From a column on; moved to the left where it would leave the picture.
    pub fn starting(from: i64, width: i64) -> Span {
        let from = from.min(EDGE - width).max(LEFT);
        Span { from, to: from + width }
    }

    /// To the right of a column, or to its left where it would leave the picture.
    pub fn beside(column: i64, width: i64) -> Span {
        let from = if column + width <= EDGE { column } else { column - width };
        Span { from, to: from + width }
    }

    pub fn with(self, other: Span) -> Span {
        Span { from: self.from.min(other.from), to: self.to.max(other.to) }
    }
}

/// A row for each span, so that those of one row do not touch: the first where there is room.
pub fn rows(spans: &[Span]) -> Vec<usize> {
    let mut order: Vec<usize> = (0..spans.len()).collect();
    order.sort_by_key(|index| (spans[*index].from, *index));
    let mut ends: Vec<i64> = Vec::new();
    let mut rows = vec![0; spans.len()];
    for index in order {
        let span = spans[index];
        let free = ends.iter().position(|end| end + GAP <= span.from);
        rows[index] = free.unwrap_or(ends.len());
        match free {
            Some(row) => ends[row] = span.to,
            None => ends.push(span.to),
        }
    }
    rows
}

#[cfg(test)]
mod tests {
    use super::*;

    #[test]
    fn spans_of_a_row_do_not_touch() {
        let spans: Vec<Span> = (0..200).map(|n| Span::starting((n * 7919) % 840 + LEFT, 20 + n % 90)).collect();
        let rows = rows(&spans);
        for one in 0..spans.len() {
            for other in 0..one {
                let apart = spans[one].to + GAP <= spans[other].from || spans[other].to + GAP <= spans[one].from;
                assert!(rows[one] != rows[other] || apart, "{one} {other}");
            }
        }
    }

    #[test]
    fn long_texts_are_clipped() {
        assert_eq!(clipped("Harvested", 70), "Harvested");
        assert_eq!(clipped("Harvested", 56), "Harvest…");
        assert_eq!(clipped("Ernte am Abend", 50), "Ernte…");
        assert_eq!(clipped("\u{6536}\u{7a6b}\u{6536}\u{7a6b}", 42), "\u{6536}\u{7a6b}…");
    }

    #[test]
    fn times_beyond_the_ends_are_held() {
        let scale = Scale { start: 100, end: 200 };
        assert_eq!((scale.x(50), scale.x(100), scale.x(200), scale.x(i64::MAX)), (LEFT, LEFT, RIGHT, RIGHT));
    }
}
