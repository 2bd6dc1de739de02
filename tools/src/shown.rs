//! Pieces of an input as a message may show them.

use crate::fault::Place;

/// A line of a text is shown to this many columns around the place that is meant.
const WIDEST: usize = 120;

/// A piece of a text that is longer is cut.
const LONGEST_PIECE: usize = 50;

/// Characters that would not show as themselves: control characters, and those that turn or hide what follows.
fn is_hidden(c: char) -> bool {
    let turns = matches!(c, '\u{ad}' | '\u{61c}' | '\u{200b}'..='\u{200f}' | '\u{2028}'..='\u{202e}');
    c.is_control() || turns || matches!(c, '\u{2060}'..='\u{206f}' | '\u{feff}' | '\u{fff9}'..='\u{fffb}')
}

/// The same with hidden characters spelt out.
pub fn printable(text: &str) -> String {
    let spelt = |c: char| if is_hidden(c) { c.escape_default().to_string() } else { c.to_string() };
    text.chars().map(spelt).collect()
}

/// A piece of a text on one line, without its comments.
pub fn piece(text: &str) -> String {
    let lines = text.lines().map(|line| line.split("--").next().unwrap_or_default());
    let words: Vec<&str> = lines.flat_map(str::split_whitespace).collect();
    let line = words.join(" ");
    match line.char_indices().nth(LONGEST_PIECE) {
        None => line,
        Some((end, _)) => format!("{}..", &line[..end]),
    }
}

/// The line of a text, and below it a sign under the characters that are meant.
pub fn excerpt(text: &str, at: Place, length: usize) -> String {
    let line = text.lines().nth(at.line.saturating_sub(1)).unwrap_or_default();
    let mut columns: Vec<char> = line.chars().map(|c| if is_hidden(c) { ' ' } else { c }).collect();
    let mut column = at.column.saturating_sub(1).min(columns.len());
    // Of a long line the half before the place is shown, and the half after it.
    if columns.len() > WIDEST {
        let first = column.saturating_sub(WIDEST / 2);
        let end = (first + WIDEST).min(columns.len());
        let cut = |at: bool| if at { ".." } else { "" };
        let shown: String = columns[first..end].iter().collect();
        columns = format!("{}{shown}{}", cut(first > 0), cut(end < columns.len())).chars().collect();
        column = column - first + cut(first > 0).len();
    }
    let sign = "^".repeat(length.min(columns.len() - column).max(1));
    let (number, shown) = (at.line.to_string(), columns.into_iter().collect::<String>());
    let (margin, before) = (" ".repeat(number.len()), " ".repeat(column));
    format!("  {number} | {}\n  {margin} | {before}{sign}", shown.trim_end())
}

#[cfg(test)]
mod tests {
    use super::*;

    #[test]
    fn hidden_characters_are_spelt_out() {
        assert_eq!(printable("a\u{1b}[2Jb\u{7}\u{202e}é\t"), "a\\u{1b}[2Jb\\u{7}\\u{202e}é\\t");
    }

    #[test]
    fn pieces() {
        assert_eq!(piece("a  +\n  b -- why\n + c"), "a + b + c");
        assert_eq!(piece(&"x".repeat(51)), "x".repeat(50) + "..");
    }

    #[test]
    fn excerpts() {
        assert_eq!(excerpt("one\n\ttwo three", Place { line: 2, column: 6 }, 5), "  2 |  two three\n    |      ^^^^^");
        assert_eq!(excerpt("one", Place { line: 1, column: 4 }, 9), "  1 | one\n    |    ^");
        assert_eq!(excerpt("", Place { line: 1, column: 1 }, 1), "  1 | \n    | ^");
        let long = excerpt(&"word ".repeat(1_000), Place { line: 1, column: 4_001 }, 4);
        let (words, sign) = long.split_once('\n').expect("two lines");
        assert!(words.len() < 6 + WIDEST + 5 && words.starts_with("  1 | ..word") && words.ends_with(" .."), "{long}");
        assert_eq!((&words[sign.len() - 4..sign.len()], sign.trim_start_matches([' ', '|'])), ("word", "^^^^"));
    }
}
