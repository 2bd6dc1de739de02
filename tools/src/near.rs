//! The name that was perhaps meant.

/// No more names than this are looked at.
const MOST: usize = 1_000;

/// "; did you mean `..`?", or nothing where no known name is near.
pub fn did_you_mean<'k>(word: &str, known: impl IntoIterator<Item = &'k str>) -> String {
    nearest(word, known).map(|name| format!("; did you mean `{name}`?")).unwrap_or_default()
}

/// The known name with the fewest letters changed; the first of several.
pub fn nearest<'k>(word: &str, known: impl IntoIterator<Item = &'k str>) -> Option<&'k str> {
    let word: Vec<char> = word.to_lowercase().chars().collect();
    let most = slips(word.len());
    let name = |known: &&str| *known != "_";
    let measured = known.into_iter().take(MOST).filter(name).map(|name| (distance(&word, name, most), name));
    measured.filter(|(distance, _)| *distance <= most).min_by_key(|(distance, _)| *distance).map(|(_, name)| name)
}

/// How many letters of a word may be changed; in a short word another name is soon reached.
fn slips(length: usize) -> usize {
    match length {
        0..=2 => 0,
        3..=5 => 1,
        6..=30 => 2,
        // No slip of the hand, and long to measure.
        _ => 0,
    }
}

/// The letters to insert, leave out, change or swap with the next; capitals count as small ones.
fn distance(word: &[char], name: &str, most: usize) -> usize {
    let name: Vec<char> = name.to_lowercase().chars().collect();
    if word == name {
        return 0;
    }
    if word.len().abs_diff(name.len()) > most {
        return usize::MAX;
    }
    let mut rows = vec![(0..=name.len()).collect::<Vec<usize>>()];
    for i in 1..=word.len() {
        let mut row = vec![i];
        for j in 1..=name.len() {
            let changed = rows[i - 1][j - 1] + usize::from(word[i - 1] != name[j - 1]);
            let swapped = i > 1 && j > 1 && word[i - 1] == name[j - 2] && word[i - 2] == name[j - 1];
            let swap = if swapped { rows[i - 2][j - 2] + 1 } else { changed };
            row.push(changed.min(swap).min(rows[i - 1][j] + 1).min(row[j - 1] + 1));
        }
        rows.push(row);
    }
    rows[word.len()][name.len()]
}

#[cfg(test)]
mod tests {
    use super::*;

    #[test]
    fn slips_of_the_hand() {
        let known = ["Buyer", "Seller", "Bank", "_"];
        for (word, meant) in [
            ("buyer", Some("Buyer")),
            ("Bayer", Some("Buyer")),
            ("Byuer", Some("Buyer")),
            ("Selelr", Some("Seller")),
            ("Sellers", Some("Seller")),
            ("Bnk", Some("Bank")),
            ("C", None),
            ("Banker", Some("Bank")),
            ("Carrier", None),
            ("", None),
        ] {
            assert_eq!(nearest(word, known), meant, "{word}");
        }
        assert_eq!(did_you_mean("wher", ["where", "when"]), "; did you mean `where`?");
        assert_eq!(nearest(&"x".repeat(1_000_000), known), None);
    }
}
