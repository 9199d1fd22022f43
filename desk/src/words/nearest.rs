//! The known word that is nearest to a typed one.

/// The nearest of some words, if at most half of its letters are others, missing or too much.
pub fn nearest<'a>(typed: &str, words: &[&'a str]) -> Option<&'a str> {
    let typed = typed.trim().to_ascii_lowercase();
    let (steps, word) = words.iter().map(|word| (distance(&typed, word), *word)).min_by_key(|(steps, _)| *steps)?;
    (steps * 2 <= word.len()).then_some(word)
}

/// How many letters must be put in, taken out or changed to come from one word to another.
fn distance(from: &str, to: &str) -> usize {
    let (from, to): (Vec<char>, Vec<char>) = (from.chars().take(64).collect(), to.chars().collect());
    let mut row: Vec<usize> = (0..=to.len()).collect();
    for (i, a) in from.iter().enumerate() {
        let mut diagonal = row[0];
        row[0] = i + 1;
        for (j, b) in to.iter().enumerate() {
            let changed = diagonal + usize::from(a != b);
            diagonal = row[j + 1];
            row[j + 1] = changed.min(row[j] + 1).min(diagonal + 1);
        }
    }
    row[to.len()]
}

#[cfg(test)]
mod tests {
    use super::{distance, nearest};

    #[test]
    fn near_words_are_found_and_far_ones_are_not() {
        assert_eq!(distance("abs_volume", "abs_vol"), 3);
        assert_eq!((distance("", "abc"), distance("abc", ""), distance("abc", "abc")), (3, 3, 0));
        let kinds = ["rate_ntnl", "rate_vol", "abs_vol", "abs_ntnl"];
        assert_eq!(nearest("rate_ntl", &kinds), Some("rate_ntnl"));
        assert_eq!(nearest("ABS_VOL", &kinds), Some("abs_vol"));
        assert_eq!(nearest("absvol", &kinds), Some("abs_vol"));
        assert_eq!(nearest("abs_volume", &kinds), Some("abs_vol"));
        assert_eq!(nearest("volume", &kinds), None);
        assert_eq!(nearest("", &kinds), None);
    }
}
