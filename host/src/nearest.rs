//! The name that a misspelt one is next to.

/// The nearest of some names, the first of several, if it is no further than a letter in three, or it begins with the word.
pub fn nearest<'a>(word: &str, names: impl Iterator<Item = &'a str>) -> Option<&'a str> {
    let word = word.to_lowercase();
    let near = |name: &&str| changes(&word, name) <= word.chars().count().div_ceil(3) || (word.len() > 1 && name.starts_with(&word));
    names.filter(near).min_by_key(|name| changes(&word, name))
}

/// How many letters must be put in, left out, changed for another or for their neighbour to make one word of the other.
fn changes(from: &str, to: &str) -> usize {
    let (from, to): (Vec<char>, Vec<char>) = (from.chars().collect(), to.chars().collect());
    let (mut before, mut last): (Vec<usize>, Vec<usize>) = (Vec::new(), (0..=to.len()).collect());
    for row in 1..=from.len() {
        let mut next = vec![row];
        for column in 1..=to.len() {
            let other = usize::from(from[row - 1] != to[column - 1]);
            let mut least = (last[column - 1] + other).min(last[column] + 1).min(next[column - 1] + 1);
            if row > 1 && column > 1 && from[row - 1] == to[column - 2] && from[row - 2] == to[column - 1] {
                least = least.min(before[column - 2] + 1);
            }
            next.push(least);
        }
        (before, last) = (last, next);
    }
    last[to.len()]
}

#[cfg(test)]
mod distance {
    use super::*;

    #[test]
    fn letters_that_are_missing_added_changed_or_swapped_count_one_each() {
        for (from, to, count) in
            [("", "", 0), ("map", "map", 0), ("mp", "map", 1), ("maap", "map", 1), ("mop", "map", 1), ("amp", "map", 1), ("chek", "check", 1)]
        {
            assert_eq!((changes(from, to), changes(to, from)), (count, count), "{from} {to}");
        }
        assert_eq!(changes("records", "factor"), 5);
    }

    #[test]
    fn a_word_that_is_no_name_has_none_near() {
        assert_eq!(nearest("paint", ["point", "map"].into_iter()), Some("point"));
        assert_eq!(nearest("xyzzy", ["point", "map"].into_iter()), None);
    }
}
