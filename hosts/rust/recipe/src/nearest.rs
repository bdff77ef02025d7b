//! The name that a misspelt one was meant to be.

use std::mem;

use crate::words::quoted;

/// Longer names are not compared.
const LONGEST: usize = 40;

/// The end of a sentence on a name that is not known: the nearest of those that can stand there, else the other ending.
pub fn hint<'n>(word: &str, names: impl IntoIterator<Item = &'n str>, otherwise: &str) -> String {
    nearest(word, names).map_or(otherwise.to_string(), question)
}

/// The end of such a sentence where the name meant is known.
pub fn question(name: &str) -> String {
    format!("; did you mean {}?", quoted(name))
}

/// The nearest of some names, the first of those equally near; none where none is near enough to be meant.
pub fn nearest<'n>(word: &str, names: impl IntoIterator<Item = &'n str>) -> Option<&'n str> {
    let letters = folded(word)?;
    let near = |name: &'n str| {
        let length = name.chars().take(LONGEST + 1).count();
        let most = letters.len().max(length) / 3;
        // A difference in length alone is a distance.
        Some(letters.len().abs_diff(length)).filter(|difference| *difference <= most)?;
        distance(&letters, &folded(name)?, most).map(|distance| (distance, name))
    };
    names.into_iter().filter_map(near).min_by_key(|(distance, _)| *distance).map(|(_, name)| name)
}

/// The letters of a name, none for a long one; a capital is no mistake to speak of.
fn folded(name: &str) -> Option<Vec<char>> {
    let letters: Vec<char> = name.chars().take(LONGEST + 1).flat_map(char::to_lowercase).collect();
    Some(letters).filter(|letters| letters.len() <= LONGEST)
}

/// How many letters to change, add, leave out or swap with the next lead from one word to the other; none over `most`.
fn distance(from: &[char], to: &[char], most: usize) -> Option<usize> {
    let mut above: Vec<usize> = Vec::new();
    let mut row: Vec<usize> = (0..=to.len()).collect();
    for index in 0..from.len() {
        let next = row_below(&above, &row, from.get(..=index).unwrap_or_default(), to);
        above = mem::replace(&mut row, next);
        // What follows from a row is no less, nor what is swapped across it.
        if row.iter().all(|distance| *distance > most) {
            return None;
        }
    }
    row.last().copied().filter(|distance| *distance <= most)
}

/// The distances of the beginnings of `to` from `from`; the rows above are those without its last letters.
fn row_below(above: &[usize], row: &[usize], from: &[char], to: &[char]) -> Vec<usize> {
    let at = |row: &[usize], index: usize| row.get(index).copied().unwrap_or(usize::MAX - 1);
    let mut next = vec![from.len()];
    for (index, letter) in to.iter().enumerate() {
        let changed = at(row, index) + usize::from(from.last() != Some(letter));
        let added = at(row, index + 1).min(at(&next, index)) + 1;
        let swapped = match (from, to.get(..=index)) {
            ([.., a, b], Some([.., c, d])) if (a, b) == (d, c) => at(above, index.saturating_sub(1)) + 1,
            _ => usize::MAX,
        };
        next.push(changed.min(added).min(swapped));
    }
    next
}

#[cfg(test)]
mod tests {
    use super::*;

    #[test]
    fn distances_count_letters() {
        let between = |a: &str, b: &str, most| distance(&folded(a).unwrap(), &folded(b).unwrap(), most);
        for (a, b, due) in [
            ("", "", 0),
            ("", "abc", 3),
            ("presure", "pressure", 1),
            ("wihle", "while", 1),
            ("ca", "abc", 3),
            ("Await", "await", 0),
            ("kitten", "sitting", 3),
        ] {
            for most in 0..9 {
                let due = Some(due).filter(|due| *due <= most);
                assert_eq!((between(a, b, most), between(b, a, most)), (due, due), "{a} {b} {most}");
            }
        }
    }

    #[test]
    fn only_what_is_near_is_meant() {
        let names = ["pressure", "press", "x", "valve0"];
        for (word, due) in [
            ("presure", Some("pressure")),
            ("pres", Some("press")),
            ("vavle0", Some("valve0")),
            ("y", None),
            ("sensors", None),
            ("", None),
        ] {
            assert_eq!(nearest(word, names), due, "{word}");
        }
        assert_eq!(nearest("v1", ["v0", "v2"]), None);
        assert_eq!(nearest("v11", ["v10", "v12"]), Some("v10"));
        let long = "x".repeat(1 << 20);
        assert_eq!(nearest(&long, [&*long, "x"]), None);
        assert_eq!(hint("pres", names, ""), "; did you mean \"press\"?");
        assert_eq!(hint("other", names, ": declare it"), ": declare it");
    }
}
