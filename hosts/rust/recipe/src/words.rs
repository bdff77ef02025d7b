//! Parts of sentences.

/// Words of more characters than this are cut.
const QUOTED: usize = 40;

/// A word of the text in quotation marks, cut where it is long.
pub fn quoted(word: &str) -> String {
    if word.chars().count() <= QUOTED {
        format!("\"{word}\"")
    } else {
        let cut: String = word.chars().take(QUOTED).collect();
        format!("\"{cut}...\"")
    }
}

/// A count with its noun.
pub fn counted(count: usize, noun: &str) -> String {
    format!("{count} {noun}{}", if count == 1 { "" } else { "s" })
}

#[cfg(test)]
mod tests {
    use super::*;

    #[test]
    fn long_words_are_cut() {
        assert_eq!(quoted("valve"), "\"valve\"");
        assert_eq!(quoted(&"x".repeat(41)), format!("\"{}...\"", "x".repeat(40)));
    }

    #[test]
    fn nouns_follow_the_count() {
        assert_eq!([counted(1, "task"), counted(0, "task")], ["1 task", "0 tasks"]);
    }
}
