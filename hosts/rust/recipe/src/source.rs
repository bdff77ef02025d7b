//! Positions in a recipe's text, and the faults found there.

/// Lines of more characters than this are not shown with a fault.
const SHOWN: usize = 160;
/// So many faults of a text are told, the first by their places.
pub const TOLD: usize = 20;

/// A line and a column, both from 1; columns count characters.
#[derive(Clone, Copy, Debug, PartialEq, Eq, PartialOrd, Ord)]
pub struct Position {
    pub line: usize,
    pub column: usize,
}

/// Letters and signs that show as nothing.
const BLANK: [char; 5] = ['\u{115f}', '\u{1160}', '\u{2800}', '\u{3164}', '\u{ffa0}'];

/// Whether a character shows as nothing.
pub fn is_blank(c: char) -> bool {
    BLANK.contains(&c)
}

/// Whether a character is seen for what it is: no control or format character, no space but the usual one, and none
/// that is drawn onto the one before it.
pub fn is_plain(c: char) -> bool {
    // These are escaped for another reason.
    let is_quote = matches!(c, '"' | '\'' | '\\');
    (c.escape_debug().len() == 1 || is_quote) && !is_blank(c)
}

/// A character by its code, as `U+200B`.
pub fn code(c: char) -> String {
    format!("U+{:04X}", u32::from(c))
}

impl Position {
    pub const START: Position = Position { line: 1, column: 1 };
}

/// A fault of the text: where it is, and what it is in a sentence.
#[derive(Clone, Debug, PartialEq, Eq)]
pub struct Fault {
    pub at: Position,
    pub sentence: String,
}

impl Fault {
    pub fn new(at: Position, sentence: impl Into<String>) -> Fault {
        Fault { at, sentence: sentence.into() }
    }

    /// The fault with the file's name, the line itself and a mark under the column.
    pub fn show(&self, file: &str, text: &str) -> String {
        self.head(file) + &self.excerpt(text)
    }

    /// The fault with the file's name.
    pub fn head(&self, file: &str) -> String {
        let Position { line, column } = self.at;
        format!("{file}:{line}:{column}: {}", self.sentence)
    }

    /// The line at fault and a mark under the column, to go below the head; nothing where the line cannot be shown.
    pub fn excerpt(&self, text: &str) -> String {
        let Position { line, column } = self.at;
        match text.lines().nth(line.saturating_sub(1)) {
            Some(row) if !row.trim().is_empty() && row.chars().count() <= SHOWN => {
                // Others would move the mark away from its character, or turn the line round.
                let shown: String = row.chars().map(|c| if is_plain(c) { c } else { ' ' }).collect();
                format!("\n  {}\n  {}^", shown.trim_end(), " ".repeat(column.saturating_sub(1)))
            }
            _ => String::new(),
        }
    }
}

/// The faults of a text by their places: the first are kept, of the others the number.
#[derive(Clone, Debug, Default, PartialEq, Eq)]
pub struct Faults {
    told: Vec<Fault>,
    more: usize,
}

impl Faults {
    pub fn new() -> Faults {
        Faults::default()
    }

    pub fn push(&mut self, fault: Fault) {
        let Fault { at, sentence } = fault;
        self.add(at, || sentence);
    }

    /// Adds a fault; its sentence is made only where it is kept.
    pub fn add(&mut self, at: Position, sentence: impl FnOnce() -> String) {
        let place = self.told.partition_point(|other| other.at <= at);
        if place == TOLD {
            self.more += 1;
            return;
        }
        self.told.insert(place, Fault::new(at, sentence()));
        self.more += usize::from(self.told.len() > TOLD);
        self.told.truncate(TOLD);
    }

    pub fn is_empty(&self) -> bool {
        self.told.is_empty()
    }

    /// Those that are told.
    pub fn told(&self) -> &[Fault] {
        &self.told
    }

    /// How many more were found.
    pub fn more(&self) -> usize {
        self.more
    }

    /// Each fault with the file's name, its line and a mark, and how many more there are.
    pub fn show(&self, file: &str, text: &str) -> String {
        self.told.iter().map(|fault| fault.show(file, text)).chain(and_more(self.more)).collect::<Vec<_>>().join("\n")
    }

    /// The same without the text's lines; every line begins with the file's name.
    pub fn heads(&self, file: &str) -> String {
        let more = and_more(self.more).map(|more| format!("{file}: {more}"));
        self.told.iter().map(|fault| fault.head(file)).chain(more).collect::<Vec<_>>().join("\n")
    }
}

/// The line behind those that are told, where there are more.
pub fn and_more(more: usize) -> Option<String> {
    (more > 0).then(|| format!("... and {more} more"))
}

impl From<Fault> for Faults {
    fn from(fault: Fault) -> Faults {
        Faults { told: vec![fault], more: 0 }
    }
}

#[cfg(test)]
mod tests {
    use super::*;

    #[test]
    fn the_first_faults_are_kept_in_their_order() {
        let mut faults = Faults::new();
        for line in [9, 3, 3, 40, 2] {
            faults.push(Fault::new(Position { line, column: 1 }, format!("{line}")));
        }
        assert_eq!(faults.heads("f"), "f:2:1: 2\nf:3:1: 3\nf:3:1: 3\nf:9:1: 9\nf:40:1: 40");
        for line in 10..30 {
            faults.push(Fault::new(Position { line, column: 1 }, ""));
        }
        assert_eq!((faults.told().len(), faults.more()), (TOLD, 5));
        assert_eq!(faults.told().last().map(|fault| fault.at.line), Some(25));
        assert!(faults.show("f", "").ends_with("f:25:1: \n... and 5 more"));
        assert!(faults.heads("f").ends_with("f:25:1: \nf: ... and 5 more"));
    }

    #[test]
    fn a_fault_shows_its_line() {
        let fault = Fault::new(Position { line: 2, column: 5 }, "bad");
        assert_eq!(fault.show("f", "one\n\ttwo x\n"), "f:2:5: bad\n   two x\n      ^");
        assert_eq!(fault.show("f", "one\n"), "f:2:5: bad");
        assert_eq!(fault.show("f", "\na\u{202e}\u{200b}d\u{e9}"), "f:2:5: bad\n  a  d\u{e9}\n      ^");
    }

    #[test]
    fn characters_that_are_not_seen_are_known() {
        for c in ['a', 'Z', '~', ' ', '"', '\'', '\\', '\u{e4}', '\u{20ac}', '\u{4e2d}', '\u{1f600}'] {
            assert!(is_plain(c), "{c}");
        }
        for (c, shown) in [
            ('\0', "U+0000"),
            ('\r', "U+000D"),
            ('\u{7f}', "U+007F"),
            ('\u{85}', "U+0085"),
            ('\u{a0}', "U+00A0"),
            ('\u{ad}', "U+00AD"),
            ('\u{301}', "U+0301"),
            ('\u{200b}', "U+200B"),
            ('\u{200d}', "U+200D"),
            ('\u{202e}', "U+202E"),
            ('\u{2066}', "U+2066"),
            ('\u{2800}', "U+2800"),
            ('\u{3000}', "U+3000"),
            ('\u{3164}', "U+3164"),
            ('\u{e000}', "U+E000"),
            ('\u{fe0f}', "U+FE0F"),
            ('\u{feff}', "U+FEFF"),
            ('\u{e0041}', "U+E0041"),
        ] {
            assert_eq!((is_plain(c), &*code(c)), (false, shown));
        }
    }
}
