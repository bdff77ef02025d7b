//! The tokens of a line of the readable notation.

use std::borrow::Cow;

use crate::source::{code, is_blank, is_plain, Fault, Position};
use crate::words::quoted;

/// The signs of the notation.
const SIGNS: [&str; 12] = ["==", "<=", ">=", "!=", "+", "-", "*", "/", "<", ">", "(", ")"];

/// Signs of other notations, with the form to write instead.
#[rustfmt::skip]
const REFUSED: [(&str, &str); 33] = [
    ("=", "a single \"=\" has no meaning: equal is \"==\", and a set is \"set NAME EXPRESSION\""),
    (":=", "there is no \":=\": write \"set NAME EXPRESSION\""),
    ("+=", "there is no \"+=\": write \"set x x + y\""),
    ("-=", "there is no \"-=\": write \"set x x - y\""),
    ("*=", "there is no \"*=\": write \"set x x * y\""),
    ("/=", "there is no \"/=\": write \"set x x / y\", or \"a != b\" for unequal"),
    ("%=", "there is no \"%=\": write \"set x x - x / y * y\""),
    ("++", "there is no \"++\": write \"set x x + 1\""),
    ("%", "there is no \"%\": write the remainder of a / b as \"a - a / b * b\""),
    ("**", "there is no \"**\": write a power as a product, \"a * a\""),
    ("&&", "there is no \"&&\": write \"a and b\""),
    ("||", "there is no \"||\": write \"a or b\""),
    ("!", "there is no \"!\": write \"not\""),
    ("<>", "there is no \"<>\": write \"a != b\""),
    ("=<", "there is no \"=<\": write \"a <= b\""),
    ("=>", "there is no \"=>\": write \"a >= b\""),
    ("===", "there is no \"===\": write \"a == b\""),
    ("!==", "there is no \"!==\": write \"a != b\""),
    ("&", "there is no \"&\": write \"a and b\"; there are no operators on bits"),
    ("|", "there is no \"|\": write \"a or b\"; there are no operators on bits"),
    ("^", "there is no \"^\": write a power as a product, \"a * a\"; there are no operators on bits"),
    ("~", "there is no \"~\": write \"not\"; there are no operators on bits"),
    ("<<", "there is no \"<<\": write a product, \"a * 2\"; there are no operators on bits"),
    (">>", "there is no \">>\": write a quotient, \"a / 2\"; there are no operators on bits"),
    (";", "there is no \";\": a statement ends with its line, and the next one has a line of its own"),
    (":", "no \":\" is needed: the indentation tells what a body is"),
    ("{", "there is no \"{\": the indentation tells what a body is"),
    ("}", "there is no \"}\": the indentation tells what a body is"),
    ("//", "there is no \"//\": a quotient is \"a / b\", and a comment begins with \"#\""),
    ("/*", "there is no \"/*\": a comment begins with \"#\""),
    ("?", "there is no \"?\": set a variable in an if and, with not, in a second one"),
    (".", "there is no \".\": values are whole numbers"),
    (",", "there is no \",\": the parts of a statement are separated by spaces"),
];

/// Those that give the word before them a new value.
const ASSIGNMENTS: [&str; 8] = ["=", ":=", "+=", "-=", "*=", "/=", "%=", "++"];

#[derive(Clone, Copy, Debug, PartialEq, Eq)]
pub enum Token<'a> {
    Word(&'a str),
    /// Begins with a digit; whether it is a number in range is told where it is used.
    Number(&'a str),
    Sign(&'a str),
    /// A sign or character without a meaning, or a word with a character in it that does not show; told where the line
    /// cannot go on with it.
    Stray(&'a str),
}

impl<'a> Token<'a> {
    pub fn text(self) -> &'a str {
        match self {
            Token::Word(text) | Token::Number(text) | Token::Sign(text) | Token::Stray(text) => text,
        }
    }

    /// The word that it is, or is meant to be.
    fn word(self) -> Option<Cow<'a, str>> {
        match self {
            Token::Word(word) => Some(Cow::Borrowed(word)),
            Token::Stray(text) if text.contains(is_part) => Some(Cow::Owned(text.replace(is_hidden, ""))),
            _ => None,
        }
    }

    /// How many characters stand before the one that it is told for.
    fn before_fault(self) -> usize {
        match self {
            Token::Stray(text) => text.chars().position(is_hidden).unwrap_or_default(),
            _ => 0,
        }
    }
}

#[derive(Clone, Copy, Debug, PartialEq, Eq)]
pub struct Lexeme<'a> {
    pub token: Token<'a>,
    pub at: Position,
}

/// A line that is neither blank nor a comment alone.
#[derive(Debug)]
pub struct Line<'a> {
    /// The spaces before the first token.
    pub indent: usize,
    /// The first tab before the first token.
    pub tab: Option<Position>,
    pub lexemes: Vec<Lexeme<'a>>,
    /// The position behind the last token.
    pub end: Position,
}

impl<'a> Line<'a> {
    pub fn words(&self) -> impl Iterator<Item = Cow<'a, str>> + '_ {
        words(&self.lexemes)
    }
}

fn words<'a, 'l>(lexemes: &'l [Lexeme<'a>]) -> impl Iterator<Item = Cow<'a, str>> + 'l {
    lexemes.iter().filter_map(|lexeme| lexeme.token.word())
}

/// The lines of a text.
pub fn lines(text: &str) -> Vec<Line<'_>> {
    let codes = text.lines().map(|row| row.split('#').next().unwrap_or_default().trim_end());
    (1..).zip(codes).filter(|(_, code)| !code.is_empty()).map(|(number, code)| line(number, code)).collect()
}

fn line(number: usize, code: &str) -> Line<'_> {
    let blank = |c: char| c == ' ' || c == '\t';
    let at = |column| Position { line: number, column };
    let before = code.chars().take_while(|c| blank(*c)).collect::<String>();
    let tab = before.find('\t').map(|tab| at(tab + 1));
    let mut lexemes = Vec::new();
    let mut rest = code;
    let mut column = 1;
    while let Some(first) = rest.chars().next() {
        let mut width = first.len_utf8();
        if !blank(first) {
            let token = token(first, rest);
            lexemes.push(Lexeme { token, at: at(column + token.before_fault()) });
            width = token.text().len();
        }
        let (done, left) = rest.split_at_checked(width).unwrap_or((rest, ""));
        column += done.chars().count();
        rest = left;
    }
    Line { indent: before.chars().take_while(|c| *c == ' ').count(), tab, lexemes, end: at(column) }
}

fn token(first: char, rest: &str) -> Token<'_> {
    let cut = |length: usize| rest.get(..length).unwrap_or(rest);
    if is_part(first) || is_hidden(first) {
        let word = cut(rest.find(|c| !is_part(c) && !is_hidden(c)).unwrap_or(rest.len()));
        return match first {
            _ if word.contains(is_hidden) => Token::Stray(word),
            '0'..='9' => Token::Number(word),
            _ => Token::Word(word),
        };
    }
    let longest = |signs: &mut dyn Iterator<Item = &&str>| {
        signs.filter(|sign| rest.starts_with(**sign)).map(|sign| sign.len()).max().unwrap_or_default()
    };
    let read = longest(&mut SIGNS.iter());
    let refused = longest(&mut REFUSED.iter().map(|(sign, _)| sign));
    if read > refused {
        Token::Sign(cut(read))
    } else {
        Token::Stray(cut(refused.max(first.len_utf8())))
    }
}

fn is_part(c: char) -> bool {
    (c.is_alphabetic() && !is_blank(c)) || c.is_ascii_digit() || c == '_'
}

/// Whether a character does not show, so that a word with it looks like one without, or like another one.
fn is_hidden(c: char) -> bool {
    !is_part(c) && !is_plain(c) && !c.is_whitespace() && !c.is_control()
}

/// What is wrong with a sign or character without a meaning.
fn stray(text: &str) -> String {
    if let Some((_, sentence)) = REFUSED.iter().find(|(sign, _)| *sign == text) {
        return sentence.to_string();
    }
    match text.chars().find(|c| !is_plain(*c)) {
        Some(c @ '\r') => format!("the character {} cannot stand in a line: lines end with LF or CR LF", code(c)),
        Some(c) => format!("the character {} cannot stand in a recipe", code(c)),
        None => format!("the character \"{text}\" has no meaning here"),
    }
}

/// Walks over the tokens of a line.
#[derive(Clone, Debug)]
pub struct Cursor<'a, 'l> {
    lexemes: &'l [Lexeme<'a>],
    end: Position,
}

impl<'a, 'l> Cursor<'a, 'l> {
    pub fn new(line: &'l Line<'a>) -> Cursor<'a, 'l> {
        Cursor { lexemes: &line.lexemes, end: line.end }
    }

    pub fn peek(&self) -> Option<Lexeme<'a>> {
        self.lexemes.first().copied()
    }

    /// The position of the next token, or the line's end.
    pub fn at(&self) -> Position {
        self.peek().map_or(self.end, |lexeme| lexeme.at)
    }

    /// The words that are left.
    pub fn words(&self) -> impl Iterator<Item = Cow<'a, str>> + 'l {
        words(self.lexemes)
    }

    pub fn take(&mut self) -> Option<Lexeme<'a>> {
        let (first, rest) = self.lexemes.split_first()?;
        self.lexemes = rest;
        Some(*first)
    }

    /// Takes the next token if it has this text.
    pub fn accept(&mut self, text: &str) -> Option<Lexeme<'a>> {
        self.peek().filter(|lexeme| lexeme.token.text() == text)?;
        self.take()
    }

    /// Takes a word; `what` says in the fault what it would have been.
    pub fn word(&mut self, what: &str) -> Result<(&'a str, Position), Fault> {
        match self.peek() {
            Some(Lexeme { token: Token::Word(word), at }) => {
                self.take();
                Ok((word, at))
            }
            _ => Err(self.due(what)),
        }
    }

    /// Takes a number without sign.
    pub fn number(&mut self, what: &str) -> Result<(&'a str, Position), Fault> {
        match self.peek() {
            Some(Lexeme { token: Token::Number(digits), at }) => {
                self.take();
                Ok((digits, at))
            }
            _ => Err(self.due(what)),
        }
    }

    /// The fault that something is due at the next token.
    pub fn due(&self, what: &str) -> Fault {
        let sentence = match self.peek() {
            Some(Lexeme { token: Token::Stray(text), .. }) => stray(text),
            Some(lexeme) => format!("{what} is due here, not {}", quoted(lexeme.token.text())),
            None => format!("{what} is due here, and the line ends"),
        };
        Fault::new(self.at(), sentence)
    }

    /// Holds the line to its end.
    pub fn finish(&self) -> Result<(), Fault> {
        match self.peek() {
            Some(Lexeme { token: Token::Stray(text), at }) => Err(Fault::new(at, stray(text))),
            Some(Lexeme { token, at }) => {
                Err(Fault::new(at, format!("the line should end before {}", quoted(token.text()))))
            }
            None => Ok(()),
        }
    }

    /// The fault of a sign that in other notations gives the word before it a new value.
    pub fn assignment(&self) -> Option<Fault> {
        match self.lexemes {
            [Lexeme { token: Token::Stray(text), at }, ..] if ASSIGNMENTS.contains(text) => {
                Some(Fault::new(*at, stray(text)))
            }
            [Lexeme { token: Token::Sign("-"), at }, Lexeme { token: Token::Sign("-"), .. }] => {
                Some(Fault::new(*at, "there is no \"--\": write \"set x x - 1\""))
            }
            _ => None,
        }
    }
}

#[cfg(test)]
mod tests {
    use super::*;

    #[test]
    fn a_line_is_cut_into_tokens() {
        let lines = lines("\n  set größe -5==(x2)\t# a comment\r\n#only\n");
        assert_eq!(lines.len(), 1);
        assert_eq!((lines[0].indent, lines[0].tab), (2, None));
        let texts: Vec<_> = lines[0].lexemes.iter().map(|l| (l.token.text(), l.at.column)).collect();
        let due = [("set", 3), ("größe", 7), ("-", 13), ("5", 14), ("==", 15), ("(", 17), ("x2", 18), (")", 20)];
        assert_eq!(texts, due);
        assert_eq!(lines[0].end, Position { line: 2, column: 21 });
        assert_eq!(lines[0].words().collect::<Vec<_>>(), ["set", "größe", "x2"]);
    }

    #[test]
    fn of_signs_that_begin_alike_the_longest_is_taken() {
        let texts = |text| lines(text)[0].lexemes.iter().map(|l| l.token).collect::<Vec<_>>();
        let (sign, stray) = (Token::Sign, Token::Stray);
        assert_eq!(texts("<=<>=!=!"), [sign("<="), stray("<>"), stray("="), sign("!="), stray("!")]);
        assert_eq!(texts("***=-=--"), [stray("**"), stray("*="), stray("-="), sign("-"), sign("-")]);
        assert_eq!(texts("€\u{a0}a"), [stray("€"), stray("\u{a0}"), Token::Word("a")]);
        assert_eq!(texts("0x1F"), [Token::Number("0x1F")]);
        assert_eq!(texts("a\u{ad}b\u{ad} \u{feff}1+"), [stray("a\u{ad}b\u{ad}"), stray("\u{feff}1"), sign("+")]);
        let line = &lines("set a\u{ad}b\u{200b} c \u{ad}")[0];
        assert_eq!(line.lexemes[1].at.column, 6);
        assert_eq!(line.words().collect::<Vec<_>>(), ["set", "ab", "c"]);
    }

    #[test]
    fn stray_characters_are_told() {
        let fault = |text: &str| Cursor::new(&lines(text)[0]).finish().unwrap_err();
        assert!(fault("= b").sentence.contains("=="));
        assert!(fault("€").sentence.contains('€'));
        for hidden in ["\u{1}", "\r", "\u{a0}", "\u{ad}", "\u{301}", "\u{200b}", "\u{202e}", "\u{3164}", "\u{feff}"] {
            let shown = hidden.chars().map(code).collect::<String>();
            let sentence = fault(&format!("{hidden}a")).sentence;
            assert!(sentence.contains(&shown) && sentence.is_ascii(), "{sentence}");
        }
        assert!(REFUSED.iter().all(|(sign, _)| fault(sign).sentence.contains(sign)));
        assert_eq!(lines("a\n \tset")[1].tab, Some(Position { line: 2, column: 2 }));
    }
}
