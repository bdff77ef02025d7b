//! What gives names in a text: headers, declarations, sets and spawns. It is gathered before the statements are read,
//! as names hold for the whole text.

use crate::expression;
use crate::lexer::{Cursor, Line};
use crate::names::{Names, DEFAULT_PARAMETER};
use crate::nearest::nearest;
use crate::source::{Fault, Faults, Position};

/// The words that a statement begins with.
pub const STATEMENTS: [&str; 8] = ["skip", "set", "if", "while", "spawn", "suspend", "await", "guard"];
const HEADERS: [&str; 2] = ["procedure", "variable"];

/// What a line is by its first word.
#[derive(Clone, Copy, Debug)]
pub struct Start {
    /// The word of the notation that the first one is, or was meant to be.
    pub keyword: Option<&'static str>,
    /// Whether the first word is another one, or the line is a header or declaration at fault.
    pub faulty: bool,
}

/// The word of the notation that a line's first one is, or was meant to be, and whether it is another one.
fn meant(word: &str) -> Start {
    let own = keywords().find(|known| *known == word);
    Start { keyword: own.or_else(|| nearest(word, keywords())), faulty: own.is_none() }
}

/// Whether a statement gives no name a meaning: what is misspelt so is still held to the statement's form.
pub fn reads(keyword: &str) -> bool {
    matches!(keyword, "if" | "while" | "guard" | "await")
}

/// All words that a line begins with.
pub fn keywords() -> impl Iterator<Item = &'static str> {
    STATEMENTS.into_iter().chain(HEADERS)
}

/// The names of a text, and what each line is by its first word. Faults of headers and declarations are told here.
pub fn outline<'a>(lines: &[Line<'a>], faults: &mut Faults) -> (Names<'a>, Vec<Start>) {
    let mut names = Names::new();
    let mut starts = Vec::with_capacity(lines.len());
    for line in lines {
        let mut cursor = Cursor::new(line);
        let mut start = cursor.word("").map_or(Start { keyword: None, faulty: true }, |(word, _)| meant(word));
        let entered = if start.faulty { Ok(()) } else { entry(start.keyword, &mut cursor, &mut names) };
        start.faulty |= entered.is_err();
        if start.faulty && !start.keyword.is_some_and(reads) {
            // What its words were meant to be is open.
            names.excuse(line.words());
        }
        entered.unwrap_or_else(|fault| faults.push(fault));
        starts.push(start);
    }
    names.enter(DEFAULT_PARAMETER);
    (names, starts)
}

/// Takes up what a line behind its first word gives a meaning. What is wrong with a statement is told when it is read.
fn entry<'a>(keyword: Option<&str>, cursor: &mut Cursor<'a, '_>, names: &mut Names<'a>) -> Result<(), Fault> {
    match (keyword, cursor.clone().word("")) {
        (Some("procedure"), _) => return header(cursor, names),
        (Some("variable"), _) => return declaration(cursor, names),
        (Some("set"), Ok((name, at))) => names.add_set(name, at),
        (Some("spawn"), Ok((name, at))) => names.add_spawned(name, at),
        _ => {}
    }
    Ok(())
}

fn header<'a>(cursor: &mut Cursor<'a, '_>, names: &mut Names<'a>) -> Result<(), Fault> {
    names.enter(DEFAULT_PARAMETER);
    let (name, at) = cursor.word("the procedure's name")?;
    let added = names.add_procedure(name, at);
    if cursor.peek().is_some() {
        let (parameter, at) = cursor.word("the parameter's name")?;
        names.add_parameter(parameter, at)?;
        names.enter(parameter);
    }
    added?;
    cursor.finish()
}

fn declaration<'a>(cursor: &mut Cursor<'a, '_>, names: &mut Names<'a>) -> Result<(), Fault> {
    let (name, at) = cursor.word("the variable's name")?;
    let (digits, digits_at) = cursor.number("the variable's number")?;
    names.add_variable(name, variable_number(digits, digits_at)?, at)?;
    cursor.finish()
}

fn variable_number(digits: &str, at: Position) -> Result<u8, Fault> {
    let number = expression::number(digits, at)?.and_then(|n| u8::try_from(n).ok()).filter(|n| *n < 64);
    number.ok_or_else(|| Fault::new(at, "number out of range: variables are 0 to 63"))
}
