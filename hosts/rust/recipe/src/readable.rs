//! The readable notation: procedures, statements and bodies by indentation.
//!
//! A line at fault is told and the next one read, in such a way that it has no fault on the first one's account.

use std::mem;

use crate::bodies::Bodies;
use crate::expression;
use crate::lexer::{lines, Cursor, Line};
use crate::names::{Names, ANY_PARAMETER, DEFAULT_PARAMETER};
use crate::nearest::question;
use crate::outline::{keywords, outline, reads, Start, STATEMENTS};
use crate::source::{Fault, Faults, Position};
use crate::table::{kind, Assembled, Placed, Record, DEPTH, FIRST_SHARED, RECORDS};
use crate::tree::Tree;
use crate::words::quoted;

/// The records of a text and its warnings.
pub fn parse(text: &str) -> Result<Assembled, Faults> {
    let lines = lines(text);
    let mut faults = Faults::new();
    let (names, starts) = outline(&lines, &mut faults);
    let mut assembler = Assembler { names, faults, ..Assembler::default() };
    for (line, start) in lines.iter().zip(starts) {
        assembler.line(line, start);
    }
    assembler.finish()
}

#[derive(Default)]
struct Assembler<'a> {
    names: Names<'a>,
    faults: Faults,
    records: Vec<Placed>,
    bodies: Bodies,
    /// Whether it was told that the records are too many.
    full: bool,
}

impl<'a> Assembler<'a> {
    fn finish(mut self) -> Result<Assembled, Faults> {
        self.bodies.end(0, &mut self.records);
        self.names.tell_misused(&mut self.faults);
        if self.faults.is_empty() && self.records.is_empty() {
            self.faults.push(Fault::new(Position::START, "the recipe has no procedure"));
        }
        if self.faults.is_empty() {
            let (warnings, variables) = (self.names.unused(), self.names.called());
            Ok(Assembled { records: self.records, warnings, variables })
        } else {
            Err(self.faults)
        }
    }

    /// Reads a line; what is wrong with it is told.
    fn line(&mut self, line: &Line<'a>, start: Start) {
        let keyword = start.keyword;
        let mut cursor = Cursor::new(line);
        let (at, header) = (cursor.at(), self.records.len());
        let first = cursor.word("a statement, \"procedure\" or \"variable\"");
        let stands = self.stand(line, keyword, at);
        let read = match keyword {
            Some("procedure") => self.procedure(start, &mut cursor, at),
            Some(keyword) if !start.faulty || reads(keyword) => self.statement(keyword, at, &mut cursor),
            _ => Ok(()),
        };
        match read {
            Err(_) if start.faulty => self.names.excuse(line.words()),
            // They may be of a statement that should have a line of its own.
            Err(_) => self.names.excuse(cursor.words()),
            Ok(()) => {}
        }
        let faulty = start.faulty || read.is_err();
        match first.err().or_else(|| misspelt(line, keyword)) {
            // What else is wrong with such a line is told when it is mended.
            Some(fault) => self.faults.push(fault),
            None => [stands, read].into_iter().filter_map(Result::err).for_each(|fault| self.faults.push(fault)),
        }
        self.bear(line, keyword, faulty, header);
    }

    /// Begins the body that a line has or may have.
    fn bear(&mut self, line: &Line, keyword: Option<&str>, faulty: bool, header: usize) {
        let is_header = keyword == Some("procedure");
        if faulty && !is_header && (line.indent == 0 || line.words().any(|word| word == "procedure")) {
            // It may have been a header, or hold one.
            self.names.enter(ANY_PARAMETER);
        }
        if line.tab.is_none() && (matches!(keyword, Some("if" | "while")) || (faulty && !is_header)) {
            self.bodies.begin(header, line.indent);
        }
    }

    /// Ends the bodies before a line and holds its indentation to the one that it stands in.
    fn stand(&mut self, line: &Line, keyword: Option<&str>, at: Position) -> Result<(), Fault> {
        let may_be_header = keyword.is_none_or(|word| !STATEMENTS.contains(&word)) && line.indent == 0;
        if keyword == Some("procedure") || (may_be_header && line.tab.is_none()) {
            self.bodies.end(0, &mut self.records);
        }
        if let Some(tab) = line.tab {
            return Err(self.bodies.tab(tab));
        }
        match keyword {
            Some("procedure" | "variable") if line.indent == 0 => Ok(()),
            Some(word @ ("procedure" | "variable")) => {
                Err(Fault::new(at, format!("bad indentation: a {word} begins without any")))
            }
            _ => self.bodies.fit(line.indent, at, &mut self.records),
        }
    }

    fn statement(&mut self, word: &str, at: Position, cursor: &mut Cursor<'a, '_>) -> Result<(), Fault> {
        match word {
            "skip" => self.plain(Record::new(kind::SKIP, 0, 0, 0), at, cursor),
            "suspend" => self.plain(Record::new(kind::SUSPEND, 0, 0, 0), at, cursor),
            "await" => {
                let (word, word_at) = cursor.word(VARIABLE)?;
                let name = self.names.read(word, word_at)?;
                self.plain(Record::new(kind::AWAIT, name, 0, 0), at, cursor)
            }
            "set" => {
                let (word, word_at) = cursor.word(VARIABLE)?;
                let name = self.names.variable(word, word_at)?;
                self.enclosing(Record::new(kind::SET, name, 0, 0), at, cursor)
            }
            "spawn" => self.spawn(at, cursor),
            "if" => self.enclosing(Record::new(kind::IF, 0, 0, 0), at, cursor),
            "while" => self.enclosing(Record::new(kind::WHILE, 0, 0, 0), at, cursor),
            "guard" => self.enclosing(Record::new(kind::GUARD, 0, 0, 0), at, cursor),
            // A declaration is read with the outline.
            _ => Ok(()),
        }
    }

    /// A header; what is wrong with it is told with the outline.
    fn procedure(&mut self, start: Start, cursor: &mut Cursor<'a, '_>, at: Position) -> Result<(), Fault> {
        let parameter = cursor.word("").and_then(|_| cursor.word(""));
        self.names.enter(match parameter {
            _ if start.faulty => ANY_PARAMETER,
            Ok((parameter, _)) => parameter,
            Err(_) => DEFAULT_PARAMETER,
        });
        let header = self.records.len();
        let pushed = self.push(Record::new(kind::PROCEDURE, 0, 0, 0), at, None);
        self.bodies.begin_procedure(header);
        pushed
    }

    fn spawn(&mut self, at: Position, cursor: &mut Cursor<'a, '_>) -> Result<(), Fault> {
        let (word, word_at) = cursor.word(VARIABLE)?;
        let name = self.names.variable(word, word_at)?;
        if self.names.is_procedure(word) {
            // The names may be the wrong way round. Procedures stay what they are, so that one such line is told.
            let others: Vec<_> = cursor.words().filter(|word| !self.names.is_procedure(word)).collect();
            self.names.excuse(others.into_iter());
            return Ok(());
        }
        if name < FIRST_SHARED {
            let sentence = "a spawn's number cannot go into a valve (variables 0 to 7)";
            return Err(Fault::new(word_at, sentence));
        }
        let (procedure, procedure_at) = cursor.word("the name of a procedure")?;
        let number = self.names.procedure(procedure, procedure_at);
        self.enclosing(Record::new(kind::SPAWN, name, 0, number), at, cursor)
    }

    /// A statement that the line ends with.
    fn plain(&mut self, record: Record, at: Position, cursor: &Cursor) -> Result<(), Fault> {
        cursor.finish()?;
        self.push(record, at, None)
    }

    /// A statement that encloses the expression at the cursor.
    fn enclosing(&mut self, record: Record, at: Position, cursor: &mut Cursor<'a, '_>) -> Result<(), Fault> {
        let from = cursor.at();
        let expression = expression::read(cursor, &mut self.names)?;
        cursor.finish()?;
        let Some(height) = DEPTH.checked_sub(self.bodies.depth() + 1) else {
            return self.bodies.too_deep(from);
        };
        let expression = expression.within(height, record.kind)?;
        let span = u16::try_from(expression.size()).unwrap_or(u16::MAX);
        self.push(Record { span, ..record }, at, Some(expression))
    }

    fn push(&mut self, record: Record, at: Position, expression: Option<Tree>) -> Result<(), Fault> {
        if self.bodies.depth() > DEPTH {
            return self.bodies.too_deep(at);
        }
        let size = 1 + expression.as_ref().map_or(0, Tree::size);
        if self.records.len() + size > RECORDS {
            let told = mem::replace(&mut self.full, true);
            let sentence = format!("the recipe is longer than {RECORDS} records from here on");
            return if told { Ok(()) } else { Err(Fault::new(at, sentence)) };
        }
        self.records.push(Placed { record, at });
        expression.iter().for_each(|expression| expression.write(&mut self.records));
        Ok(())
    }
}

/// The names of a text's procedures, in their order; none of a text in the table's own notation.
pub fn procedures(text: &str) -> Vec<String> {
    let lines = lines(text);
    let named = lines.iter().filter(|line| line.indent == 0).filter_map(|line| {
        let mut cursor = Cursor::new(line);
        cursor.accept("procedure").and_then(|_| cursor.word("").ok())
    });
    named.map(|(name, _)| name.to_string()).collect()
}

/// What is due where a statement names a variable.
const VARIABLE: &str = "the name of a variable";

/// The fault of a line whose first word is not the one that was meant, or none of the notation.
fn misspelt(line: &Line, keyword: Option<&str>) -> Option<Fault> {
    let mut cursor = Cursor::new(line);
    let (word, at) = cursor.word("").ok().filter(|(word, _)| keyword != Some(word))?;
    if let Some(fault) = cursor.assignment() {
        return Some(fault);
    }
    let sentence = match word {
        "else" if cursor.accept("if").is_none() => {
            "there is no \"else\": set a variable to the condition first, \"set c CONDITION\", then write \"if c\" and \
             \"if not c\"; a body may change what the condition reads"
                .to_string()
        }
        "else" | "elif" => {
            let shown = if word == "elif" { "\"elif\"" } else { "\"else if\"" };
            format!(
                "there is no {shown}: set a variable to the first condition, \"set c CONDITION\", then write \"if c\", \
                 and \"if not c\" with the next condition's if in its body"
            )
        }
        _ => {
            let due = || format!(": one of {} is due here", keywords().collect::<Vec<_>>().join(", "));
            format!("{} is no statement{}", quoted(word), keyword.map_or_else(due, question))
        }
    };
    Some(Fault::new(at, sentence))
}
