//! The bodies that indentation makes, and the faults of lines that fit into none.
//!
//! A wrong indentation of a body is told once, and no body ends at such a line: those behind it that fit are not at
//! fault.

use std::cmp::Ordering;
use std::mem;

use crate::source::{Fault, Position};
use crate::table::Placed;

/// The body of a procedure, an if, a while, or a line at fault that may have one; it may still grow.
#[derive(Debug)]
struct Body {
    /// The record that it belongs to; a line at fault may have none, and gives no table.
    header: usize,
    /// Its lines have more spaces than this.
    indent: usize,
    /// The spaces of its lines, once the first is known.
    lines: Option<usize>,
    /// Other spaces, which were told to be wrong.
    wrong: Option<usize>,
    /// Whether it was told that it is too deep here.
    deep: bool,
}

#[derive(Debug, Default)]
pub struct Bodies {
    open: Vec<Body>,
    /// Whether it was told that statements stand outside of the procedure at hand.
    outside: bool,
    /// Whether tabs leave it open which body the next line belongs to.
    lost: bool,
    /// Whether some line fits into no body.
    bent: bool,
}

impl Bodies {
    /// How many bodies the line at hand stands in; the least where a wrong indentation leaves that open.
    pub fn depth(&self) -> usize {
        if self.bent {
            self.open.len().min(1)
        } else {
            self.open.len()
        }
    }

    /// Begins a procedure's body; those before it have ended.
    pub fn begin_procedure(&mut self, header: usize) {
        self.outside = false;
        self.begin(header, 0);
    }

    /// Begins the body of a line with this indentation.
    pub fn begin(&mut self, header: usize, indent: usize) {
        if self.open.len() > 1 {
            // Passed by, it has ended without a line; so their number keeps to that of the indentations.
            self.open.pop_if(|body| body.lines.is_none());
        }
        let around = self.open.last();
        let deep = around.is_some_and(|body| body.deep);
        // A line with too many spaces may have its body where it would be due.
        let due = around.and_then(|body| body.lines).unwrap_or(indent);
        self.open.push(Body { header, indent: indent.min(due), lines: None, wrong: None, deep });
    }

    /// Ends all bodies but the first ones: the spans of their headers are known.
    pub fn end(&mut self, left: usize, records: &mut [Placed]) {
        let count = records.len();
        for body in self.open.drain(left.min(self.open.len())..) {
            if let Some(header) = records.get_mut(body.header) {
                // The table's length keeps it within the field.
                let enclosed = count.saturating_sub(body.header + 1);
                header.record.span = u16::try_from(enclosed).unwrap_or(u16::MAX);
            }
        }
    }

    /// Finds the body that a line of this indentation belongs to, and ends those within it.
    pub fn fit(&mut self, indent: usize, at: Position, records: &mut [Placed]) -> Result<(), Fault> {
        let fits = |body: &Body| {
            body.lines.map_or(indent > body.indent, |lines| indent == lines || Some(indent) == body.wrong)
        };
        let Some(index) = self.open.iter().rposition(fits) else {
            return self.misfit(indent, at);
        };
        self.end(index + 1, records);
        if let Some(body) = self.open.last_mut() {
            self.lost &= Some(indent) == body.wrong;
            body.lines.get_or_insert(indent);
        }
        Ok(())
    }

    /// The fault of a line that fits into no body; none where it was told.
    fn misfit(&mut self, indent: usize, at: Position) -> Result<(), Fault> {
        self.bent = true;
        let lost = self.lost;
        let around = self.open.iter_mut().rev().find(|body| body.indent < indent);
        let Some((body, lines)) = around.and_then(|body| body.lines.map(|lines| (body, lines))) else {
            let told = mem::replace(&mut self.outside, true) || lost;
            let sentence = "bad indentation: a statement must be indented under a procedure";
            return if told { Ok(()) } else { Err(Fault::new(at, sentence)) };
        };
        body.wrong = Some(indent);
        if lost {
            return Ok(());
        }
        let end = match indent.cmp(&lines) {
            Ordering::Greater => ", and the statement before has no body",
            _ => "",
        };
        Err(Fault::new(at, format!("bad indentation: the lines of this body have {lines} spaces{end}")))
    }

    /// The fault of a line that begins with a tab.
    pub fn tab(&mut self, at: Position) -> Fault {
        self.lost = true;
        self.bent = true;
        Fault::new(at, "bad indentation: it must be of spaces, and this is a tab")
    }

    /// The fault of bodies that are nested too deep, told once of a body and what it holds.
    pub fn too_deep(&mut self, at: Position) -> Result<(), Fault> {
        let told = self.open.last_mut().is_some_and(|body| mem::replace(&mut body.deep, true));
        let sentence = "the depth is over 16 here: bodies and expressions count together; write the statements of an \
                        inner body as a procedure, spawn it and await it";
        if told {
            Ok(())
        } else {
            Err(Fault::new(at, sentence))
        }
    }
}
