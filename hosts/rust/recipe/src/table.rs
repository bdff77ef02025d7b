//! The records of a table.

use std::collections::BTreeMap;
use std::fmt;

use recipe_runner::{RECORD, TABLE};

use crate::source::{Faults, Position};

mod refusal;

pub use refusal::{describe, told};

/// The most records of a table.
pub const RECORDS: usize = TABLE / RECORD;
/// The most records that enclose one.
pub const DEPTH: usize = 16;
/// The name of the task's own parameter.
pub const PARAMETER: u8 = 64;
/// The first shared variable that is no valve.
pub const FIRST_SHARED: u8 = 8;

/// The kinds of record.
pub mod kind {
    pub const PROCEDURE: u8 = 1;
    pub const SKIP: u8 = 2;
    pub const SET: u8 = 3;
    pub const IF: u8 = 4;
    pub const WHILE: u8 = 5;
    pub const SPAWN: u8 = 6;
    pub const SUSPEND: u8 = 7;
    pub const AWAIT: u8 = 8;
    pub const CONSTANT: u8 = 9;
    pub const VARIABLE: u8 = 10;
    pub const BINARY: u8 = 11;
    pub const UNARY: u8 = 12;
    pub const GUARD: u8 = 13;
}

/// The operators of kind 12.
pub mod unary {
    pub const NEGATION: u8 = 0;
    pub const NOT: u8 = 1;
}

/// A record of a table, of any content.
#[derive(Clone, Copy, Debug, PartialEq, Eq)]
pub struct Record {
    pub kind: u8,
    pub name: u8,
    pub span: u16,
    pub value: i32,
}

impl Record {
    pub fn new(kind: u8, name: u8, span: u16, value: i32) -> Record {
        Record { kind, name, span, value }
    }

    pub fn from_bytes([kind, name, s0, s1, v0, v1, v2, v3]: [u8; RECORD]) -> Record {
        Record::new(kind, name, u16::from_le_bytes([s0, s1]), i32::from_le_bytes([v0, v1, v2, v3]))
    }

    pub fn to_bytes(self) -> [u8; RECORD] {
        let [s0, s1] = self.span.to_le_bytes();
        let [v0, v1, v2, v3] = self.value.to_le_bytes();
        [self.kind, self.name, s0, s1, v0, v1, v2, v3]
    }

    /// The kind in words.
    pub fn word(self) -> &'static str {
        match self.kind {
            kind::PROCEDURE => "procedure",
            kind::SKIP => "skip",
            kind::SET => "set",
            kind::IF => "if",
            kind::WHILE => "while",
            kind::SPAWN => "spawn",
            kind::SUSPEND => "suspend",
            kind::AWAIT => "await",
            kind::CONSTANT => "constant",
            kind::VARIABLE => "variable",
            kind::BINARY => "two operands",
            kind::UNARY => "one operand",
            kind::GUARD => "guard",
            _ => "no kind",
        }
    }

    /// What the grammar has a record of this kind for, if the kind is one.
    pub fn class(self) -> Option<&'static str> {
        match self.kind {
            kind::PROCEDURE => Some("a procedure"),
            kind::SKIP..=kind::AWAIT | kind::GUARD => Some("a statement"),
            kind::CONSTANT..=kind::UNARY => Some("an expression"),
            _ => None,
        }
    }
}

impl fmt::Display for Record {
    fn fmt(&self, f: &mut fmt::Formatter) -> fmt::Result {
        write!(f, "{}({},{},{})", self.kind, self.name, self.span, self.value)
    }
}

/// A record and where the text has it.
#[derive(Clone, Copy, Debug, PartialEq, Eq)]
pub struct Placed {
    pub record: Record,
    pub at: Position,
}

/// What a text without a fault gives.
#[derive(Clone, Debug, Default)]
pub struct Assembled {
    pub records: Vec<Placed>,
    pub warnings: Faults,
    /// What the text calls the shared variables, by their numbers; none in the table's own notation.
    pub variables: BTreeMap<u8, String>,
}

/// The bytes of a table.
pub fn encode(records: &[Placed]) -> Vec<u8> {
    records.iter().flat_map(|placed| placed.record.to_bytes()).collect()
}

/// The whole records of a table; up to 7 bytes after the last are left out.
pub fn decode(table: &[u8]) -> Vec<Record> {
    table.chunks_exact(RECORD).filter_map(|row| row.try_into().ok()).map(Record::from_bytes).collect()
}

/// The first record of a part, what it encloses and what follows it. A span over the part's end is cut there.
pub fn split(part: &[Record]) -> Option<(Record, &[Record], &[Record])> {
    let (first, rest) = part.split_first()?;
    let (inner, after) = rest.split_at_checked(usize::from(first.span)).unwrap_or((rest, &[]));
    Some((*first, inner, after))
}

/// The depth of each record: how many records enclose it.
pub fn depths(records: &[Record]) -> Vec<usize> {
    let mut ends: Vec<usize> = Vec::new();
    let mut depths = Vec::with_capacity(records.len());
    for (index, record) in records.iter().enumerate() {
        while ends.last().is_some_and(|end| *end <= index) {
            ends.pop();
        }
        depths.push(ends.len());
        let end = index + 1 + usize::from(record.span);
        // A span over the enclosing end is at fault; here it only must not outlive it.
        ends.push(ends.last().map_or(end, |outer| end.min(*outer)));
    }
    depths
}

/// Why a statement stops a run with "novalue".
pub const LACKING: &str = "the expression divides by 0 and has no value";

/// The ending "novalue" in words, with the statement's record.
pub fn describe_lacking(table: &[u8], place: u32) -> String {
    format!("novalue: {}{LACKING}", described(table, place))
}

/// A record of the table at the head of a sentence about it; nothing where there is none.
pub fn described(table: &[u8], place: u32) -> String {
    let record = decode(table).get(place as usize).copied();
    record.map_or(String::new(), |record| format!("record {place}, {record} ({}): ", record.word()))
}

#[cfg(test)]
mod tests {
    use super::*;

    #[test]
    fn records_keep_their_bytes() {
        let bytes = [11, 200, 1, 255, 254, 255, 255, 255];
        let record = Record::from_bytes(bytes);
        assert_eq!(record, Record::new(11, 200, 65281, -2));
        assert_eq!(record.to_bytes(), bytes);
        assert_eq!(record.to_string(), "11(200,65281,-2)");
    }

    #[test]
    fn depths_survive_spans_over_the_end() {
        let record = |span| Record::new(4, 0, span, 0);
        assert_eq!(depths(&[record(2), record(900), record(0), record(0)]), [0, 1, 2, 0]);
    }
}
