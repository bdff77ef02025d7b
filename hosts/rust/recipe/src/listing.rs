//! From an accepted table to the readable notation.

use std::collections::BTreeSet;
use std::fmt::Write;

use recipe_runner::{Refusal, State};

use crate::expression::{level, OPERATORS};
use crate::names::DEFAULT_PARAMETER;
use crate::table::{decode, kind, split, unary, Record, FIRST_SHARED, PARAMETER};

/// The spaces of one level of indentation.
const INDENT: usize = 4;

/// The text of a table; it assembles to the same bytes.
pub fn list(table: &[u8]) -> Result<String, Refusal> {
    State::start(table)?;
    let records = decode(table);
    let mut text = declarations(&records);
    let mut rest: &[Record] = &records;
    let mut number = 0;
    while let Some((_, body, after)) = split(rest) {
        let gap = if text.is_empty() { "" } else { "\n" };
        // Writing to a string cannot fail.
        let _ = writeln!(text, "{gap}procedure {}", procedure(number));
        statements(&mut text, body, INDENT);
        number += 1;
        rest = after;
    }
    Ok(text)
}

/// Declares the shared variables in use, so that they keep their numbers.
fn declarations(records: &[Record]) -> String {
    let named = [kind::SET, kind::SPAWN, kind::AWAIT, kind::VARIABLE];
    let used: BTreeSet<u8> = records.iter().filter(|record| named.contains(&record.kind)).map(|r| r.name).collect();
    used.range(FIRST_SHARED..PARAMETER).map(|name| format!("variable {} {name}\n", variable(*name))).collect()
}

fn variable(name: u8) -> String {
    match name {
        PARAMETER => DEFAULT_PARAMETER.to_string(),
        0..FIRST_SHARED => format!("valve{name}"),
        _ => format!("v{name}"),
    }
}

fn procedure(number: i32) -> String {
    if number == 0 {
        "main".to_string()
    } else {
        format!("p{number}")
    }
}

fn statements(text: &mut String, body: &[Record], indent: usize) {
    if body.is_empty() {
        let _ = writeln!(text, "{:indent$}# nothing", "");
    }
    let mut rest = body;
    while let Some((record, inner, after)) = split(rest) {
        statement(text, record, inner, indent);
        rest = after;
    }
}

fn statement(text: &mut String, record: Record, inner: &[Record], indent: usize) {
    let word = record.word();
    let (operand, body) = expression(inner);
    let line = match record.kind {
        kind::SET => format!("set {} {}", variable(record.name), operand.text),
        kind::SPAWN => format!("spawn {} {} {}", variable(record.name), procedure(record.value), operand.text),
        kind::AWAIT => format!("await {}", variable(record.name)),
        kind::IF | kind::WHILE | kind::GUARD => format!("{word} {}", operand.text),
        _ => word.to_string(),
    };
    let _ = writeln!(text, "{:indent$}{line}", "");
    if record.kind == kind::IF || record.kind == kind::WHILE {
        statements(text, body, indent + INDENT);
    }
}

/// An expression's text and how tightly it binds.
#[derive(Default)]
struct Operand {
    text: String,
    binding: u8,
}

impl Operand {
    /// The text, in parentheses if it binds less tightly than `least`.
    fn within(self, least: u8) -> String {
        if self.binding < least {
            format!("({})", self.text)
        } else {
            self.text
        }
    }
}

/// The first expression of a part, and what follows it.
fn expression(part: &[Record]) -> (Operand, &[Record]) {
    let Some((record, inner, after)) = split(part) else {
        return (Operand::default(), &[]);
    };
    let operand = match record.kind {
        kind::CONSTANT => {
            let binding = if record.value < 0 { level::MINUS } else { level::OPERAND };
            Operand { text: record.value.to_string(), binding }
        }
        kind::VARIABLE => Operand { text: variable(record.name), binding: level::OPERAND },
        kind::UNARY => one_operand(record, inner),
        _ => two_operands(record, inner),
    };
    (operand, after)
}

fn one_operand(record: Record, inner: &[Record]) -> Operand {
    let (operand, _) = expression(inner);
    if record.name == unary::NOT {
        // Looser operands would do without parentheses; a reader is helped by them.
        let least = if operand.binding == level::NOT { level::NOT } else { level::MINUS };
        return Operand { text: format!("not {}", operand.within(least)), binding: level::NOT };
    }
    let text = match inner.first() {
        // A minus sign directly before a number would belong to the number.
        Some(first) if first.kind == kind::CONSTANT => format!("-({})", operand.text),
        _ => format!("-{}", operand.within(level::OPERAND)),
    };
    Operand { text, binding: level::MINUS }
}

fn two_operands(record: Record, inner: &[Record]) -> Operand {
    let (left, rest) = expression(inner);
    let (right, _) = expression(rest);
    let Some((sign, binding)) = OPERATORS.get(usize::from(record.name)).copied() else {
        return Operand::default();
    };
    // Operators group from the left; comparisons do not chain.
    let least = if binding == level::COMPARISON { binding + 1 } else { binding };
    let text = format!("{} {sign} {}", left.within(least), right.within(binding + 1));
    Operand { text, binding }
}
