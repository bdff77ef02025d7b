//! What the parts of a recipe are called.

use crate::files::{Loaded, Source};
use crate::readable;
use crate::table::{FIRST_SHARED, PARAMETER};
use crate::words::quoted;

/// The names that a text gives: none where there is no text, or one in the table's own notation.
#[derive(Default)]
pub struct Called<'l> {
    source: Option<&'l Source>,
    /// The names of the procedures, in their order.
    procedures: Vec<String>,
}

impl<'l> Called<'l> {
    pub fn of(loaded: &'l Loaded) -> Called<'l> {
        let source = loaded.source.as_ref();
        let procedures = source.map_or(Vec::new(), |source| readable::procedures(&source.text));
        Called { source, procedures }
    }

    /// The names of the procedures, in their order.
    pub fn procedures(&self) -> &[String] {
        &self.procedures
    }

    /// A procedure, by its name or number.
    pub fn procedure(&self, number: usize) -> String {
        self.procedures.get(number).map_or(format!("procedure {number}"), |name| quoted(name))
    }

    /// A variable or valve, by its name or number, or the parameter.
    pub fn variable(&self, name: u8) -> String {
        let own = self.source.and_then(|source| source.variables.get(&name));
        match (own, name) {
            (_, PARAMETER) => "its parameter".to_string(),
            (Some(own), _) => quoted(own),
            (None, 0..FIRST_SHARED) if !self.procedures.is_empty() => quoted(&format!("valve{name}")),
            (None, _) => format!("variable {name}"),
        }
    }

    /// A record, by its line where there is a text.
    pub fn place(&self, record: usize) -> String {
        let at = self.source.and_then(|source| source.records.get(record)).map(|placed| placed.at);
        at.map_or(format!("record {record}"), |at| format!("line {}", at.line))
    }
}
