//! What one maker's procedures do with names.

use std::collections::BTreeSet;

use super::{Maker, Procedure, Procedures};
use crate::table::{kind, Record, FIRST_SHARED};

/// The kinds of record that name a variable, a valve or the parameter.
const NAME: [u8; 4] = [kind::SET, kind::SPAWN, kind::AWAIT, kind::VARIABLE];
/// Those whose variable holds a task's number.
pub const HOLD: [u8; 2] = [kind::SPAWN, kind::AWAIT];

/// A maker, its procedures, and their records that name something, in the table's order.
pub struct Side<'r> {
    pub maker: Maker,
    pub procedures: &'r Procedures,
    records: Vec<(usize, Record)>,
}

impl<'r> Side<'r> {
    pub fn new(maker: Maker, procedures: &'r Procedures, records: &[Record], all: &[Procedure]) -> Side<'r> {
        let own = procedures.iter().filter_map(|number| all.get(*number)).flat_map(|own| own.body.clone());
        let records = own.filter_map(|index| Some((index, *records.get(index)?)));
        Side { maker, procedures, records: records.filter(|(_, record)| NAME.contains(&record.kind)).collect() }
    }

    /// The records of some kinds.
    pub fn uses<'k>(&'k self, kinds: &'k [u8]) -> impl Iterator<Item = (usize, Record)> + 'k {
        self.records.iter().copied().filter(|(_, record)| kinds.contains(&record.kind))
    }

    /// The first record of some kinds that has this name.
    fn first(&self, name: u8, kinds: &[u8]) -> Option<usize> {
        self.uses(kinds).find(|(_, record)| record.name == name).map(|(index, _)| index)
    }

    pub fn names(&self, name: u8) -> Option<usize> {
        self.first(name, &NAME)
    }

    pub fn sets(&self, name: u8) -> Option<usize> {
        self.first(name, &[kind::SET])
    }

    /// Where a name is first awaited or spawned into.
    pub fn holds(&self, name: u8) -> Option<usize> {
        self.first(name, &HOLD)
    }

    pub fn owns(&self, procedure: i32) -> bool {
        usize::try_from(procedure).is_ok_and(|number| self.procedures.contains(&number))
    }

    /// The valves that are named.
    pub fn valves(&self) -> BTreeSet<u8> {
        self.records.iter().map(|(_, record)| record.name).filter(|name| *name < FIRST_SHARED).collect()
    }
}
