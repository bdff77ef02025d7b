//! Recipes as tables of records, put together statement by statement.

pub const PROCEDURE: u8 = 1;
pub const SKIP: u8 = 2;
pub const SET: u8 = 3;
pub const IF: u8 = 4;
pub const WHILE: u8 = 5;
pub const SPAWN: u8 = 6;
pub const SUSPEND: u8 = 7;
pub const AWAIT: u8 = 8;
pub const CONSTANT: u8 = 9;
pub const READ: u8 = 10;
pub const TWO: u8 = 11;
pub const ONE: u8 = 12;
pub const GUARD: u8 = 13;

/// The operator of kind 11 whose result may be missing.
pub const QUOTIENT: u8 = 3;

/// A table under construction, with the places that a task may stand at.
#[derive(Clone, Debug, Default)]
pub struct Recipe {
    pub table: Vec<u8>,
    /// The index of every statement and of the record after each procedure's last.
    pub places: Vec<u16>,
    /// The index of every await and guard.
    pub waits: Vec<u16>,
    /// The index of every expression's record.
    pub expressions: Vec<u16>,
    pub procedures: usize,
}

impl Recipe {
    pub fn new() -> Recipe {
        Recipe::default()
    }

    /// How many records there are.
    pub fn records(&self) -> usize {
        self.table.len() / 8
    }

    fn push(&mut self, kind: u8, name: u8, value: i32) -> usize {
        let at = self.records();
        match kind {
            PROCEDURE => self.procedures += 1,
            SKIP..=AWAIT | GUARD => self.places.push(at as u16),
            _ => self.expressions.push(at as u16),
        }
        if matches!(kind, AWAIT | GUARD) {
            self.waits.push(at as u16);
        }
        self.table.extend([kind, name, 0, 0]);
        self.table.extend(value.to_le_bytes());
        at
    }

    /// Adds a record that encloses nothing.
    pub fn leaf(&mut self, kind: u8, name: u8, value: i32) {
        self.push(kind, name, value);
    }

    /// Adds a record that encloses what `fill` adds.
    pub fn node(&mut self, kind: u8, name: u8, value: i32, fill: impl FnOnce(&mut Recipe)) {
        let at = self.push(kind, name, value);
        fill(self);
        let span = (self.records() - at - 1) as u16;
        self.table[8 * at + 2..8 * at + 4].copy_from_slice(&span.to_le_bytes());
        if kind == PROCEDURE {
            self.places.push(self.records() as u16);
        }
    }

    pub fn procedure(&mut self, fill: impl FnOnce(&mut Recipe)) {
        self.node(PROCEDURE, 0, 0, fill);
    }

    pub fn constant(&mut self, value: i32) {
        self.leaf(CONSTANT, 0, value);
    }

    pub fn read(&mut self, name: u8) {
        self.leaf(READ, name, 0);
    }

    /// An operator of kind 11 with its operands.
    pub fn two(&mut self, operator: u8, first: impl FnOnce(&mut Recipe), second: impl FnOnce(&mut Recipe)) {
        self.node(TWO, operator, 0, |r| {
            first(r);
            second(r);
        });
    }

    /// An endless loop.
    pub fn forever(&mut self, fill: impl FnOnce(&mut Recipe)) {
        self.node(WHILE, 0, 0, |r| {
            r.constant(1);
            fill(r);
        });
    }

    /// Spawns a procedure with a constant argument.
    pub fn spawn(&mut self, name: u8, procedure: i32, argument: i32) {
        self.node(SPAWN, name, procedure, |r| r.constant(argument));
    }
}
