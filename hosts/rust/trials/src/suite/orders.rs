//! Which fault decides: "the earliest faulty record decides, and within it 12 to 16 in order; 17 only when all records
//! pass", and the table before the block.

use super::rows::{skips, A};
use super::tables::{deep, holes, under};
use super::Suite;
use crate::block::{block, fresh, log, old, put, put_spawner, BLOCK, VARIABLES};
use crate::records::{
    constant, leaf, node, procedure, read, sample, set, skip, spawn, table, Part, Row, CONSTANT, IF, SET,
};

pub fn sweep(suite: &mut Suite) {
    within_a_record(suite);
    below_the_deepest(suite);
    two_records(suite);
    table_first(suite);
}

/// A record with some of its faults: bit 0 the kind, bit 1 the span, bit 2 the name, bit 3 the value. Spans end past the
/// table; a kind that is none is right nowhere.
fn fault(row: &mut Row, faults: u32) {
    if faults & 1 != 0 {
        row.0 = 14;
    }
    if faults & 2 != 0 {
        row.2 = 500;
    }
    if faults & 4 != 0 {
        row.1 = 65;
    }
    if faults & 8 != 0 {
        row.3 = 256;
    }
}

/// All ways of being at fault at once, for each kind.
fn within_a_record(suite: &mut Suite) {
    for (kind, faults) in (1..=13).flat_map(|kind| (1..16).map(move |faults| (kind, faults))) {
        let (at, hole) = holes(kind)[1];
        let mut rows = hole(sample(kind));
        fault(&mut rows[at], faults);
        suite.start(&table(&rows), old(BLOCK));
    }
}

/// The same at depth 17, where 16 comes last: the record is a set's expression, a test, or an operand.
fn below_the_deepest(suite: &mut Suite) {
    for (kind, faults) in (9..=12).flat_map(|kind| (0..16).map(move |faults| (kind, faults))) {
        let mut part = sample(kind);
        fault(&mut part[0], faults);
        // The enclosing spans are those of the part as it is, whatever the span that it says.
        let statements = [
            under(IF, 15, set(8, part.clone())),
            under(IF, 15, node(IF, 0, 0, &[part.clone(), skip()])),
            set(8, around(14, part)),
        ];
        for statement in statements {
            suite.start(&table(&procedure(&[statement])), old(BLOCK));
        }
    }
}

/// A part under as many negations.
fn around(levels: usize, part: Part) -> Part {
    (0..levels).fold(part, |operand, _| node(12, 0, 0, &[operand]))
}

/// A statement that gives the number, 12 to 17.
pub fn faulty(number: u32) -> Part {
    match number {
        12 => constant(0),
        13 => node(SET, 8, 0, &[]),
        14 => leaf(8, 65, 0),
        15 => leaf(2, 0, 1),
        16 => set(8, deep(0, 16)),
        _ => spawn(8, 9, constant(0)),
    }
}

/// Two faulty statements, each number before and after each other; a faulty record in one that is at fault too; a bad
/// spawn in a later procedure, and one after a procedure of all fine records.
fn two_records(suite: &mut Suite) {
    for first in 12..=17 {
        suite.both(&procedure(&[faulty(first)]));
        for second in 12..=17 {
            suite.both(&procedure(&[skip(), faulty(first), skip(), faulty(second)]));
            suite.both(&[procedure(&[faulty(first)]), procedure(&[faulty(second)])].concat());
        }
    }
    for (name, inner) in [(65, read(65)), (64, read(65)), (65, leaf(CONSTANT, 1, 0)), (8, leaf(CONSTANT, 1, 0))] {
        for statement in [set(name, inner.clone()), spawn(name, 256, inner.clone()), spawn(name, 7, inner)] {
            suite.both(&procedure(&[statement]));
        }
    }
    for value in [0, 1, 2, 3] {
        let bad = spawn(8, value, constant(0));
        let later = procedure(&[under(IF, 2, bad.clone()), bad.clone()]);
        suite.both(&[procedure(&[bad]), later].concat());
    }
}

/// Tables of every refusal on blocks that are at fault too, for start and run.
fn table_first(suite: &mut Suite) {
    let mut tables: Vec<Vec<u8>> = (12..=17).map(|number| table(&procedure(&[skip(), faulty(number)]))).collect();
    tables.extend([vec![], vec![1; 9], table(&skips(4_097))]);
    for table in tables {
        for block in blocks_at_fault() {
            suite.start(&table, block.clone());
            suite.run(&table, block, 10, log(16));
        }
        suite.run(&table, fresh(), 0, log(0));
    }
    for block in blocks_at_fault() {
        suite.start(&table(&A), block.clone());
        suite.run(&table(&A), block, 10, log(16));
    }
}

/// Blocks of another length, and with a fault in the first record, in a task's two and in an unused one.
pub fn blocks_at_fault() -> Vec<Vec<u8>> {
    let mut unused = fresh();
    put(&mut unused, VARIABLES - 1, &[1]);
    let mut spawned = fresh();
    put_spawner(&mut spawned, 1, 1);
    vec![
        vec![],
        fresh()[..BLOCK - 1].to_vec(),
        [fresh(), vec![0]].concat(),
        block(0, true, &[(1, 1, 0)], &[]),
        block(1, true, &[(1, 0, 0)], &[]),
        spawned,
        unused,
    ]
}
