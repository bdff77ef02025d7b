//! The rows "From the trial press".

use super::Suite;
use crate::block::{fresh, log, old, BLOCK};
use crate::records::{constant, one, procedure, set, table, Part, Row};

pub const A: [Row; 9] = [
    (1, 0, 5, 0),
    (6, 8, 1, 1),
    (9, 0, 0, 5),
    (8, 8, 0, 0),
    (3, 0, 1, 0),
    (9, 0, 0, 1),
    (1, 0, 2, 0),
    (3, 1, 1, 0),
    (10, 64, 0, 0),
];

pub const B: [Row; 6] = [(1, 0, 3, 0), (6, 8, 1, 1), (9, 0, 0, 0), (8, 8, 0, 0), (1, 0, 1, 0), (7, 0, 0, 0)];

pub const C: [Row; 2] = [(1, 0, 1, 0), (8, 8, 0, 0)];

pub const D: [Row; 4] = [(1, 0, 3, 0), (3, 8, 1, 0), (9, 0, 0, 1), (8, 8, 0, 0)];

pub const E: [Row; 1] = [(1, 0, 0, 0)];

pub const F: [Row; 6] = [(1, 0, 4, 0), (5, 0, 3, 0), (9, 0, 0, 1), (6, 8, 1, 1), (9, 0, 0, 0), (1, 0, 0, 0)];

/// "F with a suspend after the spawn (spans one greater)."
pub const SPENT: [Row; 7] =
    [(1, 0, 5, 0), (5, 0, 4, 0), (9, 0, 0, 1), (6, 8, 1, 1), (9, 0, 0, 0), (7, 0, 0, 0), (1, 0, 0, 0)];

/// A procedure of skips, as many records as asked for in all.
pub fn skips(records: usize) -> Part {
    let mut rows = vec![(1, 0, (records - 1) as u16, 0)];
    rows.resize(records, (2, 0, 0, 0));
    rows
}

/// Negations around a constant, as many records as asked for in all.
fn negations(records: usize) -> Part {
    (1..records).fold(constant(1), |operand, _| one(0, operand))
}

/// "32,768 bytes can pass, 32,776 give 11. Depth 16 passes, 17 gives 16."
pub fn lengths_and_depths(suite: &mut Suite) {
    for rows in [skips(4_096), skips(4_097)] {
        suite.start(&table(&rows), old(BLOCK));
    }
    for depth in [16, 17] {
        suite.start(&table(&procedure(&[set(8, negations(depth - 1))])), old(BLOCK));
    }
}

/// "'Spent' after 393,205 steps, added up over calls": over full logs, and over pauses.
pub fn spent(suite: &mut Suite) {
    suite.run_on(&table(&SPENT), u32::MAX, vec![0; 800]);
    suite.run_on(&table(&SPENT), 1_000, vec![0; 4_096]);
}

/// Rows A to F with budgets up to one past their steps, with logs up to 17 bytes past their records (the first ones and
/// the last ones), and over calls of all sorts.
pub fn budgets_and_logs(suite: &mut Suite) {
    let rows: [(&[Row], u32, usize); 6] = [(&A, 8, 8), (&B, 9, 9), (&C, 3, 3), (&D, 2, 1), (&E, 1, 1), (&F, 63, 31)];
    for (rows, steps, records) in rows {
        let table = table(rows);
        suite.start(&table, old(BLOCK));
        let budgets = (0..=steps + 1).filter(|budget| *budget < 12 || *budget > steps - 3);
        for budget in budgets.chain([0x8000_0000, u32::MAX]) {
            suite.run(&table, fresh(), budget, log(400));
        }
        let lengths = (0..=8 * records + 17).filter(|length| *length < 66 || *length > 8 * records - 10);
        for length in lengths.filter(|length| matches!(length % 8, 0 | 1 | 7)) {
            suite.run(&table, fresh(), 10_000, log(length));
        }
        for (budget, length) in [(1, 8), (1, 9), (2, 8), (2, 400), (3, 16), (5, 23), (7, 24), (63, 64), (u32::MAX, 8)] {
            suite.run_on(&table, budget, log(length));
        }
    }
    for (budget, length) in [(0, 0), (1, 7), (1, 8), (2, 15), (2, 16), (4, 17), (4, 24), (8, 63), (8, 64)] {
        suite.run(&table(&B), fresh(), budget, log(length));
    }
    for (budget, length) in [(5, 24), (6, 4_096), (77, 4_095), (4_096, 2_048)] {
        suite.run_on(&table(&SPENT), budget, log(length));
    }
}
