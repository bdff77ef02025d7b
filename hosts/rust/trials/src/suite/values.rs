//! "Values": every operator on every pair of values at the edges, and where values go.

use super::Suite;
use crate::block::{block, fresh, log};
use crate::records::{constant, one, procedure, read, set, skip, spawn, suspend, table, test, two, Part, IF, WHILE};

/// The ends of the range, their neighbours, and small values of both signs.
pub const VALUES: [i32; 11] = [i32::MIN, i32::MIN + 1, -7, -2, -1, 0, 1, 2, 7, i32::MAX - 1, i32::MAX];

/// Values whose sums and products lie near the ends, and near those of 16 bits.
const NEAR: [i32; 12] = [46_340, 46_341, -46_340, -46_341, 65_535, 65_536, -65_536, 32_768, 1 << 30, -(1 << 30), 3, -3];

pub fn sweep(suite: &mut Suite) {
    for operator in 0..8 {
        pairs(suite, operator, &VALUES, &VALUES);
        pairs(suite, operator, &NEAR, &NEAR);
    }
    for operator in 0..2 {
        results(suite, VALUES.iter().chain(&NEAR).map(|&a| set(0, one(operator, constant(a)))).collect());
    }
    reads(suite);
    tests(suite);
    nested(suite);
    names(suite);
    arguments(suite);
}

/// One table: the sets of valves that have a value, and the log has them all. A set without a value would stop the run,
/// so it has a table of its own.
fn results(suite: &mut Suite, sets: Vec<Part>) {
    let (valued, lacking): (Vec<Part>, Vec<Part>) = sets.into_iter().partition(has_value);
    suite.run(&table(&procedure(&valued)), fresh(), 1_000, log(1_600));
    for set in lacking {
        suite.run(&table(&procedure(&[set])), fresh(), 1_000, log(16));
    }
}

/// Whether a set is done as the first step.
fn has_value(set: &Part) -> bool {
    recipe_model::run(&table(&procedure(std::slice::from_ref(set))), &mut fresh(), 1, &mut log(8)).steps == 1
}

/// Valve 0 is set to each pair's result.
fn pairs(suite: &mut Suite, operator: u8, first: &[i32], second: &[i32]) {
    let result = |a, b| set(0, two(operator, constant(a), constant(b)));
    results(suite, first.iter().flat_map(|&a| second.iter().map(move |&b| result(a, b))).collect());
}

/// Operands from a variable and from the parameter: all operators of a pair in one run, each to a valve of its own, the
/// quotient last.
fn reads(suite: &mut Suite) {
    let operators = [0, 1, 2, 4, 5, 6, 7, 3];
    let table = table(&procedure(&operators.map(|operator| set(operator, two(operator, read(8), read(64))))));
    for a in VALUES {
        for b in VALUES {
            suite.run(&table, block(1, true, &[(1, 1, b)], &[(8, a)]), 1_000, log(80));
        }
    }
}

/// "Any value but 0 counts as true": each value as the test of an if and of a while.
fn tests(suite: &mut Suite) {
    for kind in [IF, WHILE] {
        let body = [set(1, read(8)), set(8, constant(0))];
        let table = table(&procedure(&[test(kind, read(8), &body), set(2, read(8))]));
        for value in VALUES.into_iter().chain([256, 65_536, 1 << 24]) {
            suite.run(&table, block(1, true, &[(1, 1, 0)], &[(8, value)]), 1_000, log(40));
        }
    }
}

/// Operands that are operators: which operand is the first, and that results are held to the range at each operator.
fn nested(suite: &mut Suite) {
    let mut sets = Vec::new();
    for outer in 0..8 {
        for inner in 0..8 {
            let big = || two(inner, constant(i32::MAX), constant(-3));
            sets.push(set(0, two(outer, big(), constant(2))));
            sets.push(set(1, two(outer, constant(2), big())));
            sets.push(set(2, two(outer, one(0, big()), one(1, big()))));
        }
    }
    results(suite, sets);
}

/// "Names 0–63 are shared variables, of which 0–7 are valves. Name 64 is the task's own parameter." Every name is set
/// and read; the edges with and without room for a record.
fn names(suite: &mut Suite) {
    let sets: Vec<Part> = (0..=64).map(|name| set(name, constant(1_000 + i32::from(name)))).collect();
    suite.run(&table(&procedure(&sets)), fresh(), 1_000, log(80));
    let reads: Vec<Part> = (0..=64).rev().map(|name| set(0, read(name))).collect();
    let variables: Vec<(usize, i32)> = (0..64).map(|name| (name, 77 * name as i32 - 1_000)).collect();
    suite.run(&table(&procedure(&reads)), block(1, true, &[(1, 1, -9)], &variables), 1_000, log(600));
    for name in [0, 1, 6, 7, 8, 9, 62, 63, 64] {
        let table = table(&procedure(&[set(name, constant(-5 - i32::from(name)))]));
        for (budget, length) in [(0, 0), (1, 0), (1, 7), (1, 8), (2, 8), (2, 15), (2, 16), (9, 0), (9, 8), (9, 17)] {
            suite.run(&table, fresh(), budget, log(length));
        }
    }
}

/// "The argument is worked out, the next number goes into the variable": arguments of all values, from variables and
/// parameters, into variables that the argument reads, and into the parameter.
fn arguments(suite: &mut Suite) {
    let child = procedure(&[set(0, read(64)), set(64, read(8)), suspend(), set(1, read(64))]);
    for value in VALUES {
        let main = procedure(&[spawn(8, 1, constant(value)), skip()]);
        suite.run(&table(&[main, child.clone()].concat()), fresh(), 1_000, log(120));
    }
    for name in [8, 9, 63, 64] {
        let argument = two(0, read(name), constant(40));
        let main = procedure(&[spawn(name, 1, argument), set(2, read(name)), suspend(), set(3, read(name))]);
        let variables = [(8, 100), (9, 200), (63, 300)];
        for (budget, length) in [(1_000, 200), (1, 8), (1, 7), (2, 16)] {
            let block = block(7, true, &[(5, 1, 400)], &variables);
            suite.run(&table(&[main.clone(), child.clone()].concat()), block, budget, log(length));
        }
    }
}
