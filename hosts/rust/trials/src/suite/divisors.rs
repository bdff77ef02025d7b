//! Zero divisors (request 2.2 of document 02): which expressions have no value, where that stops a run and before which
//! other stops, what it leaves, and guards without a value.

use super::runs::many;
use super::tables::operators;
use super::Suite;
use crate::block::{block, fresh, log, Task};
use crate::records::{
    constant, forever, guard, one, procedure, read, set, skip, spawn, suspend, table, test, two, wait, Part, IF, WHILE,
};

pub fn sweep(suite: &mut Suite) {
    expressions(suite);
    statements(suite);
    stops(suite);
    left(suite);
    rounds(suite);
    guards(suite);
    queues(suite);
}

/// A quotient by 0.
fn lacking() -> Part {
    two(3, constant(1), constant(0))
}

/// A quotient by variable 8.
fn share() -> Part {
    two(3, constant(100), read(8))
}

/// The trial row "5 by 0"; "an operand without a value leaves none", under each operator and beside any other operand;
/// "both operands of 'and' and 'or' are always worked out"; at the depth that is the last to pass.
fn expressions(suite: &mut Suite) {
    let mut all =
        vec![two(3, constant(5), constant(0)), two(3, constant(0), constant(0)), two(3, lacking(), lacking())];
    for operator in 0..8 {
        for other in [-1, 0, 1] {
            all.push(two(operator, lacking(), constant(other)));
            all.push(two(operator, constant(other), lacking()));
        }
    }
    all.extend((0..2).map(|operator| one(operator, lacking())));
    all.extend((0..4).map(|style| operators(style, 13, lacking())));
    for expression in all {
        let main = procedure(&[skip(), set(0, expression.clone()), set(1, constant(7))]);
        suite.run(&table(&main), fresh(), 1_000, log(40));
        let main = procedure(&[guard(expression), set(1, constant(7))]);
        suite.run(&table(&main), fresh(), 1_000, log(40));
    }
}

/// Each statement that needs a value, around an expression.
const NEEDS: [fn(Part) -> Part; 8] = [
    |x| set(0, x),
    |x| set(8, x),
    |x| set(64, x),
    |x| test(IF, x, &[skip()]),
    |x| test(WHILE, x, &[skip(), suspend()]),
    |x| test(WHILE, x, &[]),
    |x| spawn(9, 0, x),
    |x| spawn(64, 0, x),
];

/// "24 .. when the expression of the next set, test or spawn has no value", "its place the statement's record": for a
/// task that goes on to it, for one that is taken up at it, and as the last statement of a body.
fn statements(suite: &mut Suite) {
    for needs in NEEDS {
        let recipe = table(&procedure(&[skip(), needs(share()), skip()]));
        for (divisor, budget) in [0, 7].into_iter().flat_map(|divisor| [0, 1, 2, 40].map(|budget| (divisor, budget))) {
            suite.run(&recipe, block(1, true, &[(1, 1, 0)], &[(8, divisor)]), budget, log(80));
            let tasks = [(3, 2, 5), (2, 1, 4)];
            suite.run(&recipe, block(4, false, &tasks, &[(8, divisor)]), budget, log(80));
        }
        let body = procedure(&[test(IF, constant(1), &[forever(&[suspend(), needs(lacking())])])]);
        suite.run_on(&table(&body), 1, log(8));
        suite.run(&table(&body), fresh(), 40, log(40));
    }
}

/// "Tried after 1 and before 3": with no budget, with 32 live tasks, with all numbers issued, and without room for a
/// record, each with a value and without one.
fn stops(suite: &mut Suite) {
    for needs in [NEEDS[0], NEEDS[6]] {
        let recipe = table(&procedure(&[needs(share()), suspend()]));
        for (live, issued) in [(1, 1), (31, 40), (32, 40), (1, 65_535), (32, 65_535)] {
            for (budget, length) in [(0, 0), (1, 0), (1, 7), (1, 8), (9, 40)] {
                for divisor in [0, 3] {
                    let block = block(issued, true, &many(live, issued, 5), &[(8, divisor)]);
                    suite.run(&recipe, block, budget, log(length));
                }
            }
        }
    }
}

/// The state that a 24 leaves, and what a call makes of it with another divisor, as a host may write it between two
/// calls.
fn left(suite: &mut Suite) {
    let recipe = table(&procedure(&[set(7, constant(4)), set(0, share()), spawn(9, 0, share()), wait(9)]));
    for (place, divisor) in [1, 3, 7].into_iter().flat_map(|place| [0, 2, -1].map(|divisor| (place, divisor))) {
        for budget in [0, 1, 20] {
            let tasks = [(1, place, 0), (2, 11, 0)];
            suite.run(&recipe, block(2, true, &tasks, &[(8, divisor)]), budget, log(200));
        }
    }
}

/// A divisor that other steps bring to 0: by the task itself, and by another one while the first gives way.
fn rounds(suite: &mut Suite) {
    let less = || set(8, two(1, read(8), constant(1)));
    let own = procedure(&[set(8, constant(3)), forever(&[set(0, share()), less()])]);
    let main = procedure(&[set(8, constant(3)), spawn(9, 1, constant(0)), forever(&[set(0, share()), suspend()])]);
    let others = [main, procedure(&[forever(&[less(), suspend()])])].concat();
    for recipe in [table(&own), table(&others)] {
        for budget in 0..=16 {
            suite.run(&recipe, fresh(), budget, log(400));
        }
        for records in 0..=9 {
            suite.run(&recipe, fresh(), 60, log(8 * records));
        }
        for (budget, length) in [(1, 8), (2, 9), (3, 16), (60, 24), (7, 400)] {
            suite.run_on(&recipe, budget, log(length));
        }
    }
}

/// A guard over a quotient by variable 8 at place 1, one by the parameter at place 10; tasks may give way at place 17,
/// set variable 8 at place 20, or wait for their parameter at place 23.
fn guarded() -> Part {
    let shared = procedure(&[guard(share()), set(0, share())]);
    let own = procedure(&[guard(two(3, constant(100), read(64))), set(1, read(64))]);
    let others = [procedure(&[suspend(), suspend()]), procedure(&[set(8, constant(7))]), procedure(&[wait(64)])];
    [shared, own, others.concat()].concat()
}

/// "A guard without a value counts as untrue": alone it is stuck, before a task that can go on it is turned, and it
/// passes once its divisor is set; a quotient that is 0 is untrue too.
fn guards(suite: &mut Suite) {
    let recipe = table(&guarded());
    for (divisor, active) in [0, 7, 101].into_iter().flat_map(|divisor| [(divisor, true), (divisor, false)]) {
        let others: [&[Task]; 3] = [&[], &[(2, 17, 0)], &[(2, 17, 0), (3, 20, 0)]];
        for (place, others) in [1, 10].into_iter().flat_map(|place| others.map(|others| (place, others))) {
            let tasks = [&[(1, place, divisor)], others].concat();
            for (budget, length) in [(0, 0), (20, 8), (20, 240)] {
                suite.run(&recipe, block(5, active, &tasks, &[(8, divisor)]), budget, log(length));
            }
        }
    }
}

/// Queues of tasks at guards over quotients by their parameters, at most one of them with a value, and of one that
/// awaits a number never issued: as many are turned as stand before the ready one, and with none ready it is stuck at
/// once.
fn queues(suite: &mut Suite) {
    let recipe = table(&guarded());
    for (live, ready) in [(3, 3), (3, 4), (32, 32), (32, 33)] {
        let task = |i: u16| match i {
            2 => (102, 23, -1),
            _ => (100 + i, 10, i32::from(i == ready) * 7),
        };
        let tasks: Vec<Task> = (1..=live).map(task).collect();
        for (budget, length) in [(0, 0), (u32::from(ready) - 1, 400), (90, 8 * usize::from(ready) - 8), (90, 800)] {
            suite.run(&recipe, block(200, false, &tasks, &[]), budget, log(length));
        }
    }
}
