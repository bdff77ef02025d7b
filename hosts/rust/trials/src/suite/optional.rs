//! Optional tasks (request 2.7 of document 02): "0 counts as done .. other numbers never issued still hold the waiter."

use super::Suite;
use crate::block::{block, fresh, log, Task};
use crate::records::{constant, procedure, read, set, spawn, suspend, table, test, wait, Part, IF};

/// The bytes of a chain.
const CHAIN: usize = 66;

pub fn sweep(suite: &mut Suite) {
    wanted_or_not(suite);
    names(suite);
    numbers(suite);
    queues(suite);
    changes(suite);
}

/// Main spawns the pre-press task into variable 8 if variable 9 says so, awaits it in either case, and sets valve 0.
fn optional() -> Part {
    let main = procedure(&[test(IF, read(9), &[spawn(8, 1, constant(4))]), wait(8), set(0, constant(5))]);
    [main, procedure(&[set(1, read(64)), suspend()])].concat()
}

/// With every budget, with every number of records, and over calls of all sorts.
fn wanted_or_not(suite: &mut Suite) {
    let recipe = table(&optional());
    for wanted in [0, 1] {
        let begin = || block(1, true, &[(1, 1, 0)], &[(9, wanted)]);
        for budget in 0..=14 {
            suite.run(&recipe, begin(), budget, log(120));
        }
        for records in 0..=11 {
            suite.run(&recipe, begin(), 60, log(8 * records + records % 8));
        }
    }
    for (budget, length) in [(1, 8), (2, 9), (60, 8)] {
        suite.run_on(&recipe, budget, log(length));
    }
    suite.print(&optional());
}

/// "Leave a variable at 0": awaits of every edge of the names, all others holding a number never issued; the waiter is
/// active or queued, alone or before a task that gives way.
fn names(suite: &mut Suite) {
    for name in [0, 1, 7, 8, 62, 63, 64] {
        let recipe = table(&[procedure(&[wait(name), set(2, constant(3))]), procedure(&[suspend()])].concat());
        let holds = |other: u8| if other == name { 0 } else { -1 };
        let variables: Vec<_> = (0..64).map(|other| (usize::from(other), holds(other))).collect();
        let tasks = [(3, 1, holds(64)), (2, 5, 0)];
        for (live, active) in [(1, true), (1, false), (2, true), (2, false)] {
            suite.run(&recipe, block(3, active, &tasks[..live], &variables), 9, log(80));
        }
    }
}

/// 0, and numbers whose lower bytes are 0, below, at and above the highest issued.
fn numbers(suite: &mut Suite) {
    let recipe = table(&procedure(&[wait(8), set(0, read(8))]));
    for issued in [1, 255, 256, 65_535] {
        for value in [0, 256, 512, 65_280, 65_536, 131_072, 0x0100_0000, -256, -65_536, i32::MIN] {
            let begin = |active| block(issued, active, &[(1, 1, 0)], &[(8, value)]);
            suite.run(&recipe, begin(true), 9, log(80));
            suite.run(&recipe, begin(false), 9, log(80));
            suite.why_stuck(&recipe, begin(false), log(CHAIN));
        }
    }
}

/// A queue of tasks that await numbers never issued, and of one that awaits a 0: as many are turned as stand before it,
/// and the state is not stuck. Then all await a 0.
fn queues(suite: &mut Suite) {
    let recipe = table(&procedure(&[wait(64), set(1, read(64))]));
    for (live, at) in [(1, 1), (2, 1), (2, 2), (32, 1), (32, 16), (32, 31), (32, 32)] {
        let task = |i: u16| (100 + i, 1, if i == at { 0 } else { -i32::from(i) });
        let tasks: Vec<Task> = (1..=live).map(task).collect();
        let (tries, room) = (u32::from(at), 8 * usize::from(at));
        for (budget, length) in [(0, 0), (tries - 1, 400), (tries, 400), (90, room - 8), (90, 800)] {
            suite.run(&recipe, block(200, false, &tasks, &[]), budget, log(length));
        }
        suite.why_stuck(&recipe, block(200, false, &tasks, &[]), log(CHAIN));
    }
    let tasks: Vec<Task> = (1..=32).map(|i| (100 + i, 1, 0)).collect();
    for budget in [0, 1, 2, 3, 200] {
        suite.run(&recipe, block(200, false, &tasks, &[]), budget, log(1_200));
    }
}

/// The variable's value counts at the try: it becomes 0, or stops being 0, once and again, while main waits.
fn changes(suite: &mut Suite) {
    for (first, second, third) in [(-1, 0, -1), (3, 0, 0), (0, -1, 0), (0, 3, 0), (0, 0, -1), (0, -1, -1), (2, -1, 0)] {
        let main = procedure(&[set(9, constant(first)), spawn(10, 1, constant(second)), wait(9), set(0, read(9))]);
        let body = [set(9, read(64)), suspend(), set(9, constant(third))];
        // At once, or with a turn of main before.
        for body in [body.concat(), [suspend(), body.concat()].concat()] {
            let recipe = table(&[main.clone(), procedure(&[body])].concat());
            for budget in 0..=14 {
                suite.run(&recipe, fresh(), budget, log(160));
            }
        }
    }
}
