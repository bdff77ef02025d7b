//! "Steps" and "What the runner says": where each step leads, and each stop at its edges.

use super::blocks::every_kind;
use super::Suite;
use crate::block::{block, fresh, log, Task};
use crate::records::{
    constant, forever, guard, one, procedure, read, set, skip, spawn, suspend, table, test, two, wait, Part, IF, WHILE,
};

pub fn sweep(suite: &mut Suite) {
    endings(suite);
    limits(suite);
    room(suite);
    bodies(suite);
    by_step(suite);
    rounds(suite);
}

/// "None active, queue empty", whatever budget and log; the number of tasks that have been is any.
fn endings(suite: &mut Suite) {
    for issued in [1, 2, 65_535] {
        for (budget, length) in [(0, 0), (0, 8), (1, 0), (u32::MAX, 400)] {
            suite.run(&table(&every_kind()), block(issued, false, &[], &[(8, 1)]), budget, log(length));
        }
    }
    // Finished with the last step of the budget, and paused one before; the same with one more task in the queue.
    let recipe = table(&procedure(&[skip(), skip()]));
    for budget in 0..=8 {
        suite.run(&recipe, fresh(), budget, log(8));
        suite.run(&recipe, block(2, true, &[(1, 1, 0), (2, 2, 0)], &[]), budget, log(24));
    }
}

/// As many live tasks with the last numbers issued, the first at place 1, the others at another.
pub fn many(live: u16, issued: u16, others: u16) -> Vec<Task> {
    (0..live).map(|i| (issued - i, if i == 0 { 1 } else { others }, 9 + i32::from(i))).collect()
}

/// A spawn with the given tasks live and numbers issued: 3 before 4, both after 1 and before 5.
fn limits(suite: &mut Suite) {
    let main = procedure(&[spawn(8, 1, read(64)), suspend()]);
    let recipe = table(&[main, procedure(&[suspend()])].concat());
    let room = [(0, 0), (0, 8), (1, 0), (1, 7), (1, 8), (2, 8), (2, 16), (3, 0), (4, 400), (200, 0), (200, 400)];
    for (live, issued) in [1, 31, 32].into_iter().flat_map(|live| [40, 65_534, 65_535].map(|issued| (live, issued))) {
        let tasks = many(live, issued, 5);
        for (budget, length) in room {
            suite.run(&recipe, block(issued, true, &tasks, &[(8, 3)]), budget, log(length));
        }
        for budget in [0, 1, 2, 3] {
            suite.run(&recipe, block(issued, false, &tasks, &[]), budget, log(16));
        }
    }
    // The spawn comes after steps that write no record, and behind a test.
    let body = [skip(), set(9, constant(2)), test(IF, read(9), &[spawn(8, 0, constant(1))])];
    let recipe = table(&procedure(&body));
    for (live, issued) in [(31, 65_534), (31, 65_535), (32, 65_534), (32, 65_535), (32, 32)] {
        for (budget, length) in [(2, 0), (3, 0), (4, 0), (3, 8), (4, 8), (5, 8), (5, 16)] {
            suite.run(&recipe, block(issued, true, &many(live, issued, 8), &[]), budget, log(length));
        }
    }
}

/// A recipe with each statement that writes a record (places 1, 3, 4, 5 and 18), each that writes none (7, 8, 10, 13,
/// 16), and two procedures' ends (20, 22).
fn statements() -> Part {
    let main = procedure(&[
        spawn(9, 1, constant(3)),
        suspend(),
        wait(8),
        set(0, constant(-6)),
        skip(),
        set(8, constant(4)),
        test(IF, constant(1), &[skip()]),
        test(WHILE, read(10), &[skip()]),
        set(64, constant(2)),
        guard(read(64)),
    ]);
    [main, procedure(&[skip()])].concat()
}

/// "Next step writes a record and under 8 bytes are free": each step, and the try before it, with and without room.
fn room(suite: &mut Suite) {
    let recipe = table(&statements());
    for place in [1, 3, 4, 5, 7, 8, 10, 12, 13, 15, 16, 18, 20, 21, 22] {
        for (budget, length) in [(0, 0), (1, 0), (1, 7), (1, 8), (2, 0), (2, 8), (2, 15), (2, 16), (3, 17), (9, 400)] {
            for active in [true, false] {
                let block = block(5, active, &[(2, place, 6)], &[(8, 1)]);
                suite.run(&recipe, block, budget, log(length));
            }
        }
    }
    // A waiter is turned behind one that is ready.
    for (budget, length) in [(0, 0), (1, 0), (1, 7), (1, 8), (2, 8), (2, 16), (3, 16), (9, 24), (9, 400)] {
        let block = block(5, false, &[(2, 4, 6), (3, 21, 0)], &[(8, 3)]);
        suite.run(&recipe, block, budget, log(length));
    }
}

/// "After the last statement of a while body the place is the while again; after that of an if body, whatever follows
/// the if", again and again; "a body without statements counts as run through". Each recipe with every budget.
fn bodies(suite: &mut Suite) {
    let count = |name, body: &[Part]| {
        let less = set(name, two(1, read(name), constant(1)));
        test(WHILE, read(name), &[body.concat(), less])
    };
    let last = |part: Part| test(IF, constant(1), &[test(IF, constant(2), &[part])]);
    let recipes = [
        procedure(&[set(8, constant(2)), count(8, &[last(skip()), test(IF, constant(0), &[skip()])]), skip()]),
        procedure(&[set(8, constant(2)), test(WHILE, read(8), &[skip(), last(set(8, one(0, one(1, read(8)))))])]),
        procedure(&[test(IF, constant(1), &[test(WHILE, constant(1), &[test(IF, constant(1), &[])])]), skip()]),
        procedure(&[test(IF, constant(1), &[]), test(IF, constant(0), &[]), test(WHILE, constant(0), &[]), skip()]),
        procedure(&[test(WHILE, constant(-1), &[])]),
        procedure(&[test(WHILE, constant(1), &[last(suspend())]), skip()]),
        procedure(&[set(8, constant(9)), test(IF, constant(1), &[last(wait(8))]), skip()]),
        procedure(&[set(8, constant(9)), test(IF, constant(1), &[last(guard(read(8)))]), skip()]),
        procedure(&[spawn(8, 0, constant(1)), test(IF, read(64), &[last(wait(64))]), wait(8), set(0, read(8))]),
        procedure(&[count(9, &[last(test(WHILE, constant(0), &[skip()]))]), last(test(WHILE, read(9), &[skip()]))]),
    ];
    for recipe in recipes {
        for budget in 0..=16 {
            suite.run(&table(&recipe), fresh(), budget, log(160));
        }
        suite.run_on(&table(&recipe), 1, log(8));
    }
}

/// Longer recipes step by step, and with every number of records: tasks that spawn, give way, wait and end.
fn by_step(suite: &mut Suite) {
    // Main awaits variable 8, a number never issued; task 2 later sets it to 3, the number of a task that has ended.
    let main = procedure(&[set(8, constant(-1)), spawn(9, 1, constant(0)), spawn(10, 2, constant(0)), wait(8)]);
    let setter = procedure(&[suspend(), set(8, read(10))]);
    let later = [main, setter, procedure(&[])].concat();
    // Two tasks that wait for each other, and one that gives way for some time.
    let main = procedure(&[spawn(8, 1, constant(0)), spawn(9, 2, constant(3)), wait(8)]);
    let waiter = procedure(&[set(0, constant(1)), wait(9), set(0, constant(2))]);
    let body = [suspend(), set(64, two(1, read(64), constant(1)))];
    let giver = procedure(&[test(WHILE, read(64), &body), set(1, read(64))]);
    let chain = [main, waiter, giver].concat();
    for recipe in [table(&every_kind()), table(&later), table(&chain)] {
        for budget in 0..=24 {
            suite.run(&recipe, fresh(), budget, log(400));
        }
        for records in 0..=16 {
            suite.run(&recipe, fresh(), 60, log(8 * records + records % 8));
        }
        for (budget, length) in [(1, 8), (2, 9), (3, 16), (60, 24), (7, 400)] {
            suite.run_on(&recipe, budget, log(length));
        }
    }
}

/// 31 tasks in turn, that give way or end, over many rounds; and the longest logs.
fn rounds(suite: &mut Suite) {
    let spawns: Vec<Part> = (0..31).map(|i| spawn(8, 1, constant(i))).collect();
    let give = procedure(&[forever(&[set(0, read(64)), suspend()])]);
    let ends = procedure(&[test(IF, two(4, constant(15), read(64)), &[suspend()]), wait(64)]);
    for other in [give, ends] {
        let recipe = table(&[procedure(&spawns), other].concat());
        for (budget, length) in [(31, 248), (32, 256), (33, 264), (100, 4_096), (600, 4_096), (2_000, 4_095), (700, 16)]
        {
            suite.run(&recipe, fresh(), budget, log(length));
        }
    }
}
