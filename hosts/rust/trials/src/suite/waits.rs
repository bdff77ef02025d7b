//! Waiting: which numbers are done, which guards are true, who is ready, and "stuck".

use super::Suite;
use crate::block::{block, log, Task};
use crate::records::{guard, procedure, read, set, suspend, table, wait, Part};

pub fn sweep(suite: &mut Suite) {
    numbers(suite);
    names(suite);
    queue(suite);
    highest(suite);
    truths(suite);
    guards(suite);
}

/// Task 1 waits for variable 8 at place 1; others may wait for their parameter at place 5 or give way at place 9.
fn waiters() -> Part {
    let shared = procedure(&[wait(8), set(0, read(8))]);
    let own = procedure(&[wait(64), set(1, read(64))]);
    [shared, own, procedure(&[suspend(), suspend()])].concat()
}

/// "Waits if its next statement is an await and the variable's value now is not a done number": with 5 issued and 1 and
/// 2 live, 0, the numbers about these, and such as are equal in their lower bytes. The waiter is alone, with another
/// waiter, or with a task that is ready.
fn numbers(suite: &mut Suite) {
    let recipe = table(&waiters());
    let values = [i32::MIN, -65_533, -3, -1, 0, 1, 2, 3, 4, 5, 6, 256, 259, 65_535, 65_536, 65_537, 65_539, i32::MAX];
    let others: [&[Task]; 3] = [&[], &[(2, 5, 1)], &[(2, 9, 0)]];
    for value in values {
        for (other, active) in others.iter().flat_map(|other| [(other, true), (other, false)]) {
            let tasks = [&[(1, 1, 0)], *other].concat();
            for (budget, length) in [(0, 0), (12, 160)] {
                suite.run(&recipe, block(5, active, &tasks, &[(8, value)]), budget, log(length));
            }
        }
    }
}

/// Awaits of every edge of the names: valves, variables, the waiter's own parameter.
fn names(suite: &mut Suite) {
    for name in [0, 7, 8, 63, 64] {
        let recipe = table(&procedure(&[wait(name), set(0, read(name))]));
        for (value, active) in [2, 3, 4].into_iter().flat_map(|value| [(value, true), (value, false)]) {
            let state = match name {
                64 => block(3, active, &[(2, 1, value)], &[]),
                _ => block(3, active, &[(2, 1, 2)], &[(usize::from(name), value)]),
            };
            suite.run(&recipe, state, 9, log(80));
        }
    }
}

/// A queue of waiters in which one is ready, at every edge of its length: as many are turned as stand before it. With
/// none ready it is stuck at once, with any budget.
fn queue(suite: &mut Suite) {
    let recipe = table(&waiters());
    for (live, ready) in [1, 2, 3, 31, 32].into_iter().flat_map(|n| [1, 2, 3, 16, 31, 32, 33].map(|k| (n, k))) {
        let number = |i: u16| 100 + i;
        let task = |i| (number(i), 5, if i == ready { 7 } else { i32::from(number(i % live + 1)) });
        let tasks: Vec<Task> = (1..=live).map(task).collect();
        let tries = u32::from(ready);
        let room = 8 * usize::from(ready);
        for (budget, length) in [(0, 0), (tries - 1, 400), (tries, 400), (tries + 1, 400), (90, room - 8), (90, 800)] {
            suite.run(&recipe, block(200, false, &tasks, &[]), budget, log(length));
        }
    }
}

/// The greatest numbers: done, live, and past the range.
fn highest(suite: &mut Suite) {
    let recipe = table(&waiters());
    for (issued, live) in [(65_535, 65_535), (65_535, 65_534), (65_534, 65_534), (65_534, 1)] {
        for value in [1, 65_533, 65_534, 65_535, 65_536, -1] {
            let tasks = [(live, 1, 0), (2, 5, value)];
            suite.run(&recipe, block(issued, false, &tasks, &[(8, value)]), 20, log(160));
        }
    }
}

/// Guards over variable 8 at place 1 and over the parameter at place 6; tasks may give way at place 11, or wait for
/// their parameter at place 14.
fn guarded() -> Part {
    let shared = procedure(&[guard(read(8)), set(0, read(8))]);
    let own = procedure(&[guard(read(64)), set(1, read(64))]);
    [shared, own, procedure(&[suspend(), suspend()]), procedure(&[wait(64)])].concat()
}

/// "Passes only if the expression is true then", any value but 0: for a task that reaches its guard and for one that is
/// tried, alone and before one that gives way.
fn truths(suite: &mut Suite) {
    let recipe = table(&guarded());
    for value in [i32::MIN, 0, 1, 65_536] {
        for (place, active) in [(1, true), (6, false)] {
            let tasks = [(1, place, value), (2, 11, 0)];
            suite.run(&recipe, block(5, active, &tasks[..1], &[(8, value)]), 12, log(160));
            suite.run(&recipe, block(5, active, &tasks, &[(8, value)]), 12, log(160));
        }
    }
}

/// Queues of tasks at guards over their parameters, at most one of them true, and of one that awaits a number never
/// issued: as many are turned as stand before the ready one, and with none ready it is stuck at once.
fn guards(suite: &mut Suite) {
    let recipe = table(&guarded());
    for (live, ready) in [(3, 3), (3, 4), (32, 32), (32, 33)] {
        let task = |i: u16| match i {
            2 => (102, 14, -1),
            _ => (100 + i, 6, i32::from(i == ready) * 7),
        };
        let tasks: Vec<Task> = (1..=live).map(task).collect();
        for (budget, length) in [(0, 0), (u32::from(ready) - 1, 400), (90, 8 * usize::from(ready) - 8), (90, 800)] {
            suite.run(&recipe, block(200, false, &tasks, &[]), budget, log(length));
        }
    }
}
