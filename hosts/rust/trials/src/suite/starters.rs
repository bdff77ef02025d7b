//! "Who started this task?" (request 2.6 of document 02): what a spawn and a try write into a task's second record.

use super::Suite;
use crate::block::{block, fresh, log, put_spawner, put_taken};
use crate::records::{constant, forever, guard, procedure, read, set, spawn, suspend, table, two, wait, Part};

pub fn sweep(suite: &mut Suite) {
    taken_up(suite);
    turned(suite);
    generations(suite);
    rounds(suite);
}

/// Places where a task gives way, waits for the number in its parameter, stands at a guard over it, and ends.
fn places() -> Part {
    [procedure(&[suspend()]), procedure(&[wait(64)]), procedure(&[guard(read(64))])].concat()
}

/// "The times taken up, unsigned, staying at the largest value": a try from each count, at each kind of place; the other
/// task's record stays.
fn taken_up(suite: &mut Suite) {
    let recipe = table(&places());
    for taken in [0, 1, 254, 255, 256, 65_535, 65_536, 0x7fff_ffff, 0xffff_fffe, 0xffff_ffff] {
        for place in [1, 2, 3, 4, 5, 7] {
            for (budget, length) in [(0, 8), (1, 8), (1, 7), (2, 16), (9, 160)] {
                let mut block = block(9, false, &[(5, place, 7), (6, 1, 0)], &[]);
                put_taken(&mut block, 1, taken);
                put_taken(&mut block, 2, taken);
                suite.run(&recipe, block, budget, log(length));
            }
        }
    }
}

/// A task that is turned is not taken up; one that reaches its await is not either.
fn turned(suite: &mut Suite) {
    let recipe = table(&places());
    for (place, parameter) in [(3, 6), (3, 10), (5, 0)] {
        for active in [false, true] {
            for budget in 0..6 {
                let mut block = block(9, active, &[(5, place, parameter), (6, 1, 0)], &[]);
                put_taken(&mut block, 1, u32::MAX);
                suite.run(&recipe, block, budget, log(80));
            }
        }
    }
}

/// Each task spawns the next, up to the limits of live tasks and of numbers: the spawner is the active task, of whatever
/// number, and the spawned one was never taken up. A task's number and its spawner's have both bytes.
fn generations(suite: &mut Suite) {
    let recipe = table(&procedure(&[spawn(8, 0, two(0, read(64), constant(1))), suspend(), wait(8)]));
    for (number, issued) in [(1, 1), (2, 300), (258, 258), (700, 65_530), (65_535, 65_535), (65_534, 65_534)] {
        for spawner in [number / 2, number - 1] {
            for budget in [0, 1, 2, 3, 5, 40, 400] {
                let mut block = block(issued, true, &[(number, 1, 0)], &[]);
                put_spawner(&mut block, 1, spawner);
                suite.run(&recipe, block, budget, log(4_096));
            }
        }
    }
}

/// Tasks in turn that spawn, give way, wait and end, call after call: the records of those that leave are used again.
fn rounds(suite: &mut Suite) {
    let main = procedure(&[forever(&[spawn(8, 1, read(8)), suspend(), spawn(9, 2, read(8)), wait(9)])]);
    let child = procedure(&[spawn(10, 2, read(64)), suspend(), suspend(), wait(10)]);
    let last = procedure(&[suspend(), set(0, read(64))]);
    let recipe = table(&[main, child, last].concat());
    for budget in (0..60).chain([100, 200, 500]) {
        suite.run(&recipe, fresh(), budget, log(4_096));
    }
}
