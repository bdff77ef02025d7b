//! Why a state is stuck (request 2.4 of document 02): who waits for whom, where a chain ends, which states are stuck,
//! and the refusals in their order.

use super::orders::{blocks_at_fault, faulty};
use super::rows::{skips, A, B, C, D, E, F};
use super::Suite;
use crate::block::{block, first_record, fresh, log, put_number, put_place, put_spawner, Task, BLOCK};
use crate::records::{constant, guard, procedure, read, skip, suspend, table, two, wait, Part, Row};

/// The bytes of a chain: 32 tasks, and the one that closes a circle.
const CHAIN: usize = 66;

/// Where a task waits for the number in variable 8, for the one in its parameter, at a guard over that, at a guard over
/// 100 by it, and where it gives way and ends.
const SHARED: u16 = 1;
const OWN: u16 = 3;
const GUARD: u16 = 5;
const SHARE: u16 = 8;
const GIVES_WAY: u16 = 13;
const END: u16 = 14;

fn waiters() -> Part {
    let waits = [procedure(&[wait(8)]), procedure(&[wait(64)])];
    let guards = [procedure(&[guard(read(64))]), procedure(&[guard(two(3, constant(100), read(64)))])];
    [waits.concat(), guards.concat(), procedure(&[suspend()])].concat()
}

pub fn sweep(suite: &mut Suite) {
    rows(suite);
    numbers(suite);
    names(suite);
    highest(suite);
    circles(suite);
    ends(suite);
    ready(suite);
    outputs(suite);
    refusals(suite);
}

/// The tasks of these numbers in this order, each waiting for the next; the last is as given.
fn row(numbers: &[u16], last: (u16, i32)) -> Vec<Task> {
    let waits = numbers.iter().skip(1).map(|next| (OWN, i32::from(*next))).chain([last]);
    numbers.iter().zip(waits).map(|(number, (place, parameter))| (*number, place, parameter)).collect()
}

/// The state of tasks that wait, of which the front is the first; variable 8 holds a number never issued.
fn why(suite: &mut Suite, tasks: &[Task]) {
    suite.why_stuck(&table(&waiters()), block(1_000, false, tasks, &[(8, 1_001)]), log(CHAIN));
}

/// The rows "From the trial press": each row's first state, the one in which C awaits a 0, and the one that D is stuck in.
fn rows(suite: &mut Suite) {
    let rows: [&[Row]; 6] = [&A, &B, &C, &D, &E, &F];
    for rows in rows {
        suite.why_stuck(&table(rows), fresh(), log(CHAIN));
    }
    suite.why_stuck(&table(&C), block(1, false, &[(1, 1, 0)], &[]), log(CHAIN));
    suite.why_stuck(&table(&D), block(1, false, &[(1, 3, 0)], &[(8, 1)]), log(CHAIN));
}

/// 0 and the numbers about those issued, with 5 issued and 1 and 2 live, and such as are equal in their lower bytes:
/// awaited by the front in a variable and in its parameter, and by a second task.
fn numbers(suite: &mut Suite) {
    let recipe = table(&waiters());
    for value in [i32::MIN, -65_535, -2, -1, 0, 1, 2, 3, 5, 6, 255, 257, 258, 65_535, 65_536, 65_537, 65_538, i32::MAX]
    {
        for tasks in [[(1, SHARED, 2), (2, OWN, 1)], [(1, OWN, value), (2, OWN, 1)], [(2, OWN, 1), (1, OWN, value)]] {
            suite.why_stuck(&recipe, block(5, false, &tasks, &[(8, value)]), log(CHAIN));
        }
    }
}

/// Awaits of every edge of the names: valves, variables, the waiter's own parameter.
fn names(suite: &mut Suite) {
    for name in [0, 7, 8, 63, 64] {
        let recipe = table(&procedure(&[wait(name)]));
        for value in [1, 2, 3, 4] {
            let tasks = [(2, 1, value), (3, 1, value)];
            let variables = [(usize::from(name) % 64, value)];
            let variables = if name == 64 { &[][..] } else { &variables };
            suite.why_stuck(&recipe, block(3, false, &tasks, variables), log(CHAIN));
        }
    }
}

/// The greatest numbers: both bytes of a number are written, and a number past the range is never issued.
fn highest(suite: &mut Suite) {
    let recipe = table(&waiters());
    for (issued, first, second) in [(65_535, 65_535, 255), (65_535, 256, 65_534), (65_534, 1, 65_534), (258, 258, 2)] {
        for value in [first.into(), second.into(), 65_535, 65_536 + i32::from(first), i32::from(second) - 65_536] {
            let tasks = [(first, OWN, second.into()), (second, OWN, value)];
            suite.why_stuck(&recipe, block(issued, false, &tasks, &[]), log(CHAIN));
        }
    }
}

/// "In a task named earlier": circles of every length, behind as many tasks as there are left, some or none; in the
/// queue's order and in another one.
fn circles(suite: &mut Suite) {
    for live in 1..=32_u16 {
        let up: Vec<u16> = (0..live).map(|i| 300 + i).collect();
        let mixed: Vec<u16> = (0..live).map(|i| 300 + i * 37 % 101).collect();
        for numbers in [up, mixed] {
            for back in [0, live / 2, live - 1] {
                let mut tasks = row(&numbers, (OWN, numbers[usize::from(back)].into()));
                why(suite, &tasks);
                tasks[1..].sort();
                why(suite, &tasks);
            }
        }
    }
    // Two tasks in a circle behind a third, and the same with each task at the front.
    let mut tasks = [(3, OWN, 1), (1, OWN, 2), (2, OWN, 1)];
    for _ in 0..3 {
        why(suite, &tasks);
        tasks.rotate_left(1);
    }
    // Two circles, of which the front is in one; all wait for one number, for themselves.
    why(suite, &[(1, OWN, 2), (3, OWN, 4), (2, OWN, 1), (4, OWN, 3)]);
    why(suite, &[(1, OWN, 3), (2, OWN, 3), (3, OWN, 3), (4, OWN, 3)]);
    why(suite, &[(4, OWN, 4), (2, OWN, 2), (3, OWN, 3)]);
}

/// "In one waiting for a number never issued, or in one at an untrue guard": behind rows of all lengths; a guard
/// without a value is untrue, and so is a quotient that is 0.
fn ends(suite: &mut Suite) {
    for live in 1..=32 {
        let numbers: Vec<u16> = (0..live).map(|i| 900 - i).collect();
        for last in [(OWN, -1), (OWN, 65_536), (SHARED, 0), (GUARD, 0), (SHARE, 0), (SHARE, 101)] {
            let mut tasks = row(&numbers, last);
            tasks[1..].reverse();
            why(suite, &tasks);
        }
    }
    // Tasks that are not in the chain: at guards, in circles, and waiting for the chain's own.
    why(suite, &[(1, GUARD, 0), (2, OWN, 1), (3, OWN, 3), (4, SHARE, 0)]);
    why(suite, &[(2, OWN, 1), (1, SHARE, 0), (3, OWN, 2), (4, GUARD, 0)]);
    why(suite, &[(2, OWN, 9), (1, OWN, 2), (9, SHARED, 0), (4, GUARD, 0)]);
}

/// "When the state is not stuck": one task of the queue is ready, in each way, at each edge of the queue; or one is
/// active; or none is live.
fn ready(suite: &mut Suite) {
    let recipe = table(&waiters());
    let ways = [(GIVES_WAY, 0), (END, 0), (OWN, 7), (OWN, 0), (GUARD, 1), (GUARD, i32::MIN), (SHARE, 100), (SHARE, -7)];
    for (live, at) in [(1, 1), (2, 1), (2, 2), (3, 2), (32, 1), (32, 16), (32, 31), (32, 32)] {
        for (place, parameter) in ways {
            let mut tasks: Vec<Task> = (1..=live).map(|i| (100 + i, OWN, i32::from(100 + i % live + 1))).collect();
            (tasks[at - 1].1, tasks[at - 1].2) = (place, parameter);
            why(suite, &tasks);
        }
        let tasks: Vec<Task> = (1..=live).map(|i| (100 + i, OWN, -1)).collect();
        for active in [true, false] {
            suite.why_stuck(&recipe, block(200, active, &tasks, &[]), log(CHAIN));
        }
    }
    for issued in [1, 1_000, 65_535] {
        suite.why_stuck(&recipe, block(issued, false, &[], &[]), log(CHAIN));
    }
}

/// "Or the output is not 66 bytes": lengths about it, about a shorter chain's, and of other buffers; for a state that
/// is stuck and one that is not.
fn outputs(suite: &mut Suite) {
    let recipe = table(&waiters());
    let long: Vec<u16> = (1..=32).collect();
    for length in (0..=8).chain(60..=72).chain([130, 132, BLOCK, 4_095, 4_096]) {
        for tasks in [vec![(1, OWN, 1)], row(&long, (OWN, 1)), vec![(1, OWN, 1), (2, GIVES_WAY, 0)]] {
            suite.why_stuck(&recipe, block(40, false, &tasks, &[]), log(length));
        }
    }
    // What is kept is what was there.
    for content in [0, 1, 255] {
        suite.why_stuck(&recipe, block(40, false, &row(&long[..3], (OWN, 2)), &[]), vec![content; CHAIN]);
    }
}

/// The table's refusals first, then the block's, then 25: with outputs of the right length and of another.
fn refusals(suite: &mut Suite) {
    let recipe = table(&waiters());
    let stuck = block(40, false, &row(&[5, 9, 7], (OWN, 9)), &[]);
    let mut tables: Vec<Vec<u8>> = (12..=17).map(|number| table(&procedure(&[wait(8), faulty(number)]))).collect();
    tables.extend([vec![], vec![1; 9], table(&skips(4_097))]);
    let mut blocks = blocks_at_fault();
    for (task, fault) in (1..=4).flat_map(|task| (0..4).map(move |fault| (task, fault))) {
        let mut block = stuck.clone();
        match fault {
            0 => put_number(&mut block, task, 41),
            1 => put_place(&mut block, task, 6),
            2 => put_spawner(&mut block, task, 10),
            _ => block.copy_within(8..10, 8 * first_record(task)),
        }
        blocks.push(block);
    }
    for length in [0, CHAIN - 1, CHAIN, CHAIN + 1] {
        for table in &tables {
            for block in [&stuck, &fresh(), &vec![], &blocks[3]] {
                suite.why_stuck(table, block.clone(), log(length));
            }
        }
        for block in &blocks {
            suite.why_stuck(&recipe, block.clone(), log(length));
        }
    }
    // The longest table, stuck at its last statement, and one record more.
    for records in [4_095, 4_096] {
        let mut rows = skips(records + 1);
        rows[records] = wait(8)[0];
        suite.why_stuck(&table(&rows), block(1, false, &[(1, records as u16, 0)], &[]), log(CHAIN));
    }
    suite.why_stuck(&table(&procedure(&[skip()])), stuck, log(CHAIN));
}
