//! "The state": 21 and 22, each rule of the block at its edges, and the earliest record at fault.

use super::rows::{skips, A};
use super::Suite;
use crate::block::{
    block, first_record, fresh, log, old, put, put_number, put_place, put_spawner, put_taken, Task, BLOCK,
};
use crate::records::{
    constant, guard, one, procedure, read, set, skip, spawn, suspend, table, test, two, wait, Part, IF, WHILE,
};

/// A recipe with every kind of record, 24 in all. Its expressions are at 2 to 4, 6, 8, 9, 12 to 14, 19, 21 and 23; its
/// procedures are at 0 and 16.
pub fn every_kind() -> Part {
    let body =
        [spawn(8, 1, constant(5)), test(IF, one(1, read(8)), &[skip()]), set(9, two(0, read(9), constant(1))), wait(8)];
    let main = procedure(&[test(WHILE, two(4, read(9), constant(3)), &body)]);
    let child = procedure(&[suspend(), spawn(64, 1, read(64)), set(0, read(64)), guard(read(9))]);
    [main, child].concat()
}

/// Places of the recipe, one after the other.
const PLACES: [u16; 7] = [1, 5, 7, 11, 17, 20, 22];

/// A block that passes for the recipe, with the highest number 40.
fn fine(live: u16) -> Vec<u8> {
    let task = |i: u16| (i + 3, PLACES[usize::from(i) % PLACES.len()], 7 - i32::from(i));
    block(40, live > 0, &(0..live).map(task).collect::<Vec<Task>>(), &[(8, 1), (9, 2)])
}

pub fn sweep(suite: &mut Suite) {
    lengths(suite);
    old_content(suite);
    record_0(suite);
    first_records(suite);
    second_records(suite);
    spawners(suite);
    times_taken_up(suite);
    equal_numbers(suite);
    unused_records(suite);
    places(suite);
}

fn run(suite: &mut Suite, block: Vec<u8>) {
    suite.run(&table(&every_kind()), block, 3, log(17));
}

/// "State block not 776 bytes."
fn lengths(suite: &mut Suite) {
    for length in [0, 1, 7, 8, 16, 519, 520, 768, 775, 776, 777, 783, 784, 1_552, 4_096] {
        let mut block = fresh();
        block.resize(length, 0);
        suite.start(&table(&A), old(length));
        suite.run(&table(&A), block.clone(), 100, log(80));
        block.fill(0xff);
        run(suite, block);
    }
}

/// "It ignores the block's old content."
fn old_content(suite: &mut Suite) {
    for content in [vec![0; BLOCK], vec![0xff; BLOCK], fresh(), fine(5), fine(32), log(BLOCK)] {
        for length in [BLOCK - 1, BLOCK] {
            suite.start(&table(&every_kind()), content[..length].to_vec());
        }
    }
}

/// Record 0: the highest number, the live tasks, the active one, and bytes that are zero.
fn record_0(suite: &mut Suite) {
    for live in [0, 1, 2, 31, 32] {
        for (at, byte) in [(2, live as u8 + 1), (2, (live as u8).wrapping_sub(1)), (2, 33), (2, 255)] {
            altered(suite, live, at, &[byte]);
        }
        for active in [0, 1, 2, 3, 128, 255] {
            altered(suite, live, 3, &[active]);
        }
        for (at, byte) in (4..8).flat_map(|at| [(at, 1), (at, 128)]) {
            altered(suite, live, at, &[byte]);
        }
        for issued in [0_u16, 1, live, live + 1, live + 2, live + 3, 255, 256, 32_768, 65_535] {
            altered(suite, live, 0, &issued.to_le_bytes());
        }
    }
    for live in 0..=32 {
        run(suite, fine(live));
    }
    // The first record and a later one.
    for fault in FAULTS {
        let mut block = fine(5);
        block[4] = 1;
        fault(&mut block, 2);
        run(suite, block);
    }
    // Variables and parameters have any content.
    for value in [-1, i32::MIN, i32::MAX] {
        let variables: Vec<(usize, i32)> = (0..64).map(|name| (name, value)).collect();
        run(suite, block(1, true, &[(1, 20, value)], &variables));
    }
}

/// A fine block with other bytes at some index.
fn altered(suite: &mut Suite, live: u16, at: usize, bytes: &[u8]) {
    let mut block = fine(live);
    put(&mut block, at, bytes);
    run(suite, block);
}

/// What can be wrong with a task's first record: number 0, one above the highest, the greatest, the first task's number (at
/// fault from the second task on), a place that is index 0, an expression's, or past the table.
const FAULTS: [fn(&mut [u8], usize); 7] = [
    |block, task| put_number(block, task, 0),
    |block, task| put_number(block, task, 41),
    |block, task| put_number(block, task, 65_535),
    |block, task| block.copy_within(8..10, 8 * first_record(task)),
    |block, task| put_place(block, task, 0),
    |block, task| put_place(block, task, 6),
    |block, task| put_place(block, task, 25),
];

/// Each fault at each task of five; two faults, and a fault before an unused record's; some fault at each task of 32.
fn first_records(suite: &mut Suite) {
    for task in 1..=32 {
        for fault in [FAULTS[task % 3], FAULTS[4 + task % 3]] {
            let mut block = fine(32);
            fault(&mut block, task);
            run(suite, block);
        }
    }
    for fault in FAULTS {
        for task in 1..=5 {
            let mut block = fine(5);
            fault(&mut block, task);
            run(suite, block);
        }
        for other in FAULTS {
            for (first, second) in [(2, 4), (4, 5)] {
                let mut block = fine(5);
                fault(&mut block, first);
                other(&mut block, second);
                run(suite, block);
            }
        }
        let mut block = fine(5);
        fault(&mut block, 3);
        block[8 * first_record(6)] = 1;
        run(suite, block);
    }
}

/// What can be wrong with a task's second record: no spawner, itself, another that is not before it, bytes 2 and 3.
const SECOND_FAULTS: [fn(&mut [u8], usize); 6] = [
    |block, task| put_spawner(block, task, 0),
    |block, task| block.copy_within(8 * first_record(task)..8 * first_record(task) + 2, 8 * first_record(task) + 8),
    |block, task| put_spawner(block, task, 40),
    |block, task| put_spawner(block, task, 65_535),
    |block, task| block[8 * first_record(task) + 10] = 1,
    |block, task| block[8 * first_record(task) + 11] = 128,
];

/// Each fault at each task of five and at some of 32; the first record decides before the second, and both before the
/// next task's.
fn second_records(suite: &mut Suite) {
    for task in 1..=32 {
        let mut block = fine(32);
        SECOND_FAULTS[task % 6](&mut block, task);
        run(suite, block);
    }
    for second in SECOND_FAULTS {
        for task in 1..=5 {
            let mut block = fine(5);
            second(&mut block, task);
            run(suite, block);
        }
        for first in FAULTS {
            for (task, other) in [(3, 3), (2, 3), (3, 2), (5, 4)] {
                let mut block = fine(5);
                first(&mut block, task);
                second(&mut block, other);
                run(suite, block);
            }
        }
        let mut block = fine(5);
        second(&mut block, 5);
        put(&mut block, 8 * first_record(6), &[1; 16]);
        run(suite, block);
    }
}

/// "0 for task 1, else from 1 to one below its own": spawners about each task's number, in the first place and in a
/// later one; the spawner need not be live.
fn spawners(suite: &mut Suite) {
    for number in [1, 2, 3, 255, 256, 257, 32_768, 65_534, 65_535_u16] {
        let least = [0, 1, 2, 255, 256, 511];
        let about = [number - 1, number, number.saturating_add(1), number / 2, number ^ 0x100, 0x8000, 65_535];
        for spawner in least.into_iter().chain(about) {
            for task in [1, 3] {
                let mut block = fine(3);
                put(&mut block, 0, &[255, 255]);
                put_number(&mut block, task, number);
                put_spawner(&mut block, task, spawner);
                // Task 3 of the fine ones is where the other number stands.
                put_number(&mut block, 4 - task, 1_000);
                run(suite, block);
            }
        }
    }
}

/// The times taken up are of any content.
fn times_taken_up(suite: &mut Suite) {
    for taken in [0, 1, 255, 256, 65_536, 0x7fff_ffff, 0x8000_0000, u32::MAX - 1, u32::MAX] {
        for live in [1, 2, 32] {
            let mut block = fine(live);
            put_taken(&mut block, usize::from(live), taken);
            run(suite, block);
        }
    }
}

/// "All different; of two equal ones the later record is at fault"; the highest number itself is fine.
fn equal_numbers(suite: &mut Suite) {
    for (live, first, second) in [(2, 1, 2), (5, 2, 5), (5, 4, 5), (32, 1, 32), (32, 2, 3), (32, 15, 16), (32, 31, 32)]
    {
        for number in [1, 40, 256, 65_535] {
            let mut block = fine(live);
            if number > 40 {
                put(&mut block, 0, &[255, 255]);
            }
            put_number(&mut block, first, number);
            run(suite, block.clone());
            put_number(&mut block, second, number);
            run(suite, block);
        }
    }
    // Three equal ones; two pairs; numbers that are equal in one byte only.
    for numbers in [[7, 7, 7, 1], [7, 8, 8, 7], [7, 8, 7, 8], [0x107, 7, 0x207, 0x700], [0x701, 0x107, 1, 0x101]] {
        let mut block = fine(4);
        put(&mut block, 0, &[255, 255]);
        for (i, number) in numbers.into_iter().enumerate() {
            put_number(&mut block, i + 1, number);
        }
        run(suite, block);
    }
}

/// "Unused ones are all zero": in one byte or another of both records, right after the live tasks, later and last; each
/// record alone.
fn unused_records(suite: &mut Suite) {
    for live in [0, 1, 5, 31] {
        for task in [live + 1, live + 2, 32].into_iter().filter(|task| *task <= 32) {
            for byte in [0, 1, 2, 7, 8, 9, 10, 12, 15] {
                altered(suite, live, 8 * first_record(task.into()) + byte, &[1 << (byte % 8)]);
            }
        }
    }
    for record in 1..=64 {
        altered(suite, 0, 8 * record + record % 8, &[128]);
    }
    for record in [7, 8] {
        let mut block = fine(3);
        put(&mut block, 8 * record, &[1; 16]);
        run(suite, block);
    }
    // A task too many for the count, which is right in itself.
    let mut block = fine(4);
    block[2] = 3;
    run(suite, block);
}

/// "A place is the index of a task's next statement, or of the record after its procedure's last": every index, for a
/// task that is active and for one that is queued.
fn places(suite: &mut Suite) {
    let recipe = table(&every_kind());
    for place in (0..=25).chain([255, 256, 4_095, 4_096, 32_767, 32_768, 65_535]) {
        for active in [true, false] {
            suite.run(&recipe, block(3, active, &[(2, place, 5)], &[(8, 1)]), 3, log(24));
            suite.run(&recipe, block(3, active, &[(3, 17, 6), (2, place, 5)], &[(8, 2)]), 9, log(80));
        }
    }
    for place in [1, 4_094, 4_095, 4_096, 4_097] {
        suite.run(&table(&skips(4_096)), block(1, true, &[(1, place, 0)], &[]), 5_000, log(8));
        suite.run(&table(&[(1, 0, 0, 0); 4_096]), block(1, true, &[(1, place, 0)], &[]), 1, log(8));
    }
}
