//! State blocks: random ones that pass, many of them stuck, and one damage for each way that a block can fail.

use crate::random::Random;
use crate::recipe::{Recipe, AWAIT};
use crate::writer::random_value;

/// The bytes of a block.
pub const BLOCK: usize = 776;
/// The most live tasks.
pub const TASKS: usize = 32;
/// The bytes of a task: its first record, and its second directly behind.
pub const TASK: usize = 16;

/// The first byte of a task, counted from 1.
pub const fn task_at(task: usize) -> usize {
    8 + TASK * (task - 1)
}

/// The first byte of a task's second record.
pub const fn second_at(task: usize) -> usize {
    task_at(task) + 8
}

/// The first byte of a variable.
pub const fn variable_at(name: usize) -> usize {
    task_at(TASKS + 1) + 4 * name
}

fn put<const N: usize>(block: &mut [u8], at: usize, bytes: [u8; N]) {
    block[at..at + N].copy_from_slice(&bytes);
}

/// Writes the highest number issued.
pub fn put_issued(block: &mut [u8], number: u16) {
    put(block, 0, number.to_le_bytes());
}

fn issued(block: &[u8]) -> u16 {
    u16::from_le_bytes([block[0], block[1]])
}

/// Writes a task's number.
pub fn put_number(block: &mut [u8], task: usize, number: u16) {
    put(block, task_at(task), number.to_le_bytes());
}

fn number(block: &[u8], task: usize) -> u16 {
    u16::from_le_bytes([block[task_at(task)], block[task_at(task) + 1]])
}

/// Writes a task's place.
pub fn put_place(block: &mut [u8], task: usize, place: u16) {
    put(block, task_at(task) + 2, place.to_le_bytes());
}

/// Writes a task's parameter.
pub fn put_parameter(block: &mut [u8], task: usize, value: i32) {
    put(block, task_at(task) + 4, value.to_le_bytes());
}

/// Writes the number of a task's spawner.
pub fn put_spawner(block: &mut [u8], task: usize, spawner: u16) {
    put(block, second_at(task), spawner.to_le_bytes());
}

/// Writes the times that a task was taken up.
pub fn put_taken(block: &mut [u8], task: usize, times: u32) {
    put(block, second_at(task) + 4, times.to_le_bytes());
}

/// Writes a variable.
pub fn put_variable(block: &mut [u8], name: usize, value: i32) {
    put(block, variable_at(name), value.to_le_bytes());
}

/// A spawner that a task of this number may have, of which there is none for task 1.
pub fn random_spawner(random: &mut Random, number: u16) -> u16 {
    match number {
        0 | 1 => 0,
        _ if random.percent(30) => number - 1,
        _ => random.within(1, usize::from(number) - 1) as u16,
    }
}

/// Often few, or near the largest value.
fn random_times(random: &mut Random) -> u32 {
    match random.below(10) {
        0..3 => 0,
        3..6 => random.below(300) as u32,
        6..8 => random.word() as u32,
        _ => u32::MAX - random.below(3) as u32,
    }
}

/// A block that passes for the recipe, with tasks at any of its places.
pub fn random_block(random: &mut Random, recipe: &Recipe) -> Vec<u8> {
    let live = match random.below(100) {
        0..5 => 0,
        5..75 => random.within(1, 6),
        75..90 => random.within(7, 30),
        _ => random.within(31, TASKS),
    };
    let issued = match random.below(100) {
        0..60 => random.within(live.max(1), live + 6),
        60..80 => random.within(live.max(1), 65_535),
        _ => random.within(65_530, 65_535),
    };
    let active = live > 0 && random.percent(50);
    block_of(random, recipe, issued as u16, live, active)
}

/// A block that passes, with the given first record.
pub fn block_of(random: &mut Random, recipe: &Recipe, issued: u16, live: usize, active: bool) -> Vec<u8> {
    let mut block = vec![0; BLOCK];
    put_issued(&mut block, issued);
    block[2] = live as u8;
    block[3] = u8::from(active);
    for (i, number) in task_numbers(random, issued, live).into_iter().enumerate() {
        put_number(&mut block, i + 1, number);
        put_place(&mut block, i + 1, random.pick(&recipe.places));
        put_parameter(&mut block, i + 1, some_value(random, issued));
        put_spawner(&mut block, i + 1, random_spawner(random, number));
        put_taken(&mut block, i + 1, random_times(random));
    }
    for name in 0..64 {
        if random.percent(30) {
            put_variable(&mut block, name, some_value(random, issued));
        }
    }
    block
}

/// A block that passes for a recipe with awaits, without an active task, every task at an await or a guard: mostly
/// stuck.
pub fn waiting_block(random: &mut Random, recipe: &Recipe) -> Vec<u8> {
    let live = match random.below(100) {
        0..55 => random.within(1, 6),
        55..80 => random.within(7, TASKS - 1),
        _ => TASKS,
    };
    let issued = match random.below(3) {
        0 => live,
        1 => live + random.below(4),
        _ => random.within(live, 65_535),
    };
    let mut block = block_of(random, recipe, issued as u16, live, false);
    for task in 1..=live {
        put_place(&mut block, task, random.pick(&recipe.waits));
        let parameter = awaited_value(random, &block);
        put_parameter(&mut block, task, parameter);
    }
    for name in 0..64 {
        let value = awaited_value(random, &block);
        put_variable(&mut block, name, value);
    }
    if random.percent(50) {
        in_a_row(random, recipe, &mut block);
    }
    block
}

/// The number of a live task, mostly, or one never issued; seldom a done one or 0.
fn awaited_value(random: &mut Random, block: &[u8]) -> i32 {
    let issued = issued(block);
    match random.below(100) {
        0..88 => number(block, random.within(1, block[2].into())).into(),
        88 => 0,
        89..92 => -1 - random.below(3) as i32,
        92..97 => i32::from(issued) + 1,
        _ => some_value(random, issued),
    }
}

/// Lets the front wait for another task by its parameter, that one for a third, and so on, through some or all tasks.
/// The last one waits as before.
fn in_a_row(random: &mut Random, recipe: &Recipe, block: &mut [u8]) {
    let own = |place: &&u16| recipe.table[8 * usize::from(**place)..].starts_with(&[AWAIT, 64]);
    let Some(&place) = recipe.waits.iter().find(own) else { return };
    let live = usize::from(block[2]);
    let mut order: Vec<usize> = (1..=live).collect();
    random.shuffle(&mut order[1..]);
    if random.percent(50) {
        order.truncate(random.within(1, live));
    }
    for pair in order.windows(2) {
        put_place(block, pair[0], place);
        let next = number(block, pair[1]);
        put_parameter(block, pair[0], next.into());
    }
}

/// Values that are often a number issued or one near it.
fn some_value(random: &mut Random, issued: u16) -> i32 {
    match random.below(3) {
        0 => random_value(random),
        1 => random.below(usize::from(issued) + 2) as i32,
        _ => i32::from(issued) - random.below(4) as i32 + 1,
    }
}

/// As many different numbers as there are live tasks, from 1 to the highest.
fn task_numbers(random: &mut Random, issued: u16, live: usize) -> Vec<u16> {
    let mut numbers: Vec<u16> = if issued < 64 {
        (1..=issued).collect()
    } else {
        let first = random.within(1, usize::from(issued) - 63) as u16;
        (first..first + 64).collect()
    };
    random.shuffle(&mut numbers);
    numbers.truncate(live);
    numbers
}

/// Each way that a block can fail, 21 or 22.
#[derive(Clone, Copy, Debug, PartialEq, Eq)]
pub enum Way {
    Length,
    NoneIssued,
    LiveOver,
    ActiveOver,
    ActiveWithoutLive,
    FirstNotZero,
    NumberZero,
    NumberOver,
    NumberTwice,
    PlaceZero,
    PlaceExpression,
    PlacePast,
    SpawnerNone,
    SpawnerOver,
    SecondNotZero,
    UnusedNotZero,
}

pub const WAYS: [Way; 16] = [
    Way::Length,
    Way::NoneIssued,
    Way::LiveOver,
    Way::ActiveOver,
    Way::ActiveWithoutLive,
    Way::FirstNotZero,
    Way::NumberZero,
    Way::NumberOver,
    Way::NumberTwice,
    Way::PlaceZero,
    Way::PlaceExpression,
    Way::PlacePast,
    Way::SpawnerNone,
    Way::SpawnerOver,
    Way::SecondNotZero,
    Way::UnusedNotZero,
];

/// Damages a whole block at one of the tasks, counted from 1 (or its first record, where the way is about that).
pub fn damage_block(random: &mut Random, block: &mut Vec<u8>, recipe: &Recipe, way: Way, task: usize) {
    match way {
        Way::Length => {
            let length = random.pick(&[0, 1, 7, 8, 520, 768, 775, 777, 784, 1552]);
            block.resize(length, 0);
        }
        Way::NoneIssued => put_issued(block, 0),
        Way::LiveOver => block[2] = random.within(TASKS + 1, 255) as u8,
        Way::ActiveOver => block[3] = random.within(2, 255) as u8,
        Way::ActiveWithoutLive => {
            block[2] = 0;
            block[3] = 1;
        }
        Way::FirstNotZero => block[4 + random.below(4)] = random.within(1, 255) as u8,
        Way::NumberZero => put_number(block, task, 0),
        Way::NumberOver => {
            let over = at_least(random, usize::from(issued(block)) + 1);
            put_number(block, task, over);
        }
        Way::NumberTwice => {
            let earlier = task_at(random.within(1, task.max(2) - 1));
            block.copy_within(earlier..earlier + 2, task_at(task));
        }
        Way::PlaceZero => put_place(block, task, 0),
        Way::PlaceExpression => {
            let place = recipe.expressions.get(random.below(recipe.expressions.len()));
            put_place(block, task, place.copied().unwrap_or(0));
        }
        Way::PlacePast => {
            let past = at_least(random, recipe.records() + 1);
            put_place(block, task, past);
        }
        // Task 1 has no spawner, and every other one has.
        Way::SpawnerNone => {
            let none = u16::from(number(block, task) == 1);
            put_spawner(block, task, none);
        }
        Way::SpawnerOver => {
            let over = at_least(random, usize::from(number(block, task)));
            put_spawner(block, task, over);
        }
        Way::SecondNotZero => block[second_at(task) + 2 + random.below(2)] = random.within(1, 255) as u8,
        Way::UnusedNotZero => block[task_at(task) + random.below(TASK)] = random.within(1, 255) as u8,
    }
}

/// The least or one above it, as far as 16 bits reach.
fn at_least(random: &mut Random, least: usize) -> u16 {
    let least = least.min(65_535);
    if random.percent(50) {
        return least as u16;
    }
    random.within(least, 65_535) as u16
}
