//! State blocks, logs, chains and spaces for outcomes to begin with.

/// The bytes of a block.
pub const BLOCK: usize = 776;

/// Where the variables start.
pub const VARIABLES: usize = 520;

/// A live task: number, place and parameter.
pub type Task = (u16, u16, i32);

/// A block: the highest number issued, whether the first task is active, the live tasks, and the variables that are
/// not 0. A task's spawner and its times taken up go by its number; task 1 has them as in a fresh state.
pub fn block(issued: u16, active: bool, tasks: &[Task], variables: &[(usize, i32)]) -> Vec<u8> {
    let mut block = vec![0; BLOCK];
    put(&mut block, 0, &issued.to_le_bytes());
    put(&mut block, 2, &[tasks.len() as u8, u8::from(active)]);
    for (i, &(number, place, parameter)) in tasks.iter().enumerate() {
        put_number(&mut block, i + 1, number);
        put_place(&mut block, i + 1, place);
        put(&mut block, 8 * first_record(i + 1) + 4, &parameter.to_le_bytes());
        put_taken(&mut block, i + 1, 3 * u32::from(number.saturating_sub(1)));
    }
    for &(name, value) in variables {
        put(&mut block, VARIABLES + 4 * name, &value.to_le_bytes());
    }
    block
}

/// "A fresh state has task 1 (main, parameter 0) active at place 1, highest number 1 and all variables 0."
pub fn fresh() -> Vec<u8> {
    block(1, true, &[(1, 1, 0)], &[])
}

/// Writes bytes of a block.
pub fn put(block: &mut [u8], at: usize, bytes: &[u8]) {
    block[at..at + bytes.len()].copy_from_slice(bytes);
}

/// The first state record of a task, counted from 1; its second is the next.
pub fn first_record(task: usize) -> usize {
    2 * task - 1
}

/// Writes the number of a task, counted from 1, and a spawner that it may have.
pub fn put_number(block: &mut [u8], task: usize, number: u16) {
    put(block, 8 * first_record(task), &number.to_le_bytes());
    put_spawner(block, task, number / 2);
}

/// Writes the place of a task, counted from 1.
pub fn put_place(block: &mut [u8], task: usize, place: u16) {
    put(block, 8 * first_record(task) + 2, &place.to_le_bytes());
}

/// Writes the spawner's number of a task, counted from 1.
pub fn put_spawner(block: &mut [u8], task: usize, spawner: u16) {
    put(block, 8 * first_record(task) + 8, &spawner.to_le_bytes());
}

/// Writes the times that a task, counted from 1, was taken up.
pub fn put_taken(block: &mut [u8], task: usize, taken: u32) {
    put(block, 8 * first_record(task) + 12, &taken.to_le_bytes());
}

/// A block of any old content: its bytes are 0 to 7, again and again.
pub fn old(length: usize) -> Vec<u8> {
    (0..8).cycle().take(length).collect()
}

/// A log, a chain or a space for outcomes of any old content, so that bytes that are kept are seen.
pub fn log(length: usize) -> Vec<u8> {
    (0xb0..0xb8).cycle().take(length).collect()
}
