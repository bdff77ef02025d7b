//! What request 2.6 says of who started a task and of how often it was taken up, seen from outside: lists of run calls of
//! the library alone, judged by their logs and blocks; the model has no part in it.

use compare::block::{put_taken, second_at, task_at, BLOCK, TASKS};
use compare::random::Random;
use compare::recipe::Recipe;
use compare::view::View;
use compare::writer::{lively_recipe, random_recipe, Style};
use recipe_runner::{run, start};
use std::collections::BTreeMap;

const SPAWNED: u8 = 1;
const TAKEN: u8 = 2;

fn fresh(table: &[u8]) -> Vec<u8> {
    let mut block = vec![0xa5; BLOCK];
    assert_eq!(start(table, &mut block).number, 0);
    block
}

/// Recipes that spawn much: some go on for ever, others end or get stuck.
fn recipes(seed: u64, count: usize) -> impl Iterator<Item = Recipe> {
    let mut random = Random::new(seed);
    let style = Style { records: 40, procedures: 4, deepest: 16, nesting: 30, wide: 0, spawns: 40, zeros: 0 };
    (0..count).map(move |i| match i % 2 {
        0 => lively_recipe(&mut random),
        _ => random_recipe(&mut random, &style),
    })
}

/// Calls of random budgets and logs, each on the block that the last one left; gives the logs joined.
fn joined(random: &mut Random, table: &[u8], block: &mut [u8]) -> Vec<u8> {
    let mut joined = Vec::new();
    for _ in 0..random.within(1, 12) {
        let length = random.below(900);
        let mut log = random.bytes(length);
        let answer = run(table, block, random.below(400) as u32, &mut log);
        joined.extend(&log[..8 * answer.records as usize]);
    }
    joined
}

/// What a list of logs says: who spawned a number, and how often each task was taken up.
#[derive(Default)]
struct Told {
    spawners: BTreeMap<u16, u16>,
    takings: BTreeMap<u16, u32>,
}

fn told(log: &[u8]) -> Told {
    let mut told = Told::default();
    for &[kind, _, t0, t1, n0, n1, ..] in log.as_chunks::<8>().0 {
        let (task, number) = (u16::from_le_bytes([t0, t1]), u16::from_le_bytes([n0, n1]));
        match kind {
            SPAWNED => assert_eq!(told.spawners.insert(number, task), None),
            TAKEN => *told.takings.entry(task).or_default() += 1,
            _ => {}
        }
    }
    told
}

/// "Over demand 3's lists from a fresh state, a live task's count must equal its 'taken' records .. and its spawner the
/// task of its 'spawned' record, if any."
#[test]
fn live_tasks_have_what_the_logs_say() {
    let mut random = Random::new(41);
    let (mut spawned, mut most) = (0, 0);
    for recipe in recipes(42, 4_000) {
        let table = &recipe.table;
        let mut block = fresh(table);
        let told = told(&joined(&mut random, table, &mut block));
        let view = View { table, block: &block };
        for task in 1..=view.live() {
            let number = view.number(task);
            let spawner = told.spawners.get(&number).copied().unwrap_or_default();
            assert_eq!((view.spawner(task), spawner == 0), (spawner, number == 1));
            let takings = told.takings.get(&number).copied().unwrap_or_default();
            assert_eq!(view.taken_up(task), takings);
            spawned += u32::from(number != 1);
            most = most.max(takings);
        }
    }
    assert!(spawned > 4_000 && most > 200, "{spawned} {most}");
}

/// "Up to that largest value": from counts near it, which any block may have.
#[test]
fn counts_stay_at_the_largest_value() {
    let mut random = Random::new(43);
    let (mut stayed, mut reached) = (0, 0);
    for recipe in recipes(44, 4_000) {
        let table = &recipe.table;
        let mut block = fresh(table);
        joined(&mut random, table, &mut block);
        let live = View { table, block: &block }.live();
        (1..=live).for_each(|task| put_taken(&mut block, task, u32::MAX - random.below(5) as u32));
        let before: BTreeMap<u16, u32> = counts(table, &block);
        let told = told(&joined(&mut random, table, &mut block));
        for (number, count) in counts(table, &block) {
            let takings = told.takings.get(&number).copied().unwrap_or_default();
            let due = before.get(&number).copied().unwrap_or_default().saturating_add(takings);
            assert_eq!(count, due);
            reached += u32::from(count == u32::MAX);
            stayed += u32::from(before.get(&number) == Some(&u32::MAX) && takings > 0);
        }
    }
    assert!(stayed > 500 && reached > 1_000, "{stayed} {reached}");
}

/// The times taken up of each live task, by its number.
fn counts(table: &[u8], block: &[u8]) -> BTreeMap<u16, u32> {
    let view = View { table, block };
    (1..=view.live()).map(|task| (view.number(task), view.taken_up(task))).collect()
}

/// Step by step: a task's second record changes by its own taking up alone, and goes with it from place to place; a new
/// one has the active task as its spawner and 0; bytes 2 and 3, and those of unused ones, stay zero.
#[test]
fn a_second_record_goes_with_its_task() {
    let mut kinds = BTreeMap::new();
    for recipe in recipes(45, 600) {
        let table = &recipe.table;
        let mut block = fresh(table);
        let mut before = seconds(table, &block);
        for _ in 0..800 {
            let mut log = [0; 8];
            let answer = run(table, &mut block, 1, &mut log);
            if answer.steps == 0 {
                break;
            }
            let kind = if answer.records == 1 { log[0] } else { 0 };
            let task = u16::from_le_bytes([log[2], log[3]]);
            match kind {
                SPAWNED => drop(before.insert(u16::from_le_bytes([log[4], log[5]]), (task, 0))),
                TAKEN => before.get_mut(&task).expect("a live task is taken up").1 += 1,
                6 => drop(before.remove(&task)),
                _ => {}
            }
            let after = seconds(table, &block);
            assert_eq!(after, before);
            *kinds.entry(kind).or_insert(0) += 1;
        }
    }
    assert!((0..=7).all(|kind| kinds[&kind] > 100), "{kinds:?}");
}

/// The second record of each live task by its number; the unused records are all zero.
fn seconds(table: &[u8], block: &[u8]) -> BTreeMap<u16, (u16, u32)> {
    let view = View { table, block };
    assert!(block[task_at(view.live() + 1)..task_at(TASKS + 1)].iter().all(|byte| *byte == 0));
    let second = |task| {
        assert_eq!(block[second_at(task) + 2..second_at(task) + 4], [0, 0]);
        (view.number(task), (view.spawner(task), view.taken_up(task)))
    };
    (1..=view.live()).map(second).collect()
}
