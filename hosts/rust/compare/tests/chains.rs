//! What request 2.4 says of a stuck state's chain, seen from outside: answers of the library alone, judged by the bytes
//! of block and table. What these mean is worked out by hand, in `compare::view`; the model has no part in it.

use compare::block::{task_at, waiting_block, BLOCK, TASK};
use compare::generate::{random_case, CHAIN};
use compare::random::Random;
use compare::recipe::{Recipe, AWAIT};
use compare::view::View;
use compare::writer::{lively_recipe, random_recipe, waiting_recipe, Style};
use recipe_runner::{run, start, why_stuck, Explained};
use std::collections::{BTreeMap, BTreeSet};

const STUCK: u32 = 2;
const NOT_STUCK: Explained = Explained { number: 25, count: 0, end: 0, place: 0 };

/// The numbers of a chain.
fn numbers(chain: &[u8]) -> Vec<u16> {
    chain.as_chunks().0.iter().map(|pair| u16::from_le_bytes(*pair)).collect()
}

/// Where a live task stands.
fn standing(view: &View, number: u16) -> usize {
    (1..=view.live()).find(|&task| view.number(task) == number).expect("a live task is named")
}

/// Asks why a block is stuck, with an output of old content. The block and the bytes past the numbers are kept.
fn ask(random: &mut Random, table: &[u8], block: &[u8]) -> (Explained, Vec<u16>) {
    let before = random.bytes(CHAIN);
    let (mut chain, lent) = (before.clone(), block.to_vec());
    let explained = why_stuck(table, &lent, &mut chain);
    let written = 2 * explained.count as usize;
    assert_eq!(chain[written..], before[written..]);
    assert_eq!(lent, block);
    (explained, numbers(&chain[..written]))
}

/// "From the front of the queue, each waits for the next, ending in a task named earlier (end 1), in one waiting for a
/// number never issued (end 2), or in one at an untrue guard (end 3)", and "it names no task twice except to close a
/// circle"; it "no longer ends at 0" (request 2.7).
fn is_chain(view: &View, numbers: &[u16], end: u32) {
    assert_eq!(numbers[0], view.number(1));
    for pair in numbers.windows(2) {
        let task = standing(view, pair[0]);
        assert!(!view.is_at_guard(task));
        assert_eq!(view.waits(task), Some(pair[1].into()));
    }
    let (last, others) = numbers.split_last().expect("the front is named");
    let different: BTreeSet<u16> = others.iter().copied().collect();
    assert_eq!(different.len(), others.len());
    assert_eq!(different.contains(last), end == 1);
    let task = standing(view, *last);
    let awaited = view.waits(task).expect("the last one waits too");
    match end {
        1 => {}
        2 => assert!(!view.is_at_guard(task) && !view.is_issued(awaited) && awaited != 0),
        3 => assert!(view.is_at_guard(task)),
        _ => panic!("an end that is none: {end}"),
    }
}

/// "Every stuck state has such a chain", and no other state has: what the tool says of a block that passes. Gives the
/// end and the count, 0 of a state that is not stuck.
fn holds(random: &mut Random, table: &[u8], block: &[u8]) -> (u32, u32) {
    let view = View { table, block };
    let (explained, numbers) = ask(random, table, block);
    if !view.is_stuck() {
        assert_eq!(explained, NOT_STUCK);
        return (0, 0);
    }
    assert_eq!((explained.number, explained.place), (0, 0));
    is_chain(&view, &numbers, explained.end);
    (explained.end, explained.count)
}

/// Counts of ends and of lengths.
#[derive(Default)]
struct Counts {
    ends: BTreeMap<u32, u32>,
    lengths: BTreeMap<u32, u32>,
}

impl Counts {
    fn add(&mut self, (end, length): (u32, u32)) {
        *self.ends.entry(end).or_default() += 1;
        *self.lengths.entry(length).or_default() += 1;
    }
}

/// A block without an active task, with each of its tasks at the front in turn.
fn rotations(block: &[u8]) -> impl Iterator<Item = Vec<u8>> + '_ {
    let live = usize::from(block[2]);
    (0..live).map(move |turns| {
        let mut block = block.to_vec();
        block[task_at(1)..task_at(live + 1)].rotate_left(TASK * turns);
        block
    })
}

#[test]
fn each_link_is_true_and_each_stuck_state_has_a_chain() {
    let mut random = Random::new(31);
    let mut counts = Counts::default();
    for _ in 0..20_000 {
        let recipe = waiting_recipe(&mut random);
        let block = waiting_block(&mut random, &recipe);
        for block in rotations(&block) {
            counts.add(holds(&mut random, &recipe.table, &block));
        }
    }
    assert!((0..=3).all(|end| counts.ends[&end] > 1_000), "{:?}", counts.ends);
    assert!((0..=33).all(|length| counts.lengths[&length] > 50), "{:?}", counts.lengths);
}

/// Main spawns tasks that wait for the number in their parameter, mostly another one's, and waits for the last.
fn crew(random: &mut Random) -> Recipe {
    let tasks = random.within(1, 31);
    let mut recipe = Recipe::new();
    recipe.procedure(|r| {
        (0..tasks).for_each(|_| r.spawn(8, 1, random.within(0, tasks + 2) as i32));
        r.leaf(AWAIT, 8, 0);
    });
    recipe.procedure(|r| r.leaf(AWAIT, 64, 0));
    recipe
}

/// Recipes that mostly end or get stuck, and some that go on for ever.
fn recipes(random: &mut Random, count: usize) -> Vec<Recipe> {
    let style = Style { records: 40, procedures: 3, deepest: 16, nesting: 30, wide: 0, spawns: 30, zeros: 0 };
    let one = |i| match i % 4 {
        0 => lively_recipe(random),
        1 => crew(random),
        _ => random_recipe(random, &style),
    };
    (0..count).map(one).collect()
}

/// A run that stops with 2 leaves a state with a chain, and one that stops otherwise leaves none.
#[test]
fn a_run_that_is_stuck_has_a_chain() {
    let mut random = Random::new(32);
    let mut counts = Counts::default();
    for recipe in recipes(&mut random, 8_000) {
        let table = &recipe.table;
        let mut block = vec![0; BLOCK];
        assert_eq!(start(table, &mut block).number, 0);
        let answer = run(table, &mut block, 2_000, &mut vec![0; 16_000]);
        let (end, count) = holds(&mut random, table, &block);
        assert_eq!(end != 0, answer.number == STUCK);
        counts.add((end, count));
    }
    assert!((0..=3).all(|end| counts.ends[&end] > 100), "{:?}", counts.ends);
    assert!((1..=10).all(|length| counts.lengths[&length] > 20), "{:?}", counts.lengths);
}

/// Of any table, block and output: the table's and the block's refusals are those of a run, an accepted state is stuck
/// for a run with any budget and log, and a refused one of 66 bytes is not.
#[test]
fn it_says_what_a_run_says() {
    let mut random = Random::new(33);
    let mut counts = BTreeMap::new();
    for _ in 0..60_000 {
        let case = random_case(&mut random);
        let mut chain = case.chain.clone();
        let explained = why_stuck(&case.table, &case.block, &mut chain);
        let mut block = case.block.clone();
        // Without a budget it is finished, paused, stuck or refused.
        let answer = run(&case.table, &mut block, 0, &mut []);
        let expected = match answer.number {
            11.. => (answer.number, answer.place),
            STUCK if chain.len() == CHAIN => (0, 0),
            _ => (25, 0),
        };
        assert_eq!((explained.number, explained.place), expected, "{case}");
        assert_eq!((explained.count == 0, explained.end == 0), (explained.number != 0, explained.number != 0));
        match explained.number {
            0 => stays_stuck(&mut random, &case.table, &case.block),
            _ => assert_eq!(chain, case.chain),
        }
        *counts.entry(explained.number).or_insert(0) += 1;
    }
    let numbers = [0, 11, 12, 13, 14, 15, 16, 17, 21, 22, 25];
    assert_eq!(Vec::from_iter(counts.keys().copied()), numbers);
    assert!(counts[&0] > 1_000 && counts[&25] > 1_000, "{counts:?}");
}

/// A run gives 2 without a step, whatever its budget and its log's room, and changes nothing.
fn stays_stuck(random: &mut Random, table: &[u8], block: &[u8]) {
    for budget in [0, 1, u32::MAX] {
        let mut after = block.to_vec();
        let room = random.below(100);
        let answer = run(table, &mut after, budget, &mut vec![0; room]);
        assert_eq!((answer.number, answer.steps, answer.records), (STUCK, 0, 0));
        assert_eq!(after, block);
    }
}

/// "The runner .. touches nothing outside them": the lent buffers stand in one larger buffer, at any alignment, and only
/// the chain's numbers change.
#[test]
fn neighbouring_bytes_are_kept() {
    let mut random = Random::new(34);
    let mut accepted = 0;
    for _ in 0..20_000 {
        let case = random_case(&mut random);
        let (mut memory, [table, block, chain]) = random.scatter([&case.table, &case.block, &case.chain]);
        let before = memory.clone();
        let (given, rest) = memory.split_at_mut(chain.start);
        let explained = why_stuck(&given[table], &given[block], &mut rest[..chain.len()]);
        let end = chain.start + 2 * explained.count as usize;
        assert!(memory[..chain.start] == before[..chain.start] && memory[end..] == before[end..]);
        accepted += u32::from(explained.number == 0);
    }
    assert!(accepted > 500, "{accepted}");
}
