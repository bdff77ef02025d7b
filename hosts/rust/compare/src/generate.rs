//! Random cases: tables, blocks, budgets, logs, chains and batches, that pass and that do not.

use crate::batch::{random_batch, Batch};
use crate::block::{damage_block, random_block, variable_at, waiting_block, BLOCK, TASKS, WAYS};
use crate::case::{is_tame, Call, Case, TAME};
use crate::damage::{damage_table, odd_length, raw_table};
use crate::random::Random;
use crate::recipe::Recipe;
use crate::writer::{random_recipe, waiting_recipe, Style};

/// The bytes of a chain that is accepted.
pub const CHAIN: usize = 66;

/// One random case. Some are of recipes and blocks whose tasks wait.
pub fn random_case(random: &mut Random) -> Case {
    let waiting = random.percent(15);
    let recipe = if waiting { waiting_recipe(random) } else { any_recipe(random) };
    let table = random_table(random, &recipe);
    let fresh = !waiting && random.percent(45);
    let block = match (fresh, waiting) {
        (true, _) => old_content(random),
        (_, true) => lent_block(random, &recipe, waiting_block),
        _ => lent_block(random, &recipe, random_block),
    };
    let count = random.pick(&[1, 1, 2, 3, 5]);
    let calls = (0..count).map(|_| random_call(random)).collect();
    let chain = random_chain(random);
    let batch = if random.percent(8) { any_batch(random) } else { Batch::default() };
    let mut case = Case { table, block, fresh, calls, chain, batch };
    if !is_tame(&case) {
        for call in &mut case.calls {
            call.budget = call.budget.min(TAME);
        }
    }
    case
}

fn any_recipe(random: &mut Random) -> Recipe {
    let style = Style::any(random);
    random_recipe(random, &style)
}

/// A batch, mostly of short recipes, some of them empty or at fault.
pub fn any_batch(random: &mut Random) -> Batch {
    let longest = random.pick(&[8, 8, 30, 30, 100]);
    random_batch(random, |random| {
        if random.percent(4) {
            return Vec::new();
        }
        let any = Style::any(random);
        let records = if random.percent(99) { any.records.min(longest) } else { any.records };
        let recipe = random_recipe(random, &Style { records, procedures: any.procedures.min(records), ..any });
        random_table(random, &recipe)
    })
}

fn random_table(random: &mut Random, recipe: &Recipe) -> Vec<u8> {
    match random.below(100) {
        0..75 => recipe.table.clone(),
        75..93 => damage_table(random, recipe),
        93..97 => raw_table(random),
        _ => odd_length(random, recipe),
    }
}

/// What a start writes over.
fn old_content(random: &mut Random) -> Vec<u8> {
    let length = if random.percent(97) { BLOCK } else { random.pick(&[0, 1, 8, 520, 768, 775, 777, 1552]) };
    random.bytes(length)
}

/// A block that passes, mostly.
fn lent_block(random: &mut Random, recipe: &Recipe, passes: fn(&mut Random, &Recipe) -> Vec<u8>) -> Vec<u8> {
    let mut block = passes(random, recipe);
    match random.below(100) {
        0..85 => {}
        85..97 => {
            let way = random.pick(&WAYS);
            let task = if random.percent(50) { random.within(1, 4) } else { random.within(1, TASKS) };
            damage_block(random, &mut block, recipe, way, task);
        }
        _ => {
            let at = random.below(variable_at(0));
            block[at] = random.word() as u8;
        }
    }
    block
}

fn random_call(random: &mut Random) -> Call {
    let budget = match random.below(100) {
        0..6 => 0,
        6..14 => 1,
        14..45 => random.within(2, 20) as u32,
        45..75 => random.within(20, 200) as u32,
        75..85 => random.within(200, 1500) as u32,
        85..93 => u32::MAX,
        _ => random.word() as u32,
    };
    let records = match random.below(100) {
        0..10 => 0,
        10..50 => random.within(0, 8),
        50..90 => random.within(8, 100),
        90..98 => random.within(100, 600),
        _ => 4_096,
    };
    let rest = if random.percent(30) { random.below(8) } else { 0 };
    Call { budget, log: random.bytes(8 * records + rest) }
}

/// An output of the right length, mostly.
fn random_chain(random: &mut Random) -> Vec<u8> {
    let length = if random.percent(90) { CHAIN } else { random.within(0, 70) };
    random.bytes(length)
}
