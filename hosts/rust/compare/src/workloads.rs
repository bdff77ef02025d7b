//! The benchmark's workloads: each is one call, or a call for each recipe of a batch, made again and again from the same
//! block.

use crate::batch::Batch;
use crate::block::{BLOCK, TASKS};
use crate::case::Side;
use crate::generate::CHAIN;
use crate::recipe::{Recipe, AWAIT, GUARD, IF, QUOTIENT, SET, SKIP, SUSPEND, TWO};
use recipe_runner::BATCH;
use std::hint::black_box;

/// The most records of a table.
pub const RECORDS: usize = 4_096;
/// The most levels of the expression of a set in a loop: the loop has depth 1, the set 2, the expression 3 to 16.
pub const LEVELS: usize = 14;
/// The steps of a long call, and the records of its log.
const STEPS: u32 = 4_096;
/// Steps after which all tasks are spawned and have had a turn.
const WARM: u32 = 200;
/// The records of the statements that a mixed table repeats.
const MIX: usize = 11;
/// The numbers of the longest chain: a circle of all tasks, closed.
const LONGEST: u32 = TASKS as u32 + 1;

/// What is called, and what the time is counted by.
#[derive(Clone, Copy, Debug, PartialEq, Eq)]
pub enum Unit {
    /// A run, by its steps.
    Step,
    /// A run, by itself.
    Call,
    /// A start, by itself.
    Start,
    /// A start, by the table's records.
    Record,
    /// A question why the state is stuck, by itself.
    Why,
    /// A check of a batch, by its recipes.
    Batch,
    /// A start on each recipe of a batch, by the recipes.
    Starts,
}

pub struct Workload {
    pub name: &'static str,
    pub unit: Unit,
    table: Vec<u8>,
    /// The block that each call begins with.
    block: Vec<u8>,
    budget: u32,
    /// The recipes that are checked together or one by one; other workloads have none.
    batch: Batch,
}

impl Workload {
    /// Each call begins after some steps from a fresh state.
    fn new(name: &'static str, unit: Unit, recipe: Recipe, warm: u32, budget: u32) -> Workload {
        let table = recipe.table;
        let mut block = vec![0; BLOCK];
        assert_eq!(recipe_model::start(&table, &mut block).number, 0, "{name}");
        recipe_model::run(&table, &mut block, warm, &mut vec![0; 8 * STEPS as usize]);
        Workload { name, unit, table, block, budget, batch: Batch::default() }
    }

    /// Recipes that all pass, checked together or one by one.
    fn of_batch(name: &'static str, unit: Unit, recipes: &[Vec<u8>]) -> Workload {
        Workload { name, unit, table: Vec::new(), block: vec![0; BLOCK], budget: 0, batch: Batch::of(recipes) }
    }

    /// How many units a call has.
    pub fn units(&self) -> f64 {
        match self.unit {
            Unit::Step => f64::from(self.budget),
            Unit::Call | Unit::Start | Unit::Why => 1.0,
            Unit::Record => (self.table.len() / 8) as f64,
            Unit::Batch | Unit::Starts => self.batch.count() as f64,
        }
    }

    /// Makes as many calls on a side. A run must use its budget up, a chain must be the longest one, and each recipe must
    /// pass.
    pub fn make(&self, side: &Side, calls: u32) {
        let mut block = self.block.clone();
        let mut log = vec![0; 8 * STEPS as usize];
        let mut chain = [0; CHAIN];
        let mut outcomes = self.batch.outcomes.clone();
        let passed = vec![0; outcomes.len()];
        let recipes = self.batch.tables();
        for _ in 0..calls {
            block.copy_from_slice(&self.block);
            let table = black_box(&self.table);
            let good = match self.unit {
                Unit::Start | Unit::Record => (side.start)(table, &mut block) == [0, 0],
                Unit::Why => (side.why_stuck)(table, &block, &mut chain) == [0, LONGEST, 1, 0],
                Unit::Batch => {
                    let Batch { recipes, lengths, .. } = black_box(&self.batch);
                    (side.check_all)(recipes, lengths, &mut outcomes) == 0 && outcomes == passed
                }
                Unit::Starts => black_box(&recipes).iter().all(|table| (side.start)(table, &mut block) == [0, 0]),
                Unit::Step | Unit::Call => {
                    (side.run)(table, &mut block, self.budget, &mut log)[..2] == [1, self.budget]
                }
            };
            assert!(good, "{}", self.name);
            black_box((&mut block, &mut log, &mut chain, &mut outcomes));
        }
    }
}

/// All workloads, in the order of the report.
pub fn workloads() -> Vec<Workload> {
    use Unit::{Batch, Call, Record, Starts, Step, Why};
    vec![
        Workload::new("loop", Step, local_loop(), 0, STEPS),
        suspend(31),
        wait(31),
        Workload::new("guard", Step, guarded(32), WARM, STEPS),
        Workload::new("optional", Step, optional(32), WARM, STEPS),
        Workload::new("spawn", Step, spawner(), 0, STEPS),
        deep(LEVELS),
        Workload::new("quotients", Step, quotients(), 0, STEPS),
        Workload::new("short-calls", Call, mixed_table(RECORDS), 100, 10),
        Workload::new("calls-with-tasks", Call, suspenders(32), WARM, 1),
        Workload::new("why-stuck", Why, circle(), WARM, 0),
        Workload::new("check-flat", Record, flat_table(), 0, 0),
        Workload::new("check-expressions", Record, expression_table(), 0, 0),
        Workload::of_batch("check-batch", Batch, &season()),
        Workload::of_batch("check-one-by-one", Starts, &season()),
    ]
}

/// The steps of tasks that only suspend.
pub fn suspend(tasks: usize) -> Workload {
    Workload::new("suspend", Unit::Step, suspenders(tasks), WARM, STEPS)
}

/// The steps of one task that suspends while the others wait.
pub fn wait(tasks: usize) -> Workload {
    Workload::new("wait", Unit::Step, waiters(tasks), WARM, STEPS)
}

/// The steps of a loop of sets of nested expressions.
pub fn deep(levels: usize) -> Workload {
    Workload::new("deep", Unit::Step, nested_sets(levels), 0, STEPS)
}

/// The check of a table of statements and expressions.
pub fn check(records: usize) -> Workload {
    Workload::new("check", Unit::Start, mixed_table(records), 0, 0)
}

/// Sets a variable to itself and another by an operator.
fn set(r: &mut Recipe, name: u8, operator: u8, other: u8) {
    r.node(SET, name, 0, |r| r.two(operator, |r| r.read(name), |r| r.read(other)));
}

/// A loop of local statements.
fn local_loop() -> Recipe {
    let mut recipe = Recipe::new();
    recipe.procedure(|r| {
        r.forever(|r| {
            r.node(SET, 9, 0, |r| r.constant(3));
            set(r, 8, 0, 9);
            r.leaf(SKIP, 0, 0);
            r.node(IF, 0, 0, |r| {
                r.two(4, |r| r.read(8), |r| r.constant(1_000_000));
                set(r, 10, 1, 8);
            });
        });
    });
    recipe
}

/// Suspends again and again.
fn suspend_forever(r: &mut Recipe) {
    r.forever(|r| r.leaf(SUSPEND, 0, 0));
}

/// Tasks of which the first spawns the others, then suspends again and again.
fn first_and_others(tasks: usize, other: impl FnOnce(&mut Recipe)) -> Recipe {
    first_and_others_with(tasks, |_| 1, other)
}

/// The same, each of the others with a parameter of its own.
fn first_and_others_with(tasks: usize, parameter: fn(usize) -> i32, other: impl FnOnce(&mut Recipe)) -> Recipe {
    let mut recipe = Recipe::new();
    recipe.procedure(|r| {
        (1..tasks).for_each(|task| r.spawn(8, 1, parameter(task)));
        suspend_forever(r);
    });
    recipe.procedure(other);
    recipe
}

/// Tasks that only suspend.
fn suspenders(tasks: usize) -> Recipe {
    first_and_others(tasks, suspend_forever)
}

/// One task that suspends; the others wait for it, and it goes on for ever.
fn waiters(tasks: usize) -> Recipe {
    first_and_others(tasks, |r| r.leaf(AWAIT, 64, 0))
}

/// One task that suspends; the others wait at guards, each until a variable has passed a value of its own, which it never
/// does.
fn guarded(tasks: usize) -> Recipe {
    let guard = |r: &mut Recipe| r.node(GUARD, 0, 0, |r| r.two(4, |r| r.read(64), |r| r.read(9)));
    first_and_others_with(tasks, |task| task as i32, guard)
}

/// One task that suspends; the others await a variable that holds 0, again and again.
fn optional(tasks: usize) -> Recipe {
    first_and_others(tasks, |r| r.forever(|r| r.leaf(AWAIT, 9, 0)))
}

/// All tasks in one circle: each waits for the one spawned after it, the last for the first.
fn circle() -> Recipe {
    let mut recipe = Recipe::new();
    recipe.procedure(|r| {
        (1..TASKS).for_each(|task| r.spawn(9, 1, ((task + 1) % TASKS + 1) as i32));
        r.node(SET, 8, 0, |r| r.constant(2));
        r.leaf(AWAIT, 8, 0);
    });
    recipe.procedure(|r| r.leaf(AWAIT, 64, 0));
    recipe
}

/// Spawns a task that ends at once, and waits for it.
fn spawner() -> Recipe {
    let mut recipe = Recipe::new();
    recipe.procedure(|r| {
        r.forever(|r| {
            r.spawn(8, 1, 0);
            r.leaf(AWAIT, 8, 0);
        });
    });
    recipe.procedure(|_| {});
    recipe
}

/// Nested operators over a read at the last level, each with its nested operand first or last.
fn nested(r: &mut Recipe, levels: usize, first: bool) {
    if levels == 1 {
        return r.read(8);
    }
    r.node(TWO, (levels % 8) as u8, 0, |r| {
        if first {
            nested(r, levels - 1, first);
        }
        r.constant(5);
        if !first {
            nested(r, levels - 1, first);
        }
    });
}

/// Two sets of nested expressions in a loop. They read a variable that stays 1, so that no divisor is 0.
fn nested_sets(levels: usize) -> Recipe {
    let mut recipe = Recipe::new();
    recipe.procedure(|r| {
        r.node(SET, 8, 0, |r| r.constant(1));
        r.forever(|r| {
            r.node(SET, 9, 0, |r| nested(r, levels, true));
            r.node(SET, 10, 0, |r| nested(r, levels, false));
        });
    });
    recipe
}

/// A loop of shares of a flow: sets of quotients by a count of sensors, which is not 0.
fn quotients() -> Recipe {
    let (flow, sensors) = (8, 9);
    let mut recipe = Recipe::new();
    recipe.procedure(|r| {
        r.node(SET, flow, 0, |r| r.constant(1_000_000));
        r.node(SET, sensors, 0, |r| r.constant(3));
        r.forever(|r| {
            for share in 10..13 {
                r.node(SET, share, 0, |r| r.two(QUOTIENT, |r| r.read(flow), |r| r.read(sensors)));
            }
        });
    });
    recipe
}

/// Fills a table with skips up to so many records, inside the open procedure.
fn fill(r: &mut Recipe, records: usize) {
    while r.records() < records {
        r.leaf(SKIP, 0, 0);
    }
}

/// A table of statements and expressions in a loop.
fn mixed_table(records: usize) -> Recipe {
    let mut recipe = Recipe::new();
    recipe.procedure(|r| {
        r.forever(|r| {
            while r.records() + MIX <= records {
                set(r, 8, 0, 9);
                r.leaf(SUSPEND, 0, 0);
                r.node(IF, 0, 0, |r| {
                    r.read(8);
                    r.leaf(SKIP, 0, 0);
                });
                r.node(SET, 9, 0, |r| r.constant(1));
                r.leaf(SKIP, 0, 0);
            }
            fill(r, records);
        });
    });
    recipe
}

/// The largest batch: 64 tables of statements and expressions, of 33 to 96 records.
fn season() -> Vec<Vec<u8>> {
    (0..BATCH).map(|i| mixed_table(33 + i).table).collect()
}

/// A table of 4,096 records, statements without expressions.
fn flat_table() -> Recipe {
    let mut recipe = Recipe::new();
    recipe.procedure(|r| {
        while r.records() < RECORDS - 3 {
            r.leaf(SKIP, 0, 0);
            r.leaf(SUSPEND, 0, 0);
            r.leaf(AWAIT, 8, 0);
        }
        fill(r, RECORDS);
    });
    recipe
}

/// A full tree of operators.
fn tree(r: &mut Recipe, levels: u32) {
    if levels == 0 {
        return r.read(8);
    }
    r.two((levels % 8) as u8, |r| tree(r, levels - 1), |r| tree(r, levels - 1));
}

/// A table of 4,096 records, nearly all in expressions.
fn expression_table() -> Recipe {
    let mut recipe = Recipe::new();
    recipe.procedure(|r| {
        while r.records() < RECORDS - 32 {
            r.node(SET, 8, 0, |r| tree(r, 4));
        }
        fill(r, RECORDS);
    });
    recipe
}

#[cfg(test)]
mod tests {
    use super::*;
    use crate::case::{LIBRARY, MODEL};

    #[test]
    fn each_call_is_accepted_and_does_what_is_measured() {
        for workload in workloads().into_iter().chain((1..=LEVELS).map(deep)) {
            workload.make(&MODEL, 1);
            workload.make(&LIBRARY, 1);
        }
    }
}
