//! Whole families of inputs, the library against the model: every way that a block can fail at every record, every
//! byte of a table, every small table, every statement over a quotient by 0, and every small queue of tasks that wait.

use compare::batch::Batch;
use compare::block::{
    block_of, damage_block, put_issued, put_number, put_parameter, put_place, put_spawner, put_taken, put_variable,
    task_at, variable_at, BLOCK, TASKS, WAYS,
};
use compare::case::{Call, Case};
use compare::check::Coverage;
use compare::generate::CHAIN;
use compare::random::Random;
use compare::recipe::{Recipe, AWAIT, GUARD, IF, ONE, QUOTIENT, SET, SKIP, SPAWN, SUSPEND, WHILE};
use compare::writer::{random_recipe, Style};

fn calls(budgets: &[u32]) -> Vec<Call> {
    budgets.iter().map(|&budget| Call { budget, log: vec![0xa5; 67] }).collect()
}

/// Run calls of these budgets from the block that a start leaves.
fn from_fresh(table: Vec<u8>, budgets: &[u32]) -> Case {
    Case { fresh: true, ..from_block(&table, vec![1; BLOCK], budgets) }
}

/// The same from a lent block.
fn from_block(table: &[u8], block: Vec<u8>, budgets: &[u32]) -> Case {
    let (table, calls, chain) = (table.to_vec(), calls(budgets), vec![0xa5; CHAIN]);
    Case { table, block, fresh: false, calls, chain, batch: Batch::default() }
}

/// A recipe with every kind of record.
fn every_kind() -> Recipe {
    let mut recipe = Recipe::new();
    recipe.procedure(|r| {
        r.node(WHILE, 0, 0, |r| {
            r.two(4, |r| r.read(9), |r| r.constant(3));
            r.spawn(8, 1, 5);
            r.node(IF, 0, 0, |r| {
                r.node(ONE, 1, 0, |r| r.read(8));
                r.leaf(SKIP, 0, 0);
            });
            r.node(SET, 9, 0, |r| r.two(0, |r| r.read(9), |r| r.constant(1)));
            r.leaf(AWAIT, 8, 0);
        });
    });
    recipe.procedure(|r| {
        r.leaf(SUSPEND, 0, 0);
        r.node(SPAWN, 64, 1, |r| r.read(64));
        r.node(SET, 0, 0, |r| r.read(64));
        r.node(GUARD, 0, 0, |r| r.read(9));
    });
    recipe
}

#[test]
fn every_fault_of_a_block_at_every_record() {
    let recipe = every_kind();
    let mut random = Random::new(1);
    let mut coverage = Coverage::default();
    for live in 0..=TASKS {
        for task in 1..=TASKS {
            for way in WAYS {
                let issued = random.within(live.max(1), 40) as u16;
                let active = live > 0 && random.percent(50);
                let mut block = block_of(&mut random, &recipe, issued, live, active);
                damage_block(&mut random, &mut block, &recipe, way, task);
                let case = from_block(&recipe.table, block, &[0, 7]);
                coverage.check(&case, format_args!("{live} live, {way:?} at task {task}"));
            }
        }
    }
    assert!((0..=64).all(|record| coverage.blocks.contains_key(&record)), "{coverage}");
    assert!(coverage.runs.contains_key(&21), "{coverage}");
}

#[test]
fn every_place_and_every_byte_of_the_first_records() {
    let recipe = every_kind();
    let mut random = Random::new(2);
    let mut coverage = Coverage::default();
    let fine = block_of(&mut random, &recipe, 3, 3, true);
    let mut check = |block: Vec<u8>, origin: String| {
        let case = from_block(&recipe.table, block, &[1, 30]);
        coverage.check(&case, origin);
    };
    for place in 0..=u16::MAX {
        let mut block = fine.clone();
        put_place(&mut block, 1 + usize::from(place % 3), place);
        check(block, format!("place {place}"));
    }
    // Of record 0, of the two records of each live task, and of an unused one's.
    for (at, value) in (0..task_at(5)).flat_map(|at| (0..=255).map(move |value| (at, value))) {
        let mut block = fine.clone();
        block[at] = value;
        check(block, format!("state byte {at} is {value}"));
    }
    for (at, value) in (task_at(5)..variable_at(0)).flat_map(|at| [1, 128].map(|value| (at, value))) {
        let mut block = fine.clone();
        block[at] = value;
        check(block, format!("state byte {at} is {value}"));
    }
}

/// Every spawner of 16 bits, of a task of a great number, of a smaller one, and of task 1.
#[test]
fn every_spawner() {
    let recipe = every_kind();
    let mut coverage = Coverage::default();
    let fine = block_of(&mut Random::new(6), &recipe, 50_000, 3, false);
    for (task, number) in [(1, 40_000), (2, 300), (3, 1)] {
        for spawner in 0..=u16::MAX {
            let mut block = fine.clone();
            for (task, number, spawner) in [(1, 40_000, 7), (2, 300, 299), (3, 1, 0)] {
                put_number(&mut block, task, number);
                put_spawner(&mut block, task, spawner);
            }
            put_spawner(&mut block, task, spawner);
            coverage.check(&from_block(&recipe.table, block, &[2]), format_args!("{spawner} spawned {number}"));
        }
    }
    // From 1 to one below its own number, and 0 of task 1 alone.
    let faults: Vec<u64> = [2, 4, 6].map(|record| coverage.blocks[&record]).to_vec();
    assert_eq!(faults, [65_536 - 39_999, 65_536 - 299, 65_535], "{coverage}");
}

/// The times taken up at the ends of their range, of tasks at every place, tried as the front and standing behind it.
#[test]
fn every_place_with_times_taken_up() {
    let recipe = every_kind();
    let mut random = Random::new(7);
    let mut coverage = Coverage::default();
    let mut check = |block: Vec<u8>, origin: String| {
        coverage.check(&from_block(&recipe.table, block, &[1, 1, 40]), origin);
    };
    for (&place, active) in recipe.places.iter().flat_map(|place| [(place, false), (place, true)]) {
        for times in [0, 1, 255, 256, 65_535, 65_536, 0x7fff_ffff, 0x8000_0000, u32::MAX - 1, u32::MAX] {
            for task in 1..=3 {
                let mut block = block_of(&mut random, &recipe, 9, 3, active);
                put_place(&mut block, task, place);
                put_taken(&mut block, task, times);
                check(block, format!("task {task} at place {place}, taken up {times} times"));
            }
        }
    }
    assert!(coverage.records[&2] > 500 && coverage.records[&5] > 100, "{coverage}");
}

#[test]
fn every_byte_of_a_table() {
    let recipe = every_kind();
    let mut coverage = Coverage::default();
    for (at, value) in (0..recipe.table.len()).flat_map(|at| (0..=255).map(move |value| (at, value))) {
        let mut table = recipe.table.clone();
        table[at] = value;
        let case = from_fresh(table, &[300]);
        coverage.check(&case, format_args!("table byte {at} is {value}"));
    }
}

#[test]
fn every_length() {
    let mut random = Random::new(3);
    let style = Style { records: 12, procedures: 2, deepest: 16, nesting: 40, wide: 0, spawns: 20, zeros: 100 };
    let recipe = random_recipe(&mut random, &style);
    let mut coverage = Coverage::default();
    for length in 0..=recipe.table.len() + 16 {
        let mut table = recipe.table.clone();
        table.resize(length, 0);
        let case = from_fresh(table, &[50]);
        coverage.check(&case, format_args!("table length {length}"));
    }
    for length in 0..=BLOCK + 24 {
        let mut block = block_of(&mut random, &recipe, 5, 3, true);
        block.resize(length, 0);
        let log = random.bytes(length);
        let case = Case { calls: vec![Call { budget: 200, log }], ..from_block(&recipe.table, block, &[]) };
        coverage.check(&case, format_args!("block length {length}"));
    }
}

#[test]
fn every_table_of_up_to_three_records_by_kind_and_span() {
    let records: Vec<[u8; 8]> = (0..=14u8)
        .flat_map(|kind| (0..=3u8).map(move |span| (kind, span)))
        .map(|(kind, span)| [kind, if kind == 6 { 8 } else { 0 }, span, 0, 0, 0, 0, 0])
        .collect();
    let mut coverage = Coverage::default();
    let mut check = |table: Vec<u8>| {
        let case = from_fresh(table, &[20]);
        coverage.check(&case, "a small table");
    };
    for first in &records {
        check(first.to_vec());
        for second in &records {
            check([*first, *second].concat());
            for third in &records {
                check([*first, *second, *third].concat());
            }
        }
    }
}

/// Every name and some values of each kind of record, at a depth that passes and at one that does not: the order of
/// faults within a record.
#[test]
fn every_name_with_values_and_depths() {
    let mut coverage = Coverage::default();
    for (kind, name) in (2..=13u8).flat_map(|kind| (0..=255).map(move |name| (kind, name))) {
        for (value, deep) in [0, 1, -1, 255, 256, i32::MIN].into_iter().flat_map(|v| [(v, false), (v, true)]) {
            let nested = if deep { 16 } else { 3 };
            let table = nested_record(nested, kind, name, value);
            let case = from_fresh(table, &[40]);
            coverage.check(&case, format_args!("kind {kind}, name {name}, value {value}, under {nested} ifs"));
        }
    }
}

/// A record under nested ifs, with the operands that it needs.
fn nested_record(ifs: usize, kind: u8, name: u8, value: i32) -> Vec<u8> {
    fn add(r: &mut Recipe, kind: u8, name: u8, value: i32) {
        match kind {
            9..=12 => r.node(SET, 8, 0, |r| add_alone(r, kind, name, value)),
            _ => add_alone(r, kind, name, value),
        }
    }
    fn add_alone(r: &mut Recipe, kind: u8, name: u8, value: i32) {
        let operands = match kind {
            3..=6 | 12 | 13 => 1,
            11 => 2,
            _ => 0,
        };
        r.node(kind, name, value, |r| (0..operands).for_each(|_| r.constant(2)));
    }
    fn nest(r: &mut Recipe, ifs: usize, fill: &dyn Fn(&mut Recipe)) {
        if ifs == 0 {
            return fill(r);
        }
        r.node(IF, 0, 0, |r| {
            r.constant(1);
            nest(r, ifs - 1, fill);
        });
    }
    let mut recipe = Recipe::new();
    recipe.procedure(|r| nest(r, ifs, &|r| add(r, kind, name, value)));
    recipe.table
}

/// An expression of one operator around a quotient by the parameter: `other` is the second operand of the operators 0
/// to 7, the first of 8 to 15; 16 and 17 are those of kind 12.
fn around_quotient(r: &mut Recipe, shape: u8, other: i32) {
    let quotient = |r: &mut Recipe| r.two(QUOTIENT, |r| r.constant(5), |r| r.read(64));
    match shape {
        0..8 => r.two(shape, quotient, |r| r.constant(other)),
        8..16 => r.two(shape - 8, |r| r.constant(other), quotient),
        _ => r.node(ONE, shape - 16, 0, quotient),
    }
}

/// Each statement with an expression, of tasks whose parameter, the divisor, is 0 or not; each at the limits of the
/// live tasks, the numbers issued, the budget and the log.
#[test]
fn every_statement_over_a_quotient() {
    let mut random = Random::new(4);
    let mut coverage = Coverage::default();
    let statements = [(SET, 0), (SET, 8), (SET, 64), (IF, 0), (WHILE, 0), (SPAWN, 8), (SPAWN, 64), (GUARD, 0)];
    for ((kind, name), shape) in statements.into_iter().flat_map(|s| (0..18).map(move |shape| (s, shape))) {
        let mut recipe = Recipe::new();
        let other = random.pick(&[-1, 0, 1, 7]);
        recipe.procedure(|r| {
            r.node(kind, name, 0, |r| around_quotient(r, shape, other));
            r.leaf(SUSPEND, 0, 0);
        });
        for (live, issued) in [(1, 1), (31, 40), (32, 40), (1, 65_535), (32, 65_535)] {
            for (budget, length) in [(0, 0), (0, 8), (1, 0), (1, 7), (1, 8), (9, 0), (9, 8), (9, 99)] {
                let active = random.percent(70);
                let mut block = block_of(&mut random, &recipe, issued, live, active);
                let divisor = random.pick(&[0, 0, 1, -5]);
                put_place(&mut block, 1, 1);
                put_parameter(&mut block, 1, divisor);
                let call = Call { budget, log: random.bytes(length) };
                let case = Case { calls: vec![call; 2], ..from_block(&recipe.table, block, &[]) };
                coverage.check(&case, format_args!("kind {kind}, shape {shape}, {live} live, {issued} issued"));
            }
        }
    }
    assert!((3..=6).all(|kind| coverage.lacking[&kind] > 100), "{coverage}");
    assert!((1..=5).all(|number| coverage.runs[&number] > 50), "{coverage}");
}

/// Tasks wait for the number in their parameter at place 1, at a guard over it at place 3, for the number in variable 8
/// at place 6, and give way at place 8.
fn waiters() -> Recipe {
    let mut recipe = Recipe::new();
    recipe.procedure(|r| r.leaf(AWAIT, 64, 0));
    recipe.procedure(|r| r.node(GUARD, 0, 0, |r| r.read(64)));
    recipe.procedure(|r| r.leaf(AWAIT, 8, 0));
    recipe.procedure(|r| r.leaf(SUSPEND, 0, 0));
    recipe
}

/// A block: the highest number issued, the queue as number, place and parameter, and variable 8.
fn idle(issued: u16, queue: &[(u16, u16, i32)], variable: i32) -> Vec<u8> {
    let mut block = vec![0; BLOCK];
    put_issued(&mut block, issued);
    block[2] = queue.len() as u8;
    for (i, &(number, place, parameter)) in queue.iter().enumerate() {
        put_number(&mut block, i + 1, number);
        put_place(&mut block, i + 1, place);
        put_parameter(&mut block, i + 1, parameter);
        put_spawner(&mut block, i + 1, number / 2);
    }
    put_variable(&mut block, 8, variable);
    block
}

/// All queues of up to four tasks, of each place and each parameter about the numbers issued: circles of every shape,
/// numbers never issued, guards, done numbers, 0, and tasks that are ready.
#[test]
fn every_small_queue() {
    let table = waiters().table;
    let mut coverage = Coverage::default();
    let values = -1..=6;
    let mut tasks: Vec<(u16, i32)> = values.clone().map(|value| (1, value)).collect();
    tasks.extend([(3, 0), (3, 1), (6, 0), (8, 0)]);
    let mut queues: Vec<Vec<(u16, i32)>> = vec![vec![]];
    for _ in 0..4 {
        let longer = |queue: &Vec<_>| tasks.iter().map(|task| [&queue[..], &[*task]].concat()).collect::<Vec<_>>();
        queues = queues.iter().flat_map(longer).collect();
        for (queue, variable) in queues.iter().flat_map(|queue| values.clone().map(move |value| (queue, value))) {
            let numbered = [4, 1, 2, 3].into_iter().zip(queue);
            let queue: Vec<_> = numbered.map(|(number, &(place, value))| (number, place, value)).collect();
            let case = from_block(&table, idle(5, &queue, variable), &[]);
            coverage.check(&case, format_args!("{queue:?}, variable 8 is {variable}"));
        }
    }
    assert!((1..=3).all(|end| coverage.ends[&end] > 1_000), "{coverage}");
    assert!((1..=5).all(|count| coverage.chains[&count] > 100), "{coverage}");
    assert!(coverage.whys[&25] > 1_000, "{coverage}");
}

/// Every number of 16 bits and some about them, awaited by the front: never issued, done, its own, the other's, and 0.
#[test]
fn every_number_awaited() {
    let table = waiters().table;
    let mut coverage = Coverage::default();
    for number in (-70_000..=140_000).chain([i32::MIN, i32::MIN + 1, i32::MAX - 1, i32::MAX]) {
        let block = idle(40_000, &[(300, 6, 0), (4, 1, 300)], number);
        coverage.check(&from_block(&table, block, &[]), format_args!("{number} awaited"));
    }
    // 0 and the 40,000 issued but for the two that are live; those two; and all others.
    let counts = (coverage.whys[&25], coverage.ends[&1], coverage.ends[&2]);
    assert_eq!(counts, (39_999, 2, 170_004), "{coverage}");
}

/// The same numbers, awaited by the only task when it is tried: of those never issued 0 alone passes.
#[test]
fn every_number_tried() {
    let table = waiters().table;
    let mut coverage = Coverage::default();
    for number in (-70_000..=140_000).chain([i32::MIN, i32::MIN + 1, i32::MAX - 1, i32::MAX]) {
        let block = idle(40_000, &[(300, 6, 0)], number);
        coverage.check(&from_block(&table, block, &[1]), format_args!("{number} tried"));
    }
    // 0 and the 40,000 issued but for its own; and all others.
    assert_eq!((coverage.records[&2], coverage.runs[&2]), (40_000, 170_005), "{coverage}");
}

/// Queues of every length in which one task, at each place, awaits a 0 and the others numbers never issued: it is taken
/// up behind as many turns as stand before it.
#[test]
fn every_place_of_an_await_of_a_0() {
    let table = waiters().table;
    let mut coverage = Coverage::default();
    for (live, at) in (1..=TASKS as u16).flat_map(|live| (1..=live).map(move |at| (live, at))) {
        let awaited = |task| if task == at { 0 } else { -i32::from(task) };
        let queue: Vec<_> = (1..=live).map(|task| (1_000 + task, 1, awaited(task))).collect();
        let call = Call { budget: at.into(), log: vec![0xa5; 8 * TASKS] };
        let case = Case { calls: vec![call], ..from_block(&table, idle(2_000, &queue, 0), &[]) };
        coverage.check(&case, format_args!("{live} live, the one at {at} awaits a 0"));
    }
    // One is taken up in each; before it all those ahead are turned.
    let turns = (1..=32).map(|live| live * (live - 1) / 2).sum();
    assert_eq!((coverage.records[&2], coverage.records[&5]), (528, turns), "{coverage}");
}

/// Every length of the output, for a state that is stuck and for one that is not, and where table or block is at fault.
#[test]
fn every_length_of_a_chain() {
    let table = waiters().table;
    let stuck = idle(5, &[(4, 1, 2), (2, 1, 4)], 0);
    let ready = idle(5, &[(4, 1, 2), (2, 8, 4)], 0);
    let displaced = idle(5, &[(4, 1, 2), (2, 4, 4)], 0);
    let mut coverage = Coverage::default();
    for length in (0..=150).chain([BLOCK, 4_096, 65_536]) {
        for (table, block) in [(&table, &stuck), (&table, &ready), (&table, &displaced)] {
            let case = Case { chain: vec![0xa5; length], ..from_block(table, block.clone(), &[]) };
            coverage.check(&case, format_args!("chain length {length}"));
        }
        let case = Case { chain: vec![0xa5; length], ..from_block(&table[8..], stuck.clone(), &[]) };
        coverage.check(&case, format_args!("chain length {length}, the table is at fault"));
    }
    assert_eq!((coverage.whys[&0], coverage.whys[&25]), (1, 2 * 154 - 1), "{coverage}");
}

/// Rows of tasks of every length, each waiting for the next by its parameter; the last waits for each of them, at a
/// guard, for a number never issued, for a done one, or for 0.
#[test]
fn every_long_chain() {
    let table = waiters().table;
    let mut random = Random::new(5);
    let mut coverage = Coverage::default();
    for live in 1..=TASKS as u16 {
        let mut numbers: Vec<u16> = (0..live).map(|i| 1_000 + 3 * i).collect();
        random.shuffle(&mut numbers);
        let own = |number: &u16| (1, i32::from(*number));
        for last in numbers.iter().map(own).chain([(3, 0), (1, 2_001), (1, 1_001), (1, 0)]) {
            let waits = numbers[1..].iter().map(own).chain([last]);
            let row = numbers.iter().zip(waits).map(|(number, (place, value))| (*number, place, value));
            let mut queue: Vec<_> = row.collect();
            random.shuffle(&mut queue[1..]);
            let case = from_block(&table, idle(2_000, &queue, 0), &[]);
            coverage.check(&case, format_args!("{live} live, the last at {last:?}"));
        }
    }
    assert_eq!(Vec::from_iter(coverage.ends.values()), [&528, &32, &32], "{coverage}");
    assert!(coverage.chains.len() == 33 && coverage.whys[&25] == 64, "{coverage}");
}
