//! What the demands say, seen from outside: long runs through the library alone, judged by its logs and blocks. What a
//! block and a table mean is worked out by hand, in `compare::view`; the model has no part in it.

use compare::block::{task_at, BLOCK, TASK};
use compare::generate::random_case;
use compare::random::Random;
use compare::recipe::{Recipe, AWAIT, GUARD, QUOTIENT, SET, SPAWN, SUSPEND};
use compare::view::View;
use compare::writer::{lively_recipe, random_recipe, Style};
use recipe_runner::{run, start, Answer};
use std::collections::BTreeMap;

const FINISHED: u32 = 0;
const PAUSED: u32 = 1;
const STUCK: u32 = 2;
const LOGFULL: u32 = 5;
const NOVALUE: u32 = 24;

fn fresh(table: &[u8]) -> Vec<u8> {
    let mut block = vec![0; BLOCK];
    assert_eq!(start(table, &mut block).number, 0);
    block
}

/// A log record: kind, task, value.
fn record(bytes: &[u8]) -> (u8, u16, i32) {
    let value = i32::from_le_bytes([bytes[4], bytes[5], bytes[6], bytes[7]]);
    (bytes[0], u16::from_le_bytes([bytes[2], bytes[3]]), value)
}

/// A run made one step a call: the block at each moment, each step's record, and the number that ended it.
struct Trace {
    blocks: Vec<Vec<u8>>,
    records: Vec<Option<(u8, u16, i32)>>,
    ending: u32,
}

fn trace(table: &[u8], steps: usize) -> Trace {
    let mut trace = Trace { blocks: vec![fresh(table)], records: Vec::new(), ending: PAUSED };
    for _ in 0..steps {
        let mut block = trace.blocks[trace.blocks.len() - 1].clone();
        let mut log = [0; 8];
        let answer = run(table, &mut block, 1, &mut log);
        if answer.steps == 0 {
            trace.ending = answer.number;
            break;
        }
        trace.blocks.push(block);
        trace.records.push((answer.records == 1).then(|| record(&log)));
    }
    trace
}

/// Recipes that keep many tasks busy, the first five of a fixed kind; some others that mostly end.
fn recipes(seed: u64, count: usize) -> impl Iterator<Item = Recipe> {
    let mut random = Random::new(seed);
    let short = Style { nesting: 30, zeros: 10, ..SHORT };
    (0..count).map(move |i| match i {
        0 => many_tasks(|r| r.leaf(SUSPEND, 0, 0)),
        1 => many_tasks(|r| r.leaf(AWAIT, 64, 0)),
        2 => many_tasks(|r| r.node(GUARD, 0, 0, |r| r.read(9))),
        3 => many_tasks(|r| r.node(GUARD, 0, 0, |r| r.two(QUOTIENT, |r| r.constant(1), |r| r.read(9)))),
        4 => many_tasks(|r| r.leaf(AWAIT, 9, 0)),
        _ if i % 3 == 0 => random_recipe(&mut random, &short),
        _ => lively_recipe(&mut random),
    })
}

/// A style of short recipes, with operators of all kinds.
const SHORT: Style = Style { records: 40, procedures: 3, deepest: 16, nesting: 60, wide: 0, spawns: 20, zeros: 100 };

/// One task that suspends, and 30 others that make the same statement again and again: suspend, wait for the first, wait
/// at an untrue guard or at one without a value, or await a variable that holds 0.
fn many_tasks(statement: fn(&mut Recipe)) -> Recipe {
    let mut recipe = Recipe::new();
    recipe.procedure(|r| {
        (0..30).for_each(|_| r.spawn(8, 1, 1));
        r.forever(|r| r.leaf(SUSPEND, 0, 0));
    });
    recipe.procedure(|r| r.forever(statement));
    recipe
}

/// "A call not refused stops with stuck exactly when its state has no task active, some tasks queued and none that can
/// go on"; and then no pick of a task, in any order, becomes active.
#[test]
fn stuck_exactly_when_none_is_ready() {
    let mut random = Random::new(11);
    let mut counts = BTreeMap::new();
    for recipe in recipes(12, 600) {
        let table = &recipe.table;
        let trace = trace(table, 1_500);
        one_call_stops_there(table, &trace);
        for block in trace.blocks {
            let view = View { table, block: &block };
            let mut after = block.clone();
            let number = run(table, &mut after, 0, &mut []).number;
            let ended = view.live() == 0;
            assert_eq!(number == STUCK, view.is_stuck());
            assert_eq!(number == FINISHED, ended);
            assert_eq!(after, block);
            *counts.entry(number).or_insert(0) += 1;
            if number == STUCK {
                picks_stay_stuck(&mut random, table, block);
            }
        }
    }
    assert!([FINISHED, PAUSED, STUCK].iter().all(|number| counts[number] > 20), "{counts:?}");
}

/// One long call makes as many steps as the single ones, and says "stuck" exactly if the last block is.
fn one_call_stops_there(table: &[u8], trace: &Trace) {
    let mut block = fresh(table);
    let answer = run(table, &mut block, 1_500, &mut vec![0; 8 * 1_500]);
    let view = View { table, block: &block };
    assert_eq!(answer.steps as usize, trace.records.len());
    assert_eq!(answer.number == STUCK, view.is_stuck());
    assert_eq!(block, trace.blocks[trace.records.len()]);
}

/// Tries picked tasks in place of the front: each is turned.
fn picks_stay_stuck(random: &mut Random, table: &[u8], mut block: Vec<u8>) {
    for _ in 0..20 {
        let live = usize::from(block[2]);
        let pick = random.within(1, live);
        block[task_at(pick)..task_at(live + 1)].rotate_left(TASK);
        let answer = run(table, &mut block, u32::MAX, &mut [0; 64]);
        assert_eq!((answer.number, answer.steps), (STUCK, 0));
    }
}

/// A try is of the front, which is taken exactly if it is ready; other steps leave the queue's order.
#[test]
fn each_try_is_of_the_front() {
    let mut lacking = 0;
    for recipe in recipes(13, 600) {
        let table = &recipe.table;
        let trace = trace(table, 1_500);
        for (block, record) in trace.blocks.iter().zip(&trace.records) {
            let view = View { table, block };
            if !view.active() {
                let expected = match view.waits(1) {
                    Some(number) => (5, view.number(1), number),
                    None => (2, view.number(1), 0),
                };
                assert_eq!(*record, Some(expected));
                lacking += u32::from(view.lacks_at_guard(1));
            } else {
                assert!(!matches!(record, Some((2 | 5, _, _))));
            }
        }
    }
    assert!(lacking > 1_000, "{lacking}");
}

/// A run stops with 24 exactly where the active task's set, test or spawn has no value and the budget allows a step.
#[test]
fn a_missing_value_stops_the_run() {
    let steps = 300;
    let mut random = Random::new(23);
    let mut kinds = BTreeMap::new();
    for _ in 0..4_000 {
        let table = &random_recipe(&mut random, &SHORT).table;
        let trace = trace(table, steps);
        let Some((last, before)) = trace.blocks.split_last() else { continue };
        assert!(before.iter().all(|block| View { table, block }.lacking().is_none()));
        let lacking = View { table, block: last }.lacking().filter(|_| before.len() < steps);
        assert_eq!(trace.ending == NOVALUE, lacking.is_some());
        if let Some((place, kind)) = lacking {
            stops_at(table, last, place);
            *kinds.entry(kind).or_insert(0) += 1;
        }
    }
    assert!((SET..=SPAWN).all(|kind| kinds[&kind] > 20), "{kinds:?}");
}

/// Each call stops with 24 at the place, without a step, whatever its log's room; without a budget it is paused.
fn stops_at(table: &[u8], block: &[u8], place: u32) {
    for (budget, number, place) in [(0, PAUSED, 0), (1, NOVALUE, place), (u32::MAX, NOVALUE, place)] {
        for room in [0, 8, 800] {
            let mut after = block.to_vec();
            let answer = run(table, &mut after, budget, &mut vec![0; room]);
            assert_eq!(answer, Answer { number, steps: 0, records: 0, place });
            assert_eq!(after, block);
        }
    }
}

/// A task in the queue: those that stood ahead of it when it joined, and the tries since.
struct Joined {
    ahead: Vec<u16>,
    tries: Vec<u16>,
}

/// "Between two successive tries of one task, each task that stood ahead of it when it was put back is tried exactly
/// once, in that order, and no other." Joining by a spawn is held to the same. Gives the queue at the end.
fn round_robin(mut queue: Vec<u16>, log: &[u8]) -> Vec<u16> {
    let mut joined: BTreeMap<u16, Joined> = BTreeMap::new();
    for (i, &task) in queue.iter().enumerate() {
        joined.insert(task, Joined { ahead: queue[..i].to_vec(), tries: Vec::new() });
    }
    for (kind, task, value) in log.chunks_exact(8).map(record) {
        if kind == 2 || kind == 5 {
            let since = joined.remove(&task).expect("a queued task is tried");
            assert_eq!(since.tries, since.ahead);
            joined.values_mut().for_each(|other| other.tries.push(task));
            queue.retain(|other| *other != task);
        }
        let back = match kind {
            1 => Some(value as u16),
            3..=5 => Some(task),
            _ => None,
        };
        if let Some(back) = back {
            assert!(joined.insert(back, Joined { ahead: queue.clone(), tries: Vec::new() }).is_none());
            queue.push(back);
        }
    }
    queue
}

/// What a list of run calls gives together.
struct Whole {
    number: u32,
    steps: u64,
    log: Vec<u8>,
}

/// Runs in slices of random budgets and logs, until the budgets' sum is reached or a call ends otherwise.
fn slices(random: &mut Random, table: &[u8], block: &mut [u8], budget: u32) -> Whole {
    let mut whole = Whole { number: PAUSED, steps: 0, log: Vec::new() };
    let mut left = budget;
    loop {
        let last = random.percent(2);
        let slice = if last { left } else { (random.pick(&[0, 1, 7, 60, 900]) as u32).min(left) };
        let length = if last { 8 * budget as usize } else { random.below(600) };
        let mut log = vec![0; length];
        let answer = run(table, block, slice, &mut log);
        whole.log.extend(&log[..8 * answer.records as usize]);
        whole.steps += u64::from(answer.steps);
        whole.number = answer.number;
        left -= answer.steps;
        if last || (answer.number == PAUSED && left == 0) || ![PAUSED, LOGFULL].contains(&answer.number) {
            return whole;
        }
    }
}

#[test]
fn tries_go_round() {
    let mut random = Random::new(14);
    for recipe in recipes(15, 800) {
        let mut block = fresh(&recipe.table);
        let mut log = Vec::new();
        let mut queue = Vec::new();
        for _ in 0..6 {
            let whole = slices(&mut random, &recipe.table, &mut block, 4_000);
            log.extend(&whole.log);
            queue = View { table: &recipe.table, block: &block }.queued();
        }
        assert_eq!(round_robin(Vec::new(), &log), queue);
    }
}

/// From a block in the middle of a run, with a queue that stands already.
#[test]
fn tries_go_round_from_saved_blocks() {
    let mut random = Random::new(16);
    for recipe in recipes(17, 800) {
        let mut block = fresh(&recipe.table);
        run(&recipe.table, &mut block, random.below(2_000) as u32, &mut vec![0; 16_000]);
        let queue = View { table: &recipe.table, block: &block }.queued();
        let whole = slices(&mut random, &recipe.table, &mut block, 4_000);
        let after = View { table: &recipe.table, block: &block }.queued();
        assert_eq!(round_robin(queue, &whole.log), after);
    }
}

/// "A run cut into slices equals one run": same last state, same ending, steps added, logs joined.
#[test]
fn slices_equal_one_run() {
    let mut random = Random::new(18);
    for recipe in recipes(19, 2_000) {
        let table = &recipe.table;
        let budget = random.pick(&[50, 500, 3_000]) as u32;
        let mut cut = fresh(table);
        let whole = slices(&mut random, table, &mut cut, budget);
        let mut one = fresh(table);
        let mut log = vec![0; 8 * budget as usize];
        let answer = run(table, &mut one, budget, &mut log);
        log.truncate(8 * answer.records as usize);
        assert_eq!((whole.number, whole.steps), (answer.number, u64::from(answer.steps)));
        assert_eq!((whole.log, cut), (log, one));
    }
}

/// The waiting bound for a task of an idle moment, by where it stands: if it is ready at every idle moment until its
/// turn, it is taken up within k × (b + 1) + 1 steps. Gives whether the premise held up to the turn.
fn bound_holds(table: &[u8], trace: &Trace, from: usize, standing: usize) -> bool {
    let task = View { table, block: &trace.blocks[from] }.number(standing);
    let ahead = standing - 1;
    let (mut burst, mut longest) = (0, 0);
    for at in from..trace.records.len() {
        let view = View { table, block: &trace.blocks[at] };
        if view.active() {
            burst += 1;
            longest = longest.max(burst);
            continue;
        }
        burst = 0;
        let own = view.queue().find(|&other| view.number(other) == task).expect("still queued");
        if view.waits(own).is_some() {
            return false;
        }
        let bound = ahead * (longest + 1) + 1;
        let tried = trace.records[at].is_some_and(|(_, number, _)| number == task);
        assert!(at + 1 - from <= bound, "task {task} from moment {from}: {} steps, bound {bound}", at + 1 - from);
        if tried {
            assert!(trace.records[at] == Some((2, task, 0)));
            return true;
        }
    }
    assert!(trace.ending != PAUSED || trace.records.len() - from < ahead * (longest + 1) + 1);
    false
}

#[test]
fn ready_tasks_are_taken_up_in_time() {
    let mut random = Random::new(20);
    let mut held = 0;
    for recipe in recipes(21, 400) {
        let table = &recipe.table;
        let trace = trace(table, 1_500);
        for from in (0..trace.records.len()).filter(|_| random.percent(15)) {
            let view = View { table, block: &trace.blocks[from] };
            if !view.active() {
                held += view.queue().filter(|&task| bound_holds(table, &trace, from, task)).count();
            }
        }
    }
    assert!(held > 10_000, "{held}");
}

/// "The runner .. touches nothing outside them": the lent buffers stand in one larger buffer, at any alignment.
#[test]
fn neighbouring_bytes_are_kept() {
    let mut random = Random::new(22);
    for _ in 0..20_000 {
        let case = random_case(&mut random);
        let call = &case.calls[0];
        let (mut memory, [table, block, log]) = random.scatter([&case.table, &case.block, &call.log]);
        let before = memory.clone();
        let (first, rest) = memory.split_at_mut(block.start);
        let (second, third) = rest.split_at_mut(log.start - block.start);
        let (table, state) = (&first[table], &mut second[..block.len()]);
        if case.fresh {
            start(table, state);
        }
        let answer = run(table, state, call.budget, &mut third[..log.len()]);
        // The log's bytes past the last record are kept too.
        let written = log.start + 8 * answer.records as usize;
        for kept in [0..block.start, block.end..log.start, written..before.len()] {
            assert!(memory[kept.clone()] == before[kept]);
        }
    }
}
