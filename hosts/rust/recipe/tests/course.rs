//! A run with what its waiting tasks stand at.

mod common;

use common::Generator;
use recipe::block::Wait;
use recipe::course::{Course, Most, Seen};
use recipe::timeline::{Bar, Doing, Lane, Timeline, Turn};
use recipe_runner::{records, Ending, Kind, State, TASK, TASKS_AT};
use std::collections::BTreeMap;

const TABLES: usize = 2_000;
const BUDGET: u32 = 500;
const LOG: usize = 100;

/// The course of a table from its fresh state.
fn fresh(table: &[u8], steps: u32, records: usize) -> Course {
    Course::of(table, &State::start(table).unwrap(), Most { steps, records }).unwrap()
}

fn waits(seen: &Seen) -> bool {
    matches!(seen.record.kind, Kind::Waits | Kind::Turned)
}

/// The kind of the statement that the last task of the queue stands at.
fn last(table: &[u8], state: &State) -> u8 {
    let task = TASKS_AT + TASK * (usize::from(state.as_bytes()[2]) - 1);
    let place = u16::from_le_bytes([state.as_bytes()[task + 2], state.as_bytes()[task + 3]]);
    table[8 * usize::from(place)]
}

/// A task that waits or is turned is the last of the queue until the next step, which writes a record, too.
#[test]
fn a_course_is_as_seen_record_by_record() {
    let mut generator = Generator::new(5);
    let (mut guards, mut zeros) = (0, 0);
    for _ in 0..TABLES {
        let table = generator.table();
        let course = fresh(&table, BUDGET, LOG);
        let mut state = State::start(&table).unwrap();
        for seen in &course.seen {
            let mut log = [0; 8];
            state.run(&table, BUDGET, &mut log).unwrap();
            assert_eq!(records(&log, 1).next(), Some(seen.record));
            let kind = if waits(seen) { last(&table, &state) } else { 0 };
            assert_eq!(seen.at_guard, kind == 13);
            guards += usize::from(kind == 13);
            zeros += usize::from(kind == 8 && seen.record.value == 0);
        }
    }
    assert!(guards > 1_000 && zeros > 1_000, "{guards} {zeros}");
}

#[test]
fn budget_and_log_end_a_course_as_they_end_a_run() {
    let mut generator = Generator::new(6);
    for _ in 0..TABLES {
        let table = generator.table();
        let (budget, room) = (generator.random.below(500) as u32, generator.random.below(100));
        let mut log = vec![0; 8 * room];
        let ran = State::start(&table).unwrap().run(&table, budget, &mut log).unwrap();
        let course = fresh(&table, budget, room);
        assert_eq!((course.ending, course.steps, course.seen.len()), (ran.ending, ran.steps, ran.records as usize));
    }
}

/// The procedure that each task runs, by the spawns that are seen.
fn procedures(course: &Course) -> BTreeMap<u16, Option<u16>> {
    let spawned = course.seen.iter().filter(|seen| seen.record.kind == Kind::Spawned);
    let spawned = spawned.map(|seen| (seen.record.value as u16, seen.procedure));
    let live = course.live.iter().map(|live| (live.task.number, live.procedure));
    live.chain(spawned).collect()
}

/// The number of the procedure of a spawn is the value of the spawn's record.
#[test]
fn spawned_tasks_run_the_procedure_that_the_spawn_names() {
    let mut generator = Generator::new(8);
    let (mut spawns, mut several) = (0, 0);
    for _ in 0..TABLES {
        let table = generator.table();
        let course = fresh(&table, BUDGET, LOG);
        let mut state = State::start(&table).unwrap();
        for seen in &course.seen {
            // Up to the record, then one step, which writes it.
            state.run(&table, BUDGET, &mut []).unwrap();
            let place = state.active().map(|task| usize::from(task.place));
            state.run(&table, 1, &mut [0; 8]).unwrap();
            let named =
                place.filter(|_| seen.record.kind == Kind::Spawned).map(|place| u16::from(table[8 * place + 4]));
            assert_eq!(seen.procedure, named);
            spawns += usize::from(named.is_some());
            several += usize::from(named > Some(0));
        }
    }
    assert!(spawns > 2_000 && several > 500, "{spawns} {several}");
}

/// A state on the way, and the course from there.
fn rest(table: &[u8], steps: u32) -> (State, usize, Course) {
    let mut state = State::start(table).unwrap();
    let records = state.run(table, steps, &mut [0; 8 * LOG]).unwrap().records as usize;
    let most = Most { steps: BUDGET - steps, records: LOG - records };
    let rest = Course::of(table, &state, most).unwrap();
    (state, records, rest)
}

#[test]
fn the_course_after_a_resume_is_the_rest_of_the_whole() {
    let mut generator = Generator::new(9);
    let mut tasks = 0;
    for _ in 0..TABLES {
        let table = generator.table();
        let whole = fresh(&table, BUDGET, LOG);
        let steps = generator.random.below(whole.steps as usize + 1) as u32;
        let (state, records, rest) = rest(&table, steps);
        assert_eq!(rest.seen, whole.seen[records..]);
        assert_eq!((rest.ending, rest.steps), (whole.ending, whole.steps - steps));
        assert_eq!(rest.standing, whole.standing);
        assert_eq!(rest.valves, state.variables().take(8).collect::<Vec<_>>());
        let all = procedures(&whole);
        for (live, task) in rest.live.iter().zip(state.tasks()) {
            assert_eq!((live.task, live.procedure), (task, all[&task.number]));
            assert_eq!(live.active, state.active() == Some(task));
            tasks += 1;
        }
        assert_eq!(rest.live.len(), state.tasks().count());
    }
    assert!(tasks > 2_000, "{tasks}");
}

/// What a task does at a time: a burst, something else, or nothing.
fn bursts(timeline: &Timeline, task: u16, time: f64) -> Option<bool> {
    let bar = |bar: &&Bar| bar.from <= time && bar.to.is_none_or(|to| time < to);
    timeline.lanes.get(&task)?.bars.iter().find(bar).map(|bar| bar.doing == Doing::Burst)
}

#[test]
fn the_timeline_after_a_resume_is_the_rest_of_the_whole() {
    let mut generator = Generator::new(10);
    for _ in 0..TABLES {
        let table = generator.table();
        let whole = fresh(&table, BUDGET, LOG);
        let (_, records, rest) = rest(&table, generator.random.below(whole.steps as usize + 1) as u32);
        let (whole, rest) = (Timeline::of(&whole), Timeline::of(&rest));
        let moved = |at: f64| at + records as f64;
        for (number, lane) in &rest.lanes {
            let other = &whole.lanes[number];
            let told = |lane: &Lane| (lane.starter, lane.procedure, lane.taken_up, lane.held);
            assert_eq!(told(lane), told(other));
            assert_eq!(lane.ended.map(moved), other.ended);
            let turns = lane.turns.iter().map(|turn| Turn { at: moved(turn.at), ..*turn });
            assert!(turns.eq(other.turns.iter().filter(|turn| turn.at > records as f64).copied()));
        }
        for time in (0..2 * rest.records).map(|half| half as f64 / 2.0 + 0.25) {
            for task in whole.lanes.keys() {
                assert_eq!(bursts(&rest, *task, time), bursts(&whole, *task, moved(time)), "task {task} at {time}");
            }
        }
    }
}

/// A table with the records of a kind made such of another kind with the same span rules.
fn with(table: &[u8], kind: u8, other: [u8; 2]) -> Vec<u8> {
    let mut table = table.to_vec();
    for record in table.chunks_exact_mut(8).filter(|record| record[0] == kind) {
        record[..2].copy_from_slice(&other);
    }
    table
}

#[test]
fn tables_of_one_kind_of_wait_have_only_such() {
    let mut generator = Generator::new(7);
    let mut stuck = 0;
    for _ in 0..TABLES {
        let table = generator.table();
        // Awaits as skips, then guards as sets.
        for (table, guards) in [(with(&table, 8, [2, 0]), true), (with(&table, 13, [3, 8]), false)] {
            let course = fresh(&table, BUDGET, LOG);
            assert!(course.seen.iter().filter(|seen| waits(seen)).all(|seen| seen.at_guard == guards));
            assert!(course.standing.values().all(|wait| (*wait == Wait::Guard) == guards));
            stuck += usize::from(course.ending == Ending::Stuck && !course.standing.is_empty());
        }
    }
    assert!(stuck > 100, "{stuck}");
}
