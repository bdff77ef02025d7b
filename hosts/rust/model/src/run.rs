//! "What the runner says": start and run, and the stops that are tried before each step.

use crate::log::Log;
use crate::state::{State, BLOCK};
use crate::steps::{Burst, Stop};
use crate::table::{Fault, Recipe};

/// What a start gives: "a number and a place".
#[derive(Clone, Copy, Debug, PartialEq, Eq)]
pub struct Started {
    pub number: u32,
    pub place: u32,
}

/// What a run gives: "number, steps, log records and place".
#[derive(Clone, Copy, Debug, PartialEq, Eq)]
pub struct Answer {
    pub number: u32,
    pub steps: u32,
    pub records: u32,
    pub place: u32,
}

/// "Start gives a number and a place by the same rules: 0 and 0 when accepted, else 11–17 or 21 with its place; it
/// ignores the block's old content."
pub fn start(table: &[u8], state: &mut [u8]) -> Started {
    match Recipe::read(table) {
        Err(fault) => Started { number: fault.number.into(), place: fault.place.into() },
        Ok(_) if state.len() != BLOCK => Started { number: 21, place: 0 },
        Ok(_) => {
            State::fresh().write(state);
            Started { number: 0, place: 0 }
        }
    }
}

/// "Table first .. Then 21, 22, 23." A refused call changes neither state nor log.
pub fn run(table: &[u8], state: &mut [u8], budget: u32, log: &mut [u8]) -> Answer {
    match read(table, state) {
        Err(fault) => Answer { number: fault.number.into(), steps: 0, records: 0, place: fault.place.into() },
        Ok((recipe, mut current)) => {
            let mut log = Log::new(log);
            let (stop, left) = go(&recipe, &mut current, budget, &mut log);
            current.write(state);
            Answer { number: stop as u32, steps: budget - left, records: log.records(), place: place(stop, &current) }
        }
    }
}

/// The place of a stop: of 24 "the statement's record", where the active task stands; of others none is named.
fn place(stop: Stop, state: &State) -> u32 {
    match stop {
        Stop::NoValue => state.tasks.first().place.into(),
        _ => 0,
    }
}

/// The refusals in their order: the table's, then the block's.
pub fn read(table: &[u8], block: &[u8]) -> Result<(Recipe, State), Fault> {
    let recipe = Recipe::read(table)?;
    let state = State::read(block, &recipe)?;
    Ok((recipe, state))
}

/// Before each step 0, 2, 1, 24, 3, 4, 5 are tried in this order: 24 "after 1 and before 3". Gives the stop, and the
/// steps that are left.
fn go(recipe: &Recipe, state: &mut State, mut left: u32, log: &mut Log) -> (Stop, u32) {
    loop {
        let done =
            if state.active { burst(recipe, state, &mut left, log) } else { tries(recipe, state, &mut left, log) };
        if let Err(stop) = done {
            return (stop, left);
        }
    }
}

/// One step, if the budget has one left and nothing else stops it.
#[inline]
fn step<T>(left: &mut u32, row: impl FnOnce() -> Result<T, Stop>) -> Result<T, Stop> {
    if *left == 0 {
        return Err(Stop::Paused);
    }
    let done = row()?;
    *left -= 1;
    Ok(done)
}

/// The steps of the active task, until it gives way, waits or ends.
#[inline]
fn burst(recipe: &Recipe, state: &mut State, left: &mut u32, log: &mut Log) -> Result<(), Stop> {
    let mut task = state.tasks.first();
    loop {
        match step(left, || state.act(recipe, &mut task, log)) {
            Ok(Burst::On) => {}
            Ok(Burst::Over) => return Ok(()),
            Err(stop) => {
                state.tasks.set_first(task);
                return Err(stop);
            }
        }
    }
}

/// The tries with none active, until a task is taken up. Turning changes neither variables nor live tasks, so the first
/// ready task is looked for once, and those before it are turned without being tested again.
#[inline]
fn tries(recipe: &Recipe, state: &mut State, left: &mut u32, log: &mut Log) -> Result<(), Stop> {
    if state.tasks.live() == 0 {
        return Err(Stop::Finished);
    }
    for _ in 0..state.before_ready(recipe)? {
        step(left, || state.turn(recipe, log))?;
    }
    step(left, || state.take_up(recipe, log))
}
