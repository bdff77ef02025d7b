//! "Why does it say stuck?" (request 2.4 of document 02): who waits for whom, as a chain of task numbers.

use crate::run::read;
use crate::state::State;
use crate::table::{Fault, Node, Recipe};
use crate::tasks::{Task, TASKS};

/// "66 bytes", two a number: all tasks, and the one "named earlier" again.
const CHAIN: usize = 2 * (TASKS + 1);

/// What the tool gives: "number (0 when accepted ..), count, end and place".
#[derive(Clone, Copy, Debug, PartialEq, Eq)]
pub struct Explained {
    pub number: u32,
    pub count: u32,
    pub end: u32,
    pub place: u32,
}

/// What a chain ends in, by the request's numbers.
#[derive(Clone, Copy, Debug, PartialEq, Eq)]
enum End {
    NamedEarlier = 1,
    NeverIssued = 2,
    UntrueGuard = 3,
}

/// "Takes table and state and writes a chain of task numbers, two bytes each"; "count and end 0 when refused", and the
/// output is unchanged then.
pub fn why_stuck(table: &[u8], state: &[u8], chain: &mut [u8]) -> Explained {
    match read_stuck(table, state, chain.len()) {
        Err(fault) => Explained { number: fault.number.into(), count: 0, end: 0, place: fault.place.into() },
        Ok((recipe, state)) => {
            let (count, end) = write_chain(&recipe, &state, chain.as_chunks_mut().0);
            Explained { number: 0, count: count as u32, end: end as u32, place: 0 }
        }
    }
}

/// The refusals in their order: the table's, the block's, and "25, after 23, when the state is not stuck or the output
/// is not 66 bytes".
fn read_stuck(table: &[u8], block: &[u8], output: usize) -> Result<(Recipe, State), Fault> {
    let (recipe, state) = read(table, block)?;
    if output != CHAIN || !is_stuck(&recipe, &state) {
        return Err(Fault::at(25, 0));
    }
    Ok((recipe, state))
}

/// "None active, queue not empty, none ready."
fn is_stuck(recipe: &Recipe, state: &State) -> bool {
    !state.active && state.tasks.live() > 0 && state.before_ready(recipe).is_err()
}

/// "From the front of the queue, each waits for the next": gives how many numbers were written, and the end. A number
/// that was written before ends the chain, so that there are at most 33.
fn write_chain(recipe: &Recipe, state: &State, chain: &mut [[u8; 2]]) -> (usize, End) {
    let mut named = [false; TASKS];
    let mut at = 0;
    let mut count = 0;
    loop {
        let task = state.tasks.at(at);
        chain[count] = task.number.to_le_bytes();
        count += 1;
        if named[at] {
            return (count, End::NamedEarlier);
        }
        named[at] = true;
        match next(recipe, state, &task) {
            Ok(waited_for) => at = waited_for,
            Err(end) => return (count, end),
        }
    }
}

/// The live task that a waiting one waits for, by how many stand before it; else what the chain ends in. The number is
/// not done, so it is not 0, and one that no live task has was never issued.
fn next(recipe: &Recipe, state: &State, task: &Task) -> Result<usize, End> {
    match recipe.at(task.place) {
        Node::Await { name, .. } => {
            let number = state.context(recipe, task).read(name);
            state.tasks.position(number).ok_or(End::NeverIssued)
        }
        _ => Err(End::UntrueGuard),
    }
}
