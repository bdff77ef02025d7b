//! The state of a run.

use crate::calls::{run, start, why_stuck, Started};
use crate::chain::Chain;
use crate::ending::{Ending, Ran, Refusal};
use crate::{CHAIN, STATE, TASK, TASKS_AT, VARIABLE, VARIABLES_AT};

/// A live task, as a state has it.
#[derive(Clone, Copy, Debug, PartialEq, Eq)]
pub struct Task {
    /// Its number, from 1.
    pub number: u16,
    /// The table's record of its next statement, or the one after its procedure's last.
    pub place: u16,
    /// Its parameter's value.
    pub parameter: i32,
    /// The task whose spawn started it, which may have ended; none started task 1.
    pub spawner: Option<u16>,
    /// The times taken up: how often it became active from the queue's front. Being turned does not count. They stay at
    /// the largest value.
    pub taken_up: u32,
}

impl Task {
    fn read(bytes: &[u8]) -> Option<Task> {
        let [n0, n1, l0, l1, p0, p1, p2, p3, s0, s1, _, _, t0, t1, t2, t3] = bytes.try_into().ok()?;
        Some(Task {
            number: u16::from_le_bytes([n0, n1]),
            place: u16::from_le_bytes([l0, l1]),
            parameter: i32::from_le_bytes([p0, p1, p2, p3]),
            spawner: Some(u16::from_le_bytes([s0, s1])).filter(|spawner| *spawner != 0),
            taken_up: u32::from_le_bytes([t0, t1, t2, t3]),
        })
    }
}

/// The state of a recipe's run: a block of [`STATE`] bytes.
///
/// What it tells of tasks and variables is what its bytes say: of a saved one, they are checked by the next run.
///
/// ```
/// use recipe_runner::{Ending, State, VARIABLE, VARIABLES_AT};
///
/// // The main task waits at a guard until variable 8 is not 0: a sensor's, which the host writes.
/// let table = [[1, 0, 2, 0, 0, 0, 0, 0], [13, 0, 1, 0, 0, 0, 0, 0], [10, 8, 0, 0, 0, 0, 0, 0]].concat();
/// let mut state = State::start(&table)?;
/// assert_eq!(state.run(&table, 100, &mut [0; 64])?.ending, Ending::Stuck);
/// assert_eq!(state.why_stuck(&table)?.to_string(), "1: the last task is at an untrue guard");
///
/// let mut saved = *state.as_bytes();
/// saved[VARIABLES_AT + 8 * VARIABLE..][..VARIABLE].copy_from_slice(&900_i32.to_le_bytes());
/// let mut state = State::from_bytes(&saved)?;
/// assert_eq!(state.run(&table, 100, &mut [0; 64])?.ending, Ending::Finished);
/// # Ok::<(), recipe_runner::Refusal>(())
/// ```
#[derive(Clone, Debug, PartialEq, Eq)]
pub struct State {
    block: [u8; STATE],
}

impl State {
    /// Checks a table and gives a fresh state.
    pub fn start(table: &[u8]) -> Result<State, Refusal> {
        let mut block = [0; STATE];
        match start(table, &mut block) {
            Started { number: 0, .. } => Ok(State { block }),
            Started { number, place } => Err(Refusal { number, place }),
        }
    }

    /// A saved state. Its content is checked by the next run.
    pub fn from_bytes(bytes: &[u8]) -> Result<State, Refusal> {
        match bytes.try_into() {
            Ok(block) => Ok(State { block }),
            Err(_) => Err(Refusal { number: 21, place: 0 }),
        }
    }

    /// The bytes to save.
    pub fn as_bytes(&self) -> &[u8; STATE] {
        &self.block
    }

    /// The highest task number issued.
    pub fn issued(&self) -> u16 {
        let [i0, i1, ..] = self.block;
        u16::from_le_bytes([i0, i1])
    }

    /// The live tasks: the active one if any, then the ready queue from its front.
    pub fn tasks(&self) -> impl Iterator<Item = Task> + '_ {
        let [_, _, live, ..] = self.block;
        self.block[TASKS_AT..VARIABLES_AT].chunks_exact(TASK).take(live.into()).filter_map(Task::read)
    }

    /// The active task.
    pub fn active(&self) -> Option<Task> {
        self.tasks().take(self.actives()).next()
    }

    /// The queued tasks, from the front.
    pub fn queue(&self) -> impl Iterator<Item = Task> + '_ {
        self.tasks().skip(self.actives())
    }

    /// How many tasks are active: one or none.
    fn actives(&self) -> usize {
        let [_, _, _, active, ..] = self.block;
        usize::from(active != 0)
    }

    /// The values of variables 0 to 63.
    pub fn variables(&self) -> impl Iterator<Item = i32> + '_ {
        self.block[VARIABLES_AT..]
            .chunks_exact(VARIABLE)
            .filter_map(|value| Some(i32::from_le_bytes(value.try_into().ok()?)))
    }

    /// Makes steps, as many as the budget at most.
    pub fn run(&mut self, table: &[u8], budget: u32, log: &mut [u8]) -> Result<Ran, Refusal> {
        let a = run(table, &mut self.block, budget, log);
        match Ending::of(a) {
            Some(ending) => Ok(Ran { ending, steps: a.steps, records: a.records }),
            None => Err(Refusal { number: a.number, place: a.place }),
        }
    }

    /// The chain of a stuck state; 25 where the state is not stuck.
    pub fn why_stuck(&self, table: &[u8]) -> Result<Chain, Refusal> {
        let mut chain = [0; CHAIN];
        let e = why_stuck(table, &self.block, &mut chain);
        Chain::read(e, &chain).ok_or(Refusal { number: e.number, place: e.place })
    }
}
