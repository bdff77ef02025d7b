//! "The state": the block of 776 bytes, and the state that it spells.

use crate::table::{Fault, Recipe};
use crate::tasks::{is_second, Record, Task, Tasks, TASKS};
use crate::values::{Variables, VARIABLES};

/// The bytes of a state block: 97 records of 8.
pub const BLOCK: usize = 776;
/// The task records: a first and a second of each task, one after the other.
const TASK_RECORDS: usize = 2 * TASKS;

pub struct State {
    /// The highest task number issued.
    pub issued: u16,
    /// Whether the first of the live tasks is active; the others are the ready queue.
    pub active: bool,
    pub tasks: Tasks,
    pub variables: Variables,
}

impl State {
    /// "A fresh state has task 1 (main, parameter 0) active at place 1, highest number 1 and all variables 0." No task
    /// spawned it, and it was not taken up.
    pub fn fresh() -> State {
        let mut tasks = Tasks::new();
        tasks.join(Task { number: 1, place: 1, parameter: 0, spawner: 0, taken: 0 });
        State { issued: 1, active: true, tasks, variables: [0; VARIABLES] }
    }

    /// Checks and reads a block: 21, then 22 at the earliest record against the rules, then 23, which cannot come: so many
    /// different numbers are not there.
    pub fn read(block: &[u8], recipe: &Recipe) -> Result<State, Fault> {
        let (records, _) = block.as_chunks::<8>();
        let Some((first, others)) = records.split_first().filter(|_| block.len() == BLOCK) else {
            return Err(Fault::at(21, 0));
        };
        let &[i0, i1, live, active, zeros @ ..] = first;
        let issued = u16::from_le_bytes([i0, i1]);
        let live = usize::from(live);
        if issued == 0 || live > TASKS || active > 1 || (active == 1 && live == 0) || zeros != [0; 4] {
            return Err(Fault::at(22, 0));
        }
        let (tasks, variables) = others.split_at(TASK_RECORDS);
        let tasks = read_tasks(tasks, live, issued, recipe)?;
        if live > usize::from(issued) {
            return Err(Fault::at(23, 0));
        }
        Ok(State { issued, active: active == 1, tasks, variables: read_variables(variables) })
    }

    /// Writes the block: "the active task if any, then the queue from its front .. unused ones are all zero".
    pub fn write(&self, block: &mut [u8]) {
        let (records, _) = block.as_chunks_mut::<8>();
        let Some((first, others)) = records.split_first_mut() else { return };
        let [i0, i1] = self.issued.to_le_bytes();
        let live = self.tasks.live();
        *first = [i0, i1, live as u8, u8::from(self.active), 0, 0, 0, 0];
        let Some((tasks, variables)) = others.split_at_mut_checked(TASK_RECORDS) else { return };
        let (used, unused) = tasks.split_at_mut(2 * live);
        for (i, records) in used.as_chunks_mut().0.iter_mut().enumerate() {
            *records = self.tasks.at(i).to_records();
        }
        unused.fill([0; 8]);
        for (record, pair) in variables.iter_mut().zip(self.variables.chunks_exact(2)) {
            let &[even, odd] = pair else { return };
            let ([a, b, c, d], [e, f, g, h]) = (even.to_le_bytes(), odd.to_le_bytes());
            *record = [a, b, c, d, e, f, g, h];
        }
    }

    /// "A number is done if it has been issued and its task is not live"; "0 counts as done" (request 2.7 of document
    /// 02).
    #[inline]
    pub fn is_done(&self, number: i32) -> bool {
        match u16::try_from(number) {
            Ok(0) => true,
            Ok(number) => number <= self.issued && !self.tasks.has(number),
            Err(_) => false,
        }
    }
}

/// Records 1 to 64: two for each live task, the numbers "1 to the highest issued, all different", then records that are
/// all zero.
fn read_tasks(records: &[Record], live: usize, issued: u16, recipe: &Recipe) -> Result<Tasks, Fault> {
    let mut tasks = Tasks::new();
    let (used, unused) = records.split_at(2 * live);
    for (i, &[first, second]) in used.as_chunks().0.iter().enumerate() {
        let task = Task::from_records(first, second);
        let known = (1..=issued).contains(&task.number);
        if !known || tasks.has(task.number) || !recipe.is_place(task.place) {
            return Err(Fault::at(22, 1 + 2 * i));
        }
        if !is_second(second, task.number) {
            return Err(Fault::at(22, 2 + 2 * i));
        }
        tasks.join(task);
    }
    match unused.iter().position(|record| *record != [0; 8]) {
        Some(i) => Err(Fault::at(22, 1 + 2 * live + i)),
        None => Ok(tasks),
    }
}

/// Records 65 to 96: "variables 0–63, four bytes each, any content".
fn read_variables(records: &[Record]) -> Variables {
    let mut variables = [0; VARIABLES];
    for (pair, &[a, b, c, d, e, f, g, h]) in variables.chunks_exact_mut(2).zip(records) {
        pair.copy_from_slice(&[i32::from_le_bytes([a, b, c, d]), i32::from_le_bytes([e, f, g, h])]);
    }
    variables
}
