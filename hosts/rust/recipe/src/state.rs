//! A saved state in words: its tasks, who started each and how often it was taken up, and its variables.

use recipe_runner::{Refusal, State, Task};

use crate::table::FIRST_SHARED;
use crate::words::counted;

mod fault;

pub use fault::Fault;

/// What heads the columns; the first has where a task stands.
const HEADS: [&str; 6] = ["", "task", "place", "parameter", "starter", "times taken up"];

/// The state that these bytes are, if they keep to the rules that need no table.
pub fn read(bytes: &[u8]) -> Result<State, Fault> {
    let state = State::from_bytes(bytes).map_err(|_| Fault::size(bytes))?;
    match Fault::of(&state) {
        None => Ok(state),
        Some(fault) => Err(fault),
    }
}

/// The refusal of a state with its table, in a sentence.
pub fn describe(state: &State, refusal: Refusal) -> String {
    let live = state.tasks().count();
    match refusal.number {
        // What breaks no rule of states has a place that this table has not.
        22 => Fault::of(state).filter(|fault| fault.refusal == refusal).map_or_else(
            || Fault::place(state, refusal).map_or(refusal.words().to_string(), |fault| fault.sentence),
            |fault| fault.sentence,
        ),
        23 => format!("{}: {live} are live, and {} are issued", refusal.words(), state.issued()),
        25 => match state.active() {
            Some(task) => format!("{}: task {} is active", refusal.words(), task.number),
            None if live == 0 => format!("{}: no task is left", refusal.words()),
            None => format!("{}: a task of its queue can go on", refusal.words()),
        },
        _ => refusal.words().to_string(),
    }
}

/// The lines of a state.
pub fn lines(state: &State) -> Vec<String> {
    let live = counted(state.tasks().count(), "task");
    let active = if state.active().is_some() { "one" } else { "none" };
    let mut lines = vec![format!("highest number issued {}, {live} live, {active} active", state.issued())];
    lines.extend(tasks(state));
    lines.extend(variables(state));
    lines
}

/// A table with a row for each task; none where no task is live.
fn tasks(state: &State) -> Vec<String> {
    let active = state.active().map(|task| row("active".to_string(), &task));
    let queued = state.queue().enumerate().map(|(index, task)| row(format!("queue {}", index + 1), &task));
    let rows: Vec<_> = active.into_iter().chain(queued).collect();
    if rows.is_empty() {
        return Vec::new();
    }
    let rows = [vec![HEADS.map(String::from)], rows].concat();
    [vec![String::new()], aligned(&rows)].concat()
}

/// The fields of a task, in the columns' order.
fn row(standing: String, task: &Task) -> [String; 6] {
    let starter = task.spawner.map_or("none".to_string(), |number| number.to_string());
    let times = match task.taken_up {
        // The count stays there.
        u32::MAX => format!("{} or more", u32::MAX),
        times => times.to_string(),
    };
    [standing, task.number.to_string(), task.place.to_string(), task.parameter.to_string(), starter, times]
}

/// The rows as lines: the first column to the left, the others to the right.
fn aligned<const N: usize>(rows: &[[String; N]]) -> Vec<String> {
    let width = |column: usize| rows.iter().map(|row| row[column].len()).max().unwrap_or_default();
    let widths: Vec<usize> = (0..N).map(width).collect();
    let line = |row: &[String; N]| {
        let (first, others) = (format!("{:<1$}", row[0], widths[0]), row.iter().zip(&widths).skip(1));
        others.fold(first, |line, (field, width)| line + &format!("  {field:>width$}"))
    };
    rows.iter().map(line).collect()
}

/// The variables that are not 0.
fn variables(state: &State) -> Vec<String> {
    let set = state.variables().enumerate().filter(|(_, value)| *value != 0);
    let rows: Vec<_> = set.map(|(name, value)| [called(name), value.to_string()]).collect();
    let head = if rows.is_empty() { "every variable is 0" } else { "variables that are not 0" };
    [vec![String::new(), head.to_string()], aligned(&rows)].concat()
}

/// What a variable is called.
fn called(name: usize) -> String {
    if name < usize::from(FIRST_SHARED) {
        return format!("valve{name}");
    }
    format!("variable {name}")
}

#[cfg(test)]
mod tests {
    use super::*;
    use recipe_runner::{STATE, TASK, TASKS_AT, VARIABLE, VARIABLES_AT};

    /// A state of these bytes at these indices, else of zeros.
    pub fn state(parts: &[(usize, &[u8])]) -> State {
        let mut block = [0; STATE];
        for (at, bytes) in parts {
            block[*at..*at + bytes.len()].copy_from_slice(bytes);
        }
        State::from_bytes(&block).unwrap()
    }

    #[test]
    fn a_state_without_tasks() {
        let finished = lines(&state(&[(0, &[7, 1])]));
        assert_eq!(finished, ["highest number issued 263, 0 tasks live, none active", "", "every variable is 0"]);
    }

    #[test]
    fn columns_are_as_wide_as_their_fields() {
        let at = |task: usize| TASKS_AT + TASK * task;
        let main = [1, 0, 9, 0, 0, 0, 0, 0x80, 0, 0, 0, 0, 255, 255, 255, 255];
        let other = [0, 1, 0, 16, 5, 0, 0, 0, 200, 0, 0, 0, 0, 1, 0, 0];
        let variables = [(VARIABLES_AT, &[1, 0, 0, 0][..]), (VARIABLES_AT + 63 * VARIABLE, &[255; 4])];
        let shown =
            lines(&state(&[&[(0, &[0, 2, 2, 0][..]), (at(0), &main), (at(1), &other)], &variables[..]].concat()));
        let due = [
            "highest number issued 512, 2 tasks live, none active",
            "",
            "         task  place    parameter  starter      times taken up",
            "queue 1     1      9  -2147483648     none  4294967295 or more",
            "queue 2   256   4096            5      200                 256",
            "",
            "variables that are not 0",
            "valve0        1",
            "variable 63  -1",
        ];
        assert_eq!(shown, due);
    }
}
