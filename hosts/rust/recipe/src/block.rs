//! What the queued tasks of a state block stand at.

use std::collections::BTreeMap;

use recipe_runner::{State, Task};

use crate::table::{kind, Record, PARAMETER};

/// What a task waits at.
#[derive(Clone, Copy, Debug, PartialEq, Eq)]
pub enum Wait {
    /// An await, with the number awaited.
    Await(i32),
    Guard,
}

/// The await or guard that is a task's next statement.
pub fn wait(task: &Task, table: &[Record], state: &State) -> Option<Wait> {
    let next = table.get(usize::from(task.place))?;
    match next.kind {
        kind::AWAIT if next.name == PARAMETER => Some(Wait::Await(task.parameter)),
        kind::AWAIT => state.variables().nth(usize::from(next.name)).map(Wait::Await),
        kind::GUARD => Some(Wait::Guard),
        _ => None,
    }
}

/// The queued tasks whose next statement is an await or a guard.
pub fn standing(state: &State, table: &[Record]) -> BTreeMap<u16, Wait> {
    state.queue().filter_map(|task| Some((task.number, wait(&task, table, state)?))).collect()
}

#[cfg(test)]
mod tests {
    use super::*;
    use crate::asm::assemble;
    use crate::table::decode;

    #[test]
    fn queued_tasks_tell_what_they_stand_at() {
        let text = "procedure main\n  set variable63 -9\n  spawn x a 7\n  spawn x b 0\n  spawn x c 0\n  spawn x d 0\n\
                    procedure a\n  await parameter\nprocedure b\n  await variable63\nprocedure c\n  guard 0\n\
                    procedure d\n  skip\nvariable variable63 63\n";
        let table = assemble(text).unwrap();
        let mut state = State::start(&table).unwrap();
        state.run(&table, 5, &mut [0; 64]).unwrap();
        let due = [(2, Wait::Await(7)), (3, Wait::Await(-9)), (4, Wait::Guard)];
        assert_eq!(standing(&state, &decode(&table)), BTreeMap::from(due));
    }
}
