//! Which record of a saved state breaks a rule. The rules of tables are not asked: a place may be none of the table that
//! the state belongs to.

use recipe_runner::{Refusal, State, Task, RECORD, STATE, TASK, TASKS, TASKS_AT, VARIABLES_AT};

use crate::table::RECORDS;

/// A refusal, and what is wrong in a sentence.
#[derive(Clone, Debug, PartialEq, Eq)]
pub struct Fault {
    pub refusal: Refusal,
    pub sentence: String,
}

impl Fault {
    /// Of a file of another size, which is read to one byte more than a state has.
    pub fn size(bytes: &[u8]) -> Fault {
        let found = if bytes.len() > STATE { "more".to_string() } else { bytes.len().to_string() };
        let refusal = Refusal { number: 21, place: 0 };
        Fault { refusal, sentence: format!("{}: it has {found}", refusal.words()) }
    }

    /// The first record at fault: record 0, then each task's first and second, then the unused ones.
    pub fn of(state: &State) -> Option<Fault> {
        let block = state.as_bytes();
        let faulty = head(block).map(|sentence| (0, sentence)).or_else(|| task(state)).or_else(|| unused(state));
        faulty.map(|(record, sentence)| Fault {
            refusal: Refusal { number: 22, place: record as u32 },
            sentence: format!("state record {record}: {sentence}"),
        })
    }

    /// Of a task whose place is none of the table that the state is run with.
    pub fn place(state: &State, refusal: Refusal) -> Option<Fault> {
        let index = (refusal.place as usize).checked_sub(1)? / 2;
        let Task { number, place, .. } = state.tasks().nth(index)?;
        let sentence = format!(
            "state record {}: the place {place} of task {number} is no statement of this table, nor behind a procedure's last",
            refusal.place
        );
        Some(Fault { refusal, sentence })
    }
}

/// What is wrong with record 0.
fn head([i0, i1, live, active, zeros @ ..]: &[u8; STATE]) -> Option<String> {
    let live = usize::from(*live);
    match active {
        _ if [*i0, *i1] == [0, 0] => Some("no task number is issued".to_string()),
        _ if live > TASKS => Some(format!("{live} tasks are live, and at most {TASKS} can be")),
        2.. => Some(format!("byte 3 is {active}, and has to be 1 if a task is active, else 0")),
        1 if live == 0 => Some("a task is active, and none is live".to_string()),
        _ if zeros[..4] != [0; 4] => Some("bytes 4 to 7 are not zero".to_string()),
        _ => None,
    }
}

/// The first record of a live task that is at fault.
fn task(state: &State) -> Option<(usize, String)> {
    let tasks: Vec<Task> = state.tasks().collect();
    let bytes = state.as_bytes()[TASKS_AT..].chunks_exact(TASK);
    let faults = tasks.iter().zip(bytes).enumerate().map(|(index, (task, bytes))| {
        let first = first(task, &tasks[..index], state.issued()).map(|sentence| (1 + 2 * index, sentence));
        first.or_else(|| second(task, bytes).map(|sentence| (2 + 2 * index, sentence)))
    });
    faults.flatten().next()
}

/// What is wrong with a task's first record.
fn first(task: &Task, before: &[Task], issued: u16) -> Option<String> {
    let Task { number, place, .. } = *task;
    if number == 0 || number > issued {
        return Some(format!("the task number {number} is none of those issued, 1 to {issued}"));
    }
    if let Some(other) = before.iter().position(|other| other.number == number) {
        return Some(format!("the task number {number} is that of record {}, too", 1 + 2 * other));
    }
    if place == 0 || usize::from(place) > RECORDS {
        return Some(format!("the place {place} is none of any table"));
    }
    None
}

/// What is wrong with a task's second record.
fn second(task: &Task, bytes: &[u8]) -> Option<String> {
    let Task { number, spawner, .. } = *task;
    match (number, spawner) {
        (1, Some(spawner)) => Some(format!("task 1 has the starter {spawner}, and no task starts it")),
        (2.., None) => Some(format!("task {number} has no starter, and only task 1 has none")),
        (_, Some(spawner)) if spawner >= number => {
            Some(format!("task {number} has the starter {spawner}, which has no smaller number"))
        }
        _ if bytes[RECORD + 2..RECORD + 4] != [0, 0] => Some("bytes 2 and 3 are not zero".to_string()),
        _ => None,
    }
}

/// The first unused record that is not zero.
fn unused(state: &State) -> Option<(usize, String)> {
    let used = 1 + 2 * state.tasks().count();
    let mut records = state.as_bytes()[..VARIABLES_AT].chunks_exact(RECORD).skip(used);
    let faulty = records.position(|record| record != [0; RECORD])?;
    Some((used + faulty, "it is unused, and is not zero".to_string()))
}

#[cfg(test)]
mod tests {
    use super::super::tests::state;
    use super::*;

    /// Tasks 1, 5 and 3 of 5 issued, the first active.
    const FINE: [(usize, &[u8]); 4] = [
        (0, &[5, 0, 3, 1]),
        (TASKS_AT, &[1, 0, 1, 0, 9, 9, 9, 9, 0, 0, 0, 0, 9, 9, 9, 9]),
        (TASKS_AT + TASK, &[5, 0, 0, 16, 9, 9, 9, 9, 4, 0, 0, 0, 255, 255, 255, 255]),
        (TASKS_AT + 2 * TASK, &[3, 0, 7, 0, 0, 0, 0, 0, 1, 0, 0, 0, 0, 0, 0, 0]),
    ];

    /// The fault with its number and place.
    fn told(fault: &Fault) -> String {
        format!("{}: {}", fault.refusal.printed(), fault.sentence)
    }

    /// The fault of that state with other bytes at an index.
    fn fault(at: usize, bytes: &[u8]) -> Option<String> {
        Fault::of(&state(&[&FINE[..], &[(at, bytes)]].concat())).map(|fault| told(&fault))
    }

    #[test]
    fn a_fine_state_has_no_fault() {
        assert_eq!(fault(0, &[]), None);
        assert_eq!(fault(VARIABLES_AT, &[255; STATE - VARIABLES_AT]), None);
    }

    #[test]
    fn faults_name_their_record() {
        let (second, third) = (TASKS_AT + TASK, TASKS_AT + 2 * TASK);
        for (at, bytes, record, sentence) in [
            (0, &[0, 0][..], 0, "no task number is issued"),
            (2, &[33], 0, "33 tasks are live, and at most 32 can be"),
            (3, &[2], 0, "byte 3 is 2, and has to be 1 if a task is active, else 0"),
            (2, &[0], 0, "a task is active, and none is live"),
            (7, &[1], 0, "bytes 4 to 7 are not zero"),
            (TASKS_AT, &[0], 1, "the task number 0 is none of those issued, 1 to 5"),
            (second, &[6], 3, "the task number 6 is none of those issued, 1 to 5"),
            (third, &[5], 5, "the task number 5 is that of record 3, too"),
            (third + 2, &[0], 5, "the place 0 is none of any table"),
            (third + 2, &[1, 16], 5, "the place 4097 is none of any table"),
            (TASKS_AT + 8, &[1], 2, "task 1 has the starter 1, and no task starts it"),
            (second + 8, &[0], 4, "task 5 has no starter, and only task 1 has none"),
            (second + 8, &[5], 4, "task 5 has the starter 5, which has no smaller number"),
            (third + 9, &[1], 6, "task 3 has the starter 257, which has no smaller number"),
            (third + 10, &[1], 6, "bytes 2 and 3 are not zero"),
            (third + 11, &[1], 6, "bytes 2 and 3 are not zero"),
            (third + 16, &[1], 7, "it is unused, and is not zero"),
            (third + 24, &[1], 8, "it is unused, and is not zero"),
            (VARIABLES_AT - 1, &[1], 64, "it is unused, and is not zero"),
            (2, &[2], 5, "it is unused, and is not zero"),
        ] {
            let told = format!("refused 22 {record}: state record {record}: {sentence}");
            assert_eq!(fault(at, bytes), Some(told));
        }
    }

    #[test]
    fn the_first_record_decides() {
        // The first task's second record, and the second task's first; a task's second and an unused one.
        for (other, record) in [(TASKS_AT + TASK, 2), (TASKS_AT + 3 * TASK, 2), (7, 0)] {
            let damaged = [&FINE[..], &[(TASKS_AT + 8, &[1]), (other, &[9])]].concat();
            assert_eq!(Fault::of(&state(&damaged)).unwrap().refusal, Refusal { number: 22, place: record });
        }
    }

    #[test]
    fn other_sizes_are_told() {
        let size = |length: usize| told(&Fault::size(&vec![0; length]));
        assert_eq!(size(520), "refused 21 0: the state is not of 776 bytes: it has 520");
        assert_eq!(size(0), "refused 21 0: the state is not of 776 bytes: it has 0");
        assert_eq!(size(777), "refused 21 0: the state is not of 776 bytes: it has more");
    }
}
