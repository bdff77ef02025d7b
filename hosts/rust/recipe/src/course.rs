//! A run from a state, with what its log does not tell: which wait is one at a guard, and which procedure a spawned
//! task runs.
//!
//! The table often tells both: where all waits of a procedure are alike, or all its spawns name one procedure. Else the
//! states do, until the task is tried next: where it stands does not change before. So the run is made once for its log
//! and once more in calls that end where a state is needed: continued calls equal one. A turn with 0 is one at a guard:
//! an await of a 0 passes when it is tried.

use std::collections::BTreeMap;
use std::mem;

use recipe_runner::{records, Ending, Kind, Record, Refusal, State, Task, RECORD};

use crate::block::{standing, wait, Wait};
use crate::table::{self, decode, kind, split};

/// The records of a call's log.
const SLICE: usize = 4_096;
/// The valves are the first variables.
const VALVES: usize = 8;

/// A log record, whether it is a wait's at a guard, and the procedure of the task that it spawns, by its number.
#[derive(Clone, Copy, Debug, PartialEq, Eq)]
pub struct Seen {
    pub record: Record,
    pub at_guard: bool,
    pub procedure: Option<u16>,
}

impl Seen {
    fn of(record: Record) -> Seen {
        Seen { record, at_guard: record.kind == Kind::Turned && record.value == 0, procedure: None }
    }
}

/// A task that the course begins with.
#[derive(Clone, Copy, Debug, PartialEq, Eq)]
pub struct Live {
    pub task: Task,
    pub procedure: Option<u16>,
    pub active: bool,
    /// What a queued task stands at.
    pub wait: Option<Wait>,
}

/// How far a run is followed.
#[derive(Clone, Copy, Debug, PartialEq, Eq)]
pub struct Most {
    pub steps: u32,
    pub records: usize,
}

#[derive(Clone, Debug, PartialEq, Eq)]
pub struct Course {
    pub live: Vec<Live>,
    /// The values that the valves have at the beginning.
    pub valves: Vec<i32>,
    pub seen: Vec<Seen>,
    /// "logfull" where it has as many records as it may have.
    pub ending: Ending,
    pub steps: u32,
    /// The queued tasks that stand at an await or guard at the end.
    pub standing: BTreeMap<u16, Wait>,
}

impl Course {
    /// Makes steps from a state, as many as may be.
    pub fn of(table: &[u8], begin: &State, most: Most) -> Result<Course, Refusal> {
        let rows = decode(table);
        let mut state = begin.clone();
        let (seen, ending, steps) = log(table, &mut state, most)?;
        let places = Places::of(&rows);
        let live: Vec<Live> = begin.tasks().map(|task| places.live(task, begin)).collect();
        let again = Again { table, state: begin.clone(), written: 0, log: Vec::new() };
        let runs = live.iter().filter_map(|live| Some((live.task.number, live.procedure?))).collect();
        let seen = Completing { places, again, seen, runs, open: Vec::new() }.all(&state)?;
        let valves = begin.variables().take(VALVES).collect();
        Ok(Course { live, valves, seen, ending, steps, standing: standing(&state, &rows) })
    }
}

/// The records of a run, its ending and its steps.
fn log(table: &[u8], state: &mut State, most: Most) -> Result<(Vec<Seen>, Ending, u32), Refusal> {
    let (mut seen, mut steps) = (Vec::new(), 0);
    let mut slice = vec![0; SLICE * RECORD];
    loop {
        let room = SLICE.min(most.records.saturating_sub(seen.len()));
        let ran =
            state.run(table, most.steps.saturating_sub(steps), slice.get_mut(..room * RECORD).unwrap_or_default())?;
        steps += ran.steps;
        seen.extend(records(&slice, ran.records).map(Seen::of));
        if ran.ending != Ending::Logfull || seen.len() >= most.records {
            return Ok((seen, ran.ending, steps));
        }
    }
}

/// The records of a run, and what is known of its tasks.
struct Completing<'t> {
    places: Places<'t>,
    again: Again<'t>,
    seen: Vec<Seen>,
    /// The procedure of each task.
    runs: BTreeMap<u16, u16>,
    /// The records that a state has to complete, each with the task whose place tells: at most one for each task.
    open: Vec<(usize, u16)>,
}

impl Completing<'_> {
    fn all(mut self, end: &State) -> Result<Vec<Seen>, Refusal> {
        for index in 0..self.seen.len() {
            self.one(index)?;
        }
        self.settle(end);
        Ok(self.seen)
    }

    fn one(&mut self, index: usize) -> Result<(), Refusal> {
        let Some(Seen { record, .. }) = self.seen.get(index).copied() else { return Ok(()) };
        let tried = matches!(record.kind, Kind::Taken | Kind::Turned);
        if tried && self.open.iter().any(|(_, task)| *task == record.task) {
            let state = self.again.before(index)?.clone();
            self.settle(&state);
        }
        let own = self.runs.get(&record.task).and_then(|number| self.places.procedures.get(usize::from(*number)));
        let own = own.copied().unwrap_or_default();
        // A number issued is 1 to 65,535.
        let spawned = u16::try_from(record.value).unwrap_or_default();
        match (record.kind, own) {
            (Kind::Spawned, Procedure { spawns: Some(number), .. }) => self.is_spawned(index, spawned, number),
            (Kind::Spawned, _) => self.open.push((index, spawned)),
            (Kind::Waits, Procedure { guards: Some(at_guard), .. }) => self.waits(index, at_guard),
            (Kind::Waits, _) if record.value == 0 => self.open.push((index, record.task)),
            _ => {}
        }
        Ok(())
    }

    /// Completes the open records by a state in which their tasks stand where they stood then.
    fn settle(&mut self, state: &State) {
        for (index, task) in mem::take(&mut self.open) {
            let place = state.tasks().find(|live| live.number == task).map(|live| live.place);
            let spawned = self.seen.get(index).is_some_and(|seen| seen.record.kind == Kind::Spawned);
            match place {
                Some(place) if spawned => {
                    self.places.procedure(place).into_iter().for_each(|number| self.is_spawned(index, task, number));
                }
                Some(place) => self.waits(index, self.places.is_guard(place)),
                None => {}
            }
        }
    }

    fn is_spawned(&mut self, index: usize, task: u16, procedure: u16) {
        self.runs.insert(task, procedure);
        if let Some(seen) = self.seen.get_mut(index) {
            seen.procedure = Some(procedure);
        }
    }

    fn waits(&mut self, index: usize, at_guard: bool) {
        if let Some(seen) = self.seen.get_mut(index) {
            seen.at_guard = at_guard;
        }
    }
}

/// What a procedure's statements have in common.
#[derive(Clone, Copy, Debug, Default)]
struct Procedure {
    /// Whether its waits are at guards, if all or none are.
    guards: Option<bool>,
    /// The procedure that its spawns name, if they name one.
    spawns: Option<u16>,
}

impl Procedure {
    fn of(body: &[table::Record]) -> Procedure {
        let waits = body.iter().filter(|row| matches!(row.kind, kind::AWAIT | kind::GUARD));
        let spawns = body.iter().filter(|row| row.kind == kind::SPAWN);
        Procedure {
            guards: only(waits.map(|row| row.kind == kind::GUARD)),
            spawns: only(spawns.map(|row| row.value)).and_then(|number| u16::try_from(number).ok()),
        }
    }
}

/// The item that all are; none where they differ or there is none.
fn only<T: PartialEq>(mut items: impl Iterator<Item = T>) -> Option<T> {
    let first = items.next()?;
    items.all(|item| item == first).then_some(first)
}

/// What a table tells of the places where tasks stand.
struct Places<'t> {
    rows: &'t [table::Record],
    /// The records where procedures begin.
    headers: Vec<usize>,
    procedures: Vec<Procedure>,
}

impl<'t> Places<'t> {
    fn of(rows: &'t [table::Record]) -> Places<'t> {
        let numbered = rows.iter().enumerate().filter(|(_, row)| row.kind == kind::PROCEDURE);
        let headers: Vec<usize> = numbered.map(|(index, _)| index).collect();
        let parts = headers.iter().filter_map(|header| rows.get(*header..).and_then(split));
        let procedures = parts.map(|(_, body, _)| Procedure::of(body)).collect();
        Places { rows, headers, procedures }
    }

    fn is_guard(&self, place: u16) -> bool {
        self.rows.get(usize::from(place)).is_some_and(|row| row.kind == kind::GUARD)
    }

    /// The procedure of a task at a place, which may be the record after the procedure's last, another one's first.
    fn procedure(&self, place: u16) -> Option<u16> {
        let before = self.headers.partition_point(|header| *header < usize::from(place));
        before.checked_sub(1).and_then(|number| u16::try_from(number).ok())
    }

    fn live(&self, task: Task, state: &State) -> Live {
        let active = state.active().is_some_and(|active| active.number == task.number);
        let wait = if active { None } else { wait(&task, self.rows, state) };
        Live { task, procedure: self.procedure(task.place), active, wait }
    }
}

/// The run once more, up to the last state that was needed.
struct Again<'t> {
    table: &'t [u8],
    state: State,
    /// The records up to this state.
    written: usize,
    log: Vec<u8>,
}

impl Again<'_> {
    /// The state before the step that writes the record at an index: the full log ends the call there.
    fn before(&mut self, index: usize) -> Result<&State, Refusal> {
        if self.written < index {
            self.log.resize((index - self.written) * RECORD, 0);
            self.state.run(self.table, u32::MAX, &mut self.log)?;
            self.written = index;
        }
        Ok(&self.state)
    }
}

#[cfg(test)]
mod tests {
    use super::*;
    use crate::asm::assemble;

    /// A task that awaits a 0, one that awaits a number never issued, and one at a guard, while a fourth gives way.
    const TURNED: &str = "procedure main\n  spawn x held 0\n  spawn x busy 0\n  await nobody\n  set nobody 9\n  \
                          await nobody\nprocedure held\n  guard pressure\nprocedure busy\n  suspend\n  suspend\n\
                          variable pressure 12\n";

    fn of(text: &str, steps: u32) -> Course {
        let table = assemble(text).unwrap();
        Course::of(&table, &State::start(&table).unwrap(), Most { steps, records: 100 }).unwrap()
    }

    #[test]
    fn spawned_tasks_tell_their_procedures() {
        let text = "procedure main\n  spawn x empty 0\n  spawn x empty 0\n  spawn x late 0\n  await x\n  \
                    spawn x late 0\nprocedure empty\nprocedure late\n  spawn x empty 0\n  skip\nprocedure last\n";
        let course = of(text, 100);
        let spawned: Vec<_> = course.seen.iter().filter(|seen| seen.record.kind == Kind::Spawned).collect();
        let procedures: Vec<_> = spawned.iter().map(|seen| seen.procedure).collect();
        assert_eq!(procedures, [1, 1, 2, 1, 2, 1].map(Some));
        let [main] = course.live[..] else { panic!("{:?}", course.live) };
        assert_eq!((main.procedure, main.active, main.wait), (Some(0), true, None));
        // Spawned by the last steps, and not taken up.
        assert_eq!(of(text, 1).seen[0].procedure, Some(1));
    }

    #[test]
    fn a_guard_is_told_from_an_await() {
        let course = of(TURNED, 100);
        assert_eq!((course.ending, course.steps), (Ending::Stuck, 16));
        assert_eq!(course.standing, BTreeMap::from([(1, Wait::Await(9)), (2, Wait::Guard)]));
        let seen: Vec<_> = course.seen.iter().map(|seen| (seen.record.to_string(), seen.at_guard)).collect();
        let due = [
            ("spawned 1 0 2", false),
            ("spawned 1 0 3", false),
            ("waits 1 0 0", false),
            ("turned 2 0 0", true),
            ("taken 3 0 0", false),
            ("gave 3 0 0", false),
            ("taken 1 0 0", false),
            ("waits 1 0 9", false),
            ("turned 2 0 0", true),
            ("taken 3 0 0", false),
            ("gave 3 0 0", false),
            ("turned 1 0 9", false),
            ("turned 2 0 0", true),
            ("taken 3 0 0", false),
            ("ended 3 0 0", false),
        ];
        assert_eq!(seen, due.map(|(record, at_guard)| (record.to_string(), at_guard)));
    }
}
