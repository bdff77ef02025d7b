//! Why a state is stuck, in words: who waits for whom.

use std::collections::BTreeMap;

use recipe_runner::{Chain, End, State, Task};

use crate::block::{wait, Wait};
use crate::files::{Loaded, Source};
use crate::raw;
use crate::table::{decode, kind, Placed, Record, PARAMETER};
use crate::words::{counted, quoted};

/// A line for each task of a chain: what it waits for, and where.
pub fn lines(loaded: &Loaded, state: &State, chain: &Chain) -> Vec<String> {
    let tasks = state.queue().map(|task| (task.number, task)).collect();
    let teller = Teller { records: decode(&loaded.table), source: loaded.source.as_ref(), state, tasks };
    // The number that closes a circle has had its line.
    let last = chain.tasks().len().saturating_sub(usize::from(chain.end() == End::NamedEarlier));
    let links = chain.tasks().iter().take(last).enumerate();
    links.filter_map(|(index, task)| teller.line(*task, chain, index + 1)).collect()
}

/// How many tasks wait in the circle that a chain ends in.
fn circle(chain: &Chain) -> usize {
    let from_last = chain.tasks().iter().rev().skip(1).position(|task| Some(task) == chain.tasks().last());
    from_last.map_or(0, |before| before + 1)
}

/// What is known of the tasks that wait.
struct Teller<'l> {
    records: Vec<Record>,
    source: Option<&'l Source>,
    state: &'l State,
    tasks: BTreeMap<u16, Task>,
}

impl Teller<'_> {
    /// The line of a task; the one that it waits for, if any, stands at `next` in the chain.
    fn line(&self, number: u16, chain: &Chain, next: usize) -> Option<String> {
        let task = self.tasks.get(&number)?;
        let holder = match (chain.tasks().get(next), wait(task, &self.records, self.state)?) {
            (Some(other), _) if *other == number => "for itself".to_string(),
            (Some(other), _) => format!("for task {other}"),
            (None, Wait::Await(awaited)) => format!("for number {awaited}, which was never issued"),
            (None, Wait::Guard) => "at a guard that is untrue".to_string(),
        };
        let closes = chain.end() == End::NamedEarlier && next + 1 == chain.tasks().len();
        let circle = if closes { format!(": a circle of {}", counted(circle(chain), "task")) } else { String::new() };
        Some(format!("task {number} waits {holder} ({}){circle}", self.place(task.place)?))
    }

    /// The statement that a task waits at: its record, what it awaits, and the text's line where that is at hand.
    fn place(&self, place: u16) -> Option<String> {
        let record = self.records.get(usize::from(place))?;
        let awaited = match record.kind {
            kind::AWAIT if record.name == PARAMETER => ", its parameter".to_string(),
            kind::AWAIT => format!(", variable {}", record.name),
            _ => String::new(),
        };
        let line = self.source.and_then(|source| statement(source, place)).unwrap_or_default();
        Some(format!("record {place}{awaited}{line}"))
    }
}

/// A statement as the text has it, with its line.
fn statement(Source { text, records, .. }: &Source, place: u16) -> Option<String> {
    let Placed { record, at } = records.get(usize::from(place))?;
    let shown = if raw::is_raw(text) {
        record.to_string()
    } else {
        let row = text.lines().nth(at.line.checked_sub(1)?)?;
        let code: String = row.chars().skip(at.column.checked_sub(1)?).take_while(|c| *c != '#').collect();
        quoted(code.trim_end())
    };
    Some(format!("; line {}: {shown}", at.line))
}
