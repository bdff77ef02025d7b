//! `recipe makers`.

use crate::args::{Given, Options};
use crate::commands::{accepted, print};
use crate::failure::{Failure, FAULT};
use crate::files::{self, Loaded, Source};
use crate::makers::{procedures, Breach, Called, TwoMakers};
use crate::source::{and_more, Faults, Position, TOLD};
use crate::table::{decode, described, kind};

/// What is told of a recipe that breaks no sentence.
const APART: &str = "apart: neither maker's code changes which values the other's valves get, or in which order";
/// What the help text calls the makers' lists.
const LISTS: [&str; 2] = ["PUMP-PROCEDURES", "DRUM-PROCEDURES"];

pub const MAKERS: Options = Options { command: "makers", files: &["TABLE"], lists: &LISTS, valued: &[], flags: &[] };

pub fn makers(given: &Given) -> Result<u8, Failure> {
    let (pump, drum) = (MAKERS.list(given, 0)?, MAKERS.list(given, 1)?);
    let loaded = files::load(given.input().as_deref())?;
    // As in the library the table is looked at first.
    accepted(&loaded)?;
    let (records, called) = (decode(&loaded.table), Called::of(&loaded));
    let count = records.iter().filter(|record| record.kind == kind::PROCEDURE).count();
    let read = |name, list: &str| {
        procedures(list, count, called.procedures()).map_err(|sentence| MAKERS.wrong(format!("{name}: {sentence}")))
    };
    let (pump, drum) = (read(LISTS[0], &pump)?, read(LISTS[1], &drum)?);
    let recipe = TwoMakers::new(&records, &called, &pump, &drum);
    let breaches = recipe.breaches();
    if breaches.is_empty() {
        return print(&format!("{}: {APART}: {}\n", loaded.name, recipe.valves()));
    }
    // What breaks a sentence is what was asked for.
    print(&format!("{}\n", told(&loaded, &breaches)))?;
    Ok(FAULT)
}

/// The breaches with their places: in the text where that is at hand, else by their records.
fn told(Loaded { name, table, source }: &Loaded, breaches: &[Breach]) -> String {
    if let Some(Source { text, records, .. }) = source {
        let mut faults = Faults::new();
        breaches.iter().for_each(|breach| {
            let at = records.get(breach.record).map_or(Position::START, |placed| placed.at);
            faults.add(at, || breach.to_string());
        });
        return faults.show(name, text);
    }
    let line = |breach: &Breach| format!("{name}: {}{breach}", described(table, breach.record as u32));
    let more = and_more(breaches.len().saturating_sub(TOLD));
    breaches.iter().take(TOLD).map(line).chain(more).collect::<Vec<_>>().join("\n")
}
