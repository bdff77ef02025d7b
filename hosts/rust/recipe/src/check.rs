//! Which recipes are accepted.

use std::path::PathBuf;

use recipe_runner::{check, Outcome, BATCH};

use crate::failure::Failure;
use crate::files::{self, Loaded};
use crate::table::{decode, depths, kind};
use crate::words::counted;

/// What is said of each file, in their order.
pub fn verdicts(inputs: &[Option<PathBuf>]) -> impl Iterator<Item = Result<String, Failure>> + '_ {
    inputs.chunks(BATCH).flat_map(batch)
}

/// One call for all files of a batch that can be loaded.
fn batch(inputs: &[Option<PathBuf>]) -> Vec<Result<String, Failure>> {
    let load = |input: &Option<PathBuf>| files::load(input.as_deref()).map(|Loaded { name, table, .. }| (name, table));
    let loaded: Vec<_> = inputs.iter().map(load).collect();
    let tables: Vec<&[u8]> = loaded.iter().flatten().map(|(_, table)| &**table).collect();
    // A chunk is never refused as a whole; if it were, none of its tables would be accepted.
    let outcomes = check(&tables).unwrap_or_else(|refusal| vec![Err(refusal); tables.len()]);
    let mut outcomes = outcomes.into_iter();
    let verdicts = loaded.into_iter().filter_map(|loaded| match loaded {
        Ok((name, table)) => outcomes.next().map(|outcome| verdict(&name, &table, outcome)),
        Err(failure) => Some(Err(failure)),
    });
    verdicts.collect()
}

fn verdict(name: &str, table: &[u8], outcome: Outcome) -> Result<String, Failure> {
    outcome.map_err(|refusal| Failure::refused(name, table, refusal))?;
    let records = decode(table);
    let procedures = records.iter().filter(|record| record.kind == kind::PROCEDURE).count();
    let depth = depths(&records).into_iter().max().unwrap_or_default();
    let counts = [counted(records.len(), "record"), counted(procedures, "procedure"), format!("depth {depth}")];
    Ok(format!("{name}: accepted: {}", counts.join(", ")))
}
