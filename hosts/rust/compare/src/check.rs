//! Comparing the library with the model, case by case, with counts of what occurred.

use crate::case::{compare, Called, Case, Outcome, LIBRARY, MODEL};
use crate::shrink::shrink;
use std::collections::BTreeMap;
use std::fmt;

/// The published numbers that a run can return; 23 is published too, but 22 always comes first.
pub const RUN_NUMBERS: [u32; 16] = [0, 1, 2, 3, 4, 5, 11, 12, 13, 14, 15, 16, 17, 21, 22, 24];
/// The published numbers that a start can return.
pub const START_NUMBERS: [u32; 9] = [0, 11, 12, 13, 14, 15, 16, 17, 21];
/// The published numbers that a question why a state is stuck can return.
pub const WHY_NUMBERS: [u32; 11] = [0, 11, 12, 13, 14, 15, 16, 17, 21, 22, 25];
/// The published numbers that the check of a batch can return, and that a recipe of it can have.
pub const BATCH_NUMBERS: [u32; 2] = [0, 26];
pub const OUTCOME_NUMBERS: [u32; 8] = [0, 11, 12, 13, 14, 15, 16, 17];

/// What was compared.
#[derive(Default)]
pub struct Coverage {
    pub cases: u64,
    /// Run calls, the steps that they made, and the log records by kind.
    pub calls: u64,
    pub steps: u64,
    pub records: BTreeMap<u32, u64>,
    /// How many cases had a start, or a run call, with this number.
    pub starts: BTreeMap<u32, u64>,
    pub runs: BTreeMap<u32, u64>,
    /// How many cases had 22 at this state record.
    pub blocks: BTreeMap<u32, u64>,
    /// How many cases had 24 at a statement of this kind.
    pub lacking: BTreeMap<u32, u64>,
    /// How many questions why a state is stuck had this number; how many chains this end, and so many numbers.
    pub whys: BTreeMap<u32, u64>,
    pub ends: BTreeMap<u32, u64>,
    pub chains: BTreeMap<u32, u64>,
    /// How many batches had this number; how many accepted ones so many recipes, and how many of these this number.
    pub batches: BTreeMap<u32, u64>,
    pub sizes: BTreeMap<u32, u64>,
    pub outcomes: BTreeMap<u32, u64>,
}

/// Counts one more under a key.
fn add(counts: &mut BTreeMap<u32, u64>, key: u32) {
    *counts.entry(key).or_default() += 1;
}

impl Coverage {
    /// Plays a case on both sides and counts it. On a difference, panics with the case and the shrunk one in hex.
    pub fn check(&mut self, case: &Case, origin: impl fmt::Display) {
        let outcomes = match compare(case, &LIBRARY, &MODEL) {
            Ok(outcomes) => outcomes,
            Err(difference) => {
                eprintln!("{origin}: the library (left) and the model (right) differ\n{case}{difference}");
                let small = shrink(case, &|case| compare(case, &LIBRARY, &MODEL).is_err());
                eprintln!("shrunk:\n{small}");
                if let Err(difference) = compare(&small, &LIBRARY, &MODEL) {
                    eprintln!("{difference}");
                }
                panic!("{origin}: the library and the model differ");
            }
        };
        self.count(case, &outcomes);
    }

    fn count(&mut self, case: &Case, outcomes: &[Outcome]) {
        self.cases += 1;
        let mut runs: Vec<u32> = Vec::new();
        for outcome in outcomes {
            match outcome.called {
                Called::Start => add(&mut self.starts, outcome.number),
                Called::WhyStuck => self.count_why(outcome),
                Called::Run => {
                    self.count_run(case, outcome, !runs.contains(&outcome.number));
                    runs.push(outcome.number);
                }
                Called::CheckAll => self.count_batch(outcome),
            }
        }
    }

    fn count_why(&mut self, outcome: &Outcome) {
        let [count, end, _] = outcome.others;
        add(&mut self.whys, outcome.number);
        if outcome.number == 0 {
            add(&mut self.ends, end);
            add(&mut self.chains, count);
        }
    }

    fn count_batch(&mut self, outcome: &Outcome) {
        add(&mut self.batches, outcome.number);
        if outcome.number == 0 {
            let outcomes = outcome.output.as_chunks::<8>().0;
            add(&mut self.sizes, outcomes.len() as u32);
            for &[n0, n1, n2, n3, ..] in outcomes {
                add(&mut self.outcomes, u32::from_le_bytes([n0, n1, n2, n3]));
            }
        }
    }

    /// Counts a run call; its number only if it is the first of its case with it.
    fn count_run(&mut self, case: &Case, outcome: &Outcome, first: bool) {
        let [steps, records, place] = outcome.others;
        self.calls += 1;
        self.steps += u64::from(steps);
        for record in outcome.output.chunks_exact(8).take(records as usize) {
            add(&mut self.records, record[0].into());
        }
        if first {
            add(&mut self.runs, outcome.number);
            match outcome.number {
                22 => add(&mut self.blocks, place),
                24 => add(&mut self.lacking, case.table[8 * place as usize].into()),
                _ => {}
            }
        }
    }

    /// Whether every published number except 23 occurred, 22 at every record that can be at fault, 24 at every kind of
    /// statement that needs a value, every kind of log record, chains of every end and of every length, and batches of
    /// every size.
    pub fn is_whole(&self) -> bool {
        START_NUMBERS.iter().all(|number| self.starts.contains_key(number))
            && RUN_NUMBERS.iter().all(|number| self.runs.contains_key(number))
            && (0..=64).all(|record| self.blocks.contains_key(&record))
            && (3..=6).all(|kind| self.lacking.contains_key(&kind))
            && (1..=7).all(|kind| self.records.contains_key(&kind))
            && WHY_NUMBERS.iter().all(|number| self.whys.contains_key(number))
            && (1..=3).all(|end| self.ends.contains_key(&end))
            && (1..=33).all(|count| self.chains.contains_key(&count))
            && BATCH_NUMBERS.iter().all(|number| self.batches.contains_key(number))
            && (0..=64).all(|count| self.sizes.contains_key(&count))
            && OUTCOME_NUMBERS.iter().all(|number| self.outcomes.contains_key(number))
    }
}

impl fmt::Display for Coverage {
    fn fmt(&self, f: &mut fmt::Formatter) -> fmt::Result {
        let row = |counts: &BTreeMap<u32, u64>| {
            let pairs: Vec<String> = counts.iter().map(|(number, count)| format!("{number}: {count}")).collect();
            pairs.join(", ")
        };
        let Coverage { cases, calls, steps, .. } = self;
        writeln!(f, "{cases} cases, {calls} run calls, {steps} steps on each side, no difference")?;
        writeln!(f, "cases by number of a run: {}", row(&self.runs))?;
        writeln!(f, "cases by number of the start: {}", row(&self.starts))?;
        writeln!(f, "cases by state record of 22: {}", row(&self.blocks))?;
        writeln!(f, "cases by kind of the statement of 24: {}", row(&self.lacking))?;
        writeln!(f, "log records by kind: {}", row(&self.records))?;
        writeln!(f, "questions why a state is stuck by number: {}", row(&self.whys))?;
        writeln!(f, "chains by end: {}", row(&self.ends))?;
        writeln!(f, "chains by how many numbers: {}", row(&self.chains))?;
        writeln!(f, "batches by number, most of them without recipes: {}", row(&self.batches))?;
        writeln!(f, "accepted batches by how many recipes: {}", row(&self.sizes))?;
        writeln!(f, "recipes of accepted batches by number: {}", row(&self.outcomes))
    }
}
