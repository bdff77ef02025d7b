//! The cases in their order.

mod batches;

mod blocks;

mod chains;

mod divisors;

mod optional;

mod orders;

mod prints;

mod rows;

mod runs;

mod starters;

mod tables;

mod values;

mod waits;

use crate::block::{fresh, log, old, BLOCK};
use crate::case::Case;
use crate::records::{table, Row};
use crate::vectors::Vector;
use std::collections::HashSet;

/// The cases so far, each once.
#[derive(Default)]
pub struct Suite {
    cases: Vec<Case>,
    seen: HashSet<Case>,
}

impl Suite {
    fn add(&mut self, case: Case) {
        if self.seen.insert(case.clone()) {
            self.cases.push(case);
        }
    }

    fn start(&mut self, table: &[u8], block: Vec<u8>) {
        self.add(Case::Start { table: table.to_vec(), block });
    }

    fn run(&mut self, table: &[u8], block: Vec<u8>, budget: u32, log: Vec<u8>) {
        self.add(Case::Run { table: table.to_vec(), block, budget, log });
    }

    fn run_on(&mut self, table: &[u8], budget: u32, log: Vec<u8>) {
        self.add(Case::RunOn { table: table.to_vec(), block: fresh(), budget, log });
    }

    fn why_stuck(&mut self, table: &[u8], block: Vec<u8>, chain: Vec<u8>) {
        self.add(Case::WhyStuck { table: table.to_vec(), block, chain });
    }

    fn check_all(&mut self, recipes: &[u8], lengths: &[u8], outcomes: Vec<u8>) {
        self.add(Case::CheckAll { recipes: recipes.to_vec(), lengths: lengths.to_vec(), outcomes });
    }

    fn print(&mut self, rows: &[Row]) {
        self.add(Case::Print { table: table(rows) });
    }

    /// A table as start and run take it: on old content, and from a fresh state.
    fn both(&mut self, rows: &[Row]) {
        self.both_bytes(&table(rows));
    }

    /// A table as start takes it, and from a fresh state if it passes: of a refused one, run says the same as start.
    fn accepted(&mut self, rows: &[Row]) {
        let table = table(rows);
        self.start(&table, old(BLOCK));
        if recipe_model::start(&table, &mut fresh()).number == 0 {
            self.run(&table, fresh(), 100, log(40));
        }
    }

    fn both_bytes(&mut self, table: &[u8]) {
        self.start(table, old(BLOCK));
        self.run(table, fresh(), 100, log(40));
    }
}

/// All cases: the document's rows, the published ones, and the sweeps.
pub fn suite(vectors: &[Vector]) -> Vec<Case> {
    let mut suite = Suite::default();
    rows::lengths_and_depths(&mut suite);
    published(&mut suite, vectors);
    rows::spent(&mut suite);
    rows::budgets_and_logs(&mut suite);
    values::sweep(&mut suite);
    tables::sweep(&mut suite);
    orders::sweep(&mut suite);
    blocks::sweep(&mut suite);
    runs::sweep(&mut suite);
    starters::sweep(&mut suite);
    waits::sweep(&mut suite);
    optional::sweep(&mut suite);
    divisors::sweep(&mut suite);
    chains::sweep(&mut suite);
    batches::sweep(&mut suite);
    prints::sweep(&mut suite, vectors);
    suite.cases
}

/// A start on every table of the published cases, then the published cases but for the prints as they are. A batch's
/// recipes are checked by its own case.
fn published(suite: &mut Suite, vectors: &[Vector]) {
    for table in vectors.iter().filter_map(|vector| vector.case.table()) {
        suite.start(table, old(BLOCK));
    }
    for vector in vectors {
        if !matches!(vector.case, Case::Print { .. }) {
            suite.add(vector.case.clone());
        }
    }
}
