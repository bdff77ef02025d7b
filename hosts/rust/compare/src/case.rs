//! A case: one table, one block and a list of calls, and a batch; and playing it on the library and on the model.

use crate::batch::Batch;
use std::fmt;

/// One run call. The log's content before the call counts: bytes past the last record are kept.
#[derive(Clone, Debug, PartialEq, Eq)]
pub struct Call {
    pub budget: u32,
    pub log: Vec<u8>,
}

/// The inputs of one start and of a list of run calls, each on the block that the last one left. Before the first of
/// them and after each it is asked why the block is stuck. Last, a batch of other recipes is checked.
#[derive(Clone, Debug, PartialEq, Eq)]
pub struct Case {
    pub table: Vec<u8>,
    pub block: Vec<u8>,
    /// The calls go on from the block that the start left, else from the block as given.
    pub fresh: bool,
    pub calls: Vec<Call>,
    /// The output that is lent for a chain. Its content counts as a log's does.
    pub chain: Vec<u8>,
    /// Most cases have one without recipes.
    pub batch: Batch,
}

/// What was called.
#[derive(Clone, Copy, Debug, PartialEq, Eq)]
pub enum Called {
    Start,
    WhyStuck,
    Run,
    CheckAll,
}

/// What one call leaves: the numbers returned (place; count, end and place; steps, records and place; or none but the
/// first), the block, and the chain, the log or the outcomes.
#[derive(Clone, Debug, PartialEq, Eq)]
pub struct Outcome {
    pub called: Called,
    pub number: u32,
    pub others: [u32; 3],
    pub block: Vec<u8>,
    pub output: Vec<u8>,
}

/// Takes table and block; gives number and place.
pub type Start = fn(&[u8], &mut [u8]) -> [u32; 2];
/// Takes table, block, budget and log; gives number, steps, records and place.
pub type Run = fn(&[u8], &mut [u8], u32, &mut [u8]) -> [u32; 4];
/// Takes table, block and chain; gives number, count, end and place.
pub type WhyStuck = fn(&[u8], &[u8], &mut [u8]) -> [u32; 4];
/// Takes recipes, lengths and outcomes; gives the number.
pub type CheckAll = fn(&[u8], &[u8], &mut [u8]) -> u32;

/// The operations of the library, of the model, or of a stand-in.
#[derive(Clone, Copy)]
pub struct Side {
    pub start: Start,
    pub run: Run,
    pub why_stuck: WhyStuck,
    pub check_all: CheckAll,
}

pub const LIBRARY: Side = Side {
    start: |table, state| {
        let got = recipe_runner::start(table, state);
        [got.number, got.place]
    },
    run: |table, state, budget, log| {
        let got = recipe_runner::run(table, state, budget, log);
        [got.number, got.steps, got.records, got.place]
    },
    why_stuck: |table, state, chain| {
        let got = recipe_runner::why_stuck(table, state, chain);
        [got.number, got.count, got.end, got.place]
    },
    check_all: recipe_runner::check_all,
};

pub const MODEL: Side = Side {
    start: |table, state| {
        let got = recipe_model::start(table, state);
        [got.number, got.place]
    },
    run: |table, state, budget, log| {
        let got = recipe_model::run(table, state, budget, log);
        [got.number, got.steps, got.records, got.place]
    },
    why_stuck: |table, state, chain| {
        let got = recipe_model::why_stuck(table, state, chain);
        [got.number, got.count, got.end, got.place]
    },
    check_all: recipe_model::check_all,
};

/// The outcomes of the start, then by turns why the block is stuck, and a run call; and of the batch.
pub fn play(case: &Case, side: &Side) -> Vec<Outcome> {
    let mut block = case.block.clone();
    let mut outcomes = Vec::with_capacity(2 * case.calls.len() + 3);
    let [number, place] = (side.start)(&case.table, &mut block);
    let others = [0, 0, place];
    outcomes.push(Outcome { called: Called::Start, number, others, block: block.clone(), output: Vec::new() });
    if !case.fresh {
        block.copy_from_slice(&case.block);
    }
    outcomes.push(explain(case, side, &block));
    for call in &case.calls {
        let mut log = call.log.clone();
        let [number, others @ ..] = (side.run)(&case.table, &mut block, call.budget, &mut log);
        outcomes.push(Outcome { called: Called::Run, number, others, block: block.clone(), output: log });
        outcomes.push(explain(case, side, &block));
    }
    outcomes.push(check_batch(&case.batch, side));
    outcomes
}

/// Why a block is stuck. The outcome has the block as the call left it.
fn explain(case: &Case, side: &Side, block: &[u8]) -> Outcome {
    let (block, mut output) = (block.to_vec(), case.chain.clone());
    let [number, others @ ..] = (side.why_stuck)(&case.table, &block, &mut output);
    Outcome { called: Called::WhyStuck, number, others, block, output }
}

/// The check of a batch, which has no block.
fn check_batch(batch: &Batch, side: &Side) -> Outcome {
    let mut output = batch.outcomes.clone();
    let number = (side.check_all)(&batch.recipes, &batch.lengths, &mut output);
    Outcome { called: Called::CheckAll, number, others: [0; 3], block: Vec::new(), output }
}

/// The first call whose outcomes differ, 0 being the start, with both outcomes.
#[derive(Clone, Debug)]
pub struct Difference {
    pub call: usize,
    pub left: Outcome,
    pub right: Outcome,
}

/// Plays a case on two sides: the outcomes, or the first difference.
pub fn compare(case: &Case, left: &Side, right: &Side) -> Result<Vec<Outcome>, Box<Difference>> {
    let outcomes = play(case, left);
    let others = play(case, right);
    let differs = outcomes.iter().zip(&others).position(|(a, b)| a != b);
    match differs {
        None => Ok(outcomes),
        Some(call) => Err(Box::new(Difference { call, left: outcomes[call].clone(), right: others[call].clone() })),
    }
}

/// The most steps of a call whose end is not known.
pub const TAME: u32 = 4_000;

/// Whether the calls with a larger budget end soon for another reason: an endless recipe must not run for ever.
pub fn is_tame(case: &Case) -> bool {
    if case.calls.iter().all(|call| call.budget <= TAME) {
        return true;
    }
    let mut held = Case { batch: Batch::default(), ..case.clone() };
    for call in &mut held.calls {
        call.budget = call.budget.min(TAME);
    }
    let outcomes = play(&held, &MODEL);
    let runs = outcomes.iter().filter(|outcome| outcome.called == Called::Run);
    case.calls.iter().zip(runs).all(|(call, run)| call.budget <= TAME || run.number != 1)
}

/// Bytes in hex, `-` for none.
pub fn hex(bytes: &[u8]) -> String {
    if bytes.is_empty() {
        return "-".to_string();
    }
    bytes.iter().map(|byte| format!("{byte:02x}")).collect()
}

impl fmt::Display for Case {
    fn fmt(&self, f: &mut fmt::Formatter) -> fmt::Result {
        writeln!(f, "table {}", hex(&self.table))?;
        for (i, &[kind, name, s0, s1, v0, v1, v2, v3]) in self.table.as_chunks().0.iter().take(64).enumerate() {
            let (span, value) = (u16::from_le_bytes([s0, s1]), i32::from_le_bytes([v0, v1, v2, v3]));
            writeln!(f, "  {i}: {kind}({name},{span},{value})")?;
        }
        let from = if self.fresh { "the start's" } else { "this" };
        writeln!(f, "block {} (the calls run on {from} block)", hex(&self.block))?;
        writeln!(f, "chain {}", hex(&self.chain))?;
        for call in &self.calls {
            writeln!(f, "run with budget {} and log {}", call.budget, hex(&call.log))?;
        }
        let Batch { recipes, lengths, outcomes } = &self.batch;
        writeln!(f, "batch {}\n  lengths {}\n  outcomes {}", hex(recipes), hex(lengths), hex(outcomes))
    }
}

impl fmt::Display for Difference {
    fn fmt(&self, f: &mut fmt::Formatter) -> fmt::Result {
        let (name, others) = match self.left.called {
            Called::Start => ("the start".to_string(), "0, 0, place"),
            Called::WhyStuck => (format!("why stuck, after {} run calls", self.call / 2), "count, end, place"),
            Called::Run => (format!("run call {}", self.call / 2), "steps, records, place"),
            Called::CheckAll => ("the check of the batch".to_string(), "0, 0, 0"),
        };
        writeln!(f, "first difference: {name} (number, then {others}; block; chain, log or outcomes)")?;
        for (side, outcome) in [("left ", &self.left), ("right", &self.right)] {
            let (block, output) = (hex(&outcome.block), hex(&outcome.output));
            writeln!(f, "{side} {} {:?}\n  block {block}\n  output {output}", outcome.number, outcome.others)?;
        }
        Ok(())
    }
}
