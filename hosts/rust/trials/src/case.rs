//! A case: what is called on which buffers, its form in the stored input, and its line in the stored output.

use recipe_model::{check_all, print, run, start, why_stuck};

/// The calls of [`Case::RunOn`] end here even if the run does not.
const MOST_CALLS: u32 = 100_000;

/// One case, in the order of the head's byte 0.
#[derive(Clone, Debug, PartialEq, Eq, Hash)]
pub enum Case {
    Start {
        table: Vec<u8>,
        block: Vec<u8>,
    },
    Run {
        table: Vec<u8>,
        block: Vec<u8>,
        budget: u32,
        log: Vec<u8>,
    },
    /// Run calls on one block and log, each with the budget, for as long as a call ends in 1 or 5.
    RunOn {
        table: Vec<u8>,
        block: Vec<u8>,
        budget: u32,
        log: Vec<u8>,
    },
    Print {
        table: Vec<u8>,
    },
    WhyStuck {
        table: Vec<u8>,
        block: Vec<u8>,
        chain: Vec<u8>,
    },
    /// The recipes of a batch one after the other, the list of their lengths, and the space for their outcomes.
    CheckAll {
        recipes: Vec<u8>,
        lengths: Vec<u8>,
        outcomes: Vec<u8>,
    },
}

/// What a case gives: the numbers returned, and each buffer that is written. A print gives its text and the text's
/// length.
#[derive(Clone, Debug, PartialEq, Eq)]
pub struct Outcome {
    pub numbers: Vec<u32>,
    pub buffers: Vec<Vec<u8>>,
}

impl Case {
    /// What is called, the budget, and the buffers in their order.
    pub fn parts(&self) -> (u8, u32, Vec<&[u8]>) {
        match self {
            Case::Start { table, block } => (0, 0, vec![table, block]),
            Case::Run { table, block, budget, log } => (1, *budget, vec![table, block, log]),
            Case::RunOn { table, block, budget, log } => (2, *budget, vec![table, block, log]),
            Case::Print { table } => (3, 0, vec![table]),
            Case::WhyStuck { table, block, chain } => (4, 0, vec![table, block, chain]),
            Case::CheckAll { recipes, lengths, outcomes } => (5, 0, vec![recipes, lengths, outcomes]),
        }
    }

    /// The case in the stored input: a head (byte 0: what is called; bytes 4–7: the budget) and the buffers.
    pub fn write(&self, out: &mut Vec<u8>) {
        let (what, budget, buffers) = self.parts();
        out.extend([what, 0, 0, 0]);
        out.extend(budget.to_le_bytes());
        for buffer in buffers {
            write_buffer(buffer, out);
        }
    }

    /// The table of a call on one recipe.
    pub fn table(&self) -> Option<&[u8]> {
        match self {
            Case::Start { table, .. }
            | Case::Run { table, .. }
            | Case::RunOn { table, .. }
            | Case::Print { table }
            | Case::WhyStuck { table, .. } => Some(table),
            Case::CheckAll { .. } => None,
        }
    }

    /// What the model makes of the case.
    pub fn outcome(&self) -> Outcome {
        match self {
            Case::Start { table, block } => {
                let mut block = block.clone();
                let got = start(table, &mut block);
                Outcome { numbers: vec![got.number, got.place], buffers: vec![block] }
            }
            Case::Run { table, block, budget, log } => {
                let (mut block, mut log) = (block.clone(), log.clone());
                let got = run(table, &mut block, *budget, &mut log);
                let numbers = vec![got.number, got.steps, got.records, got.place];
                Outcome { numbers, buffers: vec![block, log] }
            }
            Case::RunOn { table, block, budget, log } => run_on(table, block.clone(), *budget, log.clone()),
            Case::Print { table } => {
                let text = print(table).into_bytes();
                Outcome { numbers: vec![text.len() as u32], buffers: vec![text] }
            }
            Case::WhyStuck { table, block, chain } => {
                let mut chain = chain.clone();
                let got = why_stuck(table, block, &mut chain);
                Outcome { numbers: vec![got.number, got.count, got.end, got.place], buffers: vec![chain] }
            }
            Case::CheckAll { recipes, lengths, outcomes } => {
                let mut outcomes = outcomes.clone();
                let number = check_all(recipes, lengths, &mut outcomes);
                Outcome { numbers: vec![number], buffers: vec![outcomes] }
            }
        }
    }

    /// The case's line in the stored output: the numbers, then a checksum of each buffer.
    pub fn line(&self) -> String {
        let Outcome { numbers, buffers } = self.outcome();
        let numbers = numbers.iter().map(u32::to_string);
        let sums = buffers.iter().map(|buffer| checksum(buffer).to_string());
        numbers.chain(sums).collect::<Vec<_>>().join(" ") + "\n"
    }
}

/// Goes on where a call pauses or its log is full, and adds the steps up.
fn run_on(table: &[u8], mut block: Vec<u8>, budget: u32, mut log: Vec<u8>) -> Outcome {
    let (mut number, mut steps) = (1, 0);
    for _ in 0..MOST_CALLS {
        if number != 1 && number != 5 {
            break;
        }
        let got = run(table, &mut block, budget, &mut log);
        number = got.number;
        steps += got.steps;
    }
    Outcome { numbers: vec![number, steps], buffers: vec![block] }
}

/// A buffer: a head (bytes 2–3: how many bytes follow; bytes 4–7: the buffer's length) and the bytes, up to where each
/// is as the one 8 before it.
fn write_buffer(buffer: &[u8], out: &mut Vec<u8>) {
    let mut given = buffer.len();
    while given > 8 && buffer[given - 1] == buffer[given - 9] {
        given -= 1;
    }
    let follow = u16::try_from(given).expect("at most 65,535 bytes of a buffer are stored");
    out.extend([0, 0]);
    out.extend(follow.to_le_bytes());
    out.extend((buffer.len() as u32).to_le_bytes());
    out.extend(&buffer[..given]);
}

/// The bytes as the digits of a number to the base 257, reduced by a prime.
fn checksum(bytes: &[u8]) -> u64 {
    bytes.iter().fold(1, |sum, &byte| (257 * sum + u64::from(byte)) % 4_294_967_291)
}

/// The whole stored input.
pub fn stored_input(cases: &[Case]) -> Vec<u8> {
    let mut out = Vec::new();
    for case in cases {
        case.write(&mut out);
    }
    out
}

/// The whole stored output, a line a case.
pub fn stored_output(cases: &[Case]) -> String {
    cases.iter().map(Case::line).collect()
}
