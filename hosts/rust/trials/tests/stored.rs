//! The stored files of `crates/trials` are what the model makes them.

use std::collections::BTreeSet;
use std::fs;
use trials::case::{stored_input, stored_output, Case, Outcome};
use trials::{stored, suite, vectors};

fn cases() -> Vec<Case> {
    suite::suite(&vectors::read(include_str!("../cases.txt")).expect("cases.txt is in its form"))
}

const HOW: &str = "is not what the model makes it: `cargo run --release --offline --bin trials` writes it anew";

#[test]
fn the_stored_files_are_the_models() {
    let cases = cases();
    assert!(fs::read(stored::input()).expect("stdin") == stored_input(&cases), "crates/trials/stdin {HOW}");
    assert!(
        fs::read_to_string(stored::output()).expect("stdout") == stored_output(&cases),
        "crates/trials/stdout {HOW}"
    );
}

/// The program's first buffer, of a table or of a batch's recipes, holds 65,536 bytes, and the others 4,096.
#[test]
fn the_program_can_read_each_case() {
    for (i, case) in cases().iter().enumerate() {
        let (_, _, buffers) = case.parts();
        assert!(buffers[0].len() <= 65_536 && buffers[1..].iter().all(|buffer| buffer.len() <= 4_096), "case {i}");
    }
}

/// A buffer as the program fills it: the bytes that follow its head, then each byte as the one 8 before it.
fn read_buffer(rest: &mut &[u8]) -> Vec<u8> {
    let (head, tail) = rest.split_at(8);
    let (given, tail) = tail.split_at(usize::from(u16::from_le_bytes([head[2], head[3]])));
    let mut buffer = given.to_vec();
    while buffer.len() < u32::from_le_bytes([head[4], head[5], head[6], head[7]]) as usize {
        buffer.push(buffer[buffer.len() - 8]);
    }
    *rest = tail;
    buffer
}

/// A case as the program reads it.
fn read_case(rest: &mut &[u8]) -> Case {
    let (head, tail) = rest.split_at(8);
    let budget = u32::from_le_bytes([head[4], head[5], head[6], head[7]]);
    *rest = tail;
    let first = read_buffer(rest);
    match head[0] {
        0 => Case::Start { table: first, block: read_buffer(rest) },
        1 => Case::Run { table: first, block: read_buffer(rest), budget, log: read_buffer(rest) },
        2 => Case::RunOn { table: first, block: read_buffer(rest), budget, log: read_buffer(rest) },
        3 => Case::Print { table: first },
        4 => Case::WhyStuck { table: first, block: read_buffer(rest), chain: read_buffer(rest) },
        _ => Case::CheckAll { recipes: first, lengths: read_buffer(rest), outcomes: read_buffer(rest) },
    }
}

#[test]
fn the_input_spells_the_cases() {
    let cases = cases();
    let input = stored_input(&cases);
    let mut rest = &input[..];
    for (i, case) in cases.iter().enumerate() {
        assert!(read_case(&mut rest) == *case, "case {i}");
    }
    assert!(rest.is_empty());
}

/// What the cases give.
#[derive(Default)]
struct Answers {
    starts: BTreeSet<u32>,
    runs: BTreeSet<u32>,
    records: BTreeSet<u8>,
    /// The records of 22, and the kinds of the statements of 24.
    faults: BTreeSet<u32>,
    lacking: BTreeSet<u8>,
    /// The first words of printed lines.
    words: BTreeSet<String>,
    whys: BTreeSet<u32>,
    ends: BTreeSet<u32>,
    counts: BTreeSet<u32>,
    batches: BTreeSet<u32>,
    /// How many recipes accepted batches have, and the numbers of their outcomes.
    sizes: BTreeSet<usize>,
    outcomes: BTreeSet<u8>,
}

impl Answers {
    fn add(&mut self, case: &Case) {
        let Outcome { numbers, buffers } = case.outcome();
        match case {
            Case::Start { .. } => drop(self.starts.insert(numbers[0])),
            Case::Run { table, .. } => self.add_run(table, &numbers, &buffers[1]),
            Case::RunOn { .. } => {}
            Case::Print { .. } => {
                let text = String::from_utf8_lossy(&buffers[0]);
                self.words.extend(text.lines().filter_map(|line| line.split(' ').next().map(str::to_string)));
            }
            Case::WhyStuck { .. } => {
                self.whys.insert(numbers[0]);
                self.counts.insert(numbers[1]);
                self.ends.insert(numbers[2]);
            }
            Case::CheckAll { .. } => {
                self.batches.insert(numbers[0]);
                if numbers[0] == 0 {
                    self.sizes.insert(buffers[0].len() / 8);
                    self.outcomes.extend(buffers[0].chunks(8).map(|outcome| outcome[0]));
                }
            }
        }
    }

    fn add_run(&mut self, table: &[u8], numbers: &[u32], log: &[u8]) {
        let (number, place) = (numbers[0], numbers[3]);
        self.runs.insert(number);
        self.records.extend(log.chunks(8).take(numbers[2] as usize).map(|record| record[0]));
        match number {
            22 => drop(self.faults.insert(place)),
            24 => drop(self.lacking.insert(table[8 * place as usize])),
            _ => {}
        }
    }
}

/// Every published number but 23, which cannot come, for start, for run, for why_stuck, for check_all and for a recipe
/// of a batch; 22 at every record that can be at fault; 24 at every kind of statement that needs a value; every kind of
/// log record; every end and every length of a chain; every size of a batch; every word that the print program can say
/// but "spent", which 10,000 steps do not reach.
#[test]
fn every_answer_occurs() {
    let mut answers = Answers::default();
    cases().iter().for_each(|case| answers.add(case));
    assert_eq!(Vec::from_iter(answers.starts), [0, 11, 12, 13, 14, 15, 16, 17, 21]);
    assert_eq!(Vec::from_iter(answers.runs), [0, 1, 2, 3, 4, 5, 11, 12, 13, 14, 15, 16, 17, 21, 22, 24]);
    assert_eq!(Vec::from_iter(answers.records), [1, 2, 3, 4, 5, 6, 7]);
    assert_eq!(Vec::from_iter(answers.faults), Vec::from_iter(0..=64));
    assert_eq!(Vec::from_iter(answers.lacking), [3, 4, 5, 6]);
    assert_eq!(Vec::from_iter(answers.whys), [0, 11, 12, 13, 14, 15, 16, 17, 21, 22, 25]);
    assert_eq!(Vec::from_iter(answers.ends), [0, 1, 2, 3]);
    assert_eq!(Vec::from_iter(answers.counts), Vec::from_iter(0..=33));
    assert_eq!(Vec::from_iter(answers.batches), [0, 26]);
    assert_eq!(Vec::from_iter(answers.sizes), Vec::from_iter(0..=64));
    assert_eq!(Vec::from_iter(answers.outcomes), [0, 11, 12, 13, 14, 15, 16, 17]);
    let endings = ["finished", "logfull", "novalue", "paused", "refused", "stuck", "tasks"];
    let kinds = ["ended", "gave", "spawned", "taken", "turned", "valve", "waits"];
    assert_eq!(answers.words, endings.into_iter().chain(kinds).map(str::to_string).collect());
}
