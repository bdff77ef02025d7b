//! "The print program": the text that it writes for the table on its standard input.

use crate::run::{run, start};
use crate::state::BLOCK;

/// "Budget 10,000 and a log of 4,096 records."
const BUDGET: u32 = 10_000;
const RECORDS: usize = 4_096;

/// "Prints a line per record (kind's word, task, valve, value), then the ending word and steps, or `refused`, number and
/// place." Fields are separated by one space, and every line is ended.
pub fn print(table: &[u8]) -> String {
    let mut state = [0; BLOCK];
    let started = start(table, &mut state);
    if started.number != 0 {
        return format!("refused {} {}\n", started.number, started.place);
    }
    let mut log = vec![0; 8 * RECORDS];
    let answer = run(table, &mut state, BUDGET, &mut log);
    let mut text = String::new();
    for record in log.as_chunks().0.iter().take(answer.records as usize) {
        text.push_str(&line(*record));
    }
    text + &format!("{} {}\n", ending(answer.number), answer.steps)
}

/// A log record's line.
fn line([kind, valve, t0, t1, v0, v1, v2, v3]: [u8; 8]) -> String {
    let task = u16::from_le_bytes([t0, t1]);
    let value = i32::from_le_bytes([v0, v1, v2, v3]);
    format!("{} {task} {valve} {value}\n", word(kind))
}

/// The kinds' words, as "The log" has them.
fn word(kind: u8) -> &'static str {
    match kind {
        1 => "spawned",
        2 => "taken",
        3 => "gave",
        4 => "waits",
        5 => "turned",
        6 => "ended",
        _ => "valve",
    }
}

/// The ending words, as "What the runner says" has them.
fn ending(number: u32) -> &'static str {
    match number {
        0 => "finished",
        1 => "paused",
        2 => "stuck",
        3 => "tasks",
        4 => "spent",
        5 => "logfull",
        _ => "novalue",
    }
}
