//! The whole of a host: reads a table from a file and prints valves in place of moving them.
//!
//!     cargo run --release --offline -p recipe_runner --example host -- TABLE

use std::process::ExitCode;
use std::{env, fs};

use recipe_runner::{records, Ending, Kind, Record, State, RECORD};

const SLICE_STEPS: u32 = 100;

/// Acts on a record: a host moves valves here.
fn act(Record { kind, valve, value, .. }: Record) {
    if kind == Kind::Valve {
        println!("valve {valve} is {value}");
    }
}

/// Runs a table; says how it ended, or why it was refused.
fn run(table: &[u8]) -> Result<Ending, Box<dyn std::error::Error>> {
    let mut log = [0; 256 * RECORD];
    let mut state = State::start(table)?;
    loop {
        let ran = state.run(table, SLICE_STEPS, &mut log)?;
        records(&log, ran.records).for_each(act);
        match ran.ending {
            Ending::Logfull if ran.records == 0 => return Err("the log has no room for one record".into()),
            // Here: save the state, wait for the next tick, and write the sensors' readings into their variables.
            Ending::Paused | Ending::Logfull => {}
            Ending::Stuck => {
                // At a guard: go on once its sensor's variable is written.
                println!("waits: {}", state.why_stuck(table)?);
                return Ok(Ending::Stuck);
            }
            ending => return Ok(ending),
        }
    }
}

fn main() -> ExitCode {
    let read = env::args_os().nth(1).ok_or("usage: host TABLE".into()).and_then(|file| Ok(fs::read(file)?));
    match read.and_then(|table| run(&table)) {
        Ok(ending) => {
            println!("{ending}");
            ExitCode::from(u8::from(ending != Ending::Finished))
        }
        Err(error) => {
            eprintln!("host: {error}");
            ExitCode::from(2)
        }
    }
}
