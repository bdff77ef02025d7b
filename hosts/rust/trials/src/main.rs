//! Writes the stored cases of `crates/trials`, `stdin` and `stdout`, with the answers of the independent model.
//!
//! `trials` makes them from `cases.txt` and the sweeps; `trials --vectors FILE` first makes `cases.txt` anew from a file
//! of published cases, one JSON object a line, `-` for standard input.

use std::error::Error;
use std::fs;
use std::io::Read;
use trials::case::{stored_input, stored_output, Case};
use trials::{stored, suite, vectors};

type Outcome<T> = Result<T, Box<dyn Error>>;

fn main() -> Outcome<()> {
    let arguments: Vec<String> = std::env::args().skip(1).collect();
    let words: Vec<&str> = arguments.iter().map(String::as_str).collect();
    match words[..] {
        [] => {}
        ["--vectors", file] => take_over(file)?,
        _ => return Err("usage: trials [--vectors FILE | --vectors -]".into()),
    }
    make()
}

/// Makes `cases.txt` from a file of published cases.
fn take_over(file: &str) -> Outcome<()> {
    let mut text = String::new();
    match file {
        "-" => std::io::stdin().read_to_string(&mut text)?,
        _ => fs::File::open(file)?.read_to_string(&mut text)?,
    };
    let (taken, left) = vectors::take_over(&text)?;
    fs::write(stored::cases(), vectors::write(&taken))?;
    println!("{} published cases taken over", taken.len());
    for (operation, count) in left {
        println!("{count} of {operation} left out: no trial makes such a call");
    }
    Ok(())
}

/// Makes the stored input and output.
fn make() -> Outcome<()> {
    let cases = suite::suite(&vectors::read(&fs::read_to_string(stored::cases())?)?);
    let input = stored_input(&cases);
    fs::write(stored::input(), &input)?;
    fs::write(stored::output(), stored_output(&cases))?;
    let count = |wanted: fn(&Case) -> bool| cases.iter().filter(|case| wanted(case)).count();
    let starts = count(|case| matches!(case, Case::Start { .. }));
    let runs = count(|case| matches!(case, Case::Run { .. }));
    let lists = count(|case| matches!(case, Case::RunOn { .. }));
    let prints = count(|case| matches!(case, Case::Print { .. }));
    let chains = count(|case| matches!(case, Case::WhyStuck { .. }));
    let batches = count(|case| matches!(case, Case::CheckAll { .. }));
    println!("{} cases: {starts} starts, {runs} runs, {lists} lists of runs, {prints} prints,", cases.len());
    println!("{chains} questions why a state is stuck, {batches} batches; {} bytes of input", input.len());
    Ok(())
}
