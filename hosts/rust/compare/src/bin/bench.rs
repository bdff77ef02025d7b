//! The benchmark: the library beside the model, on the workloads of `compare::workloads`.
//!
//! `bench` measures times, `bench --growth FOLDER` measures how they grow and draws it into the folder,
//! `bench --instructions` counts instructions with callgrind, and `bench --once NAME SIDE [CALLS]` makes a fixed number
//! of calls of one workload on one side (`library` or `model`).

use compare::case::{Side, LIBRARY, MODEL};
use compare::growth::growths;
use compare::plot::Plot;
use compare::workloads::{workloads, Unit, Workload};
use std::error::Error;
use std::path::Path;
use std::process::Command;
use std::time::{Duration, Instant};

/// Measurements of each workload and side, and about how long one takes.
const ROUNDS: usize = 25;
const ROUND: Duration = Duration::from_millis(40);
/// The calls of one run under callgrind, a short and a long one: their difference leaves the startup out.
const CALLS: (u32, u32) = (4, 12);

type Outcome<T> = Result<T, Box<dyn Error>>;

const SIDES: [(&str, Side); 2] = [("library", LIBRARY), ("model", MODEL)];

fn main() -> Outcome<()> {
    let arguments: Vec<String> = std::env::args().skip(1).collect();
    let words: Vec<&str> = arguments.iter().map(String::as_str).collect();
    match words[..] {
        [] => times(),
        ["--once", name, side] => once(name, side, CALLS.0),
        ["--once", name, side, calls] => once(name, side, calls.parse()?),
        ["--growth", folder] => growth(Path::new(folder)),
        ["--instructions"] => instructions(),
        _ => Err("usage: bench [--growth FOLDER | --instructions | --once NAME library|model [CALLS]]".into()),
    }
}

/// Makes the calls of one workload on one side.
fn once(name: &str, side: &str, calls: u32) -> Outcome<()> {
    let all = workloads();
    let workload = all.iter().find(|workload| workload.name == name).ok_or("no such workload")?;
    let (_, side) = SIDES.iter().find(|(known, _)| *known == side).ok_or("no such side")?;
    workload.make(side, calls);
    Ok(())
}

fn measure(workload: &Workload, side: &Side, calls: u32) -> Duration {
    let begin = Instant::now();
    workload.make(side, calls);
    begin.elapsed()
}

/// How many calls take about a round.
fn calls_of_a_round(workload: &Workload, side: &Side) -> u32 {
    let mut calls = 1;
    loop {
        let took = measure(workload, side, calls);
        if took > ROUND / 8 {
            return (f64::from(calls) * ROUND.as_secs_f64() / took.as_secs_f64()).ceil() as u32;
        }
        calls *= 2;
    }
}

/// Nanoseconds a unit of each workload, the least of the rounds. A round measures all of them, library and model in
/// turn, so that a busy spell of the machine does not fall on one alone.
fn least(all: &[Workload]) -> Vec<[f64; 2]> {
    let calls: Vec<_> = all.iter().map(|workload| SIDES.map(|(_, side)| calls_of_a_round(workload, &side))).collect();
    let mut least = vec![[f64::INFINITY; 2]; all.len()];
    for _ in 0..ROUNDS {
        for ((workload, calls), least) in all.iter().zip(&calls).zip(&mut least) {
            for i in 0..2 {
                let took = measure(workload, &SIDES[i].1, calls[i]);
                least[i] = least[i].min(took.as_secs_f64() * 1e9 / f64::from(calls[i]) / workload.units());
            }
        }
    }
    least
}

fn say_how() {
    println!("Nanoseconds; each figure is the least of {ROUNDS} measurements of about {} ms,", ROUND.as_millis());
    println!("library and model in turn.");
}

fn times() -> Outcome<()> {
    say_how();
    println!("The ratio is the library's time by the model's.\n");
    let all = workloads();
    report(&all, &least(&all));
    Ok(())
}

/// Prints the figures of each plot, and draws it into the folder.
fn growth(folder: &Path) -> Outcome<()> {
    std::fs::create_dir_all(folder)?;
    say_how();
    for growth in growths() {
        let plot = growth.plot(SIDES.map(|(name, _)| name), least);
        print_figures(&plot);
        std::fs::write(folder.join(growth.file), plot.svg())?;
    }
    Ok(())
}

/// A row a place on the axis across, a column a line.
fn print_figures(plot: &Plot) {
    println!("\n{}: {} by {}", plot.title, plot.up, plot.across);
    for (i, line) in plot.lines.iter().enumerate() {
        println!("  column {}: {}", i + 1, line.name);
    }
    for (i, place) in plot.places.iter().enumerate() {
        let figures = plot.lines.iter().map(|line| format!(" {:>10.1}", line.heights[i]));
        println!("{place:>6}{}", figures.collect::<String>());
    }
}

/// Prints a row a workload, then the geometric mean of the ratios.
fn report(all: &[Workload], figures: &[[f64; 2]]) {
    println!("{:<18} {:<9} {:>10} {:>10} {:>7}", "workload", "unit", "library", "model", "ratio");
    let mut logarithms = 0.0;
    for (workload, [library, model]) in all.iter().zip(figures) {
        let ratio = library / model;
        logarithms += ratio.ln();
        let unit = match workload.unit {
            Unit::Step => "a step",
            Unit::Call | Unit::Start | Unit::Why => "a call",
            Unit::Record => "a record",
            Unit::Batch | Unit::Starts => "a recipe",
        };
        println!("{:<18} {:<9} {:>10.1} {:>10.1} {:>7.2}", workload.name, unit, library, model, ratio);
    }
    println!("\ngeometric mean of the ratios: {:.2}", (logarithms / all.len() as f64).exp());
}

fn instructions() -> Outcome<()> {
    let folder = std::env::temp_dir().join(format!("recipe-bench-{}", std::process::id()));
    std::fs::create_dir_all(&folder)?;
    println!("Instructions; by the difference of {} and {} calls.\n", CALLS.0, CALLS.1);
    let all = workloads();
    let counts = all.iter().map(|workload| instructions_of(&folder, workload)).collect::<Outcome<Vec<_>>>();
    std::fs::remove_dir_all(&folder)?;
    report(&all, &counts?);
    Ok(())
}

/// Instructions a unit of a workload, on both sides.
fn instructions_of(folder: &Path, workload: &Workload) -> Outcome<[f64; 2]> {
    let mut counts = [0.0; 2];
    for (count, (side, _)) in counts.iter_mut().zip(SIDES) {
        let few = counted(folder, workload.name, side, CALLS.0)?;
        let many = counted(folder, workload.name, side, CALLS.1)?;
        *count = (many - few) / f64::from(CALLS.1 - CALLS.0) / workload.units();
    }
    Ok(counts)
}

/// The instructions of one `--once` run of this program.
fn counted(folder: &Path, name: &str, side: &str, calls: u32) -> Outcome<f64> {
    let output = Command::new("valgrind")
        .args(["--tool=callgrind", "--log-fd=1"])
        .arg(format!("--callgrind-out-file={}", folder.join("out").display()))
        .arg(std::env::current_exe()?)
        .args(["--once", name, side, &calls.to_string()])
        .output()?;
    let text = String::from_utf8_lossy(&output.stdout);
    let line = text.lines().find_map(|line| line.split_once("Collected :"));
    let (_, count) = line.ok_or_else(|| format!("callgrind gave no count for {name} on the {side}: {text}"))?;
    Ok(count.trim().parse()?)
}
