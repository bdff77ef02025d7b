//! Runs in slices: their records, their states, interrupts, and streams that go away.

mod common;

use std::fs::{self, DirEntry};
use std::io::{self, BufRead, BufReader, Read};
use std::path::Path;
use std::process::{Child, Command, Stdio};
use std::thread;
use std::time::Duration;

use common::{block, directory, recipe, status, stderr, stdout, Generator};
use recipe_runner::{Ending, State};

/// Tasks that spawn, wait for one another and set valves.
const BUSY: &str = "\
procedure main
    while n < 6
        spawn last work last
        set n n + 1
    await last
    set valve0 1
procedure work before
    set valve1 before
    suspend
    if 1 < before
        await before
    set valve2 before * 2
";
/// Sets a valve many times: more lines than a pipe holds, so that the run waits for its reader.
const COUNTS: &str = "procedure main\n  while n < 20000\n    set n n + 1\n    set valve0 n\n";
/// Never ends and writes no record.
const FOR_EVER: &str = "procedure main\n  while 1\n    skip\n";

/// The tool under way, in a directory.
fn begun(d: &Path, arguments: &[&str]) -> Child {
    Command::new(env!("CARGO_BIN_EXE_recipe"))
        .args(arguments)
        .current_dir(d)
        .stdin(Stdio::null())
        .stdout(Stdio::piped())
        .stderr(Stdio::piped())
        .spawn()
        .unwrap()
}

/// The records, the steps and the ending of an output.
fn parts(text: &str) -> (Vec<String>, u64, String) {
    let mut records: Vec<String> = text.lines().map(String::from).collect();
    let last = records.pop().unwrap();
    let (ending, steps) = last.split_once(' ').unwrap();
    (records, steps.parse().unwrap(), ending.to_string())
}

/// Runs of so many steps, each from the state that the last one saved, until the run ends.
fn resumed(d: &Path, steps: &str, slice: &str) -> (Vec<String>, u64, String) {
    let arguments = ["run", "r.recipe", "--steps", steps, "--slice", slice, "--save", "state"];
    let mut output = recipe(d, &arguments, b"");
    let mut whole = (Vec::new(), 0, String::new());
    loop {
        assert!(matches!(status(&output), 0 | 3), "{}", stderr(&output));
        let (records, steps, ending) = parts(&stdout(&output));
        whole = ([whole.0, records].concat(), whole.1 + steps, ending);
        if whole.2 != "paused" {
            return whole;
        }
        output = recipe(d, &[&arguments[..], &["--resume", "state"]].concat(), b"");
    }
}

#[test]
fn slices_and_resumed_runs_equal_one_run() {
    let d = directory("slices");
    fs::write(d.join("r.recipe"), BUSY).unwrap();
    let whole = resumed(&d, "18446744073709551615", "16777216");
    let state = fs::read(d.join("state")).unwrap();
    assert_eq!((&*whole.2, whole.1 > 70), ("finished", true), "{}", whole.1);
    for (steps, slice) in [("1", "1"), ("7", "1000"), ("1000", "3"), ("10", "4"), ("1000000", "1")] {
        assert_eq!(resumed(&d, steps, slice), whole, "{steps} {slice}");
        assert_eq!(fs::read(d.join("state")).unwrap(), state, "{steps} {slice}");
    }
    // No slice and no number of steps: to the end.
    assert_eq!(parts(&stdout(&recipe(&d, &["run", "r.recipe"], b""))), whole);
}

/// More records than the default slice has room for.
#[test]
fn a_long_run_goes_on_to_its_end() {
    let d = directory("slices_long");
    let text = "procedure main\n  while n < 70000\n    set n n + 1\n    set valve0 n\n";
    fs::write(d.join("r.recipe"), text).unwrap();
    let output = recipe(&d, &["run", "r.recipe"], b"");
    let (records, steps, ending) = parts(&stdout(&output));
    assert_eq!((records.len(), steps, &*ending), (70_001, 210_002, "finished"));
    assert_eq!((status(&output), &*stderr(&output)), (0, ""));
    let paused = stdout(&recipe(&d, &["run", "r.recipe", "--quiet", "--steps", "200000"], b""));
    assert_eq!(paused, "paused 200000\n");
}

/// A log with as many records as the budget has steps is never full.
#[test]
fn a_step_writes_one_record_at_most() {
    let mut generator = Generator::new(77);
    let mut records = 0;
    for _ in 0..2_000 {
        let table = generator.table();
        for budget in [1, 2, 500] {
            let mut state = State::start(&table).unwrap();
            let ran = state.run(&table, budget, &mut vec![0; 8 * budget as usize]).unwrap();
            assert!(ran.ending != Ending::Logfull && ran.records <= ran.steps, "{ran:?}");
            records += ran.records;
        }
    }
    assert!(records > 10_000, "{records}");
}

/// Where some lines stand in others; they do so once or not at all where each is another.
fn follows(lines: &[String], at: usize, whole: &[String]) -> bool {
    whole.get(at..at + lines.len()) == Some(lines)
}

/// Kills the tool after some lines; gives the whole lines that came.
fn killed_after(d: &Path, arguments: &[&str], lines: usize) -> Vec<String> {
    let mut child = begun(d, arguments);
    let mut output = BufReader::new(child.stdout.take().unwrap());
    let mut text = String::new();
    for _ in 0..lines {
        output.read_line(&mut text).unwrap();
    }
    child.kill().unwrap();
    child.wait().unwrap();
    output.read_to_string(&mut text).unwrap();
    let end = text.rfind('\n').map_or(0, |end| end + 1);
    text[..end].lines().map(String::from).collect()
}

/// Goes on from the state, if one was saved before the interrupt.
fn on(d: &Path) -> Vec<&'static str> {
    let resume: &[&str] = if d.join("state").exists() { &["--resume", "state"] } else { &[] };
    [&["run", "r.recipe", "--save", "state"], resume].concat()
}

/// After a kill the records that were printed and those of the resumed run cover the whole run: at most a slice's are
/// printed twice, and none is lost.
#[test]
fn a_killed_run_is_resumed() {
    let d = directory("slices_killed");
    fs::write(d.join("r.recipe"), COUNTS).unwrap();
    let whole = recipe(&d, &["run", "r.recipe", "--save", "whole"], b"");
    let (due, steps, _) = parts(&stdout(&whole));
    for lines in [1, 40, 333, 1_000] {
        let _ = fs::remove_file(d.join("state"));
        let save = ["run", "r.recipe", "--slice", "30", "--save", "state"];
        let before = killed_after(&d, &save, lines);
        assert!(before.len() >= lines && follows(&before, 0, &due), "{lines}");
        let (after, left, ending) = parts(&stdout(&recipe(&d, &on(&d), b"")));
        let from = due.len() - after.len();
        assert!(follows(&after, from, &due) && from <= before.len(), "{from} {}", before.len());
        // Ten records a slice.
        assert!(before.len() - from <= 10, "{from} {}", before.len());
        assert_eq!((&*ending, left < steps || from == 0), ("finished", true));
        assert_eq!(block(&d, "state"), block(&d, "whole"), "{lines}");
    }
}

/// The records of a slice that cannot be printed are printed by the resumed run.
#[test]
fn a_pipe_that_goes_away_keeps_the_state_before() {
    let d = directory("slices_pipe");
    fs::write(d.join("r.recipe"), COUNTS).unwrap();
    let save = ["run", "r.recipe", "--slice", "30", "--save", "state"];
    let mut child = begun(&d, &save);
    let mut output = BufReader::new(child.stdout.take().unwrap());
    let mut first = String::new();
    output.read_line(&mut first).unwrap();
    // What was read ahead is lost with the reader, as with any.
    drop(output);
    let mut told = String::new();
    child.stderr.take().unwrap().read_to_string(&mut told).unwrap();
    assert_eq!((child.wait().unwrap().code(), &*first), (Some(2), "valve 1 0 1\n"));
    assert!(told.contains("state is left as it was before these records"), "{told}");
    let temporary = |entry: io::Result<DirEntry>| entry.unwrap().file_name().to_string_lossy().ends_with(".tmp");
    assert!(!fs::read_dir(&d).unwrap().any(temporary));
    let resumed = recipe(&d, &on(&d), b"");
    assert_eq!(status(&resumed), 0);
    let whole = recipe(&d, &["run", "r.recipe", "--save", "whole"], b"");
    let (due, after) = (parts(&stdout(&whole)).0, parts(&stdout(&resumed)).0);
    assert!(follows(&after, due.len() - after.len(), &due));
    assert_eq!(block(&d, "state"), block(&d, "whole"));
    // Without a state to save nothing is told.
    let mut child = begun(&d, &["run", "r.recipe", "--slice", "30"]);
    drop(child.stdout.take());
    told.clear();
    child.stderr.take().unwrap().read_to_string(&mut told).unwrap();
    assert_eq!((child.wait().unwrap().code(), &*told), (Some(2), ""));
}

#[cfg(target_os = "linux")]
#[test]
fn a_full_device_keeps_the_state_before() {
    let d = directory("slices_full");
    fs::write(d.join("r.recipe"), COUNTS).unwrap();
    assert_eq!(status(&recipe(&d, &["run", "r.recipe", "--steps", "30", "--save", "state"], b"")), 3);
    let before = fs::read(d.join("state")).unwrap();
    let mut command = Command::new(env!("CARGO_BIN_EXE_recipe"));
    command.args(on(&d)).current_dir(&d).stdin(Stdio::null()).stderr(Stdio::piped());
    let full = fs::OpenOptions::new().write(true).open("/dev/full").unwrap();
    let output = command.stdout(full).spawn().unwrap().wait_with_output().unwrap();
    assert_eq!((status(&output), fs::read(d.join("state")).unwrap()), (2, before));
    assert!(stderr(&output).contains("state is left as it was before these records"), "{}", stderr(&output));
}

#[cfg(unix)]
#[test]
fn a_run_that_never_ends_can_be_interrupted() {
    use std::os::unix::process::{CommandExt, ExitStatusExt};

    extern "C" {
        fn signal(number: i32, handler: usize) -> usize;
        fn kill(process: i32, number: i32) -> i32;
    }
    const INTERRUPT: i32 = 2;

    let d = directory("slices_interrupt");
    fs::write(d.join("r.recipe"), FOR_EVER).unwrap();
    let mut command = Command::new(env!("CARGO_BIN_EXE_recipe"));
    command.args(["run", "r.recipe", "--save", "state"]).current_dir(&d).stdin(Stdio::null());
    command.stdout(Stdio::piped()).stderr(Stdio::piped());
    // A test in the background may hand down that the signal is ignored.
    let default = || {
        unsafe { signal(INTERRUPT, 0) };
        Ok(())
    };
    let mut child = unsafe { command.pre_exec(default) }.spawn().unwrap();
    while !d.join("state").exists() {
        thread::sleep(Duration::from_millis(5));
    }
    assert_eq!(unsafe { kill(child.id() as i32, INTERRUPT) }, 0);
    assert_eq!(child.wait().unwrap().signal(), Some(INTERRUPT));
    let mut told = String::new();
    child.stderr.take().unwrap().read_to_string(&mut told).unwrap();
    child.stdout.take().unwrap().read_to_string(&mut told).unwrap();
    // No progress where standard error is no terminal.
    assert_eq!(told, "");
    let resumed = recipe(&d, &["run", "r.recipe", "--resume", "state", "--steps", "5"], b"");
    assert_eq!((status(&resumed), &*stdout(&resumed)), (3, "paused 5\n"));
}

#[test]
fn former_options_are_told() {
    let d = directory("slices_former");
    fs::write(d.join("r.recipe"), BUSY).unwrap();
    for (line, part) in [
        (&["--budget", "5"][..], "\"--steps N\" stops it earlier"),
        (&["--budget=5"], "\"--steps N\" stops it earlier"),
        (&["--log", "5"], "\"--slice N\" gives the steps of a slice"),
        (&["--strict"], "the exit status always tells the ending"),
    ] {
        let output = recipe(&d, &[&["run", "r.recipe"], line].concat(), b"");
        assert_eq!((status(&output), &*stdout(&output)), (2, ""), "{line:?}");
        assert!(stderr(&output).contains(part), "{}", stderr(&output));
    }
}
