//! What a run shows on a terminal while it goes on.
#![cfg(target_os = "linux")]

mod common;

use std::fs::{self, File, OpenOptions};
use std::io::Read;
use std::os::fd::AsRawFd;
use std::path::Path;
use std::process::{Command, Stdio};
use std::thread;

use common::directory;

extern "C" {
    fn grantpt(terminal: i32) -> i32;
    fn unlockpt(terminal: i32) -> i32;
    fn ptsname_r(terminal: i32, name: *mut u8, length: usize) -> i32;
}

/// A terminal: the end that sees what is written, and the end to write to. None where the machine has no terminals.
fn terminal() -> Option<(File, File)> {
    let Ok(seen) = OpenOptions::new().read(true).write(true).open("/dev/ptmx") else {
        eprintln!("no terminal can be had here, so nothing is tested");
        return None;
    };
    let mut name = [0; 64];
    let number = seen.as_raw_fd();
    // The name's length is that of the buffer.
    let named = unsafe { grantpt(number) | unlockpt(number) | ptsname_r(number, name.as_mut_ptr(), name.len()) };
    assert_eq!(named, 0);
    let end = name.iter().position(|byte| *byte == 0).unwrap();
    let path = std::str::from_utf8(&name[..end]).unwrap();
    Some((seen, OpenOptions::new().read(true).write(true).open(path).unwrap()))
}

/// What a terminal has seen once nothing writes to it any more.
fn all(mut seen: File) -> String {
    let mut text = Vec::new();
    // The end of a terminal is an error.
    let _ = seen.read_to_end(&mut text);
    String::from_utf8(text).unwrap()
}

/// The tool in a directory, to be run with its streams.
fn tool(d: &Path, arguments: &[&str]) -> Command {
    let mut command = Command::new(env!("CARGO_BIN_EXE_recipe"));
    command.args(arguments).current_dir(d).stdin(Stdio::null());
    command
}

/// A run that takes some seconds: many steps, few records.
const LONG: &str = "variable m 9\nprocedure main\n  while n < 40000000\n    set n n + 1\n    set m n * n - n * n\n";

#[test]
fn a_terminal_has_one_line_that_is_cleared() {
    let d = directory("progress");
    fs::write(d.join("r.recipe"), LONG).unwrap();
    let Some((seen, shown)) = terminal() else { return };
    let mut command = tool(&d, &["run", "r.recipe"]);
    let output = command.stdout(Stdio::piped()).stderr(shown).spawn().unwrap().wait_with_output().unwrap();
    drop(command);
    assert_eq!(String::from_utf8(output.stdout).unwrap(), "ended 1 0 0\nfinished 120000002\n");
    let text = all(seen);
    let lines: Vec<&str> = text.split("\r\x1b[K").collect();
    let [first, shown @ .., last] = &lines[..] else { panic!("{text:?}") };
    assert_eq!((*first, *last, shown.is_empty()), ("", "", false), "{text:?}");
    let steps = |line: &&str| line.strip_suffix(" steps, 1 live task, 0 log records").unwrap().parse::<u64>().unwrap();
    assert!(shown.is_sorted_by_key(steps), "{text:?}");
}

/// What the terminal shows of a run that has both its streams.
fn shared(d: &Path, text: &str) -> Option<String> {
    fs::write(d.join("r.recipe"), text).unwrap();
    let (seen, shown) = terminal()?;
    let reader = thread::spawn(|| all(seen));
    let mut command = tool(d, &["run", "r.recipe"]);
    command.stdout(shown.try_clone().unwrap()).stderr(shown);
    assert!(command.status().unwrap().success());
    drop(command);
    Some(reader.join().unwrap())
}

/// Without records the line stands until it is overwritten.
#[test]
fn a_line_stays_where_nothing_is_printed() {
    let Some(text) = shared(&directory("progress_shared"), LONG) else { return };
    assert!(text.ends_with("\r\x1b[Kended 1 0 0\r\nfinished 120000002\r\n"), "{text:?}");
    let lines: Vec<&str> = text.split("\r\x1b[K").collect();
    assert!(lines.len() > 2 && lines[1..].iter().all(|line| !line.is_empty()), "{text:?}");
}

/// Records that go to the same terminal stand in lines of their own, and the line stands below them.
#[test]
fn the_line_makes_room_for_records() {
    let text = format!("{LONG}    if n - n / 100000 * 100000 == 0\n      set valve1 n\n");
    let Some(text) = shared(&directory("progress_records"), &text) else { return };
    let shown = text.replace("\r\x1b[K", "\r\n");
    let known = |line: &str| {
        let is_count = line.ends_with(" log records") || line.ends_with(" log record");
        is_count || line.is_empty() || line.starts_with("valve 1 1 ") || line == "ended 1 0 0"
    };
    let mut lines = shown.lines().rev();
    assert!(lines.next().unwrap().starts_with("finished "));
    let other = lines.find(|line| !known(line));
    assert_eq!(other, None);
    assert_eq!(shown.matches("valve 1 1 ").count(), 400);
    // The first line comes some records late; from then on each record has one below it.
    assert!(shown.matches(" live task, ").count() > 100, "{text:?}");
}

#[test]
fn a_short_run_shows_nothing() {
    let d = directory("progress_short");
    fs::write(d.join("r.recipe"), "procedure main\n  skip\n").unwrap();
    let Some((seen, shown)) = terminal() else { return };
    let mut command = tool(&d, &["run", "r.recipe"]);
    assert!(command.stdout(Stdio::piped()).stderr(shown).spawn().unwrap().wait().unwrap().success());
    drop(command);
    assert_eq!(all(seen), "");
}
