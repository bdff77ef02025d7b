//! The state that the tool shows: its lines, held to its bytes and to the log of the run that left it, and refusals.

mod common;

use std::collections::BTreeMap;
use std::fs;
use std::path::Path;

use common::{block, directory, recipe, row_a, status, stderr, stdout, Generator};
use recipe::state;
use recipe_runner::{records, Kind, Refusal, State, STATE, TASKS_AT, VARIABLES_AT};

/// Task 2 spawns task 3 and gives way; task 3 is active after 9 steps.
const SPAWNS: &str = "\
procedure main
  spawn a press 1
  await a
procedure press p
  set valve1 5
  spawn b drum 2
  suspend
  suspend
procedure drum
  skip
  suspend
";

/// What the tool prints of the state that so many steps leave.
fn shown(d: &Path, text: &str, steps: &str) -> String {
    fs::write(d.join("s.recipe"), text).unwrap();
    let saved = recipe(d, &["run", "s.recipe", "--quiet", "--steps", steps, "--save", "state"], b"");
    assert!(matches!(status(&saved), 0 | 3));
    let output = recipe(d, &["state", "state"], b"");
    assert_eq!((status(&output), &*stderr(&output)), (0, ""));
    stdout(&output)
}

#[test]
fn the_help_has_it_as_its_example() {
    let d = directory("state_help");
    let lines = shown(&d, SPAWNS, "9");
    let help = stdout(&recipe(&d, &["state", "--help"], b""));
    let indented: String = lines.lines().map(|line| format!("    {line}").trim_end().to_string() + "\n").collect();
    assert!(help.contains(&indented), "{help}\n{lines}");
}

#[test]
fn fresh_and_finished_states_are_shown() {
    let d = directory("state_ends");
    let fresh =
        "highest number issued 1, 1 task live, one active\n\n        task  place  parameter  starter  times taken up\n\
                 active     1      1          0     none               0\n\nevery variable is 0\n";
    assert_eq!(shown(&d, SPAWNS, "0"), fresh);
    let finished = shown(&d, SPAWNS, "10000");
    assert!(finished.starts_with("highest number issued 3, 0 tasks live, none active\n\nvariables that"), "{finished}");
    // Standard input is read, too.
    let state = fs::read(d.join("state")).unwrap();
    for arguments in [&["state"][..], &["state", "-"], &["state", "--", "state"]] {
        assert_eq!(stdout(&recipe(&d, arguments, &state)), finished);
    }
}

#[test]
fn other_sizes_and_damaged_records_are_refused() {
    let d = directory("state_refused");
    shown(&d, SPAWNS, "9");
    let whole = block(&d, "state");
    let refused = |bytes: &[u8], place: u32, number: u32, sentence: &str, note: &str| {
        fs::write(d.join("bad"), bytes).unwrap();
        let output = recipe(&d, &["state", "bad"], b"");
        let refusal = format!("refused {number} {place}");
        let due = (1, format!("{refusal}\n"), format!("{note}bad: {refusal}: {sentence}\n"));
        assert_eq!((status(&output), stdout(&output), stderr(&output)), due);
        // A resumed run refuses it in the same words.
        assert_eq!(recipe(&d, &["run", "s.recipe", "--resume", "bad"], b""), output);
        assert_eq!(recipe(&d, &["why", "s.recipe", "bad"], b""), output);
    };
    let sizes = "; a saved state has 808 bytes, and a bare block 776";
    for (length, found) in [(1, "1 byte"), (520, "520 bytes"), (STATE - 1, "775 bytes"), (STATE + 1, "777 bytes")] {
        let other: Vec<u8> = whole.iter().copied().chain([0; 4_096]).take(length).collect();
        refused(&other, 0, 21, &format!("this is no saved state: it has {found}{sizes}"), "");
    }
    refused(&[], 0, 21, &format!("the file is empty{sizes}"), "");
    refused(&[9; 100_000], 0, 21, &format!("this is text of over 32,768 bytes, and no saved state{sizes}"), "");
    // Of the tasks 3, 2 and 1, and of the first unused one.
    for (at, byte, record, sentence) in [
        (3, 2, 0, "byte 3 is 2, and has to be 1 if a task is active, else 0"),
        (TASKS_AT, 4, 1, "the task number 4 is none of those issued, 1 to 3"),
        (TASKS_AT + 8, 3, 2, "task 3 has the starter 3, which has no smaller number"),
        (TASKS_AT + 24, 0, 4, "task 2 has no starter, and only task 1 has none"),
        (TASKS_AT + 27, 1, 4, "bytes 2 and 3 are not zero"),
        (TASKS_AT + 40, 1, 6, "task 1 has the starter 1, and no task starts it"),
        (TASKS_AT + 56, 1, 8, "it is unused, and is not zero"),
        (VARIABLES_AT - 1, 1, 64, "it is unused, and is not zero"),
    ] {
        let mut bytes = whole.clone();
        bytes[at] = byte;
        let note = "bad: this is a bare block, which carries no checksum\n";
        refused(&bytes, record, 22, &format!("state record {record}: {sentence}"), note);
    }
}

#[test]
fn wrong_lines_are_told() {
    let d = directory("state_wrong");
    fs::write(d.join("a.table"), row_a()).unwrap();
    for arguments in
        [&["state", "missing"][..], &["state", "."], &["state", "a.table", "b"], &["state", "--budget", "1"]]
    {
        let output = recipe(&d, arguments, b"");
        assert_eq!((status(&output), &*stdout(&output)), (2, ""), "{arguments:?}");
        assert!(stderr(&output).starts_with("recipe: "), "{arguments:?}");
    }
    // A table is no state.
    assert_eq!(stdout(&recipe(&d, &["state", "a.table"], b"")), "refused 21 0\n");
}

/// A task's row: where it stands, number, starter and times taken up.
fn row(line: &str) -> (String, u16, Option<u16>, u32) {
    let fields: Vec<&str> = line.split_whitespace().collect();
    let (standing, rest) = fields.split_at(fields.len() - 5);
    (standing.join(" "), rest[0].parse().unwrap(), rest[3].parse().ok(), rest[4].parse().unwrap())
}

/// Over runs of generated tables from fresh: each live task has a row, in the block's order, with what the log says.
#[test]
fn rows_are_what_the_log_says() {
    let mut generator = Generator::new(10);
    let (mut rows, mut taken) = (0, 0);
    for _ in 0..2_000 {
        let table = generator.table();
        let mut saved = State::start(&table).unwrap();
        let mut log = vec![0; 8 * 1_000];
        let ran = saved.run(&table, 1_000, &mut log).unwrap();
        let (mut starters, mut takings) = (BTreeMap::new(), BTreeMap::<u16, u32>::new());
        for record in records(&log, ran.records) {
            match record.kind {
                Kind::Spawned => drop(starters.insert(record.value as u16, record.task)),
                Kind::Taken => *takings.entry(record.task).or_default() += 1,
                _ => {}
            }
        }
        assert_eq!(state::read(saved.as_bytes()), Ok(saved.clone()));
        let lines = state::lines(&saved);
        // Behind the head lines; a state without tasks has no table.
        let shown: Vec<_> = lines.iter().skip(3).take(saved.tasks().count()).map(|line| row(line)).collect();
        let standing = saved.active().map(|_| "active".to_string()).into_iter();
        let standing = standing.chain((1..=saved.queue().count()).map(|place| format!("queue {place}")));
        let due: Vec<_> = standing
            .zip(saved.tasks())
            .map(|(standing, task)| {
                let (starter, times) = (starters.get(&task.number), takings.get(&task.number));
                (standing, task.number, starter.copied(), times.copied().unwrap_or_default())
            })
            .collect();
        assert_eq!(shown, due, "{lines:?}");
        rows += shown.len();
        taken += shown.iter().filter(|(.., times)| *times > 0).count();
    }
    assert!(rows > 2_000 && taken > 300, "{rows} {taken}");
}

/// The library refuses a damaged state where the tool does, but for a place that the table has not.
#[test]
fn faults_are_the_librarys() {
    let d = directory("state_faults");
    shown(&d, SPAWNS, "9");
    let table = recipe(&d, &["asm", "s.recipe"], b"").stdout;
    let whole = block(&d, "state");
    let mut faults = BTreeMap::new();
    for (at, byte) in (0..VARIABLES_AT).flat_map(|at| [0, 1, 2, 3, 16, 32, 33, 255].map(|byte| (at, byte))) {
        let mut bytes = whole.clone();
        bytes[at] = byte;
        let refused = State::from_bytes(&bytes).and_then(|mut state| state.run(&table, 0, &mut [])).err();
        let found = state::read(&bytes).err().map(|fault| fault.refusal);
        let is_place = at >= TASKS_AT && matches!(at % 16, 10 | 11) && at < TASKS_AT + 48;
        assert!(found == refused || is_place && found.is_none(), "byte {at} is {byte}: {found:?}, {refused:?}");
        if let Some(Refusal { place, .. }) = found {
            *faults.entry(place).or_insert(0) += 1;
        }
    }
    assert_eq!(faults.len(), 65, "{faults:?}");
}
