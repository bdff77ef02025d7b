//! Who waits for whom: `recipe why`, and the same lines from a run that ends stuck.

mod common;

use std::fs;
use std::path::Path;

use common::{directory, recipe, rewrite, row_a, status, stderr, stdout, table, Generator, Random};
use recipe::files::Loaded;
use recipe::why;
use recipe_runner::{Ending, State, STATE, TASK, TASKS_AT, VARIABLE, VARIABLES_AT};

/// Task 3, at the front, waits for task 1; tasks 1 and 2 wait for each other.
const THIRD: &str = "\
procedure main
    set first 1
    spawn second press first
    spawn third watch 0
    await second    # task 2
procedure press other
    skip
    await other
procedure watch
    await first
";
const THIRD_LINES: [&str; 3] = [
    "task 3 waits for task 1 (record 12, variable 8",
    "task 1 waits for task 2 (record 7, variable 9",
    "task 2 waits for task 1 (record 10, its parameter",
];
const CIRCLE: &str = "): a circle of 2 tasks";

/// Task 3 waits for task 2, which waits for main at its guard.
const BEHIND: &str = "\
procedure main
    set first 1
    spawn second hold first
    spawn third watch second
    guard 2 < pressure
procedure hold other
    skip
    await other
procedure watch other
    await other
variable pressure 63
";

/// Writes a text, its table, and the text in the table's own notation, and runs it to a saved state.
fn saved(d: &Path, text: &str) -> String {
    fs::write(d.join("t.recipe"), text).unwrap();
    assert_eq!(status(&recipe(d, &["asm", "t.recipe", "-o", "t.table"], b"")), 0);
    let raw = stdout(&recipe(d, &["dis", "--raw", "t.table"], b""));
    fs::write(d.join("raw.recipe"), raw).unwrap();
    let ran = recipe(d, &["run", "t.table", "--steps", "10000", "--save", "state"], b"");
    assert!(matches!(status(&ran), 0 | 3 | 4));
    stdout(&ran).lines().last().unwrap().to_string()
}

/// The lines for a table: those of a saved state, and the same ones from the run itself.
fn told(d: &Path, text: &str) -> String {
    assert!(saved(d, text).starts_with("stuck "), "{text}");
    let before = fs::read(d.join("state")).unwrap();
    let lines = recipe(d, &["why", "t.table", "state"], b"");
    assert_eq!((status(&lines), &*stderr(&lines)), (0, ""));
    assert_eq!(fs::read(d.join("state")).unwrap(), before);
    let table = fs::read(d.join("t.table")).unwrap();
    assert_eq!(stdout(&recipe(d, &["why", "-", "state"], &table)), stdout(&lines));
    for arguments in [&["run", "t.table"][..], &["run", "t.table", "--quiet", "--resume", "state"]] {
        let ran = recipe(d, arguments, b"");
        assert_eq!((status(&ran), stderr(&ran)), (4, stdout(&lines)), "{arguments:?}");
    }
    stdout(&lines)
}

#[test]
fn each_end_is_told() {
    let d = directory("why_ends");
    for (text, lines) in [
        (
            "procedure main\n  spawn x a 0\n  spawn y b 0\nprocedure a\n  await y\nprocedure b\n  await x\n",
            "task 2 waits for task 3 (record 6, variable 9)\n\
             task 3 waits for task 2 (record 8, variable 8): a circle of 2 tasks\n",
        ),
        (
            "procedure main\n  set x 1\n  await x\n",
            "task 1 waits for itself (record 3, variable 8): a circle of 1 task\n",
        ),
        (
            "procedure main\n  set x 65536\n  await x\n",
            "task 1 waits for number 65536, which was never issued (record 3, variable 8)\n",
        ),
        (
            "procedure main\n  set valve3 -2147483648\n  spawn x a 1\n  await valve3\nprocedure a\n  await parameter\n",
            "task 2 waits for task 1 (record 7, its parameter)\n\
             task 1 waits for number -2147483648, which was never issued (record 5, variable 3)\n",
        ),
        (
            BEHIND,
            "task 3 waits for task 2 (record 15, its parameter)\n\
             task 2 waits for task 1 (record 13, its parameter)\n\
             task 1 waits at a guard that is untrue (record 7)\n",
        ),
        (
            "procedure main\n  guard 6 / sensors\nvariable sensors 8\n",
            "task 1 waits at a guard that is untrue (record 1)\n",
        ),
    ] {
        assert_eq!(told(&d, text), lines, "{text}");
    }
}

#[test]
fn a_circle_may_stand_behind_a_task() {
    let d = directory("why_third");
    let lines = told(&d, THIRD);
    let [third, first, second] = THIRD_LINES;
    assert_eq!(lines, format!("{third})\n{first})\n{second}{CIRCLE}\n"));
    // The help text has it as its example.
    let help = stdout(&recipe(&d, &["why", "--help"], b""));
    assert!(lines.lines().all(|line| help.contains(&format!("\n    {line}\n"))), "{help}");
}

/// Each of 32 tasks waits for the one spawned before it, and main for the last.
#[test]
fn the_longest_chain_is_told() {
    let d = directory("why_longest");
    let text = "procedure main\n  set last 1\n  while last < 32\n    spawn last link last\n  await last\n\
                procedure link before\n  await before\n";
    let lines = told(&d, text);
    let tasks: Vec<u16> = lines.lines().map(|line| link(line).0).collect();
    assert_eq!(tasks, [2, 1].into_iter().chain((3..=32).rev()).collect::<Vec<_>>());
    assert!(lines.ends_with("task 3 waits for task 2 (record 11, its parameter): a circle of 32 tasks\n"), "{lines}");
}

#[test]
fn a_text_has_its_lines_told() {
    let d = directory("why_text");
    saved(&d, THIRD);
    for (file, [third, first, second]) in [
        ("t.recipe", ["line 10: \"await first\"", "line 5: \"await second\"", "line 8: \"await other\""]),
        ("raw.recipe", ["line 13: 8(8,0,0)", "line 8: 8(9,0,0)", "line 11: 8(64,0,0)"]),
    ] {
        let [a, b, c] = THIRD_LINES;
        let lines = format!("{a}; {third})\n{b}; {first})\n{c}; {second}{CIRCLE}\n");
        assert_eq!(stdout(&recipe(&d, &["why", file, "state"], b"")), lines);
        let ran = recipe(&d, &["run", file], b"");
        assert_eq!((status(&ran), stderr(&ran)), (4, lines));
    }
    saved(&d, "procedure main\n  guard 2 < pressure # the press\nvariable pressure 8\n");
    let line = "task 1 waits at a guard that is untrue (record 1; line 2: \"guard 2 < pressure\")\n";
    assert_eq!(stdout(&recipe(&d, &["why", "t.recipe", "state"], b"")), line);
}

#[test]
fn states_that_are_not_stuck_are_refused() {
    let d = directory("why_not");
    // A task is active; none is left; one is ready, since its variable was written after the run: a reading, then 0.
    let text = "procedure main\n  while 1\n    skip\n";
    assert!(saved(&d, text).starts_with("paused "));
    let refused = |file: &str, note: &str, why: &str| {
        let output = recipe(&d, &["why", file, "state"], b"");
        let told = format!("{note}state: refused 25 0: the state is not stuck: {why}\n");
        let due = (1, "refused 25 0\n".to_string(), told);
        assert_eq!((status(&output), stdout(&output), stderr(&output)), due);
    };
    refused("t.table", "", "task 1 is active");
    assert_eq!(saved(&d, "procedure main\n  skip\n"), "finished 2");
    refused("t.recipe", "", "no task is left");
    let note = "state: this is a bare block, which carries no checksum\n";
    assert_eq!(saved(&d, "procedure main\n  guard x\nvariable x 8\n"), "stuck 1");
    rewrite(&d, "state", VARIABLES_AT + 8 * VARIABLE, &[1]);
    refused("raw.recipe", note, "a task of its queue can go on");
    assert_eq!(saved(&d, "procedure main\n  set x 7\n  await x\n"), "stuck 2");
    rewrite(&d, "state", VARIABLES_AT + 8 * VARIABLE, &[0]);
    refused("t.table", note, "a task of its queue can go on");
}

/// The table's faults come first, then the state's length, then its records.
#[test]
fn refused_tables_and_states_are_told_as_by_a_resumed_run() {
    let d = directory("why_refused");
    fs::write(d.join("a.table"), row_a()).unwrap();
    fs::write(d.join("bad.table"), [1, 0, 1, 0, 0, 0, 0, 0, 3, 8, 0, 0, 0, 0, 0, 0]).unwrap();
    fs::write(d.join("bad.recipe"), "procedure main\n  spawn x press 5\n").unwrap();
    for length in [0, 8, 520, 775, 777, 1_552] {
        fs::write(d.join(format!("{length}")), vec![0; length]).unwrap();
    }
    fs::write(d.join("zero"), [0; STATE]).unwrap();
    for (table, state, printed) in [
        ("bad.table", "775", "refused 13 1\n"),
        ("a.table", "0", "refused 21 0\n"),
        ("a.table", "8", "refused 21 0\n"),
        ("a.table", "520", "refused 21 0\n"),
        ("a.table", "775", "refused 21 0\n"),
        ("a.table", "777", "refused 21 0\n"),
        ("a.table", "1552", "refused 21 0\n"),
        ("a.table", "zero", "refused 22 0\n"),
        ("bad.recipe", "zero", ""),
    ] {
        let output = recipe(&d, &["why", table, state], b"");
        let resumed = recipe(&d, &["run", table, "--resume", state], b"");
        assert_eq!((status(&output), &*stdout(&output)), (1, printed), "{table} {state}");
        assert_eq!(output, resumed, "{table} {state}");
        assert!(!output.stderr.is_empty());
    }
}

#[test]
fn wrong_lines_are_told() {
    let d = directory("why_wrong");
    saved(&d, "procedure main\n  await x\nvariable x 8\n");
    for arguments in [
        &["why"][..],
        &["why", "t.table"],
        &["why", "t.table", "-"],
        &["why", "t.table", ""],
        &["why", "t.table", "missing"],
        &["why", "missing.table", "state"],
        &["why", "t.table", "state", "state"],
        &["why", "t.table", "state", "--budget", "1"],
    ] {
        let output = recipe(&d, arguments, b"");
        assert_eq!((status(&output), &*stdout(&output)), (2, ""), "{arguments:?}");
        assert!(stderr(&output).starts_with("recipe: "), "{arguments:?}");
    }
}

/// A link as its line tells it: the task, what follows "waits ", and the record with what it awaits.
fn link(line: &str) -> (u16, &str, &str) {
    let (head, rest) = line.split_once(" waits ").unwrap();
    let (holder, place) = rest.split_once(" (record ").unwrap();
    (head.strip_prefix("task ").unwrap().parse().unwrap(), holder, place.split(')').next().unwrap())
}

/// What a queued task waits for and where, from the bytes of the state and the table.
fn waiting(table: &[u8], state: &[u8; STATE], number: u16) -> (Option<i32>, String) {
    let task = state[TASKS_AT..VARIABLES_AT].chunks_exact(TASK).find(|task| task[..2] == number.to_le_bytes()).unwrap();
    let place = u16::from_le_bytes([task[2], task[3]]);
    let record = &table[8 * usize::from(place)..][..8];
    let at = VARIABLES_AT + VARIABLE * usize::from(record[1]);
    match record[..2] {
        [13, _] => (None, place.to_string()),
        [8, 64] => (Some(i32::from_le_bytes(task[4..8].try_into().unwrap())), format!("{place}, its parameter")),
        [8, name] => {
            (Some(i32::from_le_bytes(state[at..at + 4].try_into().unwrap())), format!("{place}, variable {name}"))
        }
        _ => panic!("task {number} does not wait"),
    }
}

/// Every line is true of the state's bytes, and leads to the next one.
fn hold_true(table: &[u8], state: &State, lines: &[String]) {
    let front = u16::from_le_bytes([state.as_bytes()[8], state.as_bytes()[9]]);
    let mut next = Some(front);
    for line in lines {
        let (task, holder, place) = link(line);
        assert_eq!(Some(task), next, "{lines:?}");
        let (awaited, at) = waiting(table, state.as_bytes(), task);
        assert_eq!(place, at, "{line}");
        let number = holder.strip_prefix("for task ").map(|number| number.parse::<u16>().unwrap());
        next = number.or((holder == "for itself").then_some(task));
        match (awaited, next) {
            (Some(awaited), Some(next)) => assert_eq!(awaited, i32::from(next), "{line}"),
            (Some(awaited), None) => {
                assert_ne!(awaited, 0);
                assert_eq!(holder, format!("for number {awaited}, which was never issued"));
            }
            (None, _) => assert_eq!(holder, "at a guard that is untrue"),
        }
    }
    // A last line that leads on leads to a task named before.
    let circle = next.map(|next| lines.len() - lines.iter().position(|line| link(line).0 == next).unwrap());
    let told = lines.last().unwrap().split_once(": a circle of ").map(|(_, size)| size.split(' ').next().unwrap());
    assert_eq!(told.map(|size| size.parse::<usize>().unwrap()), circle, "{lines:?}");
}

/// The lines of a stuck state, held to its bytes, and the number of the chain's end.
fn lines(table: &[u8], state: &State) -> (Vec<String>, usize) {
    let chain = state.why_stuck(table).unwrap();
    let loaded = Loaded { name: String::new(), table: table.to_vec(), source: None };
    let lines = why::lines(&loaded, state, &chain);
    hold_true(table, state, &lines);
    (lines, chain.end() as usize)
}

#[test]
fn lines_of_generated_tables_are_true() {
    let mut generator = Generator::new(8);
    let mut ends = [0; 3];
    for _ in 0..4_000 {
        let table = generator.table();
        let mut state = State::start(&table).unwrap();
        let ran = state.run(&table, 2_000, &mut [0; 8 * 2_000]).unwrap();
        if ran.ending == Ending::Stuck {
            ends[lines(&table, &state).1] += 1;
        }
    }
    assert!(ends[0] > 30 && ends[1] > 300 && ends[2] > 300, "{ends:?}");
}

/// An await of each name, and a guard.
fn waits() -> Vec<u8> {
    let awaits = (0..=64).map(|name| (8, name, 0, 0));
    let records: Vec<_> = [(1, 0, 67, 0)].into_iter().chain(awaits).chain([(13, 0, 1, 0), (9, 0, 0, 0)]).collect();
    table(&records)
}

/// A state of tasks that stand at those, with variables and parameters that hold numbers of live tasks, most of them.
fn crowd(random: &mut Random) -> State {
    let issued = 32 + random.below(9);
    let mut numbers: Vec<u16> = (1..=issued as u16).collect();
    for index in 0..issued {
        numbers.swap(index, random.below(issued));
    }
    numbers.truncate(1 + random.below(32));
    let mut value = || match random.below(20) {
        0 => random.pick(&[-1, i32::MIN, i32::MAX, 65_536, issued as i32 + 1]),
        _ => i32::from(random.pick(&numbers)),
    };
    let values: Vec<i32> = (0..96).map(|_| value()).collect();
    let mut block = vec![issued as u8, 0, numbers.len() as u8, 0, 0, 0, 0, 0];
    for (number, parameter) in numbers.iter().zip(&values[64..]) {
        let place = 1 + random.below(66) as u16;
        block.extend([number.to_le_bytes(), place.to_le_bytes()].concat());
        block.extend(parameter.to_le_bytes());
        block.extend([(number / 2).to_le_bytes(), [0; 2], [9; 2], [0; 2]].concat());
    }
    block.resize(VARIABLES_AT, 0);
    block.extend(values[..64].iter().flat_map(|value| value.to_le_bytes()));
    State::from_bytes(&block).unwrap()
}

#[test]
fn lines_of_crowded_states_are_true() {
    let (table, mut random) = (waits(), Random(9));
    let (mut ends, mut longest) = ([0; 3], 0);
    for _ in 0..4_000 {
        let (lines, end) = lines(&table, &crowd(&mut random));
        ends[end] += 1;
        longest = longest.max(lines.len());
    }
    assert!(ends.iter().all(|count| *count > 100) && longest > 15, "{ends:?} {longest}");
}
