//! The subcommand "timeline".

mod common;

use common::{directory, recipe, row_a, status, stderr, stdout, TEXT_A};
use std::fs;
use std::path::Path;

/// Main gives way for ever; a second task counts a valve up.
const ENDLESS: &str = "\
procedure main
    spawn x count 0
    while 1
        suspend
procedure count
    while 1
        set n n + 1
        set valve3 n
        suspend
";

fn drawn(d: &Path, arguments: &[&str]) -> String {
    let output = recipe(d, &[&["timeline"], arguments].concat(), b"");
    assert_eq!((status(&output), stderr(&output)), (0, String::new()), "{arguments:?}");
    stdout(&output)
}

#[test]
fn steps_bound_a_timeline() {
    let d = directory("steps");
    fs::write(d.join("g.recipe"), "procedure main\n  while 1\n    guard 1\n").unwrap();
    for (steps, title, records) in [
        ("8", "paused, 8 steps", "5 log records"),
        ("6", "paused, 6 steps", "4 log records"),
        ("0", "paused, 0 steps", "0 log records"),
    ] {
        let picture = drawn(&d, &["g.recipe", "--steps", steps]);
        assert!(picture.contains(&format!("g.recipe: {title}<")), "{steps}");
        assert!(picture.contains(&format!(" {records}, {steps} steps at most.")), "{steps}");
    }
    // More than 4,096 records, and no option for it.
    let picture = drawn(&d, &["g.recipe", "--steps", "100000"]);
    assert!(picture.contains("g.recipe: paused, 100000 steps<") && picture.contains(" 66666 log records, "));
}

#[test]
fn a_run_is_cut_at_the_most_records() {
    let d = directory("cut");
    fs::write(d.join("e.recipe"), ENDLESS).unwrap();
    let picture = drawn(&d, &["e.recipe", "--steps", "9000000"]);
    assert!(picture.contains("e.recipe: cut, "));
    assert!(picture.contains(" 1000000 log records, ") && picture.contains("no more than 1000000 records are drawn."));
    assert!(picture.len() <= 2_000_000);
}

#[test]
fn old_options_tell_the_new_ones() {
    let d = directory("old");
    fs::write(d.join("a.recipe"), TEXT_A).unwrap();
    for (option, instead) in [("--budget", "write --steps"), ("--log", "write --to")] {
        for given in [&[option, "5"][..], &[&format!("{option}=5")]] {
            let output = recipe(&d, &[&["timeline", "a.recipe"], given].concat(), b"");
            assert_eq!((status(&output), stdout(&output)), (2, String::new()));
            let told = stderr(&output);
            assert!(told.contains(&format!("there is no {option} any more: ")) && told.contains(instead), "{told}");
        }
    }
}

#[test]
fn lanes_have_the_procedures_names() {
    let d = directory("named");
    fs::write(d.join("a.recipe"), TEXT_A).unwrap();
    fs::write(d.join("a.table"), row_a()).unwrap();
    let picture = drawn(&d, &["a.recipe"]);
    assert!(picture.contains(">task 1 main<title>task 1: runs main, taken up 1 time<"));
    assert!(picture.contains(">task 2 press<title>task 2: runs press, started by task 1, taken up 1 time<"));
    let picture = drawn(&d, &["a.table"]);
    assert!(picture.contains(">task 2<title>task 2: runs procedure 1, started by task 1, taken up 1 time<"));
    // The table's own notation has no names.
    let raw = stdout(&recipe(&d, &["dis", "a.table", "--raw"], b""));
    fs::write(d.join("raw.recipe"), raw).unwrap();
    assert!(drawn(&d, &["raw.recipe"]).contains(">task 2<title>task 2: runs procedure 1, "));
}

#[test]
fn a_window_is_told() {
    let d = directory("window");
    fs::write(d.join("a.recipe"), TEXT_A).unwrap();
    let picture = drawn(&d, &["a.recipe", "--from", "3", "--to", "5"]);
    for part in
        [": finished, 8 steps, records 3 to 5<", ">Shown: records 3 to 5 of them, 2 tasks.<", ">v1=5<", ">5</text>"]
    {
        assert!(picture.contains(part), "{part}");
    }
    // Neither the spawn before nor the setting behind, and no end of the run.
    assert!(!picture.contains("spawns task 2") && !picture.contains("sets valve 0") && !picture.contains(">valve 0<"));
    // The whole run, by its records and by more of them.
    let whole = drawn(&d, &["a.recipe"]);
    for window in [&["--from", "0"][..], &["--to", "8"], &["--from=0", "--to=9"]] {
        assert_eq!(drawn(&d, &[&["a.recipe"], window].concat()), whole);
    }
    assert!(drawn(&d, &["a.recipe", "--from", "7", "--to", "100"]).contains(", records 7 to 8<"));
    for (window, told) in [
        (&["--from", "8"][..], "--from is 8, and the run has 8 log records"),
        (&["--from", "5", "--to", "5"], "--from is 5, and --to has to be more: it is 5"),
        (&["--to", "0"], "--from is 0, and --to has to be more: it is 0"),
        (&["--to", "1000001"], "--to takes a number from 0 to 1000000"),
    ] {
        let output = recipe(&d, &[&["timeline", "a.recipe"], window].concat(), b"");
        assert_eq!((status(&output), stdout(&output)), (2, String::new()));
        assert!(stderr(&output).contains(told), "{}", stderr(&output));
    }
}

/// Saves a state after so many steps of a text.
fn save(d: &Path, text: &str, steps: u32) {
    use recipe_runner::State;
    let table = recipe::asm::assemble(text).unwrap();
    let mut state = State::start(&table).unwrap();
    state.run(&table, steps, &mut [0; 8_000]).unwrap();
    recipe::saved::write(&d.join("s.state"), &table, state.as_bytes()).unwrap();
}

#[test]
fn a_saved_state_is_gone_on_from() {
    let d = directory("resumed");
    fs::write(d.join("e.recipe"), ENDLESS).unwrap();
    save(&d, ENDLESS, 30);
    let picture = drawn(&d, &["e.recipe", "--resume", "s.state", "--steps", "20"]);
    for part in [
        ">The run begins with the saved state s.state.<",
        ": paused, 20 steps<",
        ">task 2 count<title>task 2: runs count, started by task 1, taken up 6 times<",
        ">by task 1<",
        ">valve 3: 3<",
    ] {
        assert!(picture.contains(part), "{part} {picture}");
    }
    let picture = drawn(&d, &["e.recipe", "--resume", "s.state", "--steps", "20", "--from", "2", "--to", "4"]);
    assert!(picture.contains("with the saved state s.state. Shown: records 2 to 4 of them, 2 tasks.<"));
}

#[test]
fn saved_states_and_outputs_are_kept() {
    let d = directory("kept");
    fs::write(d.join("e.recipe"), ENDLESS).unwrap();
    save(&d, ENDLESS, 30);
    let before = fs::read(d.join("s.state")).unwrap();
    let output = recipe(&d, &["timeline", "e.recipe", "--resume", "s.state", "-o", "s.state"], b"");
    assert_eq!((status(&output), fs::read(d.join("s.state")).unwrap()), (2, before));
    fs::write(d.join("short"), [0; 8]).unwrap();
    for file in ["short", "none"] {
        let output = recipe(&d, &["timeline", "e.recipe", "--resume", file, "-o", "out"], b"");
        assert!(status(&output) > 0 && !stderr(&output).is_empty() && !d.join("out").exists(), "{file}");
    }
}
