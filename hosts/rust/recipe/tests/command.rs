//! The built tool: outputs, exit statuses, and files that are written or not.

mod common;

use std::fs;
use std::path::Path;

use common::{directory, recipe, rewrite, row_a, status, stderr, stdout, BAD, REFUSED, TEXT_A};
use recipe_runner::{VARIABLE, VARIABLES_AT};

const A: &str = "\
spawned 1 0 2
waits 1 0 2
taken 2 0 0
valve 2 1 5
ended 2 0 0
taken 1 0 0
valve 1 0 1
ended 1 0 0
finished 8
";
const STUCK: &str = "procedure main\n  set x 7\n  await x\n";
/// Awaits a variable that holds 0.
const NOBODY: &str = "procedure main\n  await x\nvariable x 8\n";
/// Issues every number.
const SPENT: &str = "procedure main\n  while 1\n    spawn x idle 0\n    suspend\nprocedure idle\n";
const AT_GUARD: &str = "procedure main\n  guard x\nvariable x 8\n";
/// Divides by a variable that is 0, in the second statement, at record 3.
const SHARE: &str = "procedure main\n  set valve1 1\n  set valve0 6 / sensors\nvariable sensors 8\n";

/// The names of a directory's files.
fn files(directory: &Path) -> Vec<String> {
    let entries = fs::read_dir(directory).unwrap();
    let mut names: Vec<_> = entries.map(|entry| entry.unwrap().file_name().into_string().unwrap()).collect();
    names.sort();
    names
}

#[test]
fn recipe_a_prints_as_in_the_document() {
    let d = directory("recipe_a");
    fs::write(d.join("a.recipe"), TEXT_A).unwrap();
    let assembled = recipe(&d, &["asm", "a.recipe", "-o", "a.table"], b"");
    assert_eq!((status(&assembled), assembled.stdout.len(), assembled.stderr.len()), (0, 0, 0));
    assert_eq!(fs::read(d.join("a.table")).unwrap(), row_a());
    for arguments in [&["run", "a.table"][..], &["run", "a.recipe"], &["run"], &["run", "-"]] {
        let ran = recipe(&d, arguments, &row_a());
        assert_eq!((status(&ran), stdout(&ran), stderr(&ran)), (0, A.to_string(), String::new()), "{arguments:?}");
    }
    assert_eq!(stdout(&recipe(&d, &["run", "--quiet", "a.table"], b"")), "finished 8\n");
    assert_eq!(files(&d), ["a.recipe", "a.table"]);
}

#[test]
fn a_wait_at_a_guard_prints_0() {
    let d = directory("guard");
    fs::write(d.join("held.recipe"), AT_GUARD).unwrap();
    assert_eq!(stdout(&recipe(&d, &["run", "held.recipe"], b"")), "waits 1 0 0\nstuck 1\n");
    let listed = "variable v8 8\n\nprocedure main\n    guard v8\n";
    assert_eq!(stdout(&recipe(&d, &["dis", "held.recipe"], b"")), listed);
    fs::write(d.join("past.recipe"), "procedure main\n  guard not x\n  set valve0 1\nvariable x 8\n").unwrap();
    let printed = "waits 1 0 0\ntaken 1 0 0\nvalve 1 0 1\nended 1 0 0\nfinished 4\n";
    assert_eq!(stdout(&recipe(&d, &["run", "past.recipe"], b"")), printed);
}

#[test]
fn a_timeline_tells_guards_from_awaits() {
    let d = directory("waits");
    for (text, told, other) in [
        (AT_GUARD, "task 1: waits at a guard", "task 1: awaits"),
        (STUCK, "task 1: awaits 7", "task 1: waits at a guard"),
    ] {
        fs::write(d.join("t.recipe"), text).unwrap();
        let drawn = stdout(&recipe(&d, &["timeline", "t.recipe"], b""));
        assert!(drawn.contains(told) && !drawn.contains(other), "{drawn}");
    }
}

#[test]
fn an_await_of_a_0_passes_when_it_is_tried() {
    let d = directory("nobody");
    fs::write(d.join("t.recipe"), NOBODY).unwrap();
    let ran = recipe(&d, &["run", "t.recipe"], b"");
    let printed = "waits 1 0 0\ntaken 1 0 0\nended 1 0 0\nfinished 3\n";
    assert_eq!((status(&ran), &*stdout(&ran), &*stderr(&ran)), (0, printed, ""));
    // It has joined the back, and is no stuck state there.
    let paused = recipe(&d, &["run", "t.recipe", "--steps", "1", "--save", "state"], b"");
    assert_eq!(stdout(&paused), "waits 1 0 0\npaused 1\n");
    assert_eq!(stdout(&recipe(&d, &["why", "t.recipe", "state"], b"")), "refused 25 0\n");
}

/// A saved state whose variable is written between two calls, as by a host with a sensor.
#[test]
fn a_guard_passes_once_the_host_has_written_its_variable() {
    let d = directory("sensor");
    fs::write(d.join("held.recipe"), AT_GUARD).unwrap();
    assert_eq!(stdout(&recipe(&d, &["run", "held.recipe", "--save", "state"], b"")), "waits 1 0 0\nstuck 1\n");
    rewrite(&d, "state", VARIABLES_AT + 8 * VARIABLE, &[1]);
    let resumed = recipe(&d, &["run", "held.recipe", "--resume", "state"], b"");
    assert_eq!(stdout(&resumed), "taken 1 0 0\nended 1 0 0\nfinished 2\n");
}

#[test]
fn a_zero_divisor_is_told_with_its_line_or_its_record() {
    let d = directory("novalue");
    fs::write(d.join("share.recipe"), SHARE).unwrap();
    assert_eq!(status(&recipe(&d, &["asm", "share.recipe", "-o", "share.table"], b"")), 0);
    let raw = stdout(&recipe(&d, &["dis", "--raw", "share.table"], b""));
    fs::write(d.join("raw.recipe"), raw).unwrap();
    let words = "the expression divides by 0 and has no value";
    let text = |file, line, column: usize, shown: &str| {
        let mark = " ".repeat(column - 1);
        format!("{file}:{line}:{column}: {words} (novalue at record 3, 3(0,3,0))\n  {shown}\n  {mark}^\n")
    };
    let by_record = format!("novalue: record 3, 3(0,3,0) (set): {words}\n");
    for (file, told) in [
        ("share.recipe", text("share.recipe", 3, 3, "  set valve0 6 / sensors")),
        ("raw.recipe", text("raw.recipe", 4, 5, "    3(0,3,0)")),
        ("share.table", format!("share.table: {by_record}")),
        ("-", format!("standard input: {by_record}")),
    ] {
        let table = fs::read(d.join("share.table")).unwrap();
        for (arguments, printed) in [
            (&["run", file][..], "valve 1 1 1\nnovalue 1\n"),
            (&["run", file, "--slice", "1"], "valve 1 1 1\nnovalue 1\n"),
            (&["run", file, "--quiet"], "novalue 1\n"),
        ] {
            let ran = recipe(&d, arguments, &table);
            assert_eq!((status(&ran), &*stdout(&ran), &*stderr(&ran)), (6, printed, &*told), "{arguments:?}");
        }
        let paused = recipe(&d, &["run", file, "--steps", "1"], &table);
        assert_eq!((status(&paused), &*stdout(&paused), &*stderr(&paused)), (3, "valve 1 1 1\npaused 1\n", ""));
    }
}

/// The saved state stops again at the same statement, until a host has written another divisor.
#[test]
fn a_zero_divisor_holds_a_saved_state_until_its_variable_is_written() {
    let d = directory("divisor");
    fs::write(d.join("share.recipe"), SHARE).unwrap();
    assert_eq!(stdout(&recipe(&d, &["run", "share.recipe", "--save", "state"], b"")), "valve 1 1 1\nnovalue 1\n");
    let before = fs::read(d.join("state")).unwrap();
    let resume = ["run", "share.recipe", "--resume", "state", "--save", "state"];
    assert_eq!(stdout(&recipe(&d, &resume, b"")), "novalue 0\n");
    assert_eq!(fs::read(d.join("state")).unwrap(), before);
    rewrite(&d, "state", VARIABLES_AT + 8 * VARIABLE, &[2]);
    assert_eq!(stdout(&recipe(&d, &resume, b"")), "valve 1 0 3\nended 1 0 0\nfinished 2\n");
}

#[test]
fn standard_streams_are_the_default() {
    let d = directory("streams");
    let assembled = recipe(&d, &["asm"], TEXT_A.as_bytes());
    assert_eq!(assembled.stdout, row_a());
    assert_eq!(recipe(&d, &["asm", "-", "-o", "-"], TEXT_A.as_bytes()).stdout, row_a());
    let listed = recipe(&d, &["dis"], &assembled.stdout);
    assert_eq!(recipe(&d, &["asm"], &listed.stdout).stdout, row_a());
    let raw = recipe(&d, &["dis", "--raw"], &assembled.stdout);
    assert!(stdout(&raw).starts_with("1(0,5,0)\n    6(8,1,1)\n        9(0,0,5)\n    8(8,0,0)\n"));
    assert_eq!(recipe(&d, &["asm"], &raw.stdout).stdout, row_a());
    let checked = recipe(&d, &["check"], &row_a());
    assert_eq!(stdout(&checked), "standard input: accepted: 9 records, 2 procedures, depth 2\n");
    assert!(stdout(&recipe(&d, &["timeline"], &row_a())).starts_with("<svg "));
    assert!(files(&d).is_empty());
}

#[test]
fn refused_tables_are_told() {
    let d = directory("refused");
    fs::write(d.join("t"), REFUSED).unwrap();
    let told =
        "t: refused 13 1: record 1, 3(8,0,0) (set): the span does not fit: it is 0, and at least 1 is due in kind 3 \
                (set)\n";
    for (arguments, printed) in [
        (&["run", "t"][..], "refused 13 1\n"),
        (&["dis", "t"], ""),
        (&["dis", "t", "--raw"], "1(0,1,0)\n    3(8,0,0)    # fault 13: the span does not fit\n"),
        (&["why", "t", "t"], "refused 13 1\n"),
        (&["timeline", "t"], ""),
    ] {
        let output = recipe(&d, arguments, b"");
        assert_eq!((status(&output), &*stdout(&output), &*stderr(&output)), (1, printed, told), "{arguments:?}");
    }
    for length in [0, 7, 32_769, 32_776, 1 << 20] {
        let ran = recipe(&d, &["run"], &vec![2; length]);
        assert_eq!((status(&ran), &*stdout(&ran)), (1, "refused 11 0\n"), "{length}");
    }
}

#[test]
fn nothing_is_written_when_refused() {
    let d = directory("nothing_written");
    fs::write(d.join("bad.recipe"), BAD).unwrap();
    fs::write(d.join("bad.table"), REFUSED).unwrap();
    fs::write(d.join("old"), "old").unwrap();
    fs::write(d.join("a.table"), row_a()).unwrap();
    let before = files(&d);
    for out in ["old", "new"] {
        for arguments in [
            &["asm", "bad.recipe", "-o", out][..],
            &["run", "bad.table", "--save", out],
            &["run", "bad.recipe", "--save", out],
            &["run", "a.table", "--resume", "bad.table", "--save", out],
            &["dis", "bad.table", "-o", out],
            &["state", "bad.table", "--block", out],
            &["timeline", "bad.table", "-o", out],
            &["timeline", "bad.recipe", "-o", out],
        ] {
            assert_eq!(status(&recipe(&d, arguments, b"")), 1, "{arguments:?}");
            assert_eq!(files(&d), before, "{arguments:?}");
            assert_eq!(fs::read(d.join("old")).unwrap(), b"old", "{arguments:?}");
        }
    }
    let assembled = recipe(&d, &["asm", "bad.recipe"], b"");
    assert_eq!(assembled.stdout, b"");
    let told = "bad.recipe:2:11: there is no procedure \"press\"\n    spawn x press 5\n            ^\n";
    assert_eq!(stderr(&assembled), told);
}

#[test]
fn outputs_replace_old_files_whole() {
    let d = directory("replace");
    fs::write(d.join("a.recipe"), TEXT_A).unwrap();
    fs::write(d.join("out.table"), vec![7; 5_000]).unwrap();
    assert_eq!(status(&recipe(&d, &["asm", "a.recipe", "-o", "out.table"], b"")), 0);
    assert_eq!(fs::read(d.join("out.table")).unwrap(), row_a());
    fs::write(d.join("out.svg"), "<svg/>").unwrap();
    assert_eq!(status(&recipe(&d, &["timeline", "a.recipe", "-o", "out.svg"], b"")), 0);
    assert!(fs::read_to_string(d.join("out.svg")).unwrap().ends_with("</svg>\n"));
    // Its own input is kept.
    assert_eq!(status(&recipe(&d, &["asm", "a.recipe", "-o", "./a.recipe"], b"")), 2);
    assert_eq!(fs::read_to_string(d.join("a.recipe")).unwrap(), TEXT_A);
    assert_eq!(status(&recipe(&d, &["asm", "a.recipe", "-o", "no/where"], b"")), 2);
    assert_eq!(files(&d), ["a.recipe", "out.svg", "out.table"]);
}

#[cfg(unix)]
#[test]
fn a_link_stays_a_link() {
    let d = directory("link");
    fs::write(d.join("real"), [1; 8]).unwrap();
    std::os::unix::fs::symlink("real", d.join("link")).unwrap();
    assert_eq!(status(&recipe(&d, &["asm", "-o", "link"], TEXT_A.as_bytes())), 0);
    assert!(fs::symlink_metadata(d.join("link")).unwrap().is_symlink());
    assert_eq!(fs::read(d.join("real")).unwrap(), row_a());
    // `rt ci` refuses a tree with a link in it, also below target/.
    fs::remove_file(d.join("link")).unwrap();
}

/// Exit statuses, and the lines that end with them.
const STATUSES: &[(i32, &[&str])] = &[
    (0, &["run", "a.recipe"]),
    (0, &["run", "a.recipe", "--steps", "8"]),
    (3, &["run", "a.recipe", "--steps=7"]),
    (3, &["run", "a.recipe", "--steps", "0"]),
    (4, &["run", "stuck.recipe"]),
    (5, &["run", "tasks.recipe"]),
    (5, &["run", "spent.recipe", "--quiet"]),
    (6, &["run", "share.recipe"]),
    (1, &["run", "refused.table"]),
    (0, &["check", "a.recipe"]),
    (0, &["dis", "a.recipe"]),
    (0, &["--version"]),
    (0, &["-V"]),
    (2, &[]),
    (2, &["press"]),
    (2, &["run", "missing.table"]),
    (2, &["run", "."]),
    (2, &["run", "a.recipe", "--bugdet", "5"]),
    (2, &["run", "a.recipe", "--budget", "5"]),
    (2, &["run", "a.recipe", "--log", "5"]),
    (2, &["run", "a.recipe", "--strict"]),
    (2, &["run", "a.recipe", "--steps", "-1"]),
    (2, &["run", "a.recipe", "--slice", "0"]),
    (2, &["run", "a.recipe", "--slice", "16777217"]),
    (2, &["run", "a.recipe", "--slice"]),
    (2, &["run", "a.recipe", "a.recipe"]),
    (2, &["run", "a.recipe", "--resume", "missing"]),
    (2, &["run", "a.recipe", "--save", "-"]),
    (2, &["run", "a.recipe", "--save", "a.recipe"]),
    (1, &["why", "a.recipe", "a.recipe"]),
    (2, &["why", "a.recipe"]),
    (2, &["why", "a.recipe", "missing"]),
    (2, &["makers", "a.recipe", "press", "wring"]),
    (2, &["makers", "a.recipe", "press"]),
    (1, &["makers", "refused.table", "1", "2"]),
    (2, &["asm", "missing.recipe"]),
    (2, &["help", "press"]),
];

#[test]
fn exit_statuses() {
    let d = directory("statuses");
    fs::write(d.join("a.recipe"), TEXT_A).unwrap();
    fs::write(d.join("stuck.recipe"), STUCK).unwrap();
    fs::write(d.join("share.recipe"), SHARE).unwrap();
    fs::write(d.join("refused.table"), REFUSED).unwrap();
    fs::write(d.join("tasks.recipe"), "procedure main\n  while 1\n    spawn x main 0\n").unwrap();
    fs::write(d.join("spent.recipe"), SPENT).unwrap();
    let before = files(&d);
    for (due, arguments) in STATUSES {
        let output = recipe(&d, arguments, b"");
        assert_eq!(status(&output), *due, "{arguments:?}");
        // Of a stuck run and of a zero divisor it is told why.
        let quiet = matches!(due, 0 | 3 | 5);
        assert_eq!(output.stderr.is_empty(), quiet, "{arguments:?}: {}", stderr(&output));
    }
    assert_eq!(files(&d), before);
}

#[test]
fn help_is_given() {
    let d = directory("help");
    for command in ["asm", "dis", "check", "run", "why", "makers", "state", "timeline"] {
        for arguments in [&[command, "--help"][..], &[command, "x", "-h"], &["help", command]] {
            let output = recipe(&d, arguments, b"");
            assert_eq!(status(&output), 0);
            assert!(stdout(&output).starts_with(&format!("usage: recipe {command} ")), "{arguments:?}");
        }
        assert!(stdout(&recipe(&d, &["--help"], b"")).contains(&format!("\n  {command} ")));
    }
}
