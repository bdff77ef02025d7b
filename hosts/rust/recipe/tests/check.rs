//! `recipe check` with many files: a line for each in their order, and the exit status.

mod common;

use std::fs;
use std::path::{Path, PathBuf};

use common::{directory, recipe, row_a, status, stderr, stdout, Generator, BAD, REFUSED, TEXT_A};
use recipe_runner::{State, BATCH};

const ACCEPTED: &str = "accepted: 9 records, 2 procedures, depth 2";
const REFUSED_WORDS: &str =
    "refused 13 1: record 1, 3(8,0,0) (set): the span does not fit: it is 0, and at least 1 is due in kind 3 (set)";
const EMPTY_WORDS: &str = "refused 11 0: the table is empty";
const LONG_WORDS: &str = "refused 11 0: the table's bytes are more than 32,768";
const BAD_WORDS: &str = "2:11: there is no procedure \"press\"";

/// A directory with files of each sort.
fn with_files(name: &str) -> PathBuf {
    let d = directory(name);
    fs::write(d.join("a.table"), row_a()).unwrap();
    fs::write(d.join("a.recipe"), TEXT_A).unwrap();
    fs::write(d.join("bad.recipe"), BAD).unwrap();
    fs::write(d.join("refused"), REFUSED).unwrap();
    fs::write(d.join("empty"), "").unwrap();
    fs::write(d.join("long"), vec![2; 32_776]).unwrap();
    fs::create_dir(d.join("folder")).unwrap();
    d
}

/// Checks files; gives the exit status and the lines of standard output. No other is written.
fn checked(d: &Path, files: &[&str]) -> (i32, Vec<String>) {
    let output = recipe(d, &[&["check"], files].concat(), &row_a());
    assert_eq!(stderr(&output), "", "{files:?}");
    (status(&output), stdout(&output).lines().map(String::from).collect())
}

fn told(lines: &[(&str, &str)]) -> Vec<String> {
    lines.iter().map(|(file, words)| format!("{file}{words}")).collect()
}

#[test]
fn good_files_are_told_in_their_order() {
    let d = with_files("check_good");
    let lines = [("a.table: ", ACCEPTED), ("a.recipe: ", ACCEPTED), ("a.table: ", ACCEPTED)];
    assert_eq!(checked(&d, &["a.table", "a.recipe", "a.table"]), (0, told(&lines)));
    let lines = [("a.table: ", ACCEPTED), ("standard input: ", ACCEPTED), ("a.recipe: ", ACCEPTED)];
    assert_eq!(checked(&d, &["a.table", "-", "a.recipe"]), (0, told(&lines)));
    assert_eq!(checked(&d, &[]), (0, told(&lines[1..2])));
}

#[test]
fn a_file_at_fault_leaves_the_others_checked() {
    let d = with_files("check_mix");
    let files = ["refused", "a.table", "bad.recipe", "missing", "a.recipe", "folder", "empty", "long", "a.table"];
    let (status, lines) = checked(&d, &files);
    let starts = files.map(|file| match file {
        "missing" => format!("{file}: "),
        "folder" => format!("{file}: this is a directory, and a file is due"),
        "bad.recipe" => format!("{file}:{BAD_WORDS}"),
        "refused" => format!("{file}: {REFUSED_WORDS}"),
        "empty" => format!("{file}: {EMPTY_WORDS}"),
        "long" => format!("{file}: {LONG_WORDS}"),
        _ => format!("{file}: {ACCEPTED}"),
    });
    assert_eq!(lines.len(), files.len(), "{lines:?}");
    for (line, start) in lines.iter().zip(&starts) {
        assert!(line.starts_with(start), "{line}");
    }
    assert_eq!(status, 2);
}

#[test]
fn the_exit_status_is_the_highest() {
    let d = with_files("check_status");
    for (due, files) in [
        (0, &["a.table", "a.recipe"][..]),
        (1, &["a.table", "refused", "a.table"]),
        (1, &["bad.recipe", "a.table"]),
        (1, &["a.table", "empty"]),
        (1, &["refused", "refused"]),
        (2, &["a.table", "missing"]),
        (2, &["folder", "a.table"]),
        (2, &["missing", "refused"]),
        (2, &["refused", "missing"]),
        (2, &["a.table", ""]),
    ] {
        assert_eq!(checked(&d, files).0, due, "{files:?}");
    }
}

#[test]
fn of_a_text_alone_the_place_is_shown() {
    let d = with_files("check_alone");
    assert_eq!(checked(&d, &["refused"]), (1, told(&[("refused: ", REFUSED_WORDS)])));
    let shown = told(&[("bad.recipe:", BAD_WORDS), ("    spawn x press 5", ""), ("            ^", "")]);
    assert_eq!(checked(&d, &["bad.recipe"]), (1, shown));
    assert_eq!(checked(&d, &["bad.recipe"; 2]), (1, told(&[("bad.recipe:", BAD_WORDS); 2])));
    let (status, lines) = checked(&d, &["missing"]);
    assert_eq!((status, lines.len()), (2, 1), "{lines:?}");
}

#[test]
fn a_wrong_line_checks_nothing() {
    let d = with_files("check_wrong");
    for files in [&["-", "a.table", "-"][..], &["a.table", "--raw"], &["a.table", "-o", "x"]] {
        let wrong = recipe(&d, &[&["check"], files].concat(), &row_a());
        assert_eq!((status(&wrong), &*stdout(&wrong)), (2, ""), "{files:?}");
        assert_eq!(stderr(&wrong).lines().count(), 1, "{files:?}");
    }
    fs::write(d.join("-x"), row_a()).unwrap();
    assert_eq!(checked(&d, &["a.table", "--", "-x"]).0, 0);
}

/// More files than a batch has, around each bound, with one at fault in each place beside a bound.
#[test]
fn more_files_than_a_batch_are_checked() {
    let d = with_files("check_batches");
    for count in [BATCH - 1, BATCH, BATCH + 1, 2 * BATCH, 2 * BATCH + 1, 1_000] {
        let files = vec!["a.table"; count];
        assert_eq!(checked(&d, &files), (0, told(&vec![("a.table: ", ACCEPTED); count])), "{count}");
        for place in [0, BATCH - 2, BATCH - 1, BATCH, count - 1].into_iter().filter(|place| *place < count) {
            for (other, due) in [("refused", 1), ("missing", 2)] {
                let mut files = files.clone();
                files[place] = other;
                let (status, lines) = checked(&d, &files);
                let at = lines.iter().position(|line| !line.contains(ACCEPTED));
                assert_eq!((status, lines.len(), at), (due, count, Some(place)), "{count} {other}");
            }
        }
    }
}

/// Tables, every other one with a bit turned.
fn generated(d: &Path, count: usize) -> Vec<String> {
    let mut generator = Generator::new(2_505);
    let names: Vec<String> = (0..count).map(|index| format!("t{index}")).collect();
    for (index, name) in names.iter().enumerate() {
        let mut table = generator.table();
        if index % 2 == 0 {
            let at = generator.random.below(table.len());
            table[at] ^= 1 << generator.random.below(8);
        }
        fs::write(d.join(name), table).unwrap();
    }
    names
}

/// Each line is that of the file alone, whose exit status is as the library's start says.
#[test]
fn many_lines_are_those_of_each_file_alone() {
    let d = directory("check_generated");
    let names = generated(&d, 100);
    let files: Vec<&str> = names.iter().map(|name| &**name).collect();
    let mut lines = Vec::new();
    for file in &files {
        let (status, line) = checked(&d, &[file]);
        assert_eq!(status == 1, State::start(&fs::read(d.join(file)).unwrap()).is_err(), "{file}");
        lines.extend(line);
    }
    let refused = lines.iter().filter(|line| line.contains(": refused ")).count();
    assert!(refused > 20, "{refused}");
    assert_eq!(checked(&d, &files), (1, lines));
}
