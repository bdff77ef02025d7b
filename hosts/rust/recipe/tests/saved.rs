//! Saved states: their checksums, bare blocks, and what is no saved state.

mod common;

use std::fs;
use std::path::PathBuf;

use common::{block, directory, recipe, row_a, status, stderr, stdout, TEXT_A};
use recipe::crc::crc64;

const NOTE: &str = "block: this is a bare block, which carries no checksum\n";

/// A directory with a table, its text, a saved state of its run, and the bare block of that.
fn with_state(name: &str) -> PathBuf {
    let d = directory(name);
    fs::write(d.join("a.table"), row_a()).unwrap();
    fs::write(d.join("a.recipe"), TEXT_A).unwrap();
    fs::write(d.join("stuck.recipe"), "procedure main\n  set x 7\n  await x\n").unwrap();
    assert_eq!(status(&recipe(&d, &["run", "a.table", "--steps", "3", "--save", "state"], b"")), 3);
    let output = recipe(&d, &["state", "state", "--block", "block"], b"");
    assert_eq!((status(&output), &*stdout(&output), &*stderr(&output)), (0, "", ""));
    d
}

#[test]
fn the_file_is_as_the_manual_has_it() {
    let d = with_state("saved_format");
    let saved = fs::read(d.join("state")).unwrap();
    assert_eq!((saved.len(), &saved[..16]), (808, &b"recipe state 01\n"[..]));
    assert_eq!(saved[16..24], crc64(&[&row_a()]).to_le_bytes());
    assert_eq!(saved[24..32], crc64(&[&saved[..24], &saved[32..]]).to_le_bytes());
    assert_eq!(saved[32..], fs::read(d.join("block")).unwrap());
}

#[test]
fn bare_blocks_are_taken_with_a_note() {
    let d = with_state("saved_bare");
    let whole = recipe(&d, &["run", "a.table", "--resume", "state"], b"");
    let bare = recipe(&d, &["run", "a.table", "--resume", "block", "--save", "block"], b"");
    assert_eq!((status(&whole), stderr(&whole)), (0, String::new()));
    assert_eq!((status(&bare), stdout(&bare), &*stderr(&bare)), (0, stdout(&whole), NOTE));
    // What the tool saves has the checksums again.
    assert_eq!(fs::read(d.join("block")).unwrap().len(), 808);
    fs::write(d.join("block"), block(&d, "state")).unwrap();
    let (shown, bare) = (recipe(&d, &["state", "state"], b""), recipe(&d, &["state", "block"], b""));
    assert_eq!((status(&bare), stdout(&bare), &*stderr(&bare)), (0, stdout(&shown), NOTE));
    assert_eq!(status(&recipe(&d, &["run", "stuck.recipe", "--save", "state"], b"")), 4);
    fs::write(d.join("block"), block(&d, "state")).unwrap();
    let bare = recipe(&d, &["why", "stuck.recipe", "block"], b"");
    let whole = recipe(&d, &["why", "stuck.recipe", "state"], b"");
    assert_eq!((status(&bare), stdout(&bare), &*stderr(&bare)), (0, stdout(&whole), NOTE));
}

/// Each command that takes a saved state, with this file as one.
fn takers(file: &str) -> [Vec<&str>; 3] {
    [vec!["state", file], vec!["why", "a.table", file], vec!["run", "a.table", "--resume", file, "--save", "new"]]
}

#[test]
fn damaged_states_are_refused() {
    let d = with_state("saved_damaged");
    let saved = fs::read(d.join("state")).unwrap();
    for at in [13, 14, 16, 24, 32, 35, 100, 600, 807] {
        let mut damaged = saved.clone();
        damaged[at] ^= 2;
        fs::write(d.join("bad"), damaged).unwrap();
        for line in takers("bad") {
            let output = recipe(&d, &line, b"");
            assert_eq!((status(&output), &*stdout(&output)), (1, ""), "{at} {line:?}");
            let told = if at < 16 {
                "the saved state is of format "
            } else {
                "the saved state is damaged: its checksum does not fit "
            };
            assert!(stderr(&output).starts_with(&format!("bad: {told}")), "{}", stderr(&output));
        }
    }
    for at in [0, 3, 15] {
        let mut damaged = saved.clone();
        damaged[at] = 0;
        fs::write(d.join("bad"), damaged).unwrap();
        for line in takers("bad") {
            let told = "bad: this is no saved state: it has the size of one, and does not begin as one\n";
            let output = recipe(&d, &line, b"");
            assert_eq!((status(&output), &*stdout(&output), &*stderr(&output)), (1, "", told));
        }
    }
    for length in [16, 24, 32, 776, 807] {
        fs::write(d.join("bad"), &saved[..length]).unwrap();
        for line in takers("bad") {
            let told = format!("bad: the saved state is damaged: it has {length} bytes, and 808 are due\n");
            let output = recipe(&d, &line, b"");
            assert_eq!((status(&output), stdout(&output), stderr(&output)), (1, String::new(), told));
        }
    }
    assert!(!d.join("new").exists());
}

#[test]
fn a_state_of_another_table_is_refused() {
    let d = with_state("saved_other");
    assert_eq!(status(&recipe(&d, &["run", "stuck.recipe", "--save", "other"], b"")), 4);
    let told = "other: the state was saved in a run of another table\n";
    for line in takers("other").into_iter().skip(1) {
        let output = recipe(&d, &line, b"");
        assert_eq!((status(&output), &*stdout(&output), &*stderr(&output)), (1, "", told), "{line:?}");
    }
    assert_eq!(status(&recipe(&d, &["state", "other"], b"")), 0);
    // A text with another comment has the same table.
    fs::write(d.join("stuck.recipe"), "# to be seen\nprocedure main\n  set y 7\n  await y\n").unwrap();
    assert_eq!(status(&recipe(&d, &["why", "stuck.recipe", "other"], b"")), 0);
}

#[test]
fn a_newer_format_is_told() {
    let d = with_state("saved_newer");
    let mut newer = fs::read(d.join("state")).unwrap();
    newer[14] = b'2';
    newer.extend([0; 100]);
    fs::write(d.join("newer"), newer).unwrap();
    for line in takers("newer") {
        let told = "newer: the saved state is of format 02, and this version of the tool reads format 01\n";
        let output = recipe(&d, &line, b"");
        assert_eq!((status(&output), &*stdout(&output), &*stderr(&output)), (1, "", told));
    }
}

#[test]
fn what_is_no_saved_state_is_told() {
    let d = with_state("saved_none");
    fs::write(d.join("picture"), "<svg xmlns").unwrap();
    fs::write(d.join("empty"), "").unwrap();
    fs::write(d.join("text"), [b' '; 776]).unwrap();
    fs::write(d.join("long"), vec![200; 40_000]).unwrap();
    let sizes = "; a saved state has 808 bytes, and a bare block 776";
    for (file, printed, sentence) in [
        ("a.recipe", "refused 21 0\n", format!("this is text of 91 bytes, and no saved state{sizes}")),
        ("a.table", "refused 21 0\n", format!("this is a table of 72 bytes, and no saved state{sizes}")),
        ("picture", "refused 21 0\n", format!("this is a picture of 10 bytes, and no saved state{sizes}")),
        ("empty", "refused 21 0\n", format!("the file is empty{sizes}")),
        ("long", "refused 21 0\n", format!("this is no saved state: it has over 32,768 bytes{sizes}")),
        ("text", "", "this is text, and no saved state".to_string()),
    ] {
        for line in takers(file) {
            let output = recipe(&d, &line, b"");
            let head = printed.replace('\n', ": ");
            let due = (1, printed.to_string(), format!("{file}: {head}{sentence}\n"));
            assert_eq!((status(&output), stdout(&output), stderr(&output)), due, "{line:?}");
        }
    }
}

/// A place that no table has breaks a rule of the state; one that only this table has not, the run's.
#[test]
fn a_place_that_the_table_has_not_is_told() {
    let d = with_state("saved_place");
    let mut bytes = block(&d, "state");
    // The second record of row A is no statement: task 2 stands there.
    bytes[10] = 2;
    fs::write(d.join("block"), bytes).unwrap();
    let sentence = "state record 1: the place 2 of task 2 is no statement of this table, nor behind a procedure's last";
    for line in takers("block").into_iter().skip(1) {
        let output = recipe(&d, &line, b"");
        let told = format!("{NOTE}block: refused 22 1: {sentence}\n");
        assert_eq!((status(&output), &*stdout(&output), stderr(&output)), (1, "refused 22 1\n", told));
    }
}
