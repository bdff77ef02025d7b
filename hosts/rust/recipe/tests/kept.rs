//! Files that no command writes over unless told to, and those that it never does.

mod common;

use std::fs::{self, File};
use std::path::{Path, PathBuf};
use std::process::{Command, Stdio};

use common::{block, directory, recipe, row_a, status, stderr, stdout, REFUSED, TEXT_A};

/// A directory with a file of each kind, and what they hold.
fn with_files(name: &str) -> PathBuf {
    let d = directory(name);
    fs::write(d.join("a.recipe"), TEXT_A).unwrap();
    fs::write(d.join("a.table"), row_a()).unwrap();
    fs::write(d.join("table"), REFUSED).unwrap();
    fs::write(d.join("damaged.table"), "nothing of a table").unwrap();
    fs::write(d.join("text"), "text").unwrap();
    fs::write(d.join("picture"), "<svg/>").unwrap();
    fs::write(d.join("other"), [7, 0, 200]).unwrap();
    fs::write(d.join("empty"), "").unwrap();
    assert_eq!(status(&recipe(&d, &["run", "a.table", "--steps", "1", "--save", "state"], b"")), 3);
    assert_eq!(status(&recipe(&d, &["state", "state", "--block", "block"], b"")), 0);
    d
}

const KINDS: [&str; 8] = ["table", "damaged.table", "text", "picture", "other", "empty", "state", "block"];

/// A command that writes to a file, the kinds that it may replace, and what it writes.
fn writers() -> [(&'static [&'static str], &'static [&'static str]); 5] {
    [
        (&["asm", "a.recipe", "-o"], &["table", "damaged.table", "empty"]),
        (&["dis", "a.table", "-o"], &["text", "empty"]),
        (&["run", "a.table", "--save"], &["state", "block", "empty"]),
        (&["state", "start", "--block"], &["state", "block", "empty"]),
        (&["timeline", "a.table", "-o"], &["picture", "empty"]),
    ]
}

#[test]
fn a_file_of_another_kind_is_kept_unless_forced() {
    for (index, (line, may)) in writers().into_iter().enumerate() {
        let d = with_files(&format!("kept_{index}"));
        fs::copy(d.join("state"), d.join("start")).unwrap();
        assert_eq!(status(&recipe(&d, &[line, &["new"]].concat(), b"")), 0, "{line:?}");
        let due = fs::read(d.join("new")).unwrap();
        for kind in KINDS {
            let before = fs::read(d.join(kind)).unwrap();
            let mut output = recipe(&d, &[line, &[kind]].concat(), b"");
            if !may.contains(&kind) {
                let (after, told) = (fs::read(d.join(kind)).unwrap(), stderr(&output));
                assert_eq!((status(&output), &*stdout(&output), after), (2, "", before), "{line:?} {kind}");
                let head = format!("recipe: {kind}: the file is ");
                assert!(told.starts_with(&head) && told.contains("(--force replaces it)"), "{told}");
                output = recipe(&d, &[line, &[kind, "--force"]].concat(), b"");
            }
            assert_eq!((status(&output), &*stderr(&output)), (0, ""), "{line:?} {kind}");
            assert_eq!(fs::read(d.join(kind)).unwrap(), due, "{line:?} {kind}");
        }
    }
}

#[test]
fn other_kinds_are_named() {
    let d = with_files("kept_words");
    for (line, told) in [
        (&["run", "a.table", "--save", "text"][..], "text: the file is text, and a saved state would replace it"),
        (&["asm", "a.recipe", "-o", "state"], "state: the file is a saved state, and a table would replace it"),
        (&["dis", "a.table", "-o", "picture"], "picture: the file is a picture, and text would replace it"),
        (
            &["dis", "a.table", "-o", "other"],
            "other: the file is of a kind that is not known here, and text would replace it",
        ),
    ] {
        assert_eq!(stderr(&recipe(&d, line, b"")), format!("recipe: {told} (--force replaces it)\n"));
    }
    assert_eq!(stderr(&recipe(&d, &["asm", "a.recipe", "-o", "."], b"")).lines().count(), 1);
}

#[test]
fn an_input_is_never_written_over() {
    let d = with_files("kept_input");
    for line in [
        &["asm", "a.recipe", "-o", "a.recipe"][..],
        &["asm", "table", "-o", "./table"],
        &["dis", "a.table", "-o", "a.table"],
        &["dis", "a.recipe", "-o", "a.recipe", "--raw"],
        &["run", "a.table", "--save", "a.table"],
        &["run", "a.recipe", "--save", "a.recipe", "--resume", "state"],
        &["state", "state", "--block", "state"],
        &["state", "block", "--block", "./block"],
        &["timeline", "a.table", "-o", "a.table"],
        &["timeline", "a.recipe", "-o", "./a.recipe", "--steps", "9"],
    ] {
        for force in [&[][..], &["--force"]] {
            let before = fs::read(d.join(line[1])).unwrap();
            let output = recipe(&d, &[line, force].concat(), b"");
            assert_eq!((status(&output), &*stdout(&output)), (2, ""), "{line:?}");
            assert!(stderr(&output).contains("would replace the file that it is made from"), "{line:?}");
            assert_eq!(fs::read(d.join(line[1])).unwrap(), before, "{line:?}");
        }
    }
    // Of a resumed run it is replaced by what it goes on to.
    let resumed = recipe(&d, &["run", "a.table", "--resume", "state", "--save", "state"], b"");
    assert_eq!(status(&resumed), 0);
}

/// Runs the tool with a file as its standard input.
#[cfg(target_os = "linux")]
#[test]
fn nor_is_the_file_that_is_standard_input() {
    let d = with_files("kept_stdin");
    for (line, file) in [
        (&["dis", "-o", "a.table", "--force"][..], "a.table"),
        (&["asm", "-", "-o", "text", "--force"], "text"),
        (&["state", "--block", "state", "--force"], "state"),
    ] {
        let before = fs::read(d.join(file)).unwrap();
        let mut command = Command::new(env!("CARGO_BIN_EXE_recipe"));
        command.args(line).current_dir(&d).stdin(File::open(d.join(file)).unwrap());
        assert_eq!(status(&command.output().unwrap()), 2, "{line:?}");
        assert_eq!(fs::read(d.join(file)).unwrap(), before, "{line:?}");
    }
}

#[cfg(unix)]
#[test]
fn a_read_only_file_is_kept_unless_forced() {
    use std::os::unix::fs::PermissionsExt;

    for (index, (line, may)) in writers().into_iter().enumerate() {
        let d = with_files(&format!("kept_read_only_{index}"));
        fs::copy(d.join("state"), d.join("start")).unwrap();
        let path = d.join(may[0]);
        fs::set_permissions(&path, fs::Permissions::from_mode(0o444)).unwrap();
        let before = fs::read(&path).unwrap();
        let output = recipe(&d, &[line, &may[..1]].concat(), b"");
        assert_eq!((status(&output), fs::read(&path).unwrap()), (2, before), "{line:?}");
        assert!(stderr(&output).contains("the file is read-only (--force replaces it)"), "{}", stderr(&output));
        assert_eq!(status(&recipe(&d, &[line, &[may[0], "--force"]].concat(), b"")), 0, "{line:?}");
        assert_eq!(fs::metadata(&path).unwrap().permissions().mode() & 0o777, 0o444);
    }
}

#[cfg(target_os = "linux")]
#[test]
fn devices_and_links_go_on_working() {
    let d = with_files("kept_devices");
    for line in [
        &["asm", "a.recipe", "-o", "/dev/null"][..],
        &["dis", "a.table", "-o", "/dev/null"],
        &["run", "a.table", "--save", "/dev/null"],
        &["state", "state", "--block", "/dev/null"],
    ] {
        assert_eq!(status(&recipe(&d, line, b"")), 0, "{line:?}");
    }
    assert_eq!(recipe(&d, &["asm", "a.recipe", "-o", "/dev/stdout"], b"").stdout, row_a());
    assert_eq!(recipe(&d, &["state", "state", "--block", "-"], b"").stdout, block(&d, "state"));
    std::os::unix::fs::symlink("text", d.join("link")).unwrap();
    assert_eq!(status(&recipe(&d, &["asm", "a.recipe", "-o", "link"], b"")), 2);
    assert_eq!(status(&recipe(&d, &["dis", "a.table", "-o", "link"], b"")), 0);
    assert!(fs::symlink_metadata(d.join("link")).unwrap().is_symlink());
    // One that leads to nothing yet.
    std::os::unix::fs::symlink("new.table", d.join("dangling")).unwrap();
    assert_eq!(status(&recipe(&d, &["asm", "a.recipe", "-o", "dangling"], b"")), 0);
    assert!(fs::symlink_metadata(d.join("dangling")).unwrap().is_symlink());
    assert_eq!(fs::read(d.join("new.table")).unwrap(), row_a());
    // The gate takes no tree with links in it.
    for link in ["link", "dangling"] {
        fs::remove_file(d.join(link)).unwrap();
    }
}

/// Runs the tool with a file as its standard output, which it goes on from; gives what the file holds then.
#[cfg(target_os = "linux")]
fn into_file(d: &Path, line: &[&str], file: &str) -> (i32, Vec<u8>) {
    let output = File::options().read(true).append(true).create(true).open(d.join(file)).unwrap();
    let mut command = Command::new(env!("CARGO_BIN_EXE_recipe"));
    command.args(line).current_dir(d).stdin(Stdio::null()).stdout(output).stderr(Stdio::null());
    let status = command.status().unwrap().code().unwrap();
    (status, fs::read(d.join(file)).unwrap())
}

#[cfg(target_os = "linux")]
#[test]
fn a_name_of_standard_output_is_written_through() {
    let d = with_files("kept_stdout");
    fs::write(d.join("log"), "before\n").unwrap();
    let (status, written) = into_file(&d, &["asm", "a.recipe", "-o", "/dev/stdout"], "log");
    assert_eq!((status, written), (0, [b"before\n", &row_a()[..]].concat()));
    // A state would take the place of the records.
    let (status, written) = into_file(&d, &["run", "a.table", "--save", "/dev/stdout"], "new");
    assert_eq!((status, written), (2, Vec::new()));
    // What is made of a file does not go into it, by whatever way.
    let (status, written) = into_file(&d, &["asm", "a.recipe"], "a.recipe");
    assert_eq!((status, written), (2, TEXT_A.as_bytes().to_vec()));
}

#[test]
fn only_pictures_count_as_pictures() {
    let d = with_files("kept_xml");
    for text in ["<?xml version=\"1.0\"?><data/>", "<svgfoo>"] {
        fs::write(d.join("x.xml"), text).unwrap();
        assert_eq!(status(&recipe(&d, &["timeline", "a.table", "-o", "x.xml"], b"")), 2);
        assert_eq!(fs::read_to_string(d.join("x.xml")).unwrap(), text);
    }
}

/// Of a refused table nothing is listed, but by `--raw`.
#[test]
fn a_listing_goes_to_a_file() {
    let d = with_files("kept_listing");
    let listed = stdout(&recipe(&d, &["dis", "a.table"], b""));
    assert_eq!(stdout(&recipe(&d, &["dis", "a.table", "-o", "new"], b"")), "");
    assert_eq!(fs::read_to_string(d.join("new")).unwrap(), listed);
    assert_eq!(status(&recipe(&d, &["dis", "table", "-o", "none"], b"")), 1);
    assert!(!d.join("none").exists());
    assert_eq!(status(&recipe(&d, &["dis", "table", "--raw", "-o", "raw"], b"")), 1);
    assert!(fs::read_to_string(d.join("raw")).unwrap().contains("# fault 13"));
}

/// The state's file is looked at before the run begins.
#[test]
fn a_run_that_could_not_be_saved_does_not_begin() {
    let d = with_files("kept_run");
    fs::write(d.join("for_ever.recipe"), "procedure main\n  while 1\n    set valve0 1\n").unwrap();
    let mut command = Command::new(env!("CARGO_BIN_EXE_recipe"));
    command.args(["run", "for_ever.recipe", "--save", "text"]).current_dir(&d).stdin(Stdio::null());
    let output = command.output().unwrap();
    assert_eq!((status(&output), &*stdout(&output)), (2, ""));
    assert_eq!(fs::read(d.join(Path::new("text"))).unwrap(), b"text");
    let output = recipe(&d, &["run", "for_ever.recipe", "--save", "nowhere/state"], b"");
    let told = "recipe: nowhere/state: there is no such folder\n";
    assert_eq!((status(&output), &*stdout(&output), &*stderr(&output)), (2, "", told));
}
