//! The script `./run`: what it prints and its exit statuses, with a program in the place of `rt`.
#![cfg(unix)]

mod common;

use std::env;
use std::fs;
use std::os::unix::fs::PermissionsExt;
use std::path::{Path, PathBuf};
use std::process::{Command, Output, Stdio};

use common::{directory, row_a, status, stderr, stdout, TEXT_A};

/// Stands for `rt run`: keeps its input, builds the program, and prints what the test wants.
const RT: &str = "#!/bin/sh\n[ \"$*\" = run ] || exit 9\ncat >\"$KEPT\"\nmkdir -p out\n: >out/recipe_print.stamp\n\
                  echo 'what the prover says' >&2\nprintf '%b' \"$PRINTED\"\nexit \"$ENDS\"\n";

const FIRST: &str = "run: the first call proves and builds the program, which takes some minutes\n";

/// A tree with the script, the table of recipe A and what stands for `rt`.
fn tree(name: &str) -> PathBuf {
    let d = directory(name);
    for folder in ["crates/recipe_print", "recipes", "bin"] {
        fs::create_dir_all(d.join(folder)).unwrap();
    }
    fs::copy(Path::new(env!("CARGO_MANIFEST_DIR")).join("../../../run"), d.join("run")).unwrap();
    fs::write(d.join("recipes/a.table"), row_a()).unwrap();
    fs::write(d.join("bin/rt"), RT).unwrap();
    fs::set_permissions(d.join("bin/rt"), fs::Permissions::from_mode(0o755)).unwrap();
    d
}

/// Calls the script where the program prints this and ends so.
fn called(d: &Path, arguments: &[&str], printed: &str, ends: &str) -> Output {
    let path = format!("{}:{}", d.join("bin").display(), env::var("PATH").unwrap());
    let _ = fs::remove_file(d.join("kept"));
    let mut command = Command::new("sh");
    command.arg("run").args(arguments).current_dir(d).stdin(Stdio::null());
    command.env("PATH", path).env("KEPT", d.join("kept")).env("PRINTED", printed).env("ENDS", ends);
    command.output().unwrap()
}

#[test]
fn the_status_is_that_of_the_last_line() {
    let d = tree("script_status");
    for (due, last) in [
        (0, "finished 8"),
        (1, "refused 12 3"),
        (3, "paused 10000"),
        (4, "stuck 5"),
        (5, "tasks 63"),
        (5, "spent 9"),
        (5, "logfull 8192"),
        (6, "novalue 2"),
        (2, "spawned 1 0 2"),
    ] {
        let printed = format!("spawned 1 0 2\nwaits 1 0 2\n{last}\n");
        let output = called(&d, &["recipes/a.table"], &printed, "0");
        assert_eq!((status(&output), stdout(&output)), (due, printed), "{last}");
        assert_eq!(fs::read(d.join("kept")).unwrap(), row_a());
    }
}

#[test]
fn the_first_call_says_that_it_takes_time() {
    let d = tree("script_first");
    // The gate's program.
    fs::create_dir(d.join("crates/recipe_print/out")).unwrap();
    fs::write(d.join("crates/recipe_print/out/recipe_print"), "").unwrap();
    // Recipe A where no file is named.
    let first = called(&d, &[], "finished 8\n", "0");
    assert_eq!((status(&first), &*stdout(&first), &*stderr(&first)), (0, "finished 8\n", FIRST));
    assert_eq!(fs::read(d.join("kept")).unwrap(), row_a());
    let later = called(&d, &[], "finished 8\n", "0");
    assert_eq!((status(&later), &*stdout(&later), &*stderr(&later)), (0, "finished 8\n", ""));
}

#[test]
fn a_program_that_is_not_built_is_told() {
    let d = tree("script_unproved");
    let output = called(&d, &[], "", "1");
    let told = format!("{FIRST}what the prover says\n");
    assert_eq!((status(&output), stdout(&output), stderr(&output)), (2, String::new(), told));
}

#[test]
fn what_is_no_table_is_told_before_the_program_starts() {
    let d = tree("script_other");
    fs::write(d.join("a.recipe"), TEXT_A).unwrap();
    fs::write(d.join("umlaut"), "# \u{e4}\tb\r\n").unwrap();
    fs::write(d.join("empty"), "").unwrap();
    let text = "this is text: assemble it first with `recipe asm`";
    for (arguments, told) in [
        (&["a.recipe"][..], format!("a.recipe: {text}")),
        (&["umlaut"], format!("umlaut: {text}")),
        (&["recipes"], "recipes: this is a directory, and a table is due".to_string()),
        (&["empty"], "empty: the file is empty, and a table is due".to_string()),
        (&["missing"], "missing: there is no such file".to_string()),
        (&[""], ": there is no such file".to_string()),
        (&["a.recipe", "b"], "one file is due, and 2 are given: ./run [FILE]".to_string()),
    ] {
        let output = called(&d, arguments, "finished 8\n", "0");
        let due = (2, String::new(), format!("run: {told}\n"));
        assert_eq!((status(&output), stdout(&output), stderr(&output)), due, "{arguments:?}");
        assert!(!d.join("kept").exists(), "{arguments:?}");
    }
}

/// Tables that are refused, and ones with bytes that are also characters, are the program's business.
#[test]
fn other_bytes_are_given_to_the_program() {
    let d = tree("script_bytes");
    for bytes in [&[1u8][..], &[9, 0, 0, 0, 0, 0, 0, 0], &[255, 1], b"procedure main\0"] {
        fs::write(d.join("t"), bytes).unwrap();
        let output = called(&d, &["t"], "refused 11 0\n", "0");
        assert_eq!((status(&output), &*stdout(&output)), (1, "refused 11 0\n"), "{bytes:?}");
        assert_eq!(fs::read(d.join("kept")).unwrap(), bytes);
    }
}

#[test]
fn what_keeps_the_program_from_running_is_told() {
    let d = tree("script_kept");
    fs::create_dir(d.join("none")).unwrap();
    let empty = called(&d, &[], "", "0");
    assert_eq!((status(&empty), &*stderr(&empty)), (2, &*format!("{FIRST}run: the program printed nothing\n")));
    let run = |name: &str, value: &str| {
        let mut command = Command::new("/bin/sh");
        command.arg("run").current_dir(&d).stdin(Stdio::null());
        let path = format!("{}:{}", d.join("bin").display(), env::var("PATH").unwrap());
        let output = command.env("PATH", path).env("KEPT", d.join("kept")).env(name, value).output().unwrap();
        (status(&output), stderr(&output).lines().last().unwrap().to_string())
    };
    assert_eq!(run("TMPDIR", "/nowhere/at/all"), (2, "run: no temporary folder can be made".to_string()));
    fs::remove_file(d.join("bin/rt")).unwrap();
    fs::rename(d.join("crates/recipe_print"), d.join("crates/other")).unwrap();
    let (status, told) = run("LC_ALL", "C");
    assert!(status == 2 && told.ends_with("recipe_print: the print program's folder is not there"), "{told}");
}

/// By a link, and with a search path for folders.
#[test]
fn the_script_finds_its_tree() {
    let d = tree("script_link");
    let other = directory("script_link_other");
    std::os::unix::fs::symlink(d.join("run"), other.join("linked")).unwrap();
    std::os::unix::fs::symlink("linked", other.join("again")).unwrap();
    let path = format!("{}:{}", d.join("bin").display(), env::var("PATH").unwrap());
    let mut command = Command::new("sh");
    command.arg("again").current_dir(&other).env("CDPATH", &d).env("PATH", path).stdin(Stdio::null());
    let output = command.env("KEPT", d.join("kept")).env("PRINTED", "finished 8\\n").env("ENDS", "0").output().unwrap();
    // The gate takes no tree with links in it.
    for link in ["linked", "again"] {
        fs::remove_file(other.join(link)).unwrap();
    }
    assert_eq!((status(&output), &*stdout(&output)), (0, "finished 8\n"), "{}", stderr(&output));
    assert_eq!(fs::read(d.join("kept")).unwrap(), row_a());
}

#[test]
fn help_is_given() {
    let d = tree("script_help");
    for help in ["-h", "--help"] {
        let output = called(&d, &[help], "finished 8\n", "0");
        assert_eq!((status(&output), &*stderr(&output)), (0, ""));
        let text = stdout(&output);
        assert!(text.starts_with("usage: ./run [FILE]\n") && (0..7).all(|n| text.contains(&format!(" {n} "))));
        assert!(!d.join("kept").exists());
    }
}

/// As it stands in the repository, from another directory.
#[test]
fn the_script_can_be_called_from_anywhere() {
    let d = directory("script_anywhere");
    let script = Path::new(env!("CARGO_MANIFEST_DIR")).join("../../../run");
    let output = Command::new("sh").arg(script).args(["a", "b"]).current_dir(&d).output().unwrap();
    assert_eq!((status(&output), &*stdout(&output)), (2, ""));
}
