//! `recipe makers`: whether two makers in one recipe are kept apart, told of texts and tables.

mod common;

use std::fs;
use std::path::{Path, PathBuf};

use common::{directory, recipe, root, row_a, status, stderr, stdout, BAD, REFUSED, TEXT_A};

/// Procedures 1 and 2 are the pump maker's, 3 and 4 the drum maker's.
const TEXT: &str = "\
procedure main
    spawn pumping pump 5
    spawn drumming drum 0

procedure pump pressure
    spawn filling fill pressure
    set valve0 1
    await filling
    set valve0 0

procedure fill pressure
    guard valve0
    set valve1 pressure

procedure drum
    spawn rolling roll 0
    await rolling
    set valve2 1

procedure roll
    suspend
";
const APART: &str = "apart: neither maker's code changes which values the other's valves get, or in which order: the \
                     pump maker's valves 0, 1; the drum maker's valve 2\n";

const PROCEDURES: &str = "no procedure is both makers', and the main one is neither's";
const MAIN: &str = "the main block only spawns one procedure of each maker, with constant arguments, into variables \
                    that nobody else names";
const NAMES: &str = "the makers name disjoint variables and valves";
const SPAWNS: &str = "a maker spawns only its own procedures";
const AWAITS: &str =
    "a maker awaits only variables 8 to 63 that are set by spawn alone, and spawns only into such variables";
const READS: &str = "no expression reads the variables that a maker awaits or spawns into";

/// Writes a text, its table, and the text in the table's own notation.
fn write(d: &Path, text: &str) {
    fs::write(d.join("t.recipe"), text).unwrap();
    assert_eq!(status(&recipe(d, &["asm", "t.recipe", "-o", "t.table"], b"")), 0, "{text}");
    let raw = recipe(d, &["dis", "--raw", "t.table"], b"");
    fs::write(d.join("raw.recipe"), raw.stdout).unwrap();
}

fn with_text(name: &str, text: &str) -> PathBuf {
    let d = directory(name);
    write(&d, text);
    d
}

/// The exit status and standard output of a line that tells nothing else.
fn made(d: &Path, arguments: [&str; 3]) -> (i32, String) {
    let input = fs::read(d.join("t.table")).unwrap();
    let output = recipe(d, &[&["makers"], &arguments[..]].concat(), &input);
    assert_eq!(stderr(&output), "", "{arguments:?}");
    (status(&output), stdout(&output))
}

#[test]
fn makers_that_are_apart_are_told() {
    let d = with_text("makers_apart", TEXT);
    for arguments in [
        ["t.recipe", "pump,fill", "drum,roll"],
        ["t.recipe", "fill,pump", "roll,drum"],
        ["t.recipe", "1,2", "3,4"],
        ["t.recipe", "pump,2", " drum , 4 "],
        ["t.recipe", "pump,1,fill,fill", "4,3,4"],
        ["t.table", "1,2", "3,4"],
        ["t.table", "2,1,2", "03,4"],
        ["raw.recipe", "1,2", "3,4"],
    ] {
        assert_eq!(made(&d, arguments), (0, format!("{}: {APART}", arguments[0])), "{arguments:?}");
    }
    assert_eq!(made(&d, ["-", "1,2", "3,4"]), (0, format!("standard input: {APART}")));
    let (told, _) = APART.split_once("the pump").unwrap();
    let other = format!("t.table: {told}the pump maker's valve 2; the drum maker's valves 0, 1\n");
    assert_eq!(made(&d, ["t.table", "3,4", "1,2"]), (0, other));
    // A procedure of nobody's is never spawned by the makers.
    write(&d, &format!("{TEXT}procedure nobodys\n    set valve0 pumping\n    spawn filling main valve2\n"));
    assert_eq!(made(&d, ["t.recipe", "pump,fill", "drum,roll"]), (0, format!("t.recipe: {APART}")));
}

/// A text with one line changed for others, what breaks a sentence then, where, and which sentence.
const BREACHES: &[(&str, &str, usize, usize, &str, &str)] = &[
    (
        "set valve2 1",
        "set valve2 drumming",
        3,
        5,
        "the main block spawns into \"drumming\", which the drum maker also names (line 18)",
        MAIN,
    ),
    (
        "spawn drumming drum 0",
        "spawn drumming drum 2 - 2",
        3,
        5,
        "the argument of this spawn of the main block is no constant",
        MAIN,
    ),
    (
        "spawn drumming drum 0",
        "spawn drumming fill 0",
        3,
        5,
        "the main block spawns a second procedure of the pump maker's here",
        MAIN,
    ),
    (
        "spawn drumming drum 0",
        "spawn drumming main 0",
        3,
        5,
        "the main block spawns \"main\", the main procedure",
        MAIN,
    ),
    ("    spawn drumming drum 0\n", "", 1, 1, "the main block spawns no procedure of the drum maker's", MAIN),
    (
        "spawn drumming drum 0",
        "spawn drumming drum 0\n    suspend",
        4,
        5,
        "the main block has a statement here that is no spawn",
        MAIN,
    ),
    (
        "set valve2 1",
        "set valve2 valve1",
        13,
        5,
        "both makers name \"valve1\" (the drum maker first in line 18)",
        NAMES,
    ),
    ("    suspend", "    await filling", 6, 5, "both makers name \"filling\" (the drum maker first in line 21)", NAMES),
    (
        "spawn filling fill pressure",
        "spawn filling roll pressure",
        6,
        5,
        "the pump maker spawns \"roll\", which is the drum maker's",
        SPAWNS,
    ),
    (
        "spawn rolling roll 0",
        "spawn rolling main 0",
        16,
        5,
        "the drum maker spawns \"main\", the main procedure",
        SPAWNS,
    ),
    ("await filling", "await valve1", 8, 5, "the pump maker awaits \"valve1\", a valve", AWAITS),
    ("    suspend", "    await parameter", 21, 5, "the drum maker awaits its parameter, which is no variable", AWAITS),
    (
        "    suspend",
        "    set nobody 0\n    await nobody",
        22,
        5,
        "the drum maker awaits \"nobody\", which it also sets (line 21)",
        AWAITS,
    ),
    (
        "guard valve0",
        "guard valve0 > filling",
        12,
        20,
        "the pump maker reads \"filling\", into which it spawns (line 6)",
        READS,
    ),
    (
        "set valve2 1",
        "set valve2 1 + rolling / 2",
        18,
        20,
        "the drum maker reads \"rolling\", into which it spawns (line 16)",
        READS,
    ),
];

#[test]
fn what_breaks_a_sentence_is_told_at_its_line_and_column() {
    let d = directory("makers_breaches");
    for (line, others, row, column, told, sentence) in BREACHES {
        let text = TEXT.replacen(line, others, 1);
        write(&d, &text);
        let (shown, mark) = (text.lines().nth(row - 1).unwrap(), " ".repeat(column - 1));
        let due = format!("t.recipe:{row}:{column}: {told}: {sentence}\n  {shown}\n  {mark}^\n");
        assert_eq!(made(&d, ["t.recipe", "pump,fill", "drum,roll"]), (1, due));
    }
}

#[test]
fn a_procedure_of_both_makers_is_told_at_its_header() {
    let d = with_text("makers_both", TEXT);
    let due = format!("t.recipe:20:1: \"roll\" is given to both makers: {PROCEDURES}\n  procedure roll\n  ^\n");
    assert_eq!(made(&d, ["t.recipe", "pump,fill,roll", "drum,roll"]), (1, due));
    let (status, told) = made(&d, ["t.recipe", "main,pump,fill", "drum,roll"]);
    let due = format!("t.recipe:1:1: \"main\", the main procedure, is given to the pump maker: {PROCEDURES}\n");
    assert_eq!((status, told.starts_with(&due)), (1, true), "{told}");
    let (status, told) = made(&d, ["t.table", "1,2,4", "3,4"]);
    let due = format!("t.table: record 24, 1(0,1,0) (procedure): procedure 4 is given to both makers: {PROCEDURES}\n");
    assert_eq!((status, told), (1, due));
}

/// What it names is both makers', and what it reads may be what one of them awaits.
#[test]
fn what_a_procedure_of_both_makers_names_is_told() {
    let d = with_text("makers_both_name", &TEXT.replacen("    suspend", "    set valve3 rolling", 1));
    let due = [
        &*format!("t.recipe:20:1: \"roll\" is given to both makers: {PROCEDURES}"),
        "  procedure roll",
        "  ^",
        &format!("t.recipe:21:5: both makers name \"valve3\" (the drum maker first in line 21): {NAMES}"),
        "      set valve3 rolling",
        "      ^",
        &format!("t.recipe:21:16: both makers name \"rolling\" (the drum maker first in line 16): {NAMES}"),
        "      set valve3 rolling",
        "                 ^",
        &format!("t.recipe:21:16: the drum maker reads \"rolling\", into which it spawns (line 16): {READS}"),
        "      set valve3 rolling",
        "                 ^\n",
    ];
    assert_eq!(made(&d, ["t.recipe", "pump,fill,roll", "drum,roll"]), (1, due.join("\n")));
    // The only procedure of either.
    fs::write(d.join("t.table"), row_a()).unwrap();
    let other = "the main block has a statement here that is no spawn";
    let shared = "both makers name variable 1 (the drum maker first in record 7)";
    let due = [
        format!("t.table: record 3, 8(8,0,0) (await): {other}: {MAIN}\n"),
        format!("t.table: record 4, 3(0,1,0) (set): {other}: {MAIN}\n"),
        format!("t.table: record 6, 1(0,2,0) (procedure): procedure 1 is given to both makers: {PROCEDURES}\n"),
        format!("t.table: record 7, 3(1,1,0) (set): {shared}: {NAMES}\n"),
    ];
    assert_eq!(made(&d, ["t.table", "1", "1"]), (1, due.concat()));
}

#[test]
fn what_breaks_a_sentence_of_a_table_is_told_at_its_record() {
    let d = with_text("makers_records", &TEXT.replacen("guard valve0", "guard valve0 < filling", 1));
    let told = format!("the pump maker reads variable 10, into which it spawns (record 6): {READS}");
    assert_eq!(
        made(&d, ["t.table", "1,2", "3,4"]),
        (1, format!("t.table: record 17, 10(10,0,0) (variable): {told}\n"))
    );
    let due = format!("standard input: record 17, 10(10,0,0) (variable): {told}\n");
    assert_eq!(made(&d, ["-", "1,2", "3,4"]), (1, due));
    // A text in the table's own notation has lines, and no names.
    let told = format!("the pump maker reads variable 10, into which it spawns (line 7): {READS}");
    let due = format!("raw.recipe:18:13: {told}\n              10(10,0,0)\n              ^\n");
    assert_eq!(made(&d, ["raw.recipe", "1,2", "3,4"]), (1, due));
}

/// A declared name is a valve's, too.
#[test]
fn several_are_told_in_the_order_of_their_places() {
    let text = "variable tap 0\n".to_string() + &TEXT.replacen("    suspend", "    set tap rolling\n    await tap", 1);
    let d = with_text("makers_several", &text);
    let due = [
        &*format!("t.recipe:8:5: both makers name \"tap\" (the drum maker first in line 22): {NAMES}"),
        "      set valve0 1",
        "      ^",
        &format!("t.recipe:22:13: the drum maker reads \"rolling\", into which it spawns (line 17): {READS}"),
        "      set tap rolling",
        "              ^",
        &format!("t.recipe:23:5: the drum maker awaits \"tap\", a valve: {AWAITS}"),
        "      await tap",
        "      ^\n",
    ];
    assert_eq!(made(&d, ["t.recipe", "pump,fill", "drum,roll"]), (1, due.join("\n")));
}

#[test]
fn no_more_than_twenty_are_told() {
    let d = directory("makers_many");
    for (count, more) in [(19, ""), (20, ""), (21, "... and 1 more\n"), (100, "... and 80 more\n")] {
        write(&d, &TEXT.replacen("    suspend", &"    set valve2 rolling\n".repeat(count), 1));
        for (file, head) in [("t.recipe", "t.recipe:"), ("t.table", "t.table: record "), ("raw.recipe", "raw.recipe:")]
        {
            let (status, told) = made(&d, [file, "1,2", "3,4"]);
            assert_eq!(
                (status, told.lines().filter(|line| line.starts_with(head)).count()),
                (1, count.min(20)),
                "{told}"
            );
            assert!(told.ends_with(&format!("\n{more}")) && told.contains("... and") != more.is_empty(), "{told}");
        }
    }
}

#[test]
fn wrong_lines_are_told() {
    let d = with_text("makers_wrong", TEXT);
    let no_names = "is no number, and without a text in the readable notation procedures have no names";
    for (arguments, told) in [
        (&[][..], "TABLE is missing: the name of a file is due".to_string()),
        (&["t.recipe"], "PUMP-PROCEDURES is missing: a list of procedures is due".to_string()),
        (&["t.recipe", "1"], "DRUM-PROCEDURES is missing: a list of procedures is due".to_string()),
        (
            &["t.recipe", "1", "2", "3"],
            "\"3\" is one argument too many after TABLE and PUMP-PROCEDURES and DRUM-PROCEDURES".to_string(),
        ),
        (
            &["t.recipe", "", "3"],
            "PUMP-PROCEDURES: the list is empty, and a maker has at least one procedure".to_string(),
        ),
        (
            &["t.recipe", "1", "3,"],
            "DRUM-PROCEDURES: between two commas, or beside one, a procedure is missing".to_string(),
        ),
        (&["t.recipe", "1,5", "3"], "PUMP-PROCEDURES: there is no procedure \"5\": the last one is 4".to_string()),
        (
            &["t.recipe", "1", "drmu"],
            "DRUM-PROCEDURES: there is no procedure \"drmu\"; did you mean \"drum\"?".to_string(),
        ),
        (&["t.recipe", "pumping", "3"], "PUMP-PROCEDURES: there is no procedure \"pumping\"".to_string()),
        (&["t.table", "pump", "3"], format!("PUMP-PROCEDURES: \"pump\" {no_names}")),
        (&["raw.recipe", "1", "p3"], format!("DRUM-PROCEDURES: \"p3\" {no_names}")),
        (&["t.recipe", "1", "--drum", "3"], "there is no option \"--drum\"".to_string()),
    ] {
        let output = recipe(&d, &[&["makers"], arguments].concat(), b"");
        let due = format!("recipe: makers: {told} (\"recipe makers --help\" tells more)\n");
        assert_eq!((status(&output), &*stdout(&output), stderr(&output)), (2, "", due), "{arguments:?}");
    }
}

#[test]
fn files_that_cannot_be_read_are_told() {
    let d = directory("makers_missing");
    for (file, told) in [
        ("missing.table", "missing.table: No such file or directory"),
        (".", ".: this is a directory, and a file is due"),
    ] {
        let output = recipe(&d, &["makers", file, "1", "3"], b"");
        assert_eq!((status(&output), &*stdout(&output), stderr(&output)), (2, "", format!("recipe: {told}\n")));
    }
}

/// As by the other commands that read one, whatever the lists.
#[test]
fn refused_tables_and_texts_at_fault_are_told() {
    let d = directory("makers_refused");
    fs::write(d.join("refused.table"), REFUSED).unwrap();
    fs::write(d.join("bad.recipe"), BAD).unwrap();
    fs::write(d.join("text"), TEXT).unwrap();
    for file in ["refused.table", "bad.recipe", "text"] {
        let listed = recipe(&d, &["dis", file], b"");
        assert!(status(&listed) == 1 && !listed.stderr.is_empty());
        for lists in [["1", "2"], ["", "2"], ["9", "x"]] {
            assert_eq!(recipe(&d, &["makers", file, lists[0], lists[1]], b""), listed, "{file} {lists:?}");
        }
    }
}

#[test]
fn warnings_change_nothing() {
    let d = directory("makers_warned");
    fs::write(d.join("t.recipe"), TEXT.replacen("    suspend", "    set unused 1", 1)).unwrap();
    let output = recipe(&d, &["makers", "t.recipe", "1,2", "3,4"], b"");
    assert_eq!((status(&output), stdout(&output)), (0, format!("t.recipe: {APART}")));
    assert!(stderr(&output).starts_with("t.recipe:21:9: warning: \"unused\" is set"), "{}", stderr(&output));
}

/// Its main procedure awaits the task that it spawns, and sets a valve.
#[test]
fn a_recipe_that_was_not_written_for_two_makers_is_told() {
    let d = with_text("makers_one", &format!("{TEXT_A}procedure wring\n  set valve2 1\n"));
    let other = "the main block has a statement here that is no spawn";
    let due = [
        format!("t.recipe:3:3: {other}: {MAIN}\n    await x\n    ^\n"),
        format!("t.recipe:4:3: {other}: {MAIN}\n    set valve0 1\n    ^\n"),
    ];
    assert_eq!(made(&d, ["t.recipe", "press", "wring"]), (1, due.concat()));
    let due = [
        format!("t.table: record 3, 8(8,0,0) (await): {other}: {MAIN}\n"),
        format!("t.table: record 4, 3(0,1,0) (set): {other}: {MAIN}\n"),
    ];
    assert_eq!(made(&d, ["t.table", "1", "2"]), (1, due.concat()));
}

/// The block of indented lines behind a sentence, without the indentation.
fn block(text: &str, sentence: &str) -> String {
    let behind = text.split_once(sentence).unwrap().1;
    let lines = behind.trim_start_matches('\n').lines().take_while(|line| line.is_empty() || line.starts_with("    "));
    lines.map(|line| format!("{}\n", line.get(4..).unwrap_or_default())).collect()
}

#[test]
fn the_documents_tell_what_is_told() {
    let output = recipe(&root(""), &["makers", "recipes/makers.recipe", "pump,fill", "drum,roll"], b"");
    let integration = fs::read_to_string(root("docs/INTEGRATION.md")).unwrap();
    assert_eq!(status(&output), 0);
    assert!(integration.contains(&format!("\n    {}", stdout(&output))), "{}", stdout(&output));
    let manual = fs::read_to_string(root("docs/MANUAL.md")).unwrap();
    assert!(manual.contains(&format!("    {}", stdout(&output).replace("order: ", "order:\n    "))));
    let d = directory("makers_manual");
    let text = block(&manual, "In this recipe the drum maker waits for the pump maker's task:\n");
    fs::write(d.join("press.recipe"), &text).unwrap();
    assert_eq!(status(&recipe(&d, &["asm", "press.recipe", "-o", "press.table"], b"")), 0, "{text}");
    for (arguments, sentence) in [
        (["press.recipe", "pump,fill", "drum"], "`recipe makers press.recipe pump,fill drum` tells:\n"),
        (["press.table", "1,2", "3"], "Of its table, with the lists `1,2` and `3`:\n"),
    ] {
        let output = recipe(&d, &[&["makers"], &arguments[..]].concat(), b"");
        assert_eq!((status(&output), stdout(&output) + "\n"), (1, block(&manual, sentence)));
    }
}
