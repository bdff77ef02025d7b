//! What is said of a file that is given as a table and is none.

mod common;

use std::fs;
use std::path::PathBuf;

use common::{directory, recipe, record, row_a, status, stderr, stdout, Generator, TEXT_A};
use recipe::table::describe;
use recipe_runner::{Refusal, State};

/// A directory with files that are no tables.
fn with_files(name: &str) -> PathBuf {
    let d = directory(name);
    fs::write(d.join("a.table"), row_a()).unwrap();
    fs::write(d.join("mine.txt"), TEXT_A).unwrap();
    fs::write(d.join("long.txt"), TEXT_A.repeat(1_000)).unwrap();
    fs::write(d.join("picture"), "<svg xmlns=\"x\">").unwrap();
    fs::write(d.join("empty"), "").unwrap();
    fs::write(d.join("odd"), [&row_a()[..], &[0; 3]].concat()).unwrap();
    fs::write(d.join("long"), vec![1; 50_000]).unwrap();
    fs::create_dir(d.join("folder")).unwrap();
    assert_eq!(status(&recipe(&d, &["run", "a.table", "--save", "state"], b"")), 0);
    d
}

/// Each command that takes a table.
const TAKERS: [&[&str]; 6] = [&["check"], &["run"], &["dis"], &["why"], &["makers"], &["timeline"]];

#[test]
fn other_files_are_told_by_each_command() {
    let d = with_files("words_other");
    let text = "this is text: did you mean `recipe asm`? assemble it first, or give it a name that ends in \".recipe\" (any other \
                is a table's)";
    for (file, refusal, sentence) in [
        ("mine.txt", "refused 11 0", text),
        ("long.txt", "refused 11 0", text),
        ("picture", "refused 11 0", "this is a picture, and a table is due"),
        ("state", "refused 12 0", "this is a saved state, and a table is due"),
        ("empty", "refused 11 0", "the table is empty"),
        ("odd", "refused 11 0", "the table's length 75 is no multiple of 8: 3 bytes are left over"),
        ("long", "refused 11 0", "the table's bytes are more than 32,768"),
    ] {
        for taker in TAKERS {
            let more: &[&str] = match taker[0] {
                "why" => &["state"],
                "makers" => &["1", "2"],
                _ => &[],
            };
            let output = recipe(&d, &[taker, &[file], more].concat(), b"");
            let told = format!("{file}: {refusal}: {sentence}\n");
            let printed = match taker[0] {
                "check" => told.clone(),
                "run" | "why" => format!("{refusal}\n"),
                _ => String::new(),
            };
            let told = if taker == ["check"] { String::new() } else { told };
            assert_eq!((status(&output), stdout(&output), stderr(&output)), (1, printed, told), "{taker:?} {file}");
        }
    }
}

#[test]
fn a_directory_is_told_as_one() {
    let d = with_files("words_directory");
    let told = "recipe: folder: this is a directory, and a file is due\n";
    for line in [
        &["check", "folder"][..],
        &["run", "folder"],
        &["dis", "folder"],
        &["why", "folder", "state"],
        &["why", "a.table", "folder"],
        &["makers", "folder", "1", "2"],
        &["timeline", "folder"],
        &["state", "folder"],
        &["asm", "folder"],
        &["run", "a.table", "--resume", "folder"],
        &["dis", "a.table", "-o", "folder"],
        &["state", "state", "--block", "folder"],
        &["run", "a.table", "--save", "folder"],
        &["run", "a.table", "--save", "folder", "--force"],
    ] {
        let output = recipe(&d, line, b"");
        // `check` prints a line for each file, beginning with its name.
        let told = if line[0] == "check" { told.trim_start_matches("recipe: ") } else { told };
        assert_eq!((status(&output), stdout(&output) + &stderr(&output)), (2, told.to_string()), "{line:?}");
    }
}

#[test]
fn a_table_given_as_text_is_told() {
    let d = with_files("words_table");
    let output = recipe(&d, &["asm", "a.table"], b"");
    assert_eq!((status(&output), &*stdout(&output)), (1, ""));
    assert!(stderr(&output).contains("this is a table and not text"), "{}", stderr(&output));
}

/// The word behind a part of a sentence.
fn behind<'s>(sentence: &'s str, part: &str) -> &'s str {
    sentence.split(part).nth(1).unwrap_or_else(|| panic!("{sentence}")).split([' ', ',']).next().unwrap()
}

/// The record at fault as the sentence wants it, if it says so in full.
fn mended(fault: [u8; 8], number: u32, sentence: &str) -> Option<[u8; 8]> {
    let mut mended = fault;
    match number {
        12 => match sentence.split(" is due ").next()?.rsplit(": ").next()? {
            "a procedure" => return Some(record(1, 0, 0, 0)),
            "a statement" => return Some(record(2, 0, 0, 0)),
            "an expression" => return Some(record(9, 0, 0, 0)),
            due => panic!("{due}"),
        },
        13 => {
            assert_eq!(behind(sentence, "it is "), u16::from_le_bytes([fault[2], fault[3]]).to_string());
            let due = sentence.split(", and ").nth(1)?.split(" is due,").next()?.parse::<u16>().ok()?;
            mended[2..4].copy_from_slice(&due.to_le_bytes());
        }
        14 => {
            assert_eq!(behind(sentence, "it is "), fault[1].to_string());
            mended[1] = behind(sentence, ", and ").parse().unwrap();
        }
        15 => {
            let value = i32::from_le_bytes([fault[4], fault[5], fault[6], fault[7]]);
            assert_eq!(behind(sentence, "the value is "), value.to_string());
            let due: i32 = behind(sentence, ", and ").parse().unwrap();
            mended[4..].copy_from_slice(&due.to_le_bytes());
        }
        _ => return None,
    }
    Some(mended)
}

/// Of generated tables with damaged bytes: what is said to be due is accepted there.
#[test]
fn what_is_due_is_accepted() {
    let mut generator = Generator::new(99);
    let mut seen = [0; 6];
    for _ in 0..30_000 {
        let mut table = generator.table();
        let at = generator.random.below(table.len());
        table[at] = generator.random.pick(&[0, 1, 2, 5, 8, 9, 11, 12, 64, 65, 200, 255]);
        let Err(Refusal { number, place }) = State::start(&table).map(drop) else { continue };
        let sentence = describe(&table, Refusal { number, place });
        let at = 8 * place as usize;
        let fault: [u8; 8] = table[at..at + 8].try_into().unwrap();
        assert!(sentence.starts_with(&format!("record {place}, {}(", fault[0])), "{sentence}");
        let Some(mended) = mended(fault, number, &sentence) else { continue };
        table[at..at + 8].copy_from_slice(&mended);
        let again = State::start(&table).err().filter(|again| (again.number, again.place) == (number, place));
        // An operand with the span that its kind has may still not be where its holder needs one.
        let other = again.map(|again| describe(&table, again)).filter(|again| !again.contains(" left "));
        assert_eq!(other, None, "{sentence}");
        seen[number as usize - 11] += 1;
    }
    assert!(seen[1..5].iter().all(|count| *count > 100), "{seen:?}");
}
