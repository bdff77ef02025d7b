//! The recipes that come with the tool: each text gives the table beside it and ends as it says.

use std::fs;
use std::path::{Path, PathBuf};

use recipe::asm::assemble;
use recipe_runner::{Ending, State};

const RECIPES: [(&str, Ending, u32); 12] = [
    ("a", Ending::Finished, 8),
    ("b", Ending::Finished, 9),
    ("c", Ending::Finished, 3),
    ("d", Ending::Stuck, 2),
    ("e", Ending::Finished, 1),
    ("f", Ending::Tasks, 63),
    ("press", Ending::Finished, 8),
    ("deadlock", Ending::Stuck, 9),
    ("guard", Ending::Finished, 22),
    ("novalue", Ending::Novalue { place: 5 }, 2),
    ("optional", Ending::Finished, 29),
    ("makers", Ending::Finished, 56),
];

fn directory() -> PathBuf {
    Path::new(env!("CARGO_MANIFEST_DIR")).join("../../../recipes")
}

#[test]
fn texts_and_tables_agree() {
    for (name, ending, steps) in RECIPES {
        let text = fs::read_to_string(directory().join(name).with_extension("recipe")).unwrap();
        let table = fs::read(directory().join(name).with_extension("table")).unwrap();
        assert_eq!(assemble(&text).unwrap(), table, "{name}");
        let ran = State::start(&table).unwrap().run(&table, 10_000, &mut [0; 32_768]).unwrap();
        assert_eq!((ran.ending, ran.steps), (ending, steps), "{name}");
    }
}

#[test]
fn every_recipe_is_listed_here() {
    let files = fs::read_dir(directory()).unwrap().map(|entry| entry.unwrap().path());
    assert_eq!(files.filter(|path| path.extension().is_some_and(|e| e == "recipe")).count(), RECIPES.len());
}
