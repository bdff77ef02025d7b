//! Tables to text and back.

mod common;

use std::collections::BTreeSet;

use common::{Generator, Random};
use recipe::asm::assemble;
use recipe::course::{Course, Most};
use recipe::picture::{draw, Heading};
use recipe::timeline::Timeline;
use recipe::{listing, raw};
use recipe_runner::State;

const TABLES: usize = 4_000;

#[test]
fn generated_tables_come_back() {
    let mut generator = Generator::new(1);
    let mut seen = BTreeSet::new();
    let mut longest = 0;
    for _ in 0..TABLES {
        let table = generator.table();
        assert!(State::start(&table).is_ok());
        let text = listing::list(&table).unwrap();
        assert_eq!(assemble(&text).as_ref(), Ok(&table), "{text}");
        let rows = raw::list(&table);
        assert_eq!(assemble(&rows).as_ref(), Ok(&table), "{rows}");
        seen.extend(table.chunks_exact(8).map(|record| (record[0], record[1])));
        longest = longest.max(table.len());
    }
    // Kinds by name: every one was met.
    for (kind, first, last) in [(3, 0, 64), (6, 8, 64), (8, 0, 64), (10, 0, 64), (11, 0, 7), (12, 0, 1)] {
        assert!((first..=last).all(|name| seen.contains(&(kind, name))), "kind {kind}");
    }
    assert!([1, 2, 4, 5, 7, 9, 13].iter().all(|kind| seen.contains(&(*kind, 0))));
    assert!(longest > 8_000, "{longest}");
}

#[test]
fn the_extremes_come_back() {
    let full = format!("procedure main\n{}", "  skip\n".repeat(4_095));
    let procedures: String = (0..4_096).map(|number| format!("procedure q{number}\n")).collect();
    let nested: String = (1..16).map(|depth| format!("{}if 1\n", " ".repeat(depth))).collect();
    let variables: String = (8..64).map(|number| format!("  set x{number} {number}\n")).collect();
    for text in [
        full,
        procedures,
        format!("procedure main\n{nested}"),
        format!("procedure main\n{variables}"),
        format!("variable x 8\nprocedure main\n  set valve0 {}x{}", "-(".repeat(14), ")".repeat(14)),
        format!("variable x 8\nprocedure main\n  set valve0 {}x", "not ".repeat(14)),
        format!("variable x 8\nprocedure main\n  guard {}x", "not ".repeat(14)),
    ] {
        let table = assemble(&text).unwrap();
        assert_eq!(assemble(&listing::list(&table).unwrap()).unwrap(), table);
        assert_eq!(assemble(&raw::list(&table)).unwrap(), table);
    }
}

#[test]
fn tables_of_any_content_are_survived() {
    let mut generator = Generator::new(2);
    for _ in 0..TABLES {
        let mut table = generator.table();
        for _ in 0..1 + generator.random.below(3) {
            let at = generator.random.below(table.len());
            table[at] = generator.random.below(256) as u8;
        }
        table.truncate(table.len() - generator.random.below(2));
        let rows = raw::list(&table);
        match listing::list(&table) {
            Ok(text) => assert_eq!(assemble(&text), Ok(table)),
            // The records as listed, one a line, have the same fault at the same place.
            Err(refusal) if refusal.number != 11 => {
                let fault = assemble(&rows).unwrap_err().told()[0].clone();
                assert_eq!(fault.at.line, refusal.place as usize + 1);
                let told = format!("refused {} at record {}", refusal.number, refusal.place);
                assert!(fault.sentence.contains(&told), "{}", fault.sentence);
            }
            Err(_) => {}
        }
    }
}

/// What random texts are made of.
#[rustfmt::skip]
const PIECES: [&str; 43] = [
    "procedure ", "main", "\n", "\n ", "\n  ", "\n    ", " set ", " if ", " while ", " spawn ", " await ", " guard ",
    " skip", " suspend", " x ", " y ", "valve3 ", " 1 ", " -5 ", "(", ")", " + ", " - ", " < ", " == ", " not ", " and ",
    " <= ", " > ", " >= ", " != ", " or ", " 0x1F ", "%", "#", "é", "\t", "variable ",
    "1(0,0,0) ", "parameter ", "99999999999 ", ",", "\u{0}",
];

#[test]
fn texts_of_any_content_are_survived() {
    let mut random = Random(3);
    let mut accepted = 0;
    for _ in 0..20_000 {
        let mut text = String::from(random.pick(&["", "procedure main\n  ", "procedure main p\n  set x ", "1("]));
        for _ in 0..random.below(12) {
            text.push_str(random.pick(&PIECES));
        }
        if let Ok(table) = assemble(&text) {
            accepted += 1;
            assert_eq!(assemble(&listing::list(&table).unwrap()), Ok(table), "{text}");
        }
    }
    assert!(accepted > 300, "{accepted}");
}

#[test]
fn pictures_of_generated_tables_can_be_drawn() {
    let mut generator = Generator::new(4);
    for _ in 0..300 {
        let table = generator.table();
        let most = Most { steps: 2_000, records: 500 };
        let course = Course::of(&table, &State::start(&table).unwrap(), most).unwrap();
        let timeline = Timeline::of(&course);
        assert_eq!(timeline.records, course.seen.len());
        let (ending, steps) = (course.ending, course.steps);
        let heading = Heading { name: "<&>", ending, steps, most: most.steps, resumed: None, procedures: &[] };
        let picture = draw(&timeline, &heading);
        assert!(picture.contains("&lt;&amp;&gt;"));
    }
}
