//! The example of docs/FORMAT.md, byte by byte.

use recipe_runner::{Answer, State, RECORD, STATE};

const GUIDE: &str = include_str!("../../../../docs/FORMAT.md");

/// The records under a heading of the example: each one's index and bytes.
fn records(part: &str) -> Vec<(usize, Vec<u8>)> {
    let (_, from) = GUIDE.split_once(&format!("<!-- example: {part} -->")).unwrap();
    let (part, _) = from.split_once("<!-- example: ").unwrap();
    let rows = part.lines().filter_map(|line| line.strip_prefix("    record "));
    let row = |line: &str| {
        let (index, rest) = line.split_once(' ').unwrap();
        let bytes = rest.trim_start().split(' ').take(RECORD).map(|byte| u8::from_str_radix(byte, 16).unwrap());
        (index.parse().unwrap(), bytes.collect())
    };
    rows.map(row).collect()
}

/// The bytes of the records shown, all others zero.
fn bytes(part: &str, length: usize) -> Vec<u8> {
    let mut bytes = vec![0; length];
    for (index, record) in records(part) {
        bytes[RECORD * index..RECORD * (index + 1)].copy_from_slice(&record);
    }
    bytes
}

#[test]
fn the_example_is_what_the_library_does() {
    let table = bytes("table", 9 * RECORD);
    assert_eq!(records("table").len(), 9);
    let mut state = State::start(&table).unwrap();
    assert_eq!(&state.as_bytes()[..], bytes("fresh", STATE));
    let mut log = [0; 8 * RECORD];
    state.run(&table, 3, &mut log).unwrap();
    assert_eq!(&state.as_bytes()[..], bytes("three", STATE));
    let mut block = *State::start(&table).unwrap().as_bytes();
    let answer = recipe_runner::run(&table, &mut block, 100, &mut log);
    assert_eq!(answer, Answer { number: 0, steps: 8, records: 8, place: 0 });
    assert_eq!(&log[..], bytes("log", 8 * RECORD));
}

#[test]
fn the_places_of_the_example_are_all_there_are() {
    let table = bytes("table", 9 * RECORD);
    let mut fresh = *State::start(&table).unwrap().as_bytes();
    let mut places = Vec::new();
    for place in 0..20 {
        fresh[RECORD + 2] = place;
        let number = recipe_runner::run(&table, &mut fresh.clone(), 0, &mut []).number;
        places.extend((number != 22).then_some(place));
    }
    assert_eq!(places, [1, 3, 4, 6, 7, 9]);
}
