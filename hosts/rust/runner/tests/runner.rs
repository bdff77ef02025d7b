//! The wrapper on the archive.

use recipe_runner::*;

/// Recipe A of the scope document.
const A: [[u8; 8]; 9] = [
    [1, 0, 5, 0, 0, 0, 0, 0],
    [6, 8, 1, 0, 1, 0, 0, 0],
    [9, 0, 0, 0, 5, 0, 0, 0],
    [8, 8, 0, 0, 0, 0, 0, 0],
    [3, 0, 1, 0, 0, 0, 0, 0],
    [9, 0, 0, 0, 1, 0, 0, 0],
    [1, 0, 2, 0, 0, 0, 0, 0],
    [3, 1, 1, 0, 0, 0, 0, 0],
    [10, 64, 0, 0, 0, 0, 0, 0],
];

#[test]
fn recipe_a_runs() {
    let table = A.concat();
    let mut log = [0; 256];
    let mut state = State::start(&table).unwrap();
    let ran = state.run(&table, 100, &mut log).unwrap();
    assert_eq!(ran, Ran { ending: Ending::Finished, steps: 8, records: 8 });
    let last = records(&log, ran.records).last().unwrap();
    assert_eq!(last.to_string(), "ended 1 0 0");
}

/// What a host with a sensor makes of a state between two calls.
fn with_variable_8(state: &State, value: u8) -> State {
    let mut block = *state.as_bytes();
    block[VARIABLES_AT + 8 * VARIABLE] = value;
    State::from_bytes(&block).unwrap()
}

/// Main waits at a guard over variable 8.
const GUARD: [[u8; 8]; 3] = [[1, 0, 2, 0, 0, 0, 0, 0], [13, 0, 1, 0, 0, 0, 0, 0], [10, 8, 0, 0, 0, 0, 0, 0]];

#[test]
fn a_guard_is_tested_anew_by_each_call() {
    let table = GUARD.concat();
    let mut log = [0; 64];
    let mut state = State::start(&table).unwrap();
    let ran = state.run(&table, 100, &mut log).unwrap();
    assert_eq!(ran, Ran { ending: Ending::Stuck, steps: 1, records: 1 });
    assert_eq!(records(&log, 1).next().unwrap().to_string(), "waits 1 0 0");
    let ran = with_variable_8(&state, 1).run(&table, 100, &mut log).unwrap();
    assert_eq!(ran, Ran { ending: Ending::Finished, steps: 2, records: 2 });
}

/// Main sets valve 0 to 6 by variable 8.
const SHARE: [[u8; 8]; 5] = [
    [1, 0, 4, 0, 0, 0, 0, 0],
    [3, 0, 3, 0, 0, 0, 0, 0],
    [11, 3, 2, 0, 0, 0, 0, 0],
    [9, 0, 0, 0, 6, 0, 0, 0],
    [10, 8, 0, 0, 0, 0, 0, 0],
];

#[test]
fn a_zero_divisor_stops_until_the_variable_is_written() {
    let table = SHARE.concat();
    let mut log = [0; 64];
    let mut state = State::start(&table).unwrap();
    for (budget, ending) in [(0, Ending::Paused), (1, Ending::Novalue { place: 1 }), (9, Ending::Novalue { place: 1 })]
    {
        let ran = state.run(&table, budget, &mut log).unwrap();
        assert_eq!(ran, Ran { ending, steps: 0, records: 0 });
        assert_eq!(state, State::start(&table).unwrap());
    }
    let ran = with_variable_8(&state, 3).run(&table, 9, &mut log).unwrap();
    assert_eq!(ran, Ran { ending: Ending::Finished, steps: 2, records: 2 });
    assert_eq!(records(&log, 1).next().unwrap().to_string(), "valve 1 0 2");
}

/// Main waits for itself.
const CIRCLE: [[u8; 8]; 4] =
    [[1, 0, 3, 0, 0, 0, 0, 0], [3, 8, 1, 0, 0, 0, 0, 0], [9, 0, 0, 0, 1, 0, 0, 0], [8, 8, 0, 0, 0, 0, 0, 0]];

/// Main waits for number 7.
const NEVER_ISSUED: [[u8; 8]; 4] =
    [[1, 0, 3, 0, 0, 0, 0, 0], [3, 8, 1, 0, 0, 0, 0, 0], [9, 0, 0, 0, 7, 0, 0, 0], [8, 8, 0, 0, 0, 0, 0, 0]];

#[test]
fn a_stuck_state_has_a_chain() {
    for (table, tasks, end) in [
        (CIRCLE.to_vec(), &[1, 1][..], End::NamedEarlier),
        (NEVER_ISSUED.to_vec(), &[1], End::NeverIssued),
        (GUARD.to_vec(), &[1], End::UntrueGuard),
    ] {
        let table = table.concat();
        let mut state = State::start(&table).unwrap();
        assert_eq!(state.why_stuck(&table), Err(Refusal { number: 25, place: 0 }));
        assert_eq!(state.run(&table, 100, &mut [0; 64]).unwrap().ending, Ending::Stuck);
        let chain = state.why_stuck(&table).unwrap();
        assert_eq!((chain.tasks(), chain.end()), (tasks, end));
    }
}

/// A variable is 0 in a fresh state, and may be written so between two calls.
#[test]
fn an_await_of_a_0_passes_when_it_is_tried() {
    let table = [[1, 0, 1, 0, 0, 0, 0, 0], [8, 8, 0, 0, 0, 0, 0, 0]].concat();
    let mut log = [0; 64];
    let ran = State::start(&table).unwrap().run(&table, 100, &mut log).unwrap();
    assert_eq!(ran, Ran { ending: Ending::Finished, steps: 3, records: 3 });
    let lines: Vec<_> = records(&log, ran.records).map(|record| record.to_string()).collect();
    assert_eq!(lines, ["waits 1 0 0", "taken 1 0 0", "ended 1 0 0"]);
    let table = NEVER_ISSUED.concat();
    let mut state = State::start(&table).unwrap();
    assert_eq!(state.run(&table, 100, &mut log).unwrap().ending, Ending::Stuck);
    let mut state = with_variable_8(&state, 0);
    assert_eq!(state.why_stuck(&table), Err(Refusal { number: 25, place: 0 }));
    let ran = state.run(&table, 100, &mut log).unwrap();
    assert_eq!(ran, Ran { ending: Ending::Finished, steps: 2, records: 2 });
}

#[test]
fn tasks_tell_who_started_them_and_how_often_they_were_taken_up() {
    let table = A.concat();
    let mut state = State::start(&table).unwrap();
    let main = |place, taken_up| Task { number: 1, place, parameter: 0, spawner: None, taken_up };
    let press = |place, taken_up| Task { number: 2, place, parameter: 5, spawner: Some(1), taken_up };
    let mut seen = Vec::new();
    for _ in 0..6 {
        seen.push((state.active(), state.queue().collect::<Vec<_>>()));
        assert!(state.tasks().eq(state.active().into_iter().chain(state.queue())));
        state.run(&table, 1, &mut [0; 8]).unwrap();
    }
    let due = [
        (Some(main(1, 0)), vec![]),
        (Some(main(3, 0)), vec![press(7, 0)]),
        (None, vec![press(7, 0), main(3, 0)]),
        (Some(press(7, 1)), vec![main(3, 0)]),
        (Some(press(9, 1)), vec![main(3, 0)]),
        (None, vec![main(3, 0)]),
    ];
    assert_eq!(seen, due);
    assert_eq!((state.active(), state.issued()), (Some(main(4, 1)), 2));
    let mut variables = [0; 64];
    (variables[1], variables[8]) = (5, 2);
    assert!(state.variables().eq(variables));
}

#[test]
fn a_state_of_any_content_can_be_read() {
    let state = State::from_bytes(&[255; STATE]).unwrap();
    let task = Task { number: 65_535, place: 65_535, parameter: -1, spawner: Some(65_535), taken_up: u32::MAX };
    assert!(state.tasks().eq([task; TASKS]));
    assert_eq!((state.active(), state.queue().count(), state.issued()), (Some(task), TASKS - 1, 65_535));
    assert!(state.variables().eq([-1; 64]));
    let mut block = [0; STATE];
    block[3] = 1;
    assert_eq!(State::from_bytes(&block).unwrap().active(), None);
}

#[test]
fn damaged_starters_are_refused() {
    let table = A.concat();
    let mut state = State::start(&table).unwrap();
    state.run(&table, 1, &mut [0; 8]).unwrap();
    let (main, press) = (TASKS_AT + RECORD, TASKS_AT + TASK + RECORD);
    for (at, byte, record) in [(main, 1, 2), (main + 2, 1, 2), (press, 0, 4), (press, 2, 4), (press + 3, 1, 4)] {
        let mut block = *state.as_bytes();
        block[at] = byte;
        let refused = State::from_bytes(&block).unwrap().run(&table, 1, &mut [0; 8]);
        assert_eq!(refused, Err(Refusal { number: 22, place: record }), "{at} {byte}");
    }
}

#[test]
fn recipes_are_checked_together() {
    let (a, guard) = (A.concat(), GUARD.concat());
    let recipes: [&[u8]; 5] = [&a, &[], &guard, &a[8..], &a];
    let alone = |table: &&[u8]| State::start(table).map(|_| ());
    assert_eq!(check(&recipes), Ok(recipes.iter().map(alone).collect()));
    let mut space = [255; 5 * OUTCOME];
    let lengths: Vec<u8> = recipes.iter().flat_map(|recipe| (recipe.len() as u32).to_le_bytes()).collect();
    assert_eq!(check_all(&recipes.concat(), &lengths, &mut space), 0);
    assert!(outcomes(&space).eq(check(&recipes).unwrap()));
    assert_eq!(check(&recipes).unwrap()[1], Err(Refusal { number: 11, place: 0 }));
    assert_eq!(check(&[]), Ok(vec![]));
    assert_eq!(check(&[&a[..]; BATCH]), Ok(vec![Ok(()); BATCH]));
    assert_eq!(check(&[&a[..]; BATCH + 1]), Err(Refusal { number: 26, place: 0 }));
}

/// The chain is the same whatever stood in the buffer, and tells itself in words.
#[test]
fn a_chain_is_told_in_words() {
    let table = CIRCLE.concat();
    let mut state = State::start(&table).unwrap();
    state.run(&table, 100, &mut [0; 64]).unwrap();
    let chain = state.why_stuck(&table).unwrap();
    assert_eq!(chain.to_string(), "1, 1: the tasks from the one named twice on wait in a circle");
    assert_eq!(format!("{chain:?}"), "Chain { tasks: [1, 1], end: NamedEarlier }");
    let mut written = [255; CHAIN];
    assert_eq!(why_stuck(&table, state.as_bytes(), &mut written), Explained { number: 0, count: 2, end: 1, place: 0 });
    assert_eq!(written[..6], [1, 0, 1, 0, 255, 255]);
}

#[test]
fn refusals_are_sentences() {
    let told = |number, place| Refusal { number, place }.to_string();
    assert_eq!(told(13, 4), "refused 13 at record 4: the span does not fit");
    assert_eq!(told(22, 2), "refused 22 at state record 2: the state's record breaks a rule, or its place is none");
    assert_eq!(told(21, 0), "refused 21: the state is not of 776 bytes");
    for number in [11, 12, 13, 14, 15, 16, 17, 21, 22, 23, 25, 26] {
        assert!(!told(number, 0).contains("not a published"), "{number}");
        assert_eq!(Refusal { number, place: 7 }.printed().to_string(), format!("refused {number} 7"));
    }
    let as_error: &dyn std::error::Error = &Refusal { number: 11, place: 0 };
    assert!(as_error.source().is_none());
}

/// The sizes and numbers of the C header, by name.
#[test]
fn the_header_says_the_same() {
    let header = include_str!("../../../../include/recipe_runner.h");
    let define = |name: &str| {
        let value = header.lines().find_map(|line| line.strip_prefix("#define RECIPE_")?.strip_prefix(name));
        value.and_then(|value| value.split_whitespace().next()).unwrap().to_string()
    };
    assert_eq!(define("RUNNER_VERSION "), format!("\"{VERSION}\""));
    for (name, value) in [
        ("RECORD_BYTES ", RECORD),
        ("STATE_BYTES ", STATE),
        ("STATE_TASKS_AT ", TASKS_AT),
        ("STATE_VARIABLES_AT ", VARIABLES_AT),
        ("TASK_BYTES ", TASK),
        ("VARIABLE_BYTES ", VARIABLE),
        ("TABLE_MOST_BYTES ", TABLE),
        ("CHAIN_BYTES ", CHAIN),
        ("BATCH_MOST_RECIPES ", BATCH),
        ("LENGTH_BYTES ", LENGTH),
        ("OUTCOME_BYTES ", OUTCOME),
    ] {
        assert_eq!(define(name), value.to_string(), "{name}");
    }
}

#[test]
fn refusals_are_told() {
    assert_eq!(State::start(&[]), Err(Refusal { number: 11, place: 0 }));
    for length in [0, 519, 520, STATE - 1, STATE + 1] {
        assert_eq!(State::from_bytes(&vec![0; length]), Err(Refusal { number: 21, place: 0 }));
    }
    let mut state = State::from_bytes(&[0; STATE]).unwrap();
    let refused = state.run(&A.concat(), 1, &mut []);
    assert_eq!(refused, Err(Refusal { number: 22, place: 0 }));
}
