//! The rows "From the trial press", rows for guards, for zero divisors, for the chains of stuck states, for batches of
//! recipes, for who started a task and for optional tasks, and the readings that look natural and are wrong.

use recipe_model::{check_all, print, run, start, why_stuck, Answer, Explained, Started};

type Row = (u8, u8, u16, i32);
/// The bytes of a state, and where its variables start.
const STATE: usize = 776;
const VARIABLES: usize = 520;
/// A log record: kind, task, valve, value.
type Line = (u8, u16, u8, i32);

/// A table written as kind(name, span, value).
fn table(rows: &[Row]) -> Vec<u8> {
    let mut bytes = Vec::new();
    for &(kind, name, span, value) in rows {
        bytes.extend([kind, name]);
        bytes.extend(span.to_le_bytes());
        bytes.extend(value.to_le_bytes());
    }
    bytes
}

fn fresh(table: &[u8]) -> Vec<u8> {
    let mut state = vec![0xa5; STATE];
    assert_eq!(start(table, &mut state), Started { number: 0, place: 0 });
    state
}

/// A run from a state: what it gives, and the log.
fn run_from(table: &[u8], state: &mut [u8], budget: u32) -> (Answer, Vec<Line>) {
    let mut log = vec![0; 32_768];
    let answer = run(table, state, budget, &mut log);
    let lines = log.as_chunks().0[..answer.records as usize].iter();
    let lines = lines.map(|&[kind, valve, t0, t1, v0, v1, v2, v3]| {
        (kind, u16::from_le_bytes([t0, t1]), valve, i32::from_le_bytes([v0, v1, v2, v3]))
    });
    (answer, lines.collect())
}

/// A run from a fresh state that names no record: number, steps, and the log.
fn trial(rows: &[Row], budget: u32) -> (u32, u32, Vec<Line>) {
    let table = table(rows);
    let (Answer { number, steps, place, .. }, lines) = run_from(&table, &mut fresh(&table), budget);
    assert_eq!(place, 0);
    (number, steps, lines)
}

/// How a run from a fresh state stops: number, steps and place.
fn stop(rows: &[Row]) -> (u32, u32, u32) {
    let table = table(rows);
    let (Answer { number, steps, place, .. }, _) = run_from(&table, &mut fresh(&table), 10_000);
    (number, steps, place)
}

fn ending(rows: &[Row]) -> (u32, u32) {
    let (number, steps, _) = trial(rows, 10_000);
    (number, steps)
}

/// The refusal of a table.
fn refusal(rows: &[Row]) -> (u32, u32) {
    let started = start(&table(rows), &mut [0; STATE]);
    (started.number, started.place)
}

const A: [Row; 9] = [
    (1, 0, 5, 0),
    (6, 8, 1, 1),
    (9, 0, 0, 5),
    (8, 8, 0, 0),
    (3, 0, 1, 0),
    (9, 0, 0, 1),
    (1, 0, 2, 0),
    (3, 1, 1, 0),
    (10, 64, 0, 0),
];

/// Main awaits a 0 and ends: "wait, taken, ended".
const PASSES: [Line; 3] = [(4, 1, 0, 0), (2, 1, 0, 0), (6, 1, 0, 0)];

const F: [Row; 6] = [(1, 0, 4, 0), (5, 0, 3, 0), (9, 0, 0, 1), (6, 8, 1, 1), (9, 0, 0, 0), (1, 0, 0, 0)];

#[test]
fn a_finishes_and_opens_the_valve_last() {
    let lines = vec![
        (1, 1, 0, 2),
        (4, 1, 0, 2),
        (2, 2, 0, 0),
        (7, 2, 1, 5),
        (6, 2, 0, 0),
        (2, 1, 0, 0),
        (7, 1, 0, 1),
        (6, 1, 0, 0),
    ];
    assert_eq!(trial(&A, 10_000), (0, 8, lines));
}

#[test]
fn a_prints_as_the_document_has_it() {
    let lines = [
        "spawned 1 0 2",
        "waits 1 0 2",
        "taken 2 0 0",
        "valve 2 1 5",
        "ended 2 0 0",
        "taken 1 0 0",
        "valve 1 0 1",
        "ended 1 0 0",
        "finished 8",
    ];
    assert_eq!(print(&table(&A)), lines.join("\n") + "\n");
}

#[test]
fn refusals_full_logs_and_signs_print() {
    assert_eq!(print(&table(&[(1, 0, 1, 0), (2, 0, 1, 0)])), "refused 13 1\n");
    assert_eq!(print(&[0; 32_776]), "refused 11 0\n");
    let full = print(&table(&[(1, 0, 4, 0), (5, 0, 3, 0), (9, 0, 0, 1), (3, 7, 1, 0), (9, 0, 0, -5)]));
    assert_eq!(full, "valve 1 7 -5\n".repeat(4_096) + "logfull 8193\n");
}

#[test]
fn b_turns_one_waiter() {
    let b = [(1, 0, 3, 0), (6, 8, 1, 1), (9, 0, 0, 0), (8, 8, 0, 0), (1, 0, 1, 0), (7, 0, 0, 0)];
    let (number, steps, lines) = trial(&b, 10_000);
    assert_eq!((number, steps), (0, 9));
    assert_eq!(lines.iter().filter(|line| line.0 == 5).count(), 1);
}

#[test]
fn c_waits_is_taken_and_ends() {
    assert_eq!(trial(&[(1, 0, 1, 0), (8, 8, 0, 0)], 10_000), (0, 3, PASSES.to_vec()));
}

#[test]
fn d_is_stuck() {
    assert_eq!(ending(&[(1, 0, 3, 0), (3, 8, 1, 0), (9, 0, 0, 1), (8, 8, 0, 0)]), (2, 2));
}

#[test]
fn e_finishes_or_pauses() {
    assert_eq!(ending(&[(1, 0, 0, 0)]), (0, 1));
    assert_eq!(trial(&[(1, 0, 0, 0)], 0), (1, 0, vec![]));
}

#[test]
fn f_runs_out_of_tasks() {
    assert_eq!(ending(&F), (3, 63));
}

#[test]
fn f_with_a_suspend_runs_out_of_numbers() {
    let spent = [(1, 0, 5, 0), (5, 0, 4, 0), (9, 0, 0, 1), (6, 8, 1, 1), (9, 0, 0, 0), (7, 0, 0, 0), (1, 0, 0, 0)];
    let table = table(&spent);
    let mut state = fresh(&table);
    let mut total = 0;
    loop {
        let answer = run(&table, &mut state, 10_000, &mut [0; 65_536]);
        total += answer.steps;
        if answer.number != 1 && answer.number != 5 {
            assert_eq!((answer.number, total), (4, 393_205));
            return;
        }
    }
}

#[test]
fn lengths() {
    let longest = |records: u16| {
        let mut rows = vec![(1, 0, records - 1, 0)];
        rows.resize(usize::from(records), (2, 0, 0, 0));
        rows
    };
    assert_eq!(refusal(&longest(4_096)), (0, 0));
    assert_eq!(refusal(&longest(4_097)), (11, 0));
    assert_eq!(refusal(&[]), (11, 0));
    assert_eq!(start(&[1, 0, 0, 0, 0, 0, 0], &mut [0; STATE]), Started { number: 11, place: 0 });
    for length in [0, 8, 520, STATE - 1, STATE + 1, STATE + 8] {
        assert_eq!(start(&table(&A), &mut vec![0; length]), Started { number: 21, place: 0 });
    }
}

/// A set whose expression reaches the given depth.
fn nested(depth: u16) -> Vec<Row> {
    let mut rows = vec![(1, 0, depth, 0), (3, 8, depth - 1, 0)];
    rows.extend((2..depth).map(|at| (12, 0, depth - at, 0)));
    rows.push((9, 0, 0, 1));
    rows
}

#[test]
fn depths() {
    assert_eq!(refusal(&nested(16)), (0, 0));
    assert_eq!(refusal(&nested(17)), (16, 17));
    // Statements count too: sixteen nested ifs put the innermost test at 17.
    let mut ifs = vec![(1, 0, 32, 0)];
    ifs.extend((0..16).flat_map(|i| [(4, 0, 31 - 2 * i, 0), (9, 0, 0, 1)]));
    assert_eq!(refusal(&ifs), (16, 32));
}

#[test]
fn faults_in_their_order() {
    // The test of an if need not reach the end: a second expression stands where a statement is due.
    assert_eq!(refusal(&[(1, 0, 3, 0), (4, 0, 2, 0), (9, 0, 0, 0), (9, 0, 0, 0)]), (12, 3));
    // A sole operand that stops short is at fault itself; so is a first one that leaves none for the second.
    assert_eq!(refusal(&[(1, 0, 3, 0), (3, 8, 2, 0), (9, 0, 0, 0), (9, 0, 0, 0)]), (13, 2));
    let first = [(1, 0, 4, 0), (3, 8, 3, 0), (11, 0, 2, 0), (12, 0, 1, 0), (9, 0, 0, 0)];
    assert_eq!(refusal(&first), (13, 3));
    assert_eq!(refusal(&[(1, 0, 1, 0), (3, 8, 0, 0)]), (13, 1));
    // Within a record the lower number decides; 17 comes after every record has passed.
    assert_eq!(refusal(&[(1, 1, 1, 1), (2, 0, 0, 0)]), (14, 0));
    assert_eq!(refusal(&[(1, 0, 3, 0), (6, 8, 1, 1), (9, 0, 0, 0), (2, 0, 0, 1)]), (15, 3));
    assert_eq!(refusal(&[(1, 0, 2, 0), (6, 8, 1, 1), (9, 0, 0, 0)]), (17, 1));
    assert_eq!(refusal(&[(1, 0, 2, 0), (6, 8, 1, 256), (9, 0, 0, 0)]), (15, 1));
}

#[test]
fn guards_are_checked_as_sets_are() {
    assert_eq!(refusal(&[(1, 0, 2, 0), (13, 0, 1, 0), (9, 0, 0, 1)]), (0, 0));
    assert_eq!(refusal(&[(1, 0, 1, 0), (13, 0, 0, 0)]), (13, 1));
    assert_eq!(refusal(&[(1, 0, 3, 0), (13, 0, 2, 0), (9, 0, 0, 1), (9, 0, 0, 1)]), (13, 2));
    assert_eq!(refusal(&[(1, 0, 3, 0), (13, 0, 2, 0), (9, 0, 0, 1), (2, 0, 0, 0)]), (13, 2));
    assert_eq!(refusal(&[(1, 0, 2, 0), (13, 8, 1, 0), (9, 0, 0, 1)]), (14, 1));
    assert_eq!(refusal(&[(1, 0, 2, 0), (13, 0, 1, 1), (9, 0, 0, 1)]), (15, 1));
    // No procedure and no expression.
    assert_eq!(refusal(&[(13, 0, 1, 0), (9, 0, 0, 1)]), (12, 0));
    assert_eq!(refusal(&[(1, 0, 3, 0), (3, 8, 2, 0), (13, 0, 1, 0), (9, 0, 0, 1)]), (12, 2));
    assert_eq!(refusal(&[(1, 0, 3, 0), (13, 0, 2, 0), (13, 0, 1, 0), (9, 0, 0, 1)]), (12, 2));
}

#[test]
fn an_empty_body_is_run_through() {
    assert_eq!(ending(&[(1, 0, 2, 0), (4, 0, 1, 0), (9, 0, 0, 1)]), (0, 2));
    assert_eq!(trial(&[(1, 0, 2, 0), (5, 0, 1, 0), (9, 0, 0, 1)], 100), (1, 100, vec![]));
}

#[test]
fn the_awaited_variable_is_read_at_each_try() {
    // Main awaits variable 8, which is 9; task 2 later sets it to 3, the number of a task that has ended.
    let rows = [
        (1, 0, 7, 0),
        (3, 8, 1, 0),
        (9, 0, 0, 9),
        (6, 9, 1, 1),
        (9, 0, 0, 0),
        (6, 10, 1, 2),
        (9, 0, 0, 0),
        (8, 8, 0, 0),
        (1, 0, 3, 0),
        (7, 0, 0, 0),
        (3, 8, 1, 0),
        (10, 10, 0, 0),
        (1, 0, 0, 0),
    ];
    let (number, steps, lines) = trial(&rows, 100);
    assert_eq!((number, steps), (0, 14));
    assert_eq!(lines.iter().filter(|line| line.0 == 5).collect::<Vec<_>>(), [&(5, 1, 0, 9)]);
}

#[test]
fn a_guard_that_is_true_when_reached_waits_too() {
    let rows = [(1, 0, 4, 0), (13, 0, 1, 0), (9, 0, 0, -1), (3, 0, 1, 0), (9, 0, 0, 1)];
    let lines = vec![(4, 1, 0, 0), (2, 1, 0, 0), (7, 1, 0, 1), (6, 1, 0, 0)];
    assert_eq!(trial(&rows, 100), (0, 4, lines));
}

/// Main reaches its guard and is turned once, as task 2 gives way; it passes when task 2 has ended.
const TURNED_ONCE: [Line; 9] = [
    (1, 1, 0, 2),
    (4, 1, 0, 0),
    (2, 2, 0, 0),
    (3, 2, 0, 0),
    (5, 1, 0, 0),
    (2, 2, 0, 0),
    (6, 2, 0, 0),
    (2, 1, 0, 0),
    (6, 1, 0, 0),
];

#[test]
fn a_guard_is_tested_at_each_try() {
    // Main reaches its guard with variable 8 true; task 2 sets it to 0, gives way and sets it to 1 again.
    let set = |value| [(3, 8, 1, 0), (9, 0, 0, value)];
    let spawn_and_guard = [(6, 9, 1, 1), (9, 0, 0, 0), (13, 0, 1, 0), (10, 8, 0, 0)];
    let main = [&[(1, 0, 6, 0)], &set(1)[..], &spawn_and_guard].concat();
    let child = [&[(1, 0, 5, 0)], &set(0)[..], &[(7, 0, 0, 0)], &set(1)].concat();
    assert_eq!(trial(&[main, child].concat(), 100), (0, 12, TURNED_ONCE.to_vec()));
}

#[test]
fn a_guard_is_turned_until_another_task_makes_it_true() {
    // Main waits until variable 8 is set; task 2 gives way twice before it sets it.
    let rows = [
        (1, 0, 4, 0),
        (6, 9, 1, 1),
        (9, 0, 0, 0),
        (13, 0, 1, 0),
        (10, 8, 0, 0),
        (1, 0, 4, 0),
        (7, 0, 0, 0),
        (7, 0, 0, 0),
        (3, 8, 1, 0),
        (9, 0, 0, 7),
    ];
    let (number, steps, lines) = trial(&rows, 100);
    assert_eq!((number, steps), (0, 13));
    let of_main = lines.into_iter().filter(|line| line.1 == 1);
    let waited = [(1, 1, 0, 2), (4, 1, 0, 0), (5, 1, 0, 0), (5, 1, 0, 0), (2, 1, 0, 0), (6, 1, 0, 0)];
    assert_eq!(of_main.collect::<Vec<_>>(), waited);
}

#[test]
fn a_guard_reads_the_waiting_tasks_parameter() {
    // Tasks 2 and 3 wait until variable 8 is their parameter; main gives way with 2 in it, then with 1.
    let mut rows = vec![(1, 0, 10, 0), (6, 9, 1, 1), (9, 0, 0, 1), (6, 9, 1, 1), (9, 0, 0, 2)];
    rows.extend([(3, 8, 1, 0), (9, 0, 0, 2), (7, 0, 0, 0), (7, 0, 0, 0), (3, 8, 1, 0), (9, 0, 0, 1)]);
    rows.extend([(1, 0, 6, 0), (13, 0, 3, 0), (11, 5, 2, 0), (10, 8, 0, 0), (10, 64, 0, 0)]);
    rows.extend([(3, 0, 1, 0), (10, 64, 0, 0)]);
    let (number, _, lines) = trial(&rows, 100);
    assert_eq!(number, 0);
    let valves = lines.into_iter().filter(|line| line.0 == 7);
    assert_eq!(valves.collect::<Vec<_>>(), [(7, 3, 0, 2), (7, 2, 0, 1)]);
}

#[test]
fn untrue_guards_are_stuck() {
    assert_eq!(ending(&[(1, 0, 2, 0), (13, 0, 1, 0), (10, 8, 0, 0)]), (2, 1));
    // Main awaits task 2, which stands at a guard over its own parameter, 0, from its spawn on: no turn comes before.
    let main = [(1, 0, 3, 0), (6, 8, 1, 1), (9, 0, 0, 0), (8, 8, 0, 0)];
    let child = [(1, 0, 2, 0), (13, 0, 1, 0), (10, 64, 0, 0)];
    assert_eq!(trial(&[&main[..], &child].concat(), 100), (2, 2, vec![(1, 1, 0, 2), (4, 1, 0, 2)]));
}

#[test]
fn an_await_and_a_guard_of_each_others_making() {
    // Main awaits task 2, whose guard is true once main has set variable 9: before the await, or only after it.
    let main = [(1, 0, 5, 0), (6, 8, 1, 1), (9, 0, 0, 0)];
    let (set, wait) = ([(3, 9, 1, 0), (9, 0, 0, 1)], [(8, 8, 0, 0)]);
    let child = [(1, 0, 3, 0), (2, 0, 0, 0), (13, 0, 1, 0), (10, 9, 0, 0)];
    let before = [&main[..], &set, &wait, &child].concat();
    let after = [&main[..], &wait, &set, &child].concat();
    let lines = vec![
        (1, 1, 0, 2),
        (4, 1, 0, 2),
        (2, 2, 0, 0),
        (4, 2, 0, 0),
        (5, 1, 0, 2),
        (2, 2, 0, 0),
        (6, 2, 0, 0),
        (2, 1, 0, 0),
        (6, 1, 0, 0),
    ];
    assert_eq!(trial(&before, 100), (0, 11, lines));
    assert_eq!(ending(&after), (2, 5));
}

/// 5 by variable 8, which is 0 in a fresh state.
const QUOTIENT: [Row; 3] = [(11, 3, 2, 0), (9, 0, 0, 5), (10, 8, 0, 0)];

/// A record that encloses parts.
fn around(kind: u8, name: u8, value: i32, parts: &[&[Row]]) -> Vec<Row> {
    let inner = parts.concat();
    [&[(kind, name, inner.len() as u16, value)], &inner[..]].concat()
}

/// Main of these statements.
fn main_of(statements: &[&[Row]]) -> Vec<Row> {
    around(1, 0, 0, statements)
}

#[test]
fn a_zero_divisor_stops_each_statement_that_needs_its_value() {
    // Behind a step that is done, so that the steps and the place are not those of a refusal.
    let statements = [
        around(3, 0, 0, &[&QUOTIENT]),
        around(3, 9, 0, &[&QUOTIENT]),
        around(3, 64, 0, &[&QUOTIENT]),
        around(4, 0, 0, &[&QUOTIENT, &[(2, 0, 0, 0)]]),
        around(5, 0, 0, &[&QUOTIENT]),
        around(6, 9, 0, &[&QUOTIENT]),
    ];
    for statement in statements {
        assert_eq!(stop(&main_of(&[&statement])), (24, 0, 1), "{statement:?}");
        assert_eq!(stop(&main_of(&[&[(2, 0, 0, 0)], &statement])), (24, 1, 2), "{statement:?}");
    }
    // The trial row 5 by 0.
    assert_eq!(stop(&[(1, 0, 4, 0), (3, 0, 3, 0), (11, 3, 2, 0), (9, 0, 0, 5), (9, 0, 0, 0)]), (24, 0, 1));
}

#[test]
fn both_operands_are_always_worked_out() {
    for (operator, other) in (0..8).flat_map(|operator| [-1, 0, 1].map(|other| (operator, other))) {
        let other = [(9, 0, 0, other)];
        for parts in [[&other[..], &QUOTIENT], [&QUOTIENT, &other]] {
            let set = around(3, 0, 0, &[&around(11, operator, 0, &parts)]);
            assert_eq!(stop(&main_of(&[&set])), (24, 0, 1), "{operator} {other:?}");
        }
    }
    for operator in 0..2 {
        let set = around(3, 0, 0, &[&around(12, operator, 0, &[&QUOTIENT])]);
        assert_eq!(stop(&main_of(&[&set])), (24, 0, 1), "{operator}");
    }
}

#[test]
fn a_missing_value_is_told_after_1_and_before_3_4_and_5() {
    let valve = table(&main_of(&[&around(3, 0, 0, &[&QUOTIENT])]));
    let spawn = table(&main_of(&[&around(6, 9, 0, &[&QUOTIENT])]));
    let full = |issued: u16, live: u16| {
        let queue: Vec<_> = (0..live).map(|i| (issued - i, 1, 0)).collect();
        let mut state = idle(issued, &queue);
        state[3] = 1;
        state
    };
    for table in [valve, spawn] {
        for (issued, live) in [(1, 1), (40, 32), (65_535, 1), (65_535, 32)] {
            for (budget, number, place) in [(0, 1, 0), (1, 24, 1), (u32::MAX, 24, 1)] {
                let before = full(issued, live);
                let mut state = before.clone();
                let answer = run(&table, &mut state, budget, &mut []);
                assert_eq!(answer, Answer { number, steps: 0, records: 0, place }, "{issued} {live} {budget}");
                assert_eq!(state, before);
            }
        }
    }
}

#[test]
fn a_run_that_a_zero_divisor_stopped_goes_on_with_another_divisor() {
    let table = table(&main_of(&[&around(3, 7, 0, &[&[(9, 0, 0, 4)]]), &around(3, 0, 0, &[&QUOTIENT])]));
    let mut state = fresh(&table);
    let stopped = |steps, records| Answer { number: 24, steps, records, place: 3 };
    assert_eq!(run_from(&table, &mut state, 100), (stopped(1, 1), vec![(7, 1, 7, 4)]));
    let before = state.clone();
    assert_eq!(run_from(&table, &mut state, 100), (stopped(0, 0), vec![]));
    assert_eq!(run_from(&table, &mut state, 0).0.number, 1);
    assert_eq!(state, before);
    state[VARIABLES + 4 * 8] = 2;
    let finished = Answer { number: 0, steps: 2, records: 2, place: 0 };
    assert_eq!(run_from(&table, &mut state, 100), (finished, vec![(7, 1, 0, 2), (6, 1, 0, 0)]));
}

#[test]
fn a_guard_without_a_value_is_untrue() {
    let guard = around(13, 0, 0, &[&QUOTIENT]);
    assert_eq!(trial(&main_of(&[&guard]), 100), (2, 1, vec![(4, 1, 0, 0)]));
    // Task 2 gives way, then sets the divisor; it ends before main is tried again.
    let main = main_of(&[&around(6, 9, 1, &[&[(9, 0, 0, 0)]]), &guard]);
    let child = around(1, 0, 0, &[&[(7, 0, 0, 0)], &around(3, 8, 0, &[&[(9, 0, 0, 2)]])]);
    assert_eq!(trial(&[main, child].concat(), 100), (0, 10, TURNED_ONCE.to_vec()));
}

#[test]
fn a_missing_value_prints() {
    let valve = |value: &[Row]| around(3, 1, 0, &[value]);
    let rows = main_of(&[&valve(&[(9, 0, 0, 6)]), &[(2, 0, 0, 0)], &valve(&QUOTIENT)]);
    assert_eq!(print(&table(&rows)), "valve 1 1 6\nnovalue 2\n");
}

/// Calls with a budget and a log, until so many steps are made: the last state and the logs joined.
fn slices(rows: &[Row], steps: u32, budget: u32, log: usize) -> (Vec<u8>, Vec<u8>) {
    let table = table(rows);
    let (mut state, mut joined, mut left) = (fresh(&table), Vec::new(), steps);
    while left > 0 {
        let mut log = vec![0; log];
        let answer = run(&table, &mut state, budget.min(left), &mut log);
        joined.extend(&log[..8 * answer.records as usize]);
        left -= answer.steps;
    }
    (state, joined)
}

#[test]
fn a_run_may_stop_between_turns() {
    // Two tasks wait for main and one at an untrue guard; main suspends for ever.
    let rows = [
        (1, 0, 9, 0),
        (6, 8, 1, 1),
        (9, 0, 0, 1),
        (6, 8, 1, 1),
        (9, 0, 0, 1),
        (6, 8, 1, 2),
        (9, 0, 0, 1),
        (5, 0, 2, 0),
        (9, 0, 0, 1),
        (7, 0, 0, 0),
        (1, 0, 1, 0),
        (8, 64, 0, 0),
        (1, 0, 3, 0),
        (13, 0, 2, 0),
        (12, 1, 1, 0),
        (10, 64, 0, 0),
    ];
    let whole = slices(&rows, 60, 60, 480);
    for budget in 1..8 {
        for log in [8, 16, 31, 480] {
            assert_eq!(slices(&rows, 60, budget, log), whole, "budget {budget}, log {log}");
        }
    }
}

/// Why a state is stuck: what is given, and the numbers written. Bytes past them keep their content.
fn explained(table: &[u8], state: &[u8]) -> (Explained, Vec<u16>) {
    let mut chain = [0xa5; 66];
    let given = why_stuck(table, state, &mut chain);
    let (written, kept) = chain.split_at(2 * given.count as usize);
    assert!(kept.iter().all(|byte| *byte == 0xa5));
    (given, written.as_chunks().0.iter().map(|pair| u16::from_le_bytes(*pair)).collect())
}

/// An accepted call's chain and its end.
fn chain_of(table: &[u8], state: &[u8]) -> (Vec<u16>, u32) {
    let (Explained { number, end, place, .. }, numbers) = explained(table, state);
    assert_eq!((number, place), (0, 0));
    (numbers, end)
}

/// The chain of the state that a run from a fresh state leaves.
fn chain_after(rows: &[Row]) -> (Vec<u16>, u32) {
    let table = table(rows);
    let mut state = fresh(&table);
    assert_eq!(run_from(&table, &mut state, 10_000).0.number, 2);
    chain_of(&table, &state)
}

const fn refused(number: u32, place: u32) -> Explained {
    Explained { number, count: 0, end: 0, place }
}

const NOT_STUCK: Explained = refused(25, 0);

/// Places for tasks that wait for the number in their parameter, at a guard over it, at a guard over 5 by it, for the
/// number in variable 8, and that give way.
const WAITERS: [Row; 14] = [
    (1, 0, 1, 0),
    (8, 64, 0, 0),
    (1, 0, 2, 0),
    (13, 0, 1, 0),
    (10, 64, 0, 0),
    (1, 0, 4, 0),
    (13, 0, 3, 0),
    (11, 3, 2, 0),
    (9, 0, 0, 5),
    (10, 64, 0, 0),
    (1, 0, 1, 0),
    (8, 8, 0, 0),
    (1, 0, 1, 0),
    (7, 0, 0, 0),
];
const OWN: u16 = 1;
const GUARD: u16 = 3;
const SHARE: u16 = 6;
const SHARED: u16 = 11;
const GIVES_WAY: u16 = 13;

/// A state without an active task: the highest number issued, and the queue as number, place and parameter. No task was
/// ever taken up.
fn idle(issued: u16, queue: &[(u16, u16, i32)]) -> Vec<u8> {
    let mut state = vec![0; STATE];
    state[..2].copy_from_slice(&issued.to_le_bytes());
    state[2] = queue.len() as u8;
    for (records, (number, place, parameter)) in state[8..].chunks_exact_mut(16).zip(queue) {
        records[..2].copy_from_slice(&number.to_le_bytes());
        records[2..4].copy_from_slice(&place.to_le_bytes());
        records[4..8].copy_from_slice(&parameter.to_le_bytes());
        // Task 1 was spawned by none; another by one below it.
        records[8..10].copy_from_slice(&(number / 2).to_le_bytes());
    }
    state
}

#[test]
fn the_chain_of_d() {
    assert_eq!(chain_after(&[(1, 0, 3, 0), (3, 8, 1, 0), (9, 0, 0, 1), (8, 8, 0, 0)]), (vec![1, 1], 1));
}

#[test]
fn a_chain_begins_at_the_front() {
    // Main awaits task 2, which awaits main and stands before it in the queue.
    let main = [(1, 0, 3, 0), (6, 8, 1, 1), (9, 0, 0, 1), (8, 8, 0, 0)];
    let child = [(1, 0, 1, 0), (8, 64, 0, 0)];
    assert_eq!(chain_after(&[&main[..], &child].concat()), (vec![2, 1, 2], 1));
    // Tasks 1 and 2 wait for each other; task 3 waits for one of them, or is not in the chain.
    let mut queue = [(3, OWN, 1), (1, OWN, 2), (2, OWN, 1)];
    let mut chains = Vec::new();
    for _ in 0..3 {
        chains.push(chain_of(&table(&WAITERS), &idle(3, &queue)));
        queue.rotate_left(1);
    }
    assert_eq!(chains, [(vec![3, 1, 2, 1], 1), (vec![1, 2, 1], 1), (vec![2, 1, 2], 1)]);
}

#[test]
fn a_chain_may_end_at_a_guard() {
    let waiters = table(&WAITERS);
    for guard in [GUARD, SHARE] {
        assert_eq!(chain_of(&waiters, &idle(7, &[(5, guard, 0)])), (vec![5], 3));
        let queue = [(7, OWN, 2), (5, guard, 0), (3, OWN, 5), (2, OWN, 3)];
        assert_eq!(chain_of(&waiters, &idle(7, &queue)), (vec![7, 2, 3, 5], 3));
        // A front at a guard is the whole chain, whatever the others wait for.
        let queue = [(5, GUARD, 0), (7, guard, 0), (3, OWN, 3)];
        assert_eq!(chain_of(&waiters, &idle(7, &queue)), (vec![5], 3));
    }
    // The share of 5 by 6 is 0, which is untrue.
    assert_eq!(chain_of(&waiters, &idle(7, &[(5, SHARE, 6)])), (vec![5], 3));
}

#[test]
fn a_chain_goes_on_to_a_live_task_and_ends_at_a_number_never_issued() {
    // With 4 issued and tasks 1 and 3 live, 0, 2 and 4 are done. Task 3 waits for task 1.
    for awaited in (-4..=9).chain([i32::MIN, -65_533, 65_535, 65_536, 65_537, 65_539, i32::MAX]) {
        let given = explained(&table(&WAITERS), &idle(4, &[(1, OWN, awaited), (3, OWN, 1)]));
        let accepted = |count, end| Explained { number: 0, count, end, place: 0 };
        let expected = match awaited {
            1 => (accepted(2, 1), vec![1, 1]),
            3 => (accepted(3, 1), vec![1, 3, 1]),
            0 | 2 | 4 => (NOT_STUCK, vec![]),
            _ => (accepted(1, 2), vec![1]),
        };
        assert_eq!(given, expected, "{awaited}");
    }
}

#[test]
fn the_awaited_variable_is_read_for_the_chain() {
    let queue = [(1, SHARED, 2), (2, SHARED, 1)];
    for (value, expected) in [(1, (vec![1, 1], 1)), (2, (vec![1, 2, 2], 1)), (3, (vec![1], 2))] {
        let mut state = idle(2, &queue);
        state[VARIABLES + 4 * 8] = value;
        assert_eq!(chain_of(&table(&WAITERS), &state), expected);
    }
}

#[test]
fn the_longest_chains() {
    let waiters = table(&WAITERS);
    // The front is 1_000; each waits for the one after it in this order, which is not the queue's.
    let number = |i: usize| 1_000 + (i * 7 % 32) as u16;
    let order: Vec<u16> = (0..32).map(number).collect();
    let queue = |last: (u16, i32)| {
        let next = |i: usize| if i == 31 { last } else { (OWN, number(i + 1).into()) };
        let mut queue: Vec<_> = (0..32).map(|i| (number(i), next(i).0, next(i).1)).collect();
        queue[1..].sort();
        queue
    };
    for back in [0, 1, 15, 30, 31] {
        let circle = [&order[..], &[order[back]]].concat();
        assert_eq!(chain_of(&waiters, &idle(1_031, &queue((OWN, order[back].into())))), (circle, 1), "{back}");
    }
    assert_eq!(chain_of(&waiters, &idle(1_031, &queue((OWN, 1_032)))), (order.clone(), 2));
    assert_eq!(chain_of(&waiters, &idle(1_031, &queue((GUARD, 0)))), (order.clone(), 3));
    assert_eq!(chain_of(&waiters, &idle(1_031, &queue((SHARE, 0)))), (order, 3));
    assert_eq!(explained(&waiters, &idle(1_031, &queue((GUARD, 1)))), (NOT_STUCK, vec![]));
    assert_eq!(explained(&waiters, &idle(1_031, &queue((OWN, 999)))), (NOT_STUCK, vec![]));
}

#[test]
fn states_that_are_not_stuck() {
    let waiters = table(&WAITERS);
    let mut active = idle(3, &[(1, OWN, 1), (2, OWN, 2)]);
    active[3] = 1;
    let states = [
        fresh(&waiters),
        // Finished.
        idle(1, &[]),
        // The front waits, and another one is ready: it gives way, its guard is true, or it waits for a done number.
        idle(3, &[(1, OWN, 1), (2, GIVES_WAY, 0)]),
        idle(3, &[(1, OWN, 1), (2, GUARD, -1)]),
        idle(3, &[(1, GUARD, 0), (2, SHARE, 5)]),
        idle(3, &[(1, OWN, 2), (2, OWN, 3)]),
        // One awaits a 0, in its parameter or in a variable, behind the front and at it.
        idle(3, &[(1, OWN, 1), (2, OWN, 0)]),
        idle(3, &[(2, OWN, 0), (1, OWN, 1)]),
        idle(3, &[(1, OWN, 1), (2, SHARED, 1)]),
        // At a procedure's end.
        idle(3, &[(1, OWN, 1), (2, 14, 0)]),
        active,
    ];
    for (i, state) in states.iter().enumerate() {
        assert_eq!(explained(&waiters, state), (NOT_STUCK, vec![]), "{i}");
    }
}

#[test]
fn outputs_of_other_lengths() {
    let waiters = table(&WAITERS);
    let stuck = idle(3, &[(1, OWN, 1)]);
    for length in [0, 1, 2, 4, 64, 65, 67, 68, 132, STATE] {
        let mut chain = vec![0xa5; length];
        assert_eq!(why_stuck(&waiters, &stuck, &mut chain), NOT_STUCK, "{length}");
        assert_eq!(chain, vec![0xa5; length]);
    }
    assert_eq!(chain_of(&waiters, &stuck), (vec![1, 1], 1));
}

#[test]
fn refusals_of_a_chain_in_their_order() {
    let (waiters, stuck) = (table(&WAITERS), idle(3, &[(1, OWN, 1)]));
    let unnamed = table(&[(1, 0, 1, 0), (8, 65, 0, 0)]);
    let unknown = table(&[(1, 0, 3, 0), (8, 8, 0, 0), (6, 8, 1, 1), (9, 0, 0, 0)]);
    let (finished, displaced) = (idle(1, &[]), idle(3, &[(1, OWN, 1), (2, 4, 0)]));
    let none_issued = idle(0, &[(1, OWN, 1)]);
    let calls: [(&[u8], &[u8], Explained); 9] = [
        (&[], &[], refused(11, 0)),
        (&unnamed, &stuck, refused(14, 1)),
        (&unnamed, &stuck[1..], refused(14, 1)),
        (&unknown, &displaced, refused(17, 2)),
        (&waiters, &stuck[1..], refused(21, 0)),
        (&waiters, &[], refused(21, 0)),
        (&waiters, &none_issued, refused(22, 0)),
        (&waiters, &displaced, refused(22, 3)),
        (&waiters, &finished, NOT_STUCK),
    ];
    for (i, (table, state, expected)) in calls.into_iter().enumerate() {
        for length in [0, 65, 66, 67] {
            let mut chain = vec![0xa5; length];
            assert_eq!(why_stuck(table, state, &mut chain), expected, "{i} {length}");
            assert_eq!(chain, vec![0xa5; length]);
        }
    }
}

/// A list of lengths.
fn list(lengths: &[u32]) -> Vec<u8> {
    lengths.iter().flat_map(|length| length.to_le_bytes()).collect()
}

/// What a batch gives: the number, and the space, of so many bytes, as it is then.
fn checked_in(recipes: &[u8], lengths: &[u8], space: usize) -> (u32, Vec<u8>) {
    let mut outcomes = vec![0xa5; space];
    (check_all(recipes, lengths, &mut outcomes), outcomes)
}

/// The outcomes of recipes in a batch that is accepted: number and place of each.
fn outcomes(recipes: &[Vec<u8>]) -> Vec<(u32, u32)> {
    let lengths: Vec<u32> = recipes.iter().map(|recipe| recipe.len() as u32).collect();
    let (number, outcomes) = checked_in(&recipes.concat(), &list(&lengths), 8 * recipes.len());
    assert_eq!(number, 0);
    let words: Vec<u32> = outcomes.as_chunks().0.iter().map(|word| u32::from_le_bytes(*word)).collect();
    words.chunks(2).map(|pair| (pair[0], pair[1])).collect()
}

/// A batch that is refused, whatever its recipes: the space keeps its content.
fn is_no_batch(recipes: &[u8], lengths: &[u8], space: usize) {
    assert_eq!(checked_in(recipes, lengths, space), (26, vec![0xa5; space]), "{lengths:?} {space}");
}

/// Tables of each refusal but 11, with the number and the place.
fn faulty() -> Vec<(Vec<u8>, (u32, u32))> {
    let rows: [(Vec<Row>, (u32, u32)); 6] = [
        (vec![(1, 0, 1, 0), (9, 0, 0, 0)], (12, 1)),
        (vec![(1, 0, 2, 0), (2, 0, 0, 0), (3, 8, 0, 0)], (13, 2)),
        (vec![(1, 1, 0, 0)], (14, 0)),
        (vec![(1, 0, 3, 0), (2, 0, 0, 0), (2, 0, 0, 0), (2, 0, 0, 1)], (15, 3)),
        (nested(17), (16, 17)),
        (vec![(1, 0, 2, 0), (6, 8, 1, 1), (9, 0, 0, 0)], (17, 1)),
    ];
    rows.into_iter().map(|(rows, outcome)| (table(&rows), outcome)).collect()
}

#[test]
fn no_recipes_at_all() {
    assert_eq!(checked_in(&[], &[], 0), (0, vec![]));
    is_no_batch(&[], &[], 8);
    is_no_batch(&[0], &[], 0);
    is_no_batch(&table(&A), &[], 0);
}

#[test]
fn one_recipe() {
    assert_eq!(outcomes(&[table(&A)]), [(0, 0)]);
    for (faulty, outcome) in faulty() {
        assert_eq!(outcomes(&[faulty]), [outcome]);
    }
}

#[test]
fn each_recipe_has_its_own_outcome_in_turn() {
    let fine = (table(&A), (0, 0));
    for (at, faulty) in (0..5).flat_map(|at| faulty().into_iter().map(move |faulty| (at, faulty))) {
        let mut batch = vec![fine.clone(); 5];
        batch[at] = faulty;
        let (recipes, expected): (Vec<_>, Vec<_>) = batch.into_iter().unzip();
        assert_eq!(outcomes(&recipes), expected, "{at}");
    }
    let (recipes, expected): (Vec<_>, Vec<_>) = faulty().into_iter().chain([fine]).chain(faulty()).unzip();
    assert_eq!(outcomes(&recipes), expected);
}

#[test]
fn both_bytes_of_a_place_are_written() {
    let mut rows = vec![(2, 0, 0, 0); 4_096];
    (rows[0], rows[4_095]) = ((1, 0, 4_095, 0), (8, 65, 0, 0));
    assert_eq!(outcomes(&[table(&A), table(&rows), table(&rows[..1])]), [(0, 0), (14, 4_095), (13, 0)]);
}

#[test]
fn recipes_of_a_length_that_no_table_has() {
    for length in [0, 1, 4, 7, 9, 12, 32_767, 32_769, 32_776, 40_000] {
        let odd = table(&A).into_iter().cycle().take(length).collect();
        assert_eq!(outcomes(&[table(&A), odd, table(&F)]), [(0, 0), (11, 0), (0, 0)], "{length}");
    }
    assert_eq!(outcomes(&[vec![], vec![]]), [(11, 0); 2]);
    assert_eq!(outcomes(&[table(&[(1, 0, 0, 0)]).repeat(4_096), table(&A)]), [(0, 0); 2]);
}

#[test]
fn the_most_recipes() {
    for count in [63, 64] {
        assert_eq!(outcomes(&vec![table(&A); count]), vec![(0, 0); count]);
        assert_eq!(outcomes(&vec![vec![]; count]), vec![(11, 0); count]);
    }
    for count in [65, 66, 128, 256] {
        is_no_batch(&table(&A).repeat(count), &list(&vec![72; count]), 8 * count);
        is_no_batch(&[], &list(&vec![0; count]), 8 * count);
        is_no_batch(&table(&A).repeat(count), &list(&vec![72; count]), 8 * 64);
    }
}

#[test]
fn lists_that_are_not_a_multiple_of_four() {
    for count in [0, 1, 2, 63, 64] {
        for more in 1..4 {
            let lengths = [list(&vec![72; count]), vec![0; more]].concat();
            is_no_batch(&table(&A).repeat(count), &lengths, 8 * count);
            is_no_batch(&table(&A).repeat(count), &lengths, 8 * (count + 1));
        }
    }
    is_no_batch(&table(&A), &[72, 0, 0], 8);
}

#[test]
fn lengths_that_do_not_add_up() {
    let recipes = table(&A).repeat(3);
    assert_eq!(checked_in(&recipes, &list(&[72, 72, 72]), 24).0, 0);
    for lengths in [[72, 72, 71], [72, 72, 73], [64, 72, 72], [80, 72, 72], [72, 0, 72], [216, 72, 72], [217, 0, 0]] {
        is_no_batch(&recipes, &list(&lengths), 24);
    }
    is_no_batch(&recipes, &list(&[72, 72]), 16);
    is_no_batch(&recipes, &list(&[72, 72, 72, 72]), 32);
    is_no_batch(&recipes[1..], &list(&[72, 72, 72]), 24);
    // They add up in another way: the recipes are cut elsewhere.
    assert_eq!(checked_in(&recipes, &list(&[216, 0, 0]), 24).0, 0);
    assert_eq!(outcomes(&[recipes[..71].to_vec(), recipes[71..144].to_vec(), table(&A)]), [(11, 0), (11, 0), (0, 0)]);
}

#[test]
fn a_sum_does_not_wrap_and_no_length_is_below_0() {
    let one = table(&[(1, 0, 0, 0)]);
    for lengths in [vec![u32::MAX, 9], vec![9, u32::MAX], vec![u32::MAX - 7, 8, 8], vec![16, u32::MAX - 7]] {
        is_no_batch(&one, &list(&lengths), 8 * lengths.len());
    }
    for (length, count) in [(1 << 31, 2), (1 << 30, 4), (1 << 26, 64), (u32::MAX, 1), (u32::MAX, 64)] {
        is_no_batch(&[], &list(&vec![length; count]), 8 * count);
    }
    // The bytes of a length are not turned round, and all four count.
    for length in [0x0800_0000, 0x0100_0008, 0x0001_0008, 0x0000_0108] {
        is_no_batch(&one, &list(&[length]), 8);
    }
}

#[test]
fn spaces_of_other_lengths() {
    for count in [0, 1, 3, 64] {
        let (recipes, lengths) = (table(&A).repeat(count), list(&vec![72; count]));
        let right = 8 * count;
        for space in (0..=right + 9).chain([2 * right + 16, 1_040]).filter(|space| *space != right) {
            is_no_batch(&recipes, &lengths, space);
        }
        assert_eq!(checked_in(&recipes, &lengths, right), (0, vec![0; right]));
    }
}

#[test]
fn a_bad_batch_is_told_before_its_recipes_are_looked_at() {
    for (faulty, _) in faulty().into_iter().chain([(vec![1; 9], (11, 0))]) {
        let length = faulty.len() as u32;
        for (lengths, space) in [(list(&[length + 1]), 8), (list(&[length]), 7), (vec![], 0), (list(&[length, 1]), 16)]
        {
            is_no_batch(&faulty, &lengths, space);
        }
        is_no_batch(&faulty.repeat(65), &list(&[length; 65]), 8 * 65);
    }
}

/// The live tasks of a state: number, spawner and times taken up.
fn tasks(state: &[u8]) -> Vec<(u16, u16, u32)> {
    let records = state[8..VARIABLES].as_chunks::<16>().0[..usize::from(state[2])].iter();
    let tasks = records.map(|&[n0, n1, _, _, _, _, _, _, s0, s1, z0, z1, t0, t1, t2, t3]| {
        assert_eq!((z0, z1), (0, 0));
        (u16::from_le_bytes([n0, n1]), u16::from_le_bytes([s0, s1]), u32::from_le_bytes([t0, t1, t2, t3]))
    });
    tasks.collect()
}

#[test]
fn a_fresh_task_has_no_spawner_and_was_not_taken_up() {
    assert_eq!(tasks(&fresh(&table(&A))), [(1, 0, 0)]);
}

#[test]
fn a_spawn_writes_its_spawner_and_a_try_counts() {
    let table = table(&A);
    let mut state = fresh(&table);
    let mut steps = Vec::new();
    while run_from(&table, &mut state, 1).0.number == 1 {
        steps.push(tasks(&state));
    }
    // Spawned; main waits, behind task 2; task 2 is taken up, sets its valve and ends; main is taken up and sets its valve.
    let main = |taken| vec![(1, 0, taken)];
    let both = vec![(1, 0, 0), (2, 1, 0)];
    let taken = [vec![(2, 1, 1), (1, 0, 0)], vec![(2, 1, 1), (1, 0, 0)]];
    let expected = [&[both, vec![(2, 1, 0), (1, 0, 0)]], &taken[..], &[main(0), main(1), main(1)]].concat();
    assert_eq!(steps, expected);
}

#[test]
fn a_turn_is_no_taking_up() {
    // Main waits for task 2, which gives way for ever: every second try takes task 2 up.
    let rows = [
        (1, 0, 3, 0),
        (6, 8, 1, 1),
        (9, 0, 0, 0),
        (8, 8, 0, 0),
        (1, 0, 3, 0),
        (5, 0, 2, 0),
        (9, 0, 0, 1),
        (7, 0, 0, 0),
    ];
    let table = table(&rows);
    let mut state = fresh(&table);
    let (answer, lines) = run_from(&table, &mut state, 2_000);
    assert_eq!(answer.number, 1);
    let count = |kind, task| lines.iter().filter(|line| line.0 == kind && line.1 == task).count() as u32;
    assert!(count(5, 1) > 400 && count(2, 1) == 0);
    let mut live = tasks(&state);
    live.sort();
    assert_eq!(live, [(1, 0, 0), (2, 1, count(2, 2))]);
}

#[test]
fn a_task_that_a_spawned_one_spawns_is_its_own() {
    // Main spawns task 2, which spawns task 3, which spawns task 4; main ends in between.
    let rows = [(1, 0, 2, 0), (6, 8, 1, 1), (9, 0, 0, 0), (1, 0, 3, 0), (6, 8, 1, 1), (9, 0, 0, 0), (7, 0, 0, 0)];
    let table = table(&rows);
    let mut state = fresh(&table);
    run_from(&table, &mut state, 7);
    // Spawner 1 is not live, and need not be.
    assert_eq!(tasks(&state), [(3, 2, 1), (2, 1, 1), (4, 3, 0)]);
}

#[test]
fn the_times_taken_up_stay_at_the_largest_value() {
    let waiters = table(&WAITERS);
    for (place, parameter) in [(GIVES_WAY, 0), (OWN, 2), (GUARD, 1), (14, 0)] {
        for (before, after) in [(0, 1), (255, 256), (u32::MAX - 1, u32::MAX), (u32::MAX, u32::MAX)] {
            let mut state = idle(9, &[(5, place, parameter), (6, GUARD, 0)]);
            state[20..24].copy_from_slice(&before.to_le_bytes());
            assert_eq!(run_from(&waiters, &mut state, 1).1, [(2, 5, 0, 0)]);
            assert_eq!(tasks(&state), [(5, 2, after), (6, 3, 0)], "{place} {before}");
        }
    }
}

/// The state record that a state of tasks 1, 5 and 3 is refused at, with other bytes at an index; 0 where it passes.
fn refused_at(at: usize, bytes: &[u8]) -> u32 {
    let mut state = idle(9, &[(1, GIVES_WAY, 0), (5, GIVES_WAY, 0), (3, GIVES_WAY, 0)]);
    state[at..at + bytes.len()].copy_from_slice(bytes);
    let before = state.clone();
    let (answer, _) = run_from(&table(&WAITERS), &mut state, 0);
    if answer.number == 1 {
        return 0;
    }
    assert_eq!((answer.number, answer.steps, answer.records), (22, 0, 0));
    assert_eq!(state, before);
    answer.place
}

#[test]
fn a_spawner_is_below_its_task() {
    // The second records of tasks 1, 5 and 3 are the state records 2, 4 and 6.
    let spawners =
        |record: usize| [0, 1, 2, 3, 4, 5, 6, 256, 258, 65_535_u16].map(|s| refused_at(8 * record, &s.to_le_bytes()));
    assert_eq!(spawners(2), [0, 2, 2, 2, 2, 2, 2, 2, 2, 2]);
    assert_eq!(spawners(4), [4, 0, 0, 0, 0, 4, 4, 4, 4, 4]);
    assert_eq!(spawners(6), [6, 0, 0, 6, 6, 6, 6, 6, 6, 6]);
    for record in [2, 4, 6] {
        for byte in [2, 3] {
            assert_eq!(refused_at(8 * record + byte, &[1]), record as u32);
        }
        assert_eq!(refused_at(8 * record + 4, &[255; 4]), 0);
    }
    for byte in 56..VARIABLES {
        assert_eq!(refused_at(byte, &[1]), byte as u32 / 8);
    }
}

#[test]
fn a_first_record_is_at_fault_before_a_second() {
    // Places 0 and spawners that are none: of a task the first record decides, and both before the next task's.
    let faulty = |records: &[usize]| {
        let mut state = idle(9, &[(7, GIVES_WAY, 0), (5, GIVES_WAY, 0), (3, GIVES_WAY, 0)]);
        for record in records {
            state[8 * record + 2] = if record % 2 == 1 { 0 } else { 1 };
        }
        run_from(&table(&WAITERS), &mut state, 9).0.place
    };
    assert_eq!([faulty(&[1, 2]), faulty(&[2, 3]), faulty(&[3, 4]), faulty(&[4, 5]), faulty(&[6])], [1, 2, 3, 4, 6]);
}

#[test]
fn a_state_of_another_size_is_refused() {
    let table = table(&A);
    for length in [0, 519, 520, 521, 768, 775, 777, 784] {
        let mut state = fresh(&table);
        state.resize(length, 0);
        let refused = Answer { number: 21, steps: 0, records: 0, place: 0 };
        assert_eq!(run_from(&table, &mut state, 9), (refused, vec![]), "{length}");
    }
}

/// Main of a set of variable 8 and an await of it.
fn set_and_await(value: i32) -> Vec<Row> {
    main_of(&[&around(3, 8, 0, &[&[(9, 0, 0, value)]]), &[(8, 8, 0, 0)]])
}

#[test]
fn of_the_numbers_never_issued_only_0_is_done() {
    assert_eq!(trial(&set_and_await(0), 100), (0, 4, PASSES.to_vec()));
    // Main's own number, numbers never issued, and such as are 0 in their lower bytes.
    for awaited in [1, 2, 256, 65_535, 65_536, 0x0100_0000, i32::MAX, -1, -256, -65_536, i32::MIN] {
        assert_eq!(trial(&set_and_await(awaited), 100), (2, 2, vec![(4, 1, 0, awaited)]), "{awaited}");
    }
}

#[test]
fn each_name_may_hold_the_0() {
    for name in 0..=64 {
        assert_eq!(trial(&[(1, 0, 1, 0), (8, name, 0, 0)], 100), (0, 3, PASSES.to_vec()), "{name}");
    }
}

#[test]
fn an_optional_task_holds_main_only_if_it_was_spawned() {
    // Main spawns the task if the number is not 0, awaits variable 8 in either case, and sets valve 0.
    let optional = |wanted| {
        let spawn = around(6, 8, 1, &[&[(9, 0, 0, 4)]]);
        let main = [around(4, 0, 0, &[&[(9, 0, 0, wanted)], &spawn]), around(3, 0, 0, &[&[(9, 0, 0, 5)]])];
        [main_of(&[&main[0], &[(8, 8, 0, 0)], &main[1]]), vec![(1, 0, 0, 0)]].concat()
    };
    let last = [(2, 1, 0, 0), (7, 1, 0, 5), (6, 1, 0, 0)];
    let without = [&[(4, 1, 0, 0)], &last[..]].concat();
    let with = [&[(1, 1, 0, 2), (4, 1, 0, 2), (2, 2, 0, 0), (6, 2, 0, 0)], &last[..]].concat();
    assert_eq!(trial(&optional(0), 100), (0, 5, without));
    assert_eq!(trial(&optional(1), 100), (0, 8, with));
}

#[test]
fn an_await_of_a_0_joins_the_back_first() {
    // Main awaits variable 8, which is 0, behind task 2, which sets valve 1 before main goes on.
    let main = main_of(&[&around(6, 9, 1, &[&[(9, 0, 0, 7)]]), &[(8, 8, 0, 0)]]);
    let child = around(1, 0, 0, &[&around(3, 1, 0, &[&[(10, 64, 0, 0)]])]);
    let lines = vec![(1, 1, 0, 2), (4, 1, 0, 0), (2, 2, 0, 0), (7, 2, 1, 7), (6, 2, 0, 0), (2, 1, 0, 0), (6, 1, 0, 0)];
    assert_eq!(trial(&[main, child].concat(), 100), (0, 7, lines));
    // Reached by a suspend it is tested when tried, with no wait before.
    let lines = vec![(3, 1, 0, 0), (2, 1, 0, 0), (6, 1, 0, 0)];
    assert_eq!(trial(&main_of(&[&[(7, 0, 0, 0)], &[(8, 8, 0, 0)]]), 100), (0, 3, lines));
}

/// Main sets variable 8 and awaits it; task 2 sets it again before main is tried.
fn set_while_main_waits(first: i32, second: i32) -> (u32, u32, Vec<Line>) {
    let set = |value| around(3, 8, 0, &[&[(9, 0, 0, value)]]);
    let main = main_of(&[&set(first), &around(6, 9, 1, &[&[(9, 0, 0, 0)]]), &[(8, 8, 0, 0)]]);
    trial(&[main, around(1, 0, 0, &[&set(second)])].concat(), 100)
}

#[test]
fn the_0_counts_that_is_there_at_the_try() {
    let begin = |awaited| vec![(1, 1, 0, 2), (4, 1, 0, awaited), (2, 2, 0, 0), (6, 2, 0, 0)];
    let passes = |awaited| [&begin(awaited)[..], &PASSES[1..]].concat();
    // It becomes 0 between the wait and the try, from a number never issued and from main's own.
    for first in [9, -1, 1] {
        assert_eq!(set_while_main_waits(first, 0), (0, 8, passes(first)), "{first}");
    }
    // It stops being 0: then it holds a number that holds main, or one that is done.
    for second in [9, -1, 1] {
        assert_eq!(set_while_main_waits(0, second), (2, 6, begin(0)), "{second}");
    }
    assert_eq!(set_while_main_waits(0, 2), (0, 8, passes(0)));
}

#[test]
fn a_host_may_write_the_0() {
    let table = table(&set_and_await(9));
    let mut state = fresh(&table);
    assert_eq!(run_from(&table, &mut state, 100).0.number, 2);
    assert_eq!(chain_of(&table, &state), (vec![1], 2));
    state[VARIABLES + 4 * 8] = 0;
    assert_eq!(explained(&table, &state), (NOT_STUCK, vec![]));
    let finished = Answer { number: 0, steps: 2, records: 2, place: 0 };
    assert_eq!(run_from(&table, &mut state, 100), (finished, PASSES[1..].to_vec()));
}
