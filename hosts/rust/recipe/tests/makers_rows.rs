//! Recipes of two makers, which sentences each breaks, and where and how that is told.

#[path = "common/makers.rs"]
mod makers;

use makers::{around, c, drum_waits, first_pump, guard, list, main_block, main_turned, nothing, number, one, recipe};
use makers::{second_pump, set, spawn, suspend, tested, turns, two, v, wait, Records, DRUM, ORDER, PUMP};
use recipe::makers::{Breach, Called, TwoMakers};
use recipe::table::{kind, unary, Record};

/// Statements and operands that no other row has.
fn others() -> Records {
    let skip = || around(kind::SKIP, 0, 0, nothing());
    let test = one(unary::NOT, two(5, v(12), c(0)));
    [skip(), tested(kind::IF, test, suspend()), tested(kind::WHILE, c(0), skip())].concat()
}

/// With another main block; with another procedure 1; with another procedure 3.
fn with_main(main: Records) -> Records {
    recipe(&[main, first_pump(), second_pump(), drum_waits(), turns(2)])
}

fn with_pump(pump: Records) -> Records {
    recipe(&[main_block(5), pump, second_pump(), drum_waits(), turns(2)])
}

fn with_drum(drum: Records) -> Records {
    recipe(&[main_block(5), first_pump(), second_pump(), drum, turns(2)])
}

/// With no other procedure's body.
fn beside_empty(main: Records) -> Records {
    recipe(&[main, nothing(), nothing(), nothing(), nothing()])
}

fn empty() -> Records {
    beside_empty(main_block(5))
}

/// The breaches of a recipe where these procedures are the pump maker's, and those the drum maker's.
fn breaches(records: &[Record], pump: &[usize], drum: &[usize]) -> Vec<Breach> {
    TwoMakers::new(records, &Called::default(), &list(pump), &list(drum)).breaches()
}

// ---- The rows `tested` of `crates/makers/specs/Rows.antt`, in their order.

type Numbers = &'static [usize];

/// A recipe, whose procedures are whose, and the sentences that it breaks.
type Row = (Records, Numbers, Numbers, Numbers);

fn row(records: Records, breaks: Numbers) -> Row {
    (records, PUMP, DRUM, breaks)
}

fn of_main_blocks() -> Vec<Row> {
    let both = |one, other| with_main([one, other].concat());
    let (pump, drum) = (|argument| spawn(20, 1, argument), |argument| spawn(21, 3, argument));
    vec![
        row(with_main(main_block(5)), &[]),
        // The drum maker's first; either one's second procedure; into the first variable and the last; both into one;
        // no spawn; one; three; two of one maker's; an argument that is no constant; a statement more; the parameter's
        // name.
        row(with_main(main_turned(5)), &[]),
        row(both(spawn(20, 2, c(5)), spawn(21, 4, c(0))), &[]),
        row(beside_empty([spawn(8, 1, c(5)), spawn(63, 3, c(0))].concat()), &[]),
        row(both(pump(c(5)), spawn(20, 3, c(0))), &[]),
        row(with_main(nothing()), &[2]),
        row(with_main(pump(c(5))), &[2]),
        row(both(main_block(5), spawn(22, 4, c(0))), &[2]),
        row(both(pump(c(5)), spawn(21, 2, c(0))), &[2]),
        row(both(pump(v(12)), drum(c(0))), &[2]),
        row(both(pump(two(0, c(1), c(2))), drum(c(0))), &[2]),
        row(both(pump(c(5)), drum(one(0, c(5)))), &[2]),
        row(both([pump(c(5)), suspend()].concat(), drum(c(0))), &[2]),
        row(beside_empty([spawn(64, 1, c(5)), drum(c(0))].concat()), &[2]),
    ]
}

/// A maker names a variable of the main block's.
fn of_its_variables() -> Vec<Row> {
    vec![
        // Read, awaited.
        row(with_drum(set(2, v(20))), &[2]),
        row(with_drum(wait(21)), &[2]),
        row(with_pump(wait(20)), &[2]),
        // In a second operand, an only one; in the test and the body of an if, of a while.
        row(with_pump(set(0, two(0, c(1), v(20)))), &[2]),
        row(with_pump(set(0, one(0, v(20)))), &[2]),
        row(with_pump(tested(kind::IF, v(20), nothing())), &[2]),
        row(with_pump(tested(kind::IF, c(1), wait(20))), &[2]),
        row(with_pump(tested(kind::WHILE, v(20), nothing())), &[2]),
        row(with_pump(tested(kind::WHILE, c(1), wait(20))), &[2]),
    ]
}

fn of_names() -> Vec<Row> {
    vec![
        // Both makers name a variable: one sets a valve, one reads it in a guard, one spawns into it, one awaits it;
        // both only read one, a variable and a valve; both only await one.
        row(with_drum(set(1, c(1))), &[3]),
        row(with_drum(guard(v(0))), &[3]),
        row(with_drum(spawn(8, 4, c(0))), &[3]),
        row(recipe(&[main_block(5), first_pump(), second_pump(), wait(8), nothing()]), &[3]),
        row(recipe(&[main_block(5), set(0, v(12)), nothing(), nothing(), set(2, v(12))]), &[3]),
        row(recipe(&[main_block(5), nothing(), guard(v(3)), guard(v(3)), nothing()]), &[3]),
        row(recipe(&[main_block(5), wait(12), nothing(), wait(12), nothing()]), &[3]),
        // Each its own parameter: no variable.
        row(with_drum(set(64, v(64))), &[]),
        // Every other statement and operand.
        row(with_drum(others()), &[]),
    ]
}

/// Of the maker's first, of the other maker's and of the main block.
fn of_spawns() -> Vec<Row> {
    vec![
        row(with_pump(spawn(8, 1, c(0))), &[]),
        row(with_drum(spawn(9, 2, c(0))), &[7]),
        row(with_pump(spawn(8, 0, c(0))), &[4]),
    ]
}

fn of_awaits_and_reads() -> Vec<Row> {
    vec![
        // Awaits of a valve, of the last variable, of the parameter, of one that is set too; a spawn into the parameter
        // (which procedure 2 reads).
        row(with_pump(wait(7)), &[5]),
        row(with_pump(wait(63)), &[]),
        row(with_pump(wait(64)), &[5, 6]),
        row(with_pump([set(12, c(1)), wait(12)].concat()), &[5]),
        row(with_pump(spawn(64, 2, c(0))), &[5, 6]),
        row(with_drum([set(9, c(0)), spawn(9, 4, c(0))].concat()), &[8]),
        // An awaited variable read, in a guard; as a spawn's argument.
        row(with_pump([wait(12), guard(v(12))].concat()), &[6]),
        row(with_drum([spawn(9, 4, c(0)), spawn(10, 4, v(9))].concat()), &[9]),
    ]
}

fn of_procedures() -> Vec<Row> {
    let nobodys = [set(0, v(8)), wait(20)].concat();
    let six = [main_block(5), first_pump(), second_pump(), drum_waits(), turns(2), nobodys];
    vec![
        // One that is nobody's, whatever it does.
        row(recipe(&six), &[]),
        // One of both; the main block as either maker's.
        (empty(), PUMP, &[2, 3], &[1]),
        (empty(), &[0, 1], DRUM, &[1, 2, 4]),
        (empty(), PUMP, &[0, 3], &[1, 2, 7]),
    ]
}

fn rows() -> Vec<Row> {
    let names = [of_main_blocks(), of_its_variables(), of_names()].concat();
    [names, of_spawns(), of_awaits_and_reads(), of_procedures()].concat()
}

#[test]
fn the_rows_break_what_they_break() {
    assert_eq!(rows().len(), 47);
    for (index, (records, pump, drum, breaks)) in rows().iter().enumerate() {
        let mut numbers: Vec<usize> =
            breaches(records, pump, drum).iter().map(|breach| number(breach.sentence)).collect();
        numbers.sort_unstable();
        numbers.dedup();
        assert_eq!(numbers, *breaks, "row {index}");
    }
}

// ---- What is told, and of which record.

const BOTH: [&[usize]; 2] = [PUMP, DRUM];

/// Holds the breaches to the sentences by their numbers, the records, and what is told of these.
fn assert_told(records: &[Record], [pump, drum]: [&[usize]; 2], due: &[(usize, usize, &str)]) {
    let due = due.iter().map(|(broken, record, told)| (*broken, *record, format!("{told}: {}", ORDER[broken - 1])));
    let found = breaches(records, pump, drum);
    let found = found.iter().map(|breach| (number(breach.sentence), breach.record, breach.to_string()));
    assert_eq!(found.collect::<Vec<_>>(), due.collect::<Vec<_>>(), "{records:?}");
}

#[test]
fn a_procedure_given_twice_is_told_at_its_header() {
    let of_both = (1, 6, "procedure 2 is given to both makers");
    assert_told(&empty(), [PUMP, &[2, 3]], &[of_both]);
    assert_told(&empty(), [PUMP, &[1, 2, 3]], &[(1, 5, "procedure 1 is given to both makers"), of_both]);
    let named = "the main block spawns into variable 20, which the drum maker also names (record 1)";
    let also = "the main block spawns into variable 21, which the drum maker also names (record 1)";
    let main = (1, 0, "procedure 0, the main procedure, is given to the drum maker");
    let spawns = "the drum maker spawns procedure 1, which is the pump maker's";
    let due = [main, (2, 1, named), (7, 1, spawns), (2, 3, &*also.replace("record 1", "record 3"))];
    assert_told(&empty(), [PUMP, &[0, 3, 4]], &due);
    // Either maker may have the one, and then the other has the other.
    let overlap = beside_empty([spawn(20, 2, c(0)), spawn(21, 1, c(0))].concat());
    assert_told(&overlap, [PUMP, &[2, 3]], &[of_both]);
}

#[test]
fn a_main_block_without_one_of_each_is_told() {
    let (no_drum, no_pump) = (
        "the main block spawns no procedure of the drum maker's",
        "the main block spawns no procedure of the pump maker's",
    );
    assert_told(&with_main(spawn(20, 1, c(5))), BOTH, &[(2, 0, no_drum)]);
    assert_told(&with_main(spawn(20, 4, c(5))), BOTH, &[(2, 0, no_pump)]);
    assert_told(&with_main(nothing()), BOTH, &[(2, 0, "the main block spawns no procedure of either maker's")]);
    let (pump, drum) = (
        "the main block spawns a second procedure of the pump maker's here",
        "the main block spawns a second procedure of the drum maker's here",
    );
    assert_told(&with_main([main_block(5), spawn(22, 4, c(0))].concat()), BOTH, &[(2, 5, drum)]);
    assert_told(&with_main([main_block(5), main_block(5)].concat()), BOTH, &[(2, 5, pump), (2, 7, drum)]);
    assert_told(&with_main([spawn(20, 1, c(5)), spawn(21, 2, c(0))].concat()), BOTH, &[(2, 3, pump)]);
    assert_told(&with_main([spawn(20, 1, c(5)), main_block(5)].concat()), BOTH, &[(2, 3, pump)]);
    let nobodys = "the main block spawns procedure 2, which is neither maker's";
    let main = [spawn(20, 1, c(5)), spawn(21, 2, c(0)), spawn(22, 3, c(0))].concat();
    assert_told(&beside_empty(main), [&[1], DRUM], &[(2, 3, nobodys)]);
    let main = [spawn(20, 0, c(5)), spawn(21, 3, c(0))].concat();
    assert_told(&with_main(main), BOTH, &[(2, 1, "the main block spawns procedure 0, the main procedure")]);
}

#[test]
fn a_wrong_statement_of_the_main_block_is_told() {
    let other = "the main block has a statement here that is no spawn";
    assert_told(&with_main([main_block(5), suspend()].concat()), BOTH, &[(2, 5, other)]);
    // What stands within a statement is no statement of its own.
    let within = tested(kind::IF, c(1), spawn(22, 4, v(12)));
    assert_told(&with_main([within, main_block(5)].concat()), BOTH, &[(2, 1, other)]);
    assert_told(&with_main([set(12, c(1)), wait(12), main_block(5)].concat()), BOTH, &[(2, 1, other), (2, 3, other)]);
    let (argument, parameter) = (
        "the argument of this spawn of the main block is no constant",
        "the main block spawns into its parameter, which is no variable",
    );
    assert_told(&with_main([spawn(20, 1, v(12)), spawn(21, 3, c(0))].concat()), BOTH, &[(2, 1, argument)]);
    let negated = one(0, c(5));
    assert_told(&with_main([spawn(21, 3, c(0)), spawn(20, 1, negated)].concat()), BOTH, &[(2, 3, argument)]);
    let main_itself = "the main block spawns procedure 0, the main procedure";
    let all = [(2, 1, main_itself), (2, 1, argument), (2, 1, parameter)];
    assert_told(&with_main([spawn(64, 0, v(64)), main_block(5)].concat()), BOTH, &all);
}

#[test]
fn a_variable_of_the_main_block_that_a_maker_names_is_told() {
    let named = |variable, maker, record| {
        format!("the main block spawns into variable {variable}, which the {maker} maker also names (record {record})")
    };
    assert_told(&with_drum(set(2, v(20))), BOTH, &[(2, 1, &named(20, "drum", 23))]);
    assert_told(&with_pump([suspend(), wait(20)].concat()), BOTH, &[(2, 1, &named(20, "pump", 7))]);
    let both = recipe(&[main_block(5), nothing(), wait(21), guard(v(21)), nothing()]);
    let shared = "both makers name variable 21 (the drum maker first in record 10)";
    assert_told(&both, BOTH, &[(2, 3, &named(21, "pump", 7)), (2, 3, &named(21, "drum", 10)), (3, 7, shared)]);
    // The two may be one.
    assert_told(&with_main([spawn(20, 1, c(5)), spawn(20, 3, c(0))].concat()), BOTH, &[]);
}

#[test]
fn a_variable_of_both_makers_is_told_once() {
    let shared =
        |variable, record| format!("both makers name variable {variable} (the drum maker first in record {record})");
    assert_told(&with_drum(guard(v(0))), BOTH, &[(3, 8, &shared(0, 23))]);
    let drum = [set(1, v(0)), set(0, c(0)), spawn(8, 4, v(64))].concat();
    assert_told(&with_drum(drum), BOTH, &[(3, 6, &shared(8, 26)), (3, 8, &shared(0, 23)), (3, 19, &shared(1, 22))]);
}

#[test]
fn each_spawn_of_another_procedure_is_told() {
    let spawns = |maker, procedure, whose| format!("the {maker} maker spawns procedure {procedure}, {whose}");
    let pump = [spawn(8, 0, c(0)), spawn(8, 2, c(0)), spawn(8, 4, c(0))].concat();
    let due =
        [(4, 6, &*spawns("pump", 0, "the main procedure")), (4, 10, &spawns("pump", 4, "which is the drum maker's"))];
    assert_told(&with_pump(pump), BOTH, &due);
    assert_told(&with_drum(spawn(9, 2, c(0))), BOTH, &[(7, 22, &spawns("drum", 2, "which is the pump maker's"))]);
    let nobodys = spawns("drum", 4, "which is neither maker's");
    assert_told(&with_drum(spawn(9, 4, c(0))), [PUMP, &[3]], &[(7, 22, &nobodys)]);
}

#[test]
fn each_wait_that_is_wrong_is_told() {
    let valve = "the pump maker awaits variable 3, a valve";
    assert_told(&with_pump([wait(3), suspend(), wait(63), wait(3)].concat()), BOTH, &[(5, 6, valve), (5, 9, valve)]);
    let set_too = "the pump maker awaits variable 12, which it also sets (record 6)";
    assert_told(&with_pump([set(12, c(1)), wait(12)].concat()), BOTH, &[(5, 8, set_too)]);
    let later = "the drum maker spawns into variable 9, which it also sets (record 24)";
    assert_told(&with_drum([spawn(9, 4, c(0)), set(9, c(0))].concat()), BOTH, &[(8, 22, later)]);
    let (parameter, reads) = (
        "the drum maker spawns into its parameter, which is no variable",
        "the drum maker reads its parameter, into which it spawns (record 22)",
    );
    assert_told(&with_drum(spawn(64, 4, v(64))), BOTH, &[(8, 22, parameter), (9, 23, reads)]);
}

#[test]
fn each_read_of_a_task_number_is_told() {
    let awaited = "the pump maker reads variable 12, which it awaits (record 6)";
    let pump = [wait(12), guard(v(12)), set(0, v(12))].concat();
    assert_told(&with_pump(pump), BOTH, &[(6, 8, awaited), (6, 10, awaited)]);
    let spawned = "the drum maker reads variable 9, into which it spawns (record 22)";
    let drum = [spawn(9, 4, c(0)), spawn(10, 4, v(9)), wait(9)].concat();
    assert_told(&with_drum(drum), BOTH, &[(9, 25, spawned)]);
    // A procedure of nobody's may do as it likes.
    let nobodys = recipe(&[main_block(5), nothing(), wait(8), spawn(9, 0, c(0)), set(8, v(9))]);
    assert_told(&nobodys, [&[1, 2], &[3]], &[(7, 9, "the drum maker spawns procedure 0, the main procedure")]);
    assert_told(&nobodys, [&[1], &[4]], &[(2, 3, "the main block spawns procedure 3, which is neither maker's")]);
}

#[test]
fn the_valves_of_each_maker_are_told() {
    let valves = |records: &[Record]| {
        let (called, [pump, drum]) = (Called::default(), BOTH.map(list));
        TwoMakers::new(records, &called, &pump, &drum).valves()
    };
    assert_eq!(valves(&with_main(main_block(5))), "the pump maker's valves 0, 1; the drum maker's valve 2");
    assert_eq!(valves(&empty()), "no valve of the pump maker's; no valve of the drum maker's");
    assert_eq!(
        valves(&with_drum([set(7, v(3)), wait(12)].concat())),
        "the pump maker's valves 0, 1; the drum maker's valves 3, 7"
    );
}
