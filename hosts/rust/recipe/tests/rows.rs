//! The document's rows, one with a guard and one with a zero divisor, in both notations.

mod common;

use common::{table, ROW_A};
use recipe::asm::assemble;
use recipe_runner::{records, Ending, State};

type Row = (&'static str, &'static str, &'static [(u8, u8, u16, i32)], Ending, u32);

const ROWS: [Row; 9] = [
    (
        "1(0,5,0) 6(8,1,1) 9(0,0,5) 8(8,0,0) 3(0,1,0) 9(0,0,1) 1(0,2,0) 3(1,1,0) 10(64,0,0)",
        "procedure main
    spawn presser press 5        # the number goes into variable \"presser\"
    await presser
    set valve0 1
procedure press p
    set valve1 p
",
        &ROW_A,
        Ending::Finished,
        8,
    ),
    (
        "1(0,3,0) 6(8,1,1) 9(0,0,0) 8(8,0,0) 1(0,1,0) 7(0,0,0)",
        "procedure main\n  spawn x rest 0\n  await x\nprocedure rest\n  suspend",
        &[(1, 0, 3, 0), (6, 8, 1, 1), (9, 0, 0, 0), (8, 8, 0, 0), (1, 0, 1, 0), (7, 0, 0, 0)],
        Ending::Finished,
        9,
    ),
    ("1(0,1,0) 8(8,0,0)", "procedure main\n await x\nvariable x 8", &[(1, 0, 1, 0), (8, 8, 0, 0)], Ending::Finished, 3),
    (
        "1(0,3,0) 3(8,1,0) 9(0,0,1) 8(8,0,0)",
        "procedure main\n set x 1\n await x",
        &[(1, 0, 3, 0), (3, 8, 1, 0), (9, 0, 0, 1), (8, 8, 0, 0)],
        Ending::Stuck,
        2,
    ),
    ("1(0,0,0)", "procedure main", &[(1, 0, 0, 0)], Ending::Finished, 1),
    (
        "1(0,4,0) 5(0,3,0) 9(0,0,1) 6(8,1,1) 9(0,0,0) 1(0,0,0)",
        "procedure main\n while 1\n  spawn x idle 0\nprocedure idle",
        &[(1, 0, 4, 0), (5, 0, 3, 0), (9, 0, 0, 1), (6, 8, 1, 1), (9, 0, 0, 0), (1, 0, 0, 0)],
        Ending::Tasks,
        63,
    ),
    (
        "1(0,5,0) 5(0,4,0) 9(0,0,1) 6(8,1,1) 9(0,0,0) 7(0,0,0) 1(0,0,0)",
        "procedure main\n while 1\n  spawn x idle 0\n  suspend\nprocedure idle",
        &[(1, 0, 5, 0), (5, 0, 4, 0), (9, 0, 0, 1), (6, 8, 1, 1), (9, 0, 0, 0), (7, 0, 0, 0), (1, 0, 0, 0)],
        Ending::Spent,
        393_205,
    ),
    (
        "1(0,6,0) 6(8,1,1) 9(0,0,3) 13(0,3,0) 11(4,2,0) 9(0,0,2) 10(9,0,0) 1(0,3,0) 7(0,0,0) 3(9,1,0) 10(64,0,0)",
        "procedure main\n spawn x raise 3\n guard 2 < pressure\nprocedure raise p\n suspend\n set pressure p",
        &[
            (1, 0, 6, 0),
            (6, 8, 1, 1),
            (9, 0, 0, 3),
            (13, 0, 3, 0),
            (11, 4, 2, 0),
            (9, 0, 0, 2),
            (10, 9, 0, 0),
            (1, 0, 3, 0),
            (7, 0, 0, 0),
            (3, 9, 1, 0),
            (10, 64, 0, 0),
        ],
        Ending::Finished,
        10,
    ),
    (
        "1(0,5,0) 2(0,0,0) 3(0,3,0) 11(3,2,0) 9(0,0,5) 9(0,0,0)",
        "procedure main\n skip\n set valve0 5 / 0",
        &[(1, 0, 5, 0), (2, 0, 0, 0), (3, 0, 3, 0), (11, 3, 2, 0), (9, 0, 0, 5), (9, 0, 0, 0)],
        Ending::Novalue { place: 2 },
        1,
    ),
];

#[test]
fn both_notations_give_the_bytes() {
    for (raw, readable, records, ..) in ROWS {
        assert_eq!(assemble(raw).unwrap(), table(records), "{raw}");
        assert_eq!(assemble(readable).unwrap(), table(records), "{readable}");
    }
}

#[test]
fn the_tables_run_as_the_document_says() {
    for (raw, _, _, ending, steps) in ROWS {
        let table = assemble(raw).unwrap();
        let mut state = State::start(&table).unwrap();
        let ran = state.run(&table, u32::MAX, &mut vec![0; 1 << 22]).unwrap();
        assert_eq!((ran.ending, ran.steps), (ending, steps), "{raw}");
    }
}

#[test]
fn values_are_as_the_document_says() {
    for (expression, value) in [
        ("2147483647 + 1", Some(2_147_483_647)),
        ("-7 / 2", Some(-3)),
        ("-2147483648 / -1", Some(2_147_483_647)),
        ("5 / 0", None),
        ("0 and 1 / 0", None),
        ("1 or 1 / 0", None),
        ("-(1 / 0)", None),
        ("not (1 / 0)", None),
        ("2 + 3 * 4 - -(5)", Some(19)),
        ("not (1 < 2) or 3 == 3 and 7", Some(1)),
    ] {
        let table = assemble(&format!("procedure main\n  set valve0 {expression}")).unwrap();
        let mut log = [0; 64];
        let ran = State::start(&table).unwrap().run(&table, 9, &mut log).unwrap();
        let ending = if value.is_some() { Ending::Finished } else { Ending::Novalue { place: 1 } };
        let set = records(&log, ran.records).next().map(|record| record.value);
        assert_eq!((ran.ending, set), (ending, value), "{expression}");
    }
}
