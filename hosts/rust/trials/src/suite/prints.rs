//! "The print program": every word, every refusal, and the ends of its budget and of its log.

use super::blocks::every_kind;
use super::orders::faulty;
use super::rows::{skips, A, B, C, D, E, F, SPENT};
use super::values::VALUES;
use super::Suite;
use crate::case::Case;
use crate::records::{
    constant, forever, guard, procedure, read, set, skip, spawn, suspend, table, test, two, wait, Part, Row, WHILE,
};
use crate::vectors::Vector;

/// Of the endings, "spent" has no case: 10,000 steps cannot issue 65,535 numbers.
pub fn sweep(suite: &mut Suite, vectors: &[Vector]) {
    for vector in vectors {
        if matches!(vector.case, Case::Print { .. }) {
            suite.add(vector.case.clone());
        }
    }
    let rows: [&[Row]; 8] = [&A, &B, &C, &D, &E, &F, &SPENT, &every_kind()];
    for rows in rows {
        suite.print(rows);
    }
    refusals(suite);
    values(suite);
    budgets(suite);
    logs(suite);
    divisors(suite);
}

/// `refused`, number and place: 11 with its lengths, 12 to 17 at the first statement and further on.
fn refusals(suite: &mut Suite) {
    for number in 12..=17 {
        suite.print(&procedure(&[faulty(number)]));
        suite.print(&procedure(&[skip(), set(0, constant(1)), faulty(number)]));
    }
    let long = table(&skips(8_192));
    for length in [0, 1, 7, 9, 32_769, 32_776, 65_535, 65_536] {
        suite.add(Case::Print { table: long[..length].to_vec() });
    }
    suite.print(&skips(4_096));
    suite.print(&skips(4_097));
    suite.print(&[(1, 0, 0, 0); 4_096]);
    // The last record's index has four digits.
    let mut rows = skips(4_096);
    rows[0].2 = 4_094;
    suite.print(&rows);
}

/// Values of each sign and length, for valves of each name, for waiters, and for many tasks.
fn values(suite: &mut Suite) {
    let more = [10, -10, 99, 100, -1_000, 65_536, 1_000_000_000, -1_000_000_000];
    let sets: Vec<Part> =
        VALUES.into_iter().chain(more).enumerate().map(|(i, value)| set(i as u8 % 8, constant(value))).collect();
    suite.print(&procedure(&sets));
    for value in VALUES {
        let main = procedure(&[spawn(9, 1, constant(value)), set(8, constant(value)), wait(8)]);
        let child = procedure(&[suspend(), set(3, read(64)), suspend()]);
        suite.print(&[main, child].concat());
    }
    let main = procedure(&[rounds(200, &[spawn(9, 1, read(8)), wait(9)])]);
    suite.print(&[main, procedure(&[set(7, read(64))])].concat());
}

/// A while that runs its body as often: each round is two steps and the body's.
fn rounds(count: i32, body: &[Part]) -> Part {
    let more = set(8, two(0, read(8), constant(1)));
    test(WHILE, two(4, read(8), constant(count)), &[body.concat(), more])
}

/// Endings about 10,000 steps: finished and stuck with the last of them, paused one later and at a blocked spawn.
fn budgets(suite: &mut Suite) {
    for count in [4_998, 4_999, 5_000] {
        suite.print(&procedure(&[rounds(count, &[])]));
        suite.print(&procedure(&[rounds(count, &[]), skip()]));
        // Variable 8 then holds a number never issued, variable 9 holds 0.
        for name in [8, 9] {
            suite.print(&procedure(&[rounds(count, &[]), wait(name)]));
            suite.print(&procedure(&[rounds(count, &[]), skip(), wait(name)]));
        }
    }
    for count in [4_967, 4_968] {
        for tail in [vec![], skip()] {
            let main = procedure(&[rounds(count, &[]), tail, forever(&[spawn(9, 1, constant(0))])]);
            suite.print(&[main, procedure(&[])].concat());
        }
    }
    suite.print(&procedure(&[forever(&[])]));
    suite.print(&procedure(&[forever(&[skip(), skip(), skip(), set(2, constant(-3))])]));
    suite.print(&procedure(&[forever(&[skip(), skip(), suspend()])]));
}

/// Runs of about 4,096 records: 273 rounds of 15, then some more; and recipes whose log fills in other ways.
fn logs(suite: &mut Suite) {
    let sets: Vec<Part> = (0..15).map(|i| set(i % 8, two(1, read(8), constant(100)))).collect();
    for more in 0..3 {
        let tail = set(0, constant(-1)).repeat(more);
        suite.print(&procedure(&[rounds(273, &sets), tail.clone()]));
        suite.print(&procedure(&[rounds(273, &sets), tail.clone(), suspend()]));
        for name in [8, 9] {
            suite.print(&procedure(&[rounds(273, &sets), tail.clone(), wait(name)]));
        }
    }
    suite.print(&procedure(&[forever(&[set(0, constant(-5))])]));
    suite.print(&procedure(&[forever(&[suspend()])]));
    let main = procedure(&[forever(&[spawn(9, 1, read(9)), wait(9)])]);
    suite.print(&[main, procedure(&[set(1, read(64)), suspend()])].concat());
}

/// `novalue` and the steps: 5 by 0 at once and behind other steps; with the last step of the budget, where "paused"
/// comes first, and one before it; with no room for the record that would follow; and guards without a value, which are
/// stuck.
fn divisors(suite: &mut Suite) {
    let lacking = || two(3, constant(5), constant(0));
    let lacks = || set(0, lacking());
    suite.print(&procedure(&[lacks()]));
    suite.print(&procedure(&[set(1, constant(6)), skip(), lacks()]));
    suite.print(&procedure(&[test(WHILE, lacking(), &[])]));
    suite.print(&procedure(&[spawn(9, 0, lacking())]));
    suite.print(&procedure(&[guard(lacking())]));
    for tail in [vec![], skip()] {
        suite.print(&procedure(&[rounds(4_999, &[]), tail, lacks()]));
    }
    let sets: Vec<Part> = (0..15).map(|i| set(i % 8, read(8))).collect();
    suite.print(&procedure(&[rounds(273, &sets), set(1, constant(-1)), lacks()]));
}
