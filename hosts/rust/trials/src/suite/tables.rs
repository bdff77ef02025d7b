//! "The recipe table": kinds, spans, names, values and depths at their edges, wherever a record can stand.

use super::rows::skips;
use super::values::VALUES;
use super::Suite;
use crate::block::{fresh, log};
use crate::records::{
    constant, guard, one, procedure, read, sample, set, skip, spawn, suspend, table, test, two, Part, CONSTANT, GUARD,
    IF, SPAWN, WHILE,
};

/// A table around a part, and the index of the part's first record.
pub type Hole = (usize, fn(Part) -> Part);

/// Where a procedure is due: first, and after another.
pub const PROCEDURES: [Hole; 2] = [(0, |x| x), (2, |x| [procedure(&[skip()]), x].concat())];

/// Where a statement is due: alone, between others, first and last in a body, and in another procedure.
pub const STATEMENTS: [Hole; 5] = [
    (1, |x| procedure(&[x])),
    (2, |x| procedure(&[skip(), x, skip()])),
    (3, |x| procedure(&[test(IF, constant(1), &[x, skip()])])),
    (4, |x| procedure(&[test(WHILE, read(8), &[skip(), x]), skip()])),
    (2, |x| [procedure(&[]), procedure(&[x]), procedure(&[])].concat()),
];

/// Where an expression is due: a set's and a spawn's, a test with and without a body, the operand of kind 12, the first
/// and the second of kind 11, deeper ones, and a guard's.
pub const EXPRESSIONS: [Hole; 10] = [
    (2, |x| procedure(&[set(0, x)])),
    (2, |x| procedure(&[spawn(8, 0, x), skip()])),
    (2, |x| procedure(&[test(IF, x, &[skip(), skip()]), skip()])),
    (2, |x| procedure(&[test(WHILE, x, &[])])),
    (3, |x| procedure(&[set(0, one(1, x)), skip()])),
    (3, |x| procedure(&[set(0, two(0, x, constant(2)))])),
    (4, |x| procedure(&[set(0, two(1, constant(2), x)), skip()])),
    (4, |x| procedure(&[set(0, two(2, one(0, x), read(8)))])),
    (6, |x| procedure(&[set(0, two(3, two(0, read(8), constant(9)), x))])),
    (2, |x| procedure(&[guard(x), skip()])),
];

/// The places where a kind is due.
pub fn holes(kind: u8) -> &'static [Hole] {
    match kind {
        1 => &PROCEDURES,
        2..=8 | GUARD => &STATEMENTS,
        _ => &EXPRESSIONS,
    }
}

/// Each kind's names, from the least to the most.
pub const NAMES: [(u8, u8, u8); 13] = [
    (1, 0, 0),
    (2, 0, 0),
    (3, 0, 64),
    (4, 0, 0),
    (5, 0, 0),
    (6, 8, 64),
    (7, 0, 0),
    (8, 0, 64),
    (9, 0, 0),
    (10, 0, 64),
    (11, 0, 7),
    (12, 0, 1),
    (13, 0, 0),
];

pub fn sweep(suite: &mut Suite) {
    lengths(suite);
    kinds(suite);
    spans(suite);
    names(suite);
    values(suite);
    spawns(suite);
    depths(suite);
}

/// Every short length, and those about the longest: 11 for 0, for what is no multiple of 8, and over 32,768.
fn lengths(suite: &mut Suite) {
    for length in 0..=25 {
        suite.both_bytes(&table(&[procedure(&[skip()]), procedure(&[skip()])].concat())[..length]);
    }
    for length in [32_752, 32_760, 32_761, 32_767, 32_768, 32_769, 32_775, 32_776, 32_784, 65_528, 65_535, 65_536] {
        let mut rows = skips(length / 8 + 1);
        rows[0].2 = (length / 8 - 1) as u16;
        suite.both_bytes(&table(&rows)[..length]);
    }
    // The last of 4,096 records is at fault, then the first; 4,096 procedures.
    let mut rows = skips(4_096);
    rows[0].2 = 4_094;
    suite.both(&rows);
    rows[0].2 = 4_096;
    suite.both(&rows);
    suite.both(&[(1, 0, 0, 0); 4_096]);
}

/// "A procedure, statement or expression was due and the kind is another": every kind, and four that are none.
fn kinds(suite: &mut Suite) {
    for (_, hole) in PROCEDURES.iter().chain(&STATEMENTS).chain(&EXPRESSIONS) {
        for kind in (0..=14).chain([128, 255]) {
            suite.accepted(&hole(sample(kind)));
        }
    }
}

/// Spans about what is enclosed, short ones, and such as end past the table, wherever the kind is due.
fn spans(suite: &mut Suite) {
    for kind in 1..=13 {
        for &(at, hole) in holes(kind) {
            let whole = hole(sample(kind));
            let exact = whole[at].2;
            for span in [0, 1, 2, 3, exact.saturating_sub(1), exact, exact + 1, exact + 2, exact + 256, u16::MAX] {
                let mut rows = whole.clone();
                rows[at].2 = span;
                suite.accepted(&rows);
            }
        }
    }
    let rows: [&[_]; 10] = [
        // A first operand that leaves none for the second; a kind 11 of span 1; the second stops short.
        &[(1, 0, 4, 0), (3, 8, 3, 0), (11, 0, 2, 0), (12, 0, 1, 0), (9, 0, 0, 0)],
        &[(1, 0, 3, 0), (3, 8, 2, 0), (11, 0, 1, 0), (9, 0, 0, 0)],
        &[(1, 0, 5, 0), (3, 8, 4, 0), (11, 0, 3, 0), (9, 0, 0, 0), (9, 0, 0, 0), (9, 0, 0, 0)],
        // A sole operand stops short; a second expression where a statement is due, and where a body may follow.
        &[(1, 0, 3, 0), (3, 8, 2, 0), (9, 0, 0, 0), (9, 0, 0, 0)],
        &[(1, 0, 3, 0), (4, 0, 2, 0), (9, 0, 0, 0), (9, 0, 0, 0)],
        &[(1, 0, 4, 0), (5, 0, 2, 0), (9, 0, 0, 0), (2, 0, 0, 0), (9, 0, 0, 0)],
        // A guard's expression is no test: neither a second expression nor a body may follow it.
        &[(1, 0, 3, 0), (13, 0, 2, 0), (9, 0, 0, 0), (9, 0, 0, 0)],
        &[(1, 0, 3, 0), (13, 0, 2, 0), (9, 0, 0, 0), (2, 0, 0, 0)],
        // A procedure that ends in the middle of a statement; one that takes the next one in.
        &[(1, 0, 1, 0), (3, 8, 1, 0), (9, 0, 0, 0)],
        &[(1, 0, 1, 0), (1, 0, 0, 0)],
    ];
    for rows in rows {
        suite.accepted(rows);
    }
}

/// "Name outside its row": below the least, the least, the most, above it.
fn names(suite: &mut Suite) {
    for (kind, least, most) in NAMES {
        for name in [least.wrapping_sub(1), least, least + 1, most, most + 1, 128, 255] {
            for &(at, hole) in &holes(kind)[..2] {
                let mut rows = hole(sample(kind));
                rows[at].1 = name;
                suite.accepted(&rows);
            }
        }
    }
}

/// "Value not 0 where unused", a bit in each of its bytes; a constant's any value.
fn values(suite: &mut Suite) {
    for kind in (1..=13).filter(|kind| *kind != SPAWN) {
        let (at, hole) = holes(kind)[0];
        let more: &[i32] = if kind == CONSTANT { &VALUES } else { &[] };
        for value in [1, -1, 256, 65_536, 1 << 24, i32::MIN].iter().chain(more) {
            let mut rows = hole(sample(kind));
            rows[at].3 = *value;
            suite.accepted(&rows);
        }
    }
}

/// "A spawn's outside 0–255", then "a spawn names no procedure of the table", with 1 to 3 and about 256 procedures.
fn spawns(suite: &mut Suite) {
    for procedures in [1, 2, 3, 255, 256, 257] {
        for number in [-1, 0, 1, 2, 3, 254, 255, 256, 257, 65_536, -256, i32::MIN, i32::MAX] {
            let main = procedure(&[skip(), spawn(8, number, constant(4))]);
            let others = procedure(&[]).repeat(procedures - 1);
            suite.accepted(&[main, others].concat());
        }
    }
    let last = procedure(&[set(0, read(64))]);
    for number in [1, 2, 3] {
        let spawner = procedure(&[test(IF, constant(1), &[spawn(9, number, constant(-4))])]);
        let main = procedure(&[spawn(8, 1, constant(0))]);
        suite.accepted(&[main, spawner, last.clone()].concat());
    }
    // Procedures with and without statements, in one row: where each begins, and where each is at its end.
    for number in 0..5 {
        let main = procedure(&[test(IF, read(64), &[skip()]), spawn(8, number, constant(2))]);
        let rows = [main, procedure(&[]), procedure(&[skip(), set(2, read(64))]), procedure(&[]), procedure(&[skip()])];
        suite.run(&table(&rows.concat()), fresh(), 30, log(160));
    }
}

/// A part as the only statement under as many ifs or whiles.
pub fn under(kind: u8, tests: usize, part: Part) -> Part {
    (0..tests).fold(part, |body, _| test(kind, constant(1), &[body]))
}

/// Operators around a constant, as many records deep: the operand is the sole one, the first, the last, or each in turn.
pub fn deep(style: usize, levels: usize) -> Part {
    operators(style, levels - 1, constant(1))
}

/// As many operators around a part.
pub fn operators(style: usize, levels: usize, part: Part) -> Part {
    (1..=levels).fold(part, |operand, level| match (style, level % 3) {
        (0, _) | (3, 0) => one(0, operand),
        (1, _) | (3, 1) => two(0, operand, constant(1)),
        _ => two(1, constant(1), operand),
    })
}

/// "Depth over 16", for statements and for expressions under each kind of statement.
fn depths(suite: &mut Suite) {
    for kind in [IF, WHILE] {
        for (tests, inner) in (13..=17).flat_map(|tests| (2..=8).chain([GUARD]).map(move |inner| (tests, inner))) {
            suite.accepted(&procedure(&[under(kind, tests, sample(inner))]));
        }
    }
    for style in 0..4 {
        for levels in 13..=17 {
            let expression = || deep(style, levels);
            suite.accepted(&procedure(&[set(0, expression())]));
            suite.accepted(&procedure(&[spawn(8, 0, expression()), skip()]));
            suite.accepted(&procedure(&[test(IF, expression(), &[set(1, constant(1))]), skip()]));
            suite.accepted(&procedure(&[test(WHILE, expression(), &[suspend(), skip()])]));
            suite.accepted(&procedure(&[under(IF, 3, set(0, deep(style, levels - 3)))]));
            suite.accepted(&procedure(&[under(IF, 3, guard(deep(style, levels - 3)))]));
        }
    }
}
