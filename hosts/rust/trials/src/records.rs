//! Tables written as kind(name, span, value), and put together record by record.

/// A record: kind, name, span and value.
pub type Row = (u8, u8, u16, i32);
/// Records one after the other: a table, or a part of one.
pub type Part = Vec<Row>;

pub const PROCEDURE: u8 = 1;
pub const SKIP: u8 = 2;
pub const SET: u8 = 3;
pub const IF: u8 = 4;
pub const WHILE: u8 = 5;
pub const SPAWN: u8 = 6;
pub const SUSPEND: u8 = 7;
pub const AWAIT: u8 = 8;
pub const CONSTANT: u8 = 9;
pub const READ: u8 = 10;
pub const TWO: u8 = 11;
pub const ONE: u8 = 12;
pub const GUARD: u8 = 13;

/// The bytes of a table.
pub fn table(rows: &[Row]) -> Vec<u8> {
    let mut bytes = Vec::with_capacity(8 * rows.len());
    for &(kind, name, span, value) in rows {
        bytes.extend([kind, name]);
        bytes.extend(span.to_le_bytes());
        bytes.extend(value.to_le_bytes());
    }
    bytes
}

/// A record that encloses the parts; its span is how many records they have.
pub fn node(kind: u8, name: u8, value: i32, parts: &[Part]) -> Part {
    let mut rows = vec![(kind, name, 0, value)];
    rows.extend(parts.iter().flatten());
    rows[0].2 = (rows.len() - 1) as u16;
    rows
}

pub fn leaf(kind: u8, name: u8, value: i32) -> Part {
    node(kind, name, value, &[])
}

pub fn procedure(body: &[Part]) -> Part {
    node(PROCEDURE, 0, 0, body)
}

pub fn skip() -> Part {
    leaf(SKIP, 0, 0)
}

pub fn suspend() -> Part {
    leaf(SUSPEND, 0, 0)
}

pub fn wait(name: u8) -> Part {
    leaf(AWAIT, name, 0)
}

pub fn set(name: u8, value: Part) -> Part {
    node(SET, name, 0, &[value])
}

/// An if or a while.
pub fn test(kind: u8, test: Part, body: &[Part]) -> Part {
    node(kind, 0, 0, &[test, body.concat()])
}

pub fn forever(body: &[Part]) -> Part {
    test(WHILE, constant(1), body)
}

pub fn spawn(name: u8, number: i32, argument: Part) -> Part {
    node(SPAWN, name, number, &[argument])
}

pub fn guard(test: Part) -> Part {
    node(GUARD, 0, 0, &[test])
}

pub fn constant(value: i32) -> Part {
    leaf(CONSTANT, 0, value)
}

pub fn read(name: u8) -> Part {
    leaf(READ, name, 0)
}

pub fn two(operator: u8, first: Part, second: Part) -> Part {
    node(TWO, operator, 0, &[first, second])
}

pub fn one(operator: u8, operand: Part) -> Part {
    node(ONE, operator, 0, &[operand])
}

/// A part of the kind that passes wherever the kind is due; a leaf for a kind that is none.
pub fn sample(kind: u8) -> Part {
    match kind {
        PROCEDURE => procedure(&[skip()]),
        SET => set(0, constant(5)),
        IF => test(IF, constant(1), &[skip()]),
        WHILE => test(WHILE, read(8), &[skip()]),
        SPAWN => spawn(8, 0, constant(5)),
        AWAIT => wait(8),
        CONSTANT => constant(3),
        READ => read(8),
        TWO => two(0, constant(3), constant(4)),
        ONE => one(0, constant(3)),
        GUARD => guard(constant(3)),
        _ => leaf(kind, 0, 0),
    }
}
