//! What the tests of two makers' recipes use: records, bodies and recipes as `crates/makers/specs/Rows.antt` has them,
//! and the numbers of the sentences.

use recipe::makers::{Maker, Procedures, Sentence};
use recipe::table::{kind, Record};

/// An expression, statements or a whole recipe.
pub type Records = Vec<Record>;

/// The sentences, by their numbers from 1 on.
pub const ORDER: [Sentence; 9] = [
    Sentence::Procedures,
    Sentence::Main,
    Sentence::Names,
    Sentence::Spawns(Maker::Pump),
    Sentence::Awaits(Maker::Pump),
    Sentence::Reads(Maker::Pump),
    Sentence::Spawns(Maker::Drum),
    Sentence::Awaits(Maker::Drum),
    Sentence::Reads(Maker::Drum),
];

/// Whose the procedures are, unless said otherwise.
pub const PUMP: &[usize] = &[1, 2];
pub const DRUM: &[usize] = &[3, 4];

/// A sentence's number.
pub fn number(sentence: Sentence) -> usize {
    1 + ORDER.iter().position(|other| *other == sentence).unwrap()
}

/// A maker's list.
pub fn list(numbers: &[usize]) -> Procedures {
    numbers.iter().copied().collect()
}

/// A record around others.
pub fn around(kind: u8, name: u8, value: i32, enclosed: Records) -> Records {
    let span = u16::try_from(enclosed.len()).unwrap();
    [vec![Record::new(kind, name, span, value)], enclosed].concat()
}

/// A constant.
pub fn c(value: i32) -> Records {
    around(kind::CONSTANT, 0, value, nothing())
}

/// The value of a variable.
pub fn v(name: u8) -> Records {
    around(kind::VARIABLE, name, 0, nothing())
}

/// An operator with one operand.
pub fn one(operator: u8, operand: Records) -> Records {
    around(kind::UNARY, operator, 0, operand)
}

/// An operator with two.
pub fn two(operator: u8, left: Records, right: Records) -> Records {
    around(kind::BINARY, operator, 0, [left, right].concat())
}

pub fn set(name: u8, e: Records) -> Records {
    around(kind::SET, name, 0, e)
}

/// An `if` or a `while`.
pub fn tested(kind: u8, test: Records, body: Records) -> Records {
    around(kind, 0, 0, [test, body].concat())
}

pub fn spawn(name: u8, procedure: i32, e: Records) -> Records {
    around(kind::SPAWN, name, procedure, e)
}

pub fn guard(e: Records) -> Records {
    around(kind::GUARD, 0, 0, e)
}

pub fn wait(name: u8) -> Records {
    around(kind::AWAIT, name, 0, nothing())
}

pub fn suspend() -> Records {
    around(kind::SUSPEND, 0, 0, nothing())
}

/// An empty body.
pub fn nothing() -> Records {
    Records::new()
}

/// A recipe of procedures with these bodies.
pub fn recipe(bodies: &[Records]) -> Records {
    bodies.iter().flat_map(|body| around(kind::PROCEDURE, 0, 0, body.clone())).collect()
}

/// The main block: procedure 1 into variable 20 with this argument, procedure 3 into variable 21.
pub fn main_block(argument: i32) -> Records {
    [spawn(20, 1, c(argument)), spawn(21, 3, c(0))].concat()
}

/// The drum maker's first.
pub fn main_turned(argument: i32) -> Records {
    [spawn(21, 3, c(0)), spawn(20, 1, c(argument))].concat()
}

/// A pump maker: its second task waits at a guard until valve 0 is open, and sets valve 1.
pub fn first_pump() -> Records {
    [spawn(8, 2, v(64)), set(0, c(1)), wait(8), set(0, c(0))].concat()
}

/// That second task.
pub fn second_pump() -> Records {
    [guard(two(4, c(0), v(0))), suspend(), set(1, v(64))].concat()
}

/// A drum maker that awaits a task of its own, procedure 4.
pub fn drum_waits() -> Records {
    [spawn(9, 4, c(0)), wait(9), set(2, c(1))].concat()
}

/// A body that takes so many turns.
pub fn turns(count: usize) -> Records {
    suspend().repeat(count)
}
