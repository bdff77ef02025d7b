//! A block, read by hand from its bytes and the table's, for the tests that judge the library alone: the model has no
//! part in it.

use crate::block::{second_at, task_at, variable_at};
use crate::recipe::{AWAIT, CONSTANT, GUARD, READ, SET, SPAWN, TWO};

/// A block, read by hand. Its live tasks are counted from 1, in the block's order.
pub struct View<'a> {
    pub table: &'a [u8],
    pub block: &'a [u8],
}

impl View<'_> {
    fn word(&self, at: usize) -> u16 {
        u16::from_le_bytes([self.block[at], self.block[at + 1]])
    }

    fn value(&self, at: usize) -> i32 {
        i32::from_le_bytes([self.block[at], self.block[at + 1], self.block[at + 2], self.block[at + 3]])
    }

    pub fn live(&self) -> usize {
        usize::from(self.block[2])
    }

    pub fn active(&self) -> bool {
        self.block[3] == 1
    }

    /// The queued tasks from the front, each by how many stand up to it, the active one counted.
    pub fn queue(&self) -> std::ops::RangeInclusive<usize> {
        1 + usize::from(self.active())..=self.live()
    }

    pub fn number(&self, task: usize) -> u16 {
        self.word(task_at(task))
    }

    /// The number of a task's spawner, 0 of none.
    pub fn spawner(&self, task: usize) -> u16 {
        self.word(second_at(task))
    }

    /// The times that a task was taken up.
    pub fn taken_up(&self, task: usize) -> u32 {
        self.value(second_at(task) + 4) as u32
    }

    fn place(&self, task: usize) -> usize {
        self.word(task_at(task) + 2).into()
    }

    /// The numbers of the queued tasks, from the front.
    pub fn queued(&self) -> Vec<u16> {
        self.queue().map(|task| self.number(task)).collect()
    }

    /// What a task reads under a name.
    fn read(&self, task: usize, name: u8) -> i32 {
        self.value(if name == 64 { task_at(task) + 4 } else { variable_at(name.into()) })
    }

    /// "From 1 to the highest issued."
    pub fn is_issued(&self, number: i32) -> bool {
        1 <= number && number <= i32::from(self.word(0))
    }

    /// 0 is done, and so is a number that was issued and that no live task has.
    fn is_done(&self, number: i32) -> bool {
        let live = (1..=self.live()).any(|other| i32::from(self.number(other)) == number);
        number == 0 || (self.is_issued(number) && !live)
    }

    /// What the log says of a task if it waits: the number that it awaits, 0 at a guard.
    pub fn waits(&self, task: usize) -> Option<i32> {
        let place = self.place(task);
        match self.table.get(8 * place..8 * place + 2)? {
            [AWAIT, name] => Some(self.read(task, *name)).filter(|number| !self.is_done(*number)),
            [GUARD, _] => Some(0).filter(|_| matches!(self.expression(task, place + 1), None | Some(0))),
            _ => None,
        }
    }

    /// Whether a task stands at a guard.
    pub fn is_at_guard(&self, task: usize) -> bool {
        self.table.get(8 * self.place(task)) == Some(&GUARD)
    }

    /// Whether a task stands at a guard without a value.
    pub fn lacks_at_guard(&self, task: usize) -> bool {
        self.is_at_guard(task) && self.expression(task, self.place(task) + 1).is_none()
    }

    /// The place of the active task and the kind of its statement, if that is a set, a test or a spawn without a value.
    pub fn lacking(&self) -> Option<(u32, u8)> {
        let place = self.place(1);
        let kind = *self.table.get(8 * place).filter(|_| self.active())?;
        let lacks = (SET..=SPAWN).contains(&kind) && self.expression(1, place + 1).is_none();
        lacks.then_some((place as u32, kind))
    }

    /// The value of the expression at an index for a task: none of a quotient by 0, nor with an
    /// operand that has none.
    fn expression(&self, task: usize, at: usize) -> Option<i32> {
        let [kind, name, _, _, value @ ..] = self.table.as_chunks::<8>().0[at];
        match kind {
            CONSTANT => Some(i32::from_le_bytes(value)),
            READ => Some(self.read(task, name)),
            TWO => {
                let second = at + 2 + usize::from(self.span(at + 1));
                let operands = (self.expression(task, at + 1), self.expression(task, second));
                two_operands(name, operands.0?.into(), operands.1?.into())
            }
            _ => {
                let a = self.expression(task, at + 1)?;
                Some(if name == 0 { held(-i64::from(a)) } else { i32::from(a == 0) })
            }
        }
    }

    /// How many records a record encloses.
    fn span(&self, at: usize) -> u16 {
        u16::from_le_bytes([self.table[8 * at + 2], self.table[8 * at + 3]])
    }

    pub fn is_stuck(&self) -> bool {
        !self.active() && self.live() > 0 && self.queue().all(|task| self.waits(task).is_some())
    }
}

/// An exact result, or the end of the range that is nearer.
fn held(exact: i64) -> i32 {
    exact.clamp(i32::MIN.into(), i32::MAX.into()) as i32
}

fn two_operands(operator: u8, a: i64, b: i64) -> Option<i32> {
    Some(match operator {
        0 => held(a + b),
        1 => held(a - b),
        2 => held(a * b),
        3 => held(a.checked_div(b)?),
        4 => i32::from(a < b),
        5 => i32::from(a == b),
        6 => i32::from(a != 0 && b != 0),
        _ => i32::from(a != 0 || b != 0),
    })
}
