//! Makes a case that differs small: each pass tries smaller cases and keeps those that still differ.

use crate::batch::Batch;
use crate::block::{task_at, variable_at, BLOCK, TASKS};
use crate::case::{is_tame, Case, MODEL};
use recipe_runner::{LENGTH, OUTCOME};
use std::time::{Duration, Instant};

/// After this time the smallest case so far is taken: a long table has many smaller ones.
const LONGEST: Duration = Duration::from_secs(60);

/// The least number above those that are ever issued.
const NEVER_ISSUED: i32 = 65_536;

/// The smallest case that the passes reach from this one, which must differ.
pub fn shrink(case: &Case, differs: &dyn Fn(&Case) -> bool) -> Case {
    let mut shrinker = Shrinker { best: case.clone(), differs, end: Instant::now() + LONGEST };
    loop {
        let before = shrinker.best.clone();
        shrinker.budgets();
        shrinker.calls();
        shrinker.later();
        shrinker.logs();
        shrinker.records();
        shrinker.leaves();
        shrinker.hoist();
        shrinker.awaited();
        shrinker.tasks();
        shrinker.batch();
        shrinker.lengths();
        shrinker.zeros();
        if shrinker.best == before {
            return before;
        }
    }
}

struct Shrinker<'a> {
    best: Case,
    differs: &'a dyn Fn(&Case) -> bool,
    end: Instant,
}

impl Shrinker<'_> {
    /// Keeps the changed case if it still differs. Only tame ones are tried: an endless run tells nothing.
    fn attempt(&mut self, change: impl FnOnce(&mut Case)) -> bool {
        if Instant::now() > self.end {
            return false;
        }
        let mut next = self.best.clone();
        change(&mut next);
        let better = next != self.best && is_tame(&next) && (self.differs)(&next);
        if better {
            self.best = next;
        }
        better
    }

    fn budgets(&mut self) {
        for i in 0..self.best.calls.len() {
            for budget in [0, 1, 10, 100, 1_000] {
                if budget < self.best.calls[i].budget && self.attempt(|case| case.calls[i].budget = budget) {
                    break;
                }
            }
            while self.attempt(|case| case.calls[i].budget /= 2) {}
            while self.best.calls[i].budget > 0 && self.attempt(|case| case.calls[i].budget -= 1) {}
        }
    }

    /// Drops calls, from the last.
    fn calls(&mut self) {
        for i in (0..self.best.calls.len()).rev() {
            self.attempt(|case| drop(case.calls.remove(i)));
        }
    }

    /// Begins later: from the block that some steps leave, with a budget less by as many.
    fn later(&mut self) {
        let Some(first) = self.best.calls.first() else { return };
        let mut steps = first.budget.min(1_000);
        while steps > 0 {
            if !self.attempt(|case| advance(case, steps)) {
                steps /= 2;
            }
        }
    }

    fn logs(&mut self) {
        for i in 0..self.best.calls.len() {
            while self.attempt(|case| halve(&mut case.calls[i].log)) {}
            for piece in [64, 8, 1] {
                while self.attempt(|case| cut(&mut case.calls[i].log, piece)) {}
            }
        }
    }

    /// Takes out records: first with all that they enclose, then a few in a row (an operator with its first operand).
    fn records(&mut self) {
        for count in [0, 1, 2, 3] {
            let mut at = 0;
            while at < self.best.table.len() / 8 {
                if !self.attempt(|case| take_out(case, at, if count == 0 { enclosed(case, at) + 1 } else { count })) {
                    at += 1;
                }
            }
        }
    }

    /// Makes a record a skip or a constant that encloses nothing.
    fn leaves(&mut self) {
        for at in 0..self.best.table.len() / 8 {
            for kind in [2, 9] {
                self.attempt(|case| {
                    take_out(case, at + 1, enclosed(case, at));
                    if let Some(record) = case.table.get_mut(8 * at..8 * at + 8) {
                        record[0] = kind;
                        record[1..4].fill(0);
                    }
                });
            }
        }
    }

    /// Puts a record that stands inside another one, with all that it encloses, in the other's place.
    fn hoist(&mut self) {
        let mut at = 0;
        while at < self.best.table.len() / 8 {
            let inner = at + 1..at + 1 + enclosed(&self.best, at).min(40);
            for record in inner {
                self.attempt(|case| {
                    let end = at + 1 + enclosed(case, at);
                    let own = record + 1 + enclosed(case, record);
                    take_out(case, own, end.saturating_sub(own));
                    take_out(case, at, record - at);
                });
            }
            at += 1;
        }
    }

    /// Makes parameters and variables the first task's number, for a shorter circle, or one never issued: a task that
    /// awaits it waits, whichever others are taken out.
    fn awaited(&mut self) {
        let values = (1..=TASKS).map(|task| task_at(task) + 4).chain((0..64).map(variable_at));
        let numbers = [first(&self.best), NEVER_ISSUED];
        for (at, number) in values.flat_map(|at| numbers.map(|number| (at, number))) {
            self.attempt(|case| match case.block.get_mut(at..at + 4) {
                Some(value) if value[..] != [0; 4] => value.copy_from_slice(&number.to_le_bytes()),
                _ => {}
            });
        }
    }

    /// Takes tasks out of the block, the later ones moving up, with and without an active one left.
    fn tasks(&mut self) {
        for (i, idle) in (1..=TASKS).rev().flat_map(|i| [(i, false), (i, true)]) {
            let live = self.best.block.get(2).map_or(0, |live| usize::from(*live));
            if self.best.block.len() == BLOCK && (i..=TASKS).contains(&live) {
                self.attempt(|case| {
                    case.block.copy_within(task_at(i + 1)..task_at(TASKS + 1), task_at(i));
                    case.block[task_at(TASKS)..task_at(TASKS + 1)].fill(0);
                    case.block[2] -= 1;
                    case.block[3] &= u8::from(!idle);
                });
            }
        }
    }

    /// Takes recipes out of the batch, with their lengths and outcomes, from the last; then cuts those that are left.
    fn batch(&mut self) {
        self.attempt(|case| case.batch = Batch::default());
        for i in (0..self.best.batch.count()).rev() {
            self.attempt(|case| take_recipe_out(&mut case.batch, i));
        }
        for (i, piece) in (0..self.best.batch.count()).flat_map(|i| [64, 8, 1].map(|piece| (i, piece))) {
            while self.attempt(|case| cut_recipe(&mut case.batch, i, piece)) {}
        }
    }

    /// Cuts bytes off the table, the block, the chain and the batch; a fresh block is simpler than a lent one.
    fn lengths(&mut self) {
        self.attempt(|case| case.fresh = true);
        for piece in [64, 8, 1] {
            while self.attempt(|case| cut(&mut case.table, piece)) {}
            while self.attempt(|case| cut(&mut case.block, piece)) {}
            while self.attempt(|case| cut(&mut case.chain, piece)) {}
            while self.attempt(|case| cut(&mut case.batch.recipes, piece)) {}
            while self.attempt(|case| cut(&mut case.batch.lengths, piece)) {}
            while self.attempt(|case| cut(&mut case.batch.outcomes, piece)) {}
        }
    }

    /// Makes bytes 0: whole buffers, then records, then single bytes, else lowers them.
    fn zeros(&mut self) {
        for buffer in 0..self.best.calls.len() + 6 {
            let length = bytes(&mut self.best, buffer).len();
            for piece in [length.max(1), 64, 8, 1] {
                for at in (0..length).step_by(piece) {
                    let end = (at + piece).min(length);
                    self.attempt(|case| bytes(case, buffer)[at..end].fill(0));
                }
            }
            for at in 0..length {
                while bytes(&mut self.best, buffer)[at] > 0 && self.attempt(|case| bytes(case, buffer)[at] /= 2) {}
                while bytes(&mut self.best, buffer)[at] > 0 && self.attempt(|case| bytes(case, buffer)[at] -= 1) {}
            }
        }
    }
}

/// Makes the first steps of a case's first call ahead.
fn advance(case: &mut Case, steps: u32) {
    let Some(left) = case.calls[0].budget.checked_sub(steps) else { return };
    if case.fresh {
        (MODEL.start)(&case.table, &mut case.block);
        case.fresh = false;
    }
    (MODEL.run)(&case.table, &mut case.block, steps, &mut vec![0; 8 * steps as usize]);
    case.calls[0].budget = left;
}

fn halve(bytes: &mut Vec<u8>) {
    bytes.truncate(bytes.len() / 2);
}

/// Cuts bytes off the end, if there are as many.
fn cut(bytes: &mut Vec<u8>, count: usize) {
    if let Some(length) = bytes.len().checked_sub(count) {
        bytes.truncate(length);
    }
}

/// Takes a recipe out of a batch.
fn take_recipe_out(batch: &mut Batch, i: usize) {
    let Some(bytes) = batch.bytes_of(i) else { return };
    batch.recipes.drain(bytes);
    batch.lengths.drain(LENGTH * i..LENGTH * (i + 1));
    if batch.outcomes.len() >= OUTCOME * (i + 1) {
        batch.outcomes.drain(OUTCOME * i..OUTCOME * (i + 1));
    }
}

/// Cuts bytes off a recipe of a batch, if it has as many.
fn cut_recipe(batch: &mut Batch, i: usize, count: usize) {
    let Some(bytes) = batch.bytes_of(i).filter(|bytes| bytes.len() >= count) else { return };
    let length = (bytes.len() - count) as u32;
    batch.recipes.drain(bytes.end - count..bytes.end);
    batch.lengths[LENGTH * i..LENGTH * (i + 1)].copy_from_slice(&length.to_le_bytes());
}

/// The table, the block, the chain, the buffers of the batch, or a call's log.
fn bytes(case: &mut Case, buffer: usize) -> &mut [u8] {
    match buffer {
        0 => &mut case.table,
        1 => &mut case.block,
        2 => &mut case.chain,
        3 => &mut case.batch.recipes,
        4 => &mut case.batch.lengths,
        5 => &mut case.batch.outcomes,
        _ => &mut case.calls[buffer - 6].log,
    }
}

/// The first task's number, 0 where the block is too short.
fn first(case: &Case) -> i32 {
    match case.block.get(task_at(1)..task_at(1) + 2) {
        Some(&[n0, n1]) => u16::from_le_bytes([n0, n1]).into(),
        _ => 0,
    }
}

/// How many records a record encloses, by its span.
fn enclosed(case: &Case, at: usize) -> usize {
    match case.table.get(8 * at + 2..8 * at + 4) {
        Some(&[s0, s1]) => usize::from(u16::from_le_bytes([s0, s1])),
        _ => 0,
    }
}

/// Takes out records in a row, with the spans around them, and moves the places of tasks behind them.
fn take_out(case: &mut Case, at: usize, count: usize) {
    let count = count.min((case.table.len() / 8).saturating_sub(at));
    if count == 0 {
        return;
    }
    for i in 0..at {
        let span = enclosed(case, i);
        if i + span >= at {
            let span = span.saturating_sub(count).max(at - i - 1) as u16;
            case.table[8 * i + 2..8 * i + 4].copy_from_slice(&span.to_le_bytes());
        }
    }
    case.table.drain(8 * at..8 * (at + count));
    let tasks = case.block.get(2).map_or(0, |live| usize::from(*live).min(TASKS));
    for task in 1..=tasks {
        let Some(field) = case.block.get_mut(task_at(task) + 2..task_at(task) + 4) else { return };
        let place = usize::from(u16::from_le_bytes([field[0], field[1]]));
        if !case.fresh && place > at {
            let moved = place.saturating_sub(count).max(at) as u16;
            field.copy_from_slice(&moved.to_le_bytes());
        }
    }
}
