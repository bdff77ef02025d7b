//! Random recipes.

use crate::random::Random;
use crate::recipe::{Recipe, AWAIT, GUARD, IF, ONE, PROCEDURE, QUOTIENT, SET, SKIP, SPAWN, SUSPEND, TWO, WHILE};

/// What a random recipe is like.
#[derive(Clone, Debug)]
pub struct Style {
    /// About how many records.
    pub records: usize,
    pub procedures: usize,
    /// The deepest record; 16 passes.
    pub deepest: u32,
    /// The chance in a hundred of a record that encloses others where it may.
    pub nesting: usize,
    /// The chance in a hundred of a name of the whole range instead of a few names.
    pub wide: usize,
    /// The chance in a hundred of a spawn among the statements without a body.
    pub spawns: usize,
    /// The chance in a hundred of a divisor that may be 0, in a statement that then stops the run.
    pub zeros: usize,
}

impl Style {
    /// A style for tables of all sizes, short ones more often.
    pub fn any(random: &mut Random) -> Style {
        let records = match random.below(1000) {
            0..250 => random.within(1, 8),
            250..850 => random.within(8, 40),
            850..980 => random.within(40, 250),
            980..995 => random.within(250, 1500),
            _ => 4_096,
        };
        let procedures = match random.below(100) {
            0..30 => 1,
            30..95 => random.within(2, 5),
            95..99 => random.within(5, 40),
            _ => random.within(200, 300),
        };
        Style {
            records,
            procedures: procedures.min(records),
            deepest: if random.percent(5) { 18 } else { 16 },
            nesting: random.pick(&[15, 40, 40, 60, 90]),
            wide: random.pick(&[0, 0, 10, 50]),
            spawns: random.pick(&[5, 20, 20, 50]),
            zeros: random.pick(&[0, 30, 100]),
        }
    }
}

/// A random recipe that passes, unless its style goes deeper than 16.
pub fn random_recipe(random: &mut Random, style: &Style) -> Recipe {
    let mut writer = Writer { random, style, recipe: Recipe::new(), limit: 0, zeros: style.zeros };
    let share = style.records / style.procedures.max(1);
    for i in 1..=style.procedures {
        writer.limit = if i == style.procedures { style.records } else { i * share };
        writer.procedure();
    }
    writer.recipe
}

/// A recipe whose tasks mostly go on for ever: main spawns some of each procedure, and most of them loop.
pub fn lively_recipe(random: &mut Random) -> Recipe {
    let procedures = random.within(2, 6);
    let nesting = random.pick(&[10, 30]);
    let (spawns, zeros) = (random.pick(&[0, 0, 1, 3]), random.pick(&[0, 0, 10]));
    let style = Style { records: 0, procedures, deepest: 16, nesting, wide: 0, spawns, zeros };
    let mut writer = Writer { random, style: &style, recipe: Recipe::new(), limit: 0, zeros };
    for i in 0..procedures {
        writer.limit = writer.recipe.records() + 60;
        writer.node(PROCEDURE, 0, 0, |w| {
            if i == 0 {
                w.crew();
            }
            if i == 1 || w.random.percent(20) {
                w.some_statements(1);
            } else {
                w.node(WHILE, 0, 0, |w| {
                    w.recipe.constant(1);
                    w.some_statements(2);
                    w.recipe.leaf(SUSPEND, 0, 0);
                });
            }
        });
    }
    writer.recipe
}

/// A recipe with places to wait at: for the number in the parameter, which is likely, or in a variable, and at guards
/// that are untrue or without a value; behind a random main procedure.
pub fn waiting_recipe(random: &mut Random) -> Recipe {
    let records = random.within(1, 12);
    let style = Style { records, procedures: 1, deepest: 16, nesting: 30, wide: 20, spawns: 20, zeros: 30 };
    let mut recipe = random_recipe(random, &style);
    for name in [64, 64, 64, 8, 9, 63] {
        recipe.procedure(|r| r.leaf(AWAIT, name, 0));
    }
    // The parameter is under 0; it is divided by 0.
    recipe.procedure(|r| r.node(GUARD, 0, 0, |r| r.two(4, |r| r.read(64), |r| r.constant(0))));
    recipe.procedure(|r| r.node(GUARD, 0, 0, |r| r.two(QUOTIENT, |r| r.read(64), |r| r.constant(0))));
    recipe
}

struct Writer<'a> {
    random: &'a mut Random,
    style: &'a Style,
    recipe: Recipe,
    /// The records that the table may have up to here.
    limit: usize,
    /// The chance in a hundred of a divisor that may be 0, in the expression at hand.
    zeros: usize,
}

impl Writer<'_> {
    fn room(&self) -> usize {
        self.limit.saturating_sub(self.recipe.records())
    }

    /// As `Recipe::node`, with the writer at hand.
    fn node(&mut self, kind: u8, name: u8, value: i32, fill: impl FnOnce(&mut Self)) {
        let mut recipe = std::mem::take(&mut self.recipe);
        recipe.node(kind, name, value, |inner| {
            std::mem::swap(&mut self.recipe, inner);
            fill(self);
            std::mem::swap(&mut self.recipe, inner);
        });
        self.recipe = recipe;
    }

    fn procedure(&mut self) {
        self.node(PROCEDURE, 0, 0, |w| {
            while w.room() > 0 {
                w.statement(1);
                if w.style.records < 1000 && w.random.percent(4) {
                    break;
                }
            }
        });
    }

    /// Spawns of the other procedures, a few or many.
    fn crew(&mut self) {
        let count = self.random.pick(&[2, 4, 8, 20]);
        for _ in 0..count {
            let procedure = self.random.within(1, self.style.procedures - 1) as i32;
            let name = self.name().max(8);
            let argument = self.random.below(8) as i32;
            self.recipe.spawn(name, procedure, argument);
        }
    }

    fn some_statements(&mut self, depth: u32) {
        for _ in 0..self.random.below(5) {
            self.statement(depth);
        }
    }

    fn name(&mut self) -> u8 {
        if self.random.percent(self.style.wide) {
            self.random.below(65) as u8
        } else {
            self.random.pick(&[0, 3, 7, 8, 8, 9, 9, 10, 63, 64])
        }
    }

    /// One statement; what it encloses goes no deeper than the style, and about as far as the room.
    fn statement(&mut self, depth: u32) {
        let name = self.name();
        if self.room() < 2 || depth >= self.style.deepest {
            let kind = self.random.pick(&[SKIP, SUSPEND, AWAIT]);
            return self.recipe.leaf(kind, if kind == AWAIT { name } else { 0 }, 0);
        }
        if self.random.percent(self.style.nesting) && depth + 1 < self.style.deepest {
            return self.block(depth);
        }
        if self.random.percent(self.style.spawns) {
            let procedure = self.random.below(self.style.procedures.min(256)) as i32;
            return self.node(SPAWN, name.max(8), procedure, |w| w.expression(depth + 1));
        }
        match self.random.below(100) {
            0..12 => self.recipe.leaf(SKIP, 0, 0),
            12..47 => self.node(SET, name, 0, |w| w.expression(depth + 1)),
            47..67 => self.recipe.leaf(SUSPEND, 0, 0),
            67..84 => self.recipe.leaf(AWAIT, name, 0),
            _ => self.guard(depth),
        }
    }

    /// A guard, whose divisors may always be 0: without a value it stops no run.
    fn guard(&mut self, depth: u32) {
        self.zeros = 100;
        self.node(GUARD, 0, 0, |w| w.expression(depth + 1));
        self.zeros = self.style.zeros;
    }

    /// An if or a while with a few statements; some loops count.
    fn block(&mut self, depth: u32) {
        let kind = self.random.pick(&[IF, WHILE, WHILE]);
        let counted = self.random.percent(30) && self.room() > 12 && depth < 12;
        let counter = self.random.pick(&[11, 12, 64]);
        self.node(kind, 0, 0, |w| {
            if counted {
                w.node(TWO, 4, 0, |w| {
                    w.recipe.read(counter);
                    let bound = w.random.within(1, 5) as i32;
                    w.recipe.constant(bound);
                });
            } else if w.random.percent(40) {
                w.recipe.constant(1);
            } else {
                w.expression(depth + 1);
            }
            let count = w.random.below(5);
            for _ in 0..count {
                if w.room() > 0 {
                    w.statement(depth + 1);
                }
            }
            if counted {
                w.count(counter);
            }
        });
    }

    /// Adds one to a variable.
    fn count(&mut self, name: u8) {
        self.node(SET, name, 0, |w| {
            w.node(TWO, 0, 0, |w| {
                w.recipe.read(name);
                w.recipe.constant(1);
            });
        });
    }

    fn expression(&mut self, depth: u32) {
        let deeper = depth < self.style.deepest && self.random.percent(self.style.nesting);
        if deeper && self.room() > 2 {
            if self.random.percent(25) {
                let operator = self.random.below(2) as u8;
                return self.node(ONE, operator, 0, |w| w.expression(depth + 1));
            }
            return self.two_operands(depth);
        }
        if self.random.percent(50) {
            let name = self.name();
            self.recipe.read(name);
        } else {
            let value = random_value(self.random);
            self.recipe.constant(value);
        }
    }

    fn two_operands(&mut self, depth: u32) {
        let operator = self.random.below(8) as u8;
        let ends = self.random.percent(10);
        let nonzero = operator == QUOTIENT && !self.random.percent(self.zeros);
        self.node(TWO, operator, 0, |w| {
            for second in [false, true] {
                // None of the ends is 0.
                if ends || (second && nonzero) {
                    let value = w.random.pick(&ENDS);
                    w.recipe.constant(value);
                } else {
                    w.expression(depth + 1);
                }
            }
        });
    }
}

/// The ends of the range, and values whose sums, products and quotients come near them.
const ENDS: [i32; 12] =
    [i32::MIN, i32::MIN + 1, i32::MAX, i32::MAX - 1, -1, -7, 46_341, -46_341, 65_535, 65_536, 255, 256];

/// A value: ends of the range, small numbers that may be tasks', others.
pub fn random_value(random: &mut Random) -> i32 {
    match random.below(10) {
        0..2 => random.pick(&ENDS),
        2..9 => random.below(7) as i32,
        _ => random.word() as i32,
    }
}
