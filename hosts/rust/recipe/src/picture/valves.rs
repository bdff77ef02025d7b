//! The valves' lanes: their values over time.

use super::plan::{range, Plan, ValveRow, LABEL};
use super::{NOTE_SIZE, STARTER, TEXT_SIZE};
use crate::svg::{text_width, Svg};
use crate::timeline::Level;

/// The height of the values, from the lowest to the highest.
pub const VALUES: f64 = 22.0;
/// The least width of a value with a frame around it.
const FRAMED: f64 = 3.0;

/// What a valve has from one x to another: a value, or several that are joined.
#[derive(Clone, Copy, Debug, PartialEq)]
pub struct Block {
    pub left: f64,
    pub right: f64,
    pub low: i32,
    pub high: i32,
    pub count: usize,
    pub task: Option<u16>,
}

/// The blocks of levels that begin at these x's. Those narrower than the grain are joined in columns of its width, so
/// that a course of values stays to be seen.
pub fn blocks(levels: &[(f64, Level)], end: f64, grain: f64) -> Vec<Block> {
    let mut blocks: Vec<Block> = Vec::new();
    let ends = levels.iter().skip(1).map(|(x, _)| *x).chain([end]);
    for ((left, Level { value, task, .. }), right) in levels.iter().copied().zip(ends) {
        let next = Block { left, right, low: value, high: value, count: 1, task };
        match blocks.last_mut().filter(|last| right - left < grain && right - last.left < grain) {
            Some(last) => last.add(next),
            None => blocks.push(next),
        }
    }
    alike(&blocks)
}

/// Joins the columns side by side that have the same values.
fn alike(blocks: &[Block]) -> Vec<Block> {
    let mut joined: Vec<Block> = Vec::new();
    for block in blocks {
        let many = |last: &&mut Block| last.count > 1 && block.count > 1;
        match joined.last_mut().filter(many).filter(|last| (last.low, last.high) == (block.low, block.high)) {
            Some(last) => last.add(*block),
            None => joined.push(*block),
        }
    }
    joined
}

impl Block {
    fn add(&mut self, next: Block) {
        self.right = next.right;
        self.low = self.low.min(next.low);
        self.high = self.high.max(next.high);
        self.count += next.count;
    }

    fn text(&self) -> String {
        if self.low == self.high {
            self.low.to_string()
        } else {
            format!("{} to {}", self.low, self.high)
        }
    }
}

/// Draws a valve's lane.
pub fn draw(svg: &mut Svg, plan: &Plan, row: &ValveRow) {
    let (x, baseline) = (plan.left - LABEL, row.base - 0.35 * TEXT_SIZE);
    svg.text("label", (x, baseline), &format!("valve {}", row.valve));
    let range = range((row.low, row.high));
    if !range.is_empty() {
        svg.text("range", (x, baseline + STARTER), &range);
    }
    let levels: Vec<(f64, Level)> = row.levels.iter().map(|level| (plan.x(level.from), *level)).collect();
    let blocks = blocks(&levels, plan.end, plan.grain);
    blocks.iter().for_each(|block| block.draw(svg, plan, row));
    svg.line("zero", (plan.left, row.y(0)), (plan.end, row.y(0)));
    blocks.iter().for_each(|block| block.label(svg, row));
}

impl Block {
    fn draw(&self, svg: &mut Svg, plan: &Plan, row: &ValveRow) {
        let (width, tip) = ((self.right - self.left).max(plan.grain.min(1.0)), self.tip(row));
        let mut rect = |class, low: i32, high: i32, least: f64| {
            let top = row.y(high).min(row.y(low) - least);
            svg.rect(class, [self.left, top, width, row.y(low) - top], &tip);
        };
        // What all values have in common, from 0 on.
        let nearest = if self.low > 0 { self.low } else { self.high.min(0) };
        if self.count == 1 && width >= FRAMED.min(FRAMED * plan.grain) {
            if nearest != 0 {
                rect("level", nearest.min(0), nearest.max(0), 0.0);
            }
            return;
        }
        if nearest != 0 {
            rect("area", nearest.min(0), nearest.max(0), 0.0);
        }
        // A single value has its height marked, too.
        rect("band", self.low, self.high, 1.0);
    }

    fn tip(&self, row: &ValveRow) -> String {
        let (valve, text) = (row.valve, self.text());
        match (self.count, self.task) {
            (1, Some(task)) => format!("valve {valve}: {text}, set by task {task}"),
            (1, None) => format!("valve {valve}: {text}"),
            (count, _) => format!("valve {valve}: {text}, {count} values joined"),
        }
    }

    /// The value, where there is room for it.
    fn label(&self, svg: &mut Svg, row: &ValveRow) {
        let text = self.text();
        if self.right - self.left >= text_width(&text, NOTE_SIZE) + 6.0 {
            svg.text_with_tip("value", (self.left + 3.0, row.base - 3.0), &text, &self.tip(row));
        }
    }
}

/// A value as the legend has it.
pub fn level(svg: &mut Svg, x: f64, y: f64) {
    svg.rect("level", [x + 8.0, y - 5.0, 16.0, 12.0], "");
    svg.line("zero", (x, y + 7.0), (x + 30.0, y + 7.0));
}

/// Joined values as the legend has them.
pub fn band(svg: &mut Svg, x: f64, y: f64) {
    svg.rect("area", [x, y + 2.0, 30.0, 5.0], "");
    svg.rect("band", [x, y - 7.0, 30.0, 9.0], "");
    svg.line("zero", (x, y + 7.0), (x + 30.0, y + 7.0));
}

#[cfg(test)]
mod tests {
    use super::*;

    fn found(steps: &[(f64, i32)], end: f64, grain: f64) -> Vec<(f64, f64, i32, i32, usize)> {
        let levels: Vec<_> =
            steps.iter().map(|(x, value)| (*x, Level { from: *x, value: *value, task: None })).collect();
        let blocks = blocks(&levels, end, grain);
        blocks.iter().map(|block| (block.left, block.right, block.low, block.high, block.count)).collect()
    }

    #[test]
    fn wide_levels_are_kept() {
        let steps = [(0.0, 0), (4.0, 7), (5.0, 0)];
        assert_eq!(found(&steps, 9.0, 1.0), [(0.0, 4.0, 0, 0, 1), (4.0, 5.0, 7, 7, 1), (5.0, 9.0, 0, 0, 1)]);
        assert_eq!(found(&steps, 9.0, 0.0).len(), 3);
    }

    #[test]
    fn narrow_levels_become_bands() {
        // A ramp keeps its course, column by column.
        let ramp: Vec<_> = (0..40).map(|i| (f64::from(i) / 8.0, i)).collect();
        let bands = found(&ramp, 5.0, 1.0);
        assert!(bands.len() >= 5 && bands.windows(2).all(|pair| pair[0].3 < pair[1].2), "{bands:?}");
        // Two values in turn are one band.
        let turns: Vec<_> = (0..40).map(|i| (f64::from(i) / 4.0, i % 2)).collect();
        assert!(found(&turns, 10.0, 2.0).iter().any(|band| (band.2, band.3) == (0, 1) && band.4 > 20));
    }

    #[test]
    fn nothing_is_lost() {
        for grain in [0.0, 0.5, 1.0, 3.0, 100.0] {
            let steps: Vec<_> = (0..200).map(|i| (f64::from(i * i % 7 + 20 * i) / 50.0, i * i % 11 - 5)).collect();
            let blocks = found(&steps, 90.0, grain);
            assert_eq!((blocks[0].0, blocks[blocks.len() - 1].1), (0.0, 90.0));
            assert!(blocks.windows(2).all(|pair| pair[0].1 == pair[1].0));
            assert_eq!(blocks.iter().map(|block| block.4).sum::<usize>(), steps.len());
            assert!(steps.iter().all(|(_, value)| blocks.iter().any(|b| b.2 <= *value && *value <= b.3)));
        }
    }
}
