//! The marks of the picture, as the lanes and the legend have them.

use crate::svg::Svg;

use super::{BURST, CAP, STOP};

/// A spawn's arrow, from the starter's lane to the new task's.
pub fn arrow(svg: &mut Svg, x: f64, from: f64, to: f64, tip: &str) {
    // The head points away from the starter's lane.
    let head = if to < from { -7.0 } else { 7.0 };
    svg.line("arrow", (x, from), (x, to - head + 2.0_f64.copysign(head)));
    svg.circle("tail", (x, from), 2.8, tip);
    svg.polygon("spawn", &[(x, to), (x - 3.5, to - head), (x + 3.5, to - head)], tip);
}

/// A setting.
pub fn diamond(svg: &mut Svg, x: f64, y: f64, half: f64, tip: &str) {
    svg.polygon("valve", &[(x, y - half), (x + half, y), (x, y + half), (x - half, y)], tip);
}

/// A stop sign, with eight corners.
pub fn stop(svg: &mut Svg, x: f64, y: f64, tip: &str) {
    let (long, short) = (STOP, 0.414 * STOP);
    let right = [(short, -long), (long, -short), (long, short), (short, long)];
    let left = right.map(|(dx, dy)| (-dx, -dy));
    let corners: Vec<(f64, f64)> = right.iter().chain(&left).map(|(dx, dy)| (x + dx, y + dy)).collect();
    svg.polygon("stop", &corners, tip);
}

/// The end of a task.
pub fn cap(svg: &mut Svg, x: f64, y: f64, tip: &str) {
    svg.rect("cap", [x - 1.5, y - CAP, 3.0, 2.0 * CAP], tip);
}

/// Turns side by side, above the bar.
pub fn turns(svg: &mut Svg, [left, right]: [f64; 2], y: f64, tip: &str) {
    svg.rect("turns", [left - 1.0, y - BURST - 3.0, right - left + 2.0, 2.0], tip);
}

/// Settings side by side, below the bar.
pub fn settings(svg: &mut Svg, [left, right]: [f64; 2], y: f64, tip: &str) {
    svg.rect("settings", [left - 1.0, y + BURST + 0.5, right - left + 2.0, 2.0], tip);
}
