//! How the cost of a call grows: with the records of its table, with the live tasks, with the levels of an expression.

use crate::plot::{Line, Plot, Scale};
use crate::workloads::{check, deep, suspend, wait, Workload, LEVELS, RECORDS};

/// A workload of any size, and what sets its lines apart from others in the same plot.
type Growing = (&'static str, fn(usize) -> Workload);

/// One plot: workloads measured at the same sizes.
pub struct Growth {
    pub file: &'static str,
    title: &'static str,
    /// What the sizes count, and what the figures are.
    across: &'static str,
    up: &'static str,
    scale: Scale,
    sizes: Vec<usize>,
    workloads: &'static [Growing],
}

impl Growth {
    /// Measures each workload at all sizes: a line for each of the two sides.
    pub fn plot(&self, sides: [&str; 2], measure: impl Fn(&[Workload]) -> Vec<[f64; 2]>) -> Plot {
        let mut lines = Vec::new();
        for (group, (name, workload)) in self.workloads.iter().enumerate() {
            let figures = measure(&self.sizes.iter().map(|&size| workload(size)).collect::<Vec<_>>());
            for (i, side) in sides.iter().enumerate() {
                let heights = figures.iter().map(|figure| figure[i]).collect();
                lines.push(Line { name: format!("{side}{name}"), colour: i, dash: group, heights });
            }
        }
        Plot {
            title: self.title,
            across: self.across,
            up: self.up,
            scale: self.scale,
            places: self.sizes.clone(),
            lines,
        }
    }
}

/// Powers of two, from the first to the last.
fn doubling(first: usize, last: usize) -> Vec<usize> {
    std::iter::successors(Some(first), |size| Some(size * 2)).take_while(|size| *size <= last).collect()
}

/// All plots, in the order of the report.
pub fn growths() -> [Growth; 3] {
    [
        Growth {
            file: "growth-records.svg",
            title: "The check of a table",
            across: "records of the table",
            up: "ns a start call",
            scale: Scale::Logarithmic,
            sizes: doubling(8, RECORDS),
            workloads: &[("", check)],
        },
        Growth {
            file: "growth-tasks.svg",
            title: "The steps of many tasks",
            across: "live tasks",
            up: "ns a step",
            scale: Scale::Linear,
            sizes: doubling(1, 32),
            workloads: &[(", all suspend", suspend), (", all but one wait", wait)],
        },
        Growth {
            file: "growth-depth.svg",
            title: "The steps of a loop of two sets",
            across: "levels of each set's expression (the first level has depth 3, the last one that fits 16)",
            up: "ns a step",
            scale: Scale::Linear,
            sizes: (1..=LEVELS).collect(),
            workloads: &[("", deep)],
        },
    ]
}
