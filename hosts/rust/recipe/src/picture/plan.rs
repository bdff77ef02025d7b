//! Where everything of the picture stands.

use std::collections::BTreeMap;

use super::join::cluster;
use super::labels::{called, Label};
use super::pack::{self, Life};
use super::valves::VALUES;
use super::{flag_text, held_width, legend, note_width, Heading, BURST, CAP, NOTE_SIZE, TEXT_SIZE, TITLE_SIZE};
use crate::block::Wait;
use crate::svg::text_width;
use crate::timeline::{Doing, Lane, Level, Timeline};

/// The space around the picture, and between a lane and its label.
pub const MARGIN: f64 = 20.0;
pub const LABEL: f64 = 10.0;
/// The widest picture.
pub const MOST_WIDTH: f64 = 2_000.0;
/// Where the lanes begin at least, behind their labels.
const LEFT: f64 = 104.0;
/// The widest record, the smallest one unless there are too many of them, and the width that the lanes have if those
/// allow it.
const WIDEST: f64 = 76.0;
const SMALLEST: f64 = 8.0;
const USUAL: f64 = 1100.0;
/// Where records are narrower than this, something may have to be joined.
const DENSE: f64 = 2.0;
/// There, how many grains there are at least between two turns, or two settings, that are not joined.
pub const SPACE: f64 = 2.5;
/// The least width of the whole picture; the legend fits in it.
const NARROWEST: f64 = 760.0;
/// Lanes wider than this have their labels at the right, too.
const WIDE: f64 = 1300.0;
/// The space between two ticks at least, and beside a tick's number.
const TICK: f64 = 40.0;
const BESIDE: f64 = 12.0;
/// How far texts above a lane may reach past its end.
const OVER: f64 = 24.0;
/// The most settings of a lane that are told above it where records are narrow.
const FEW: usize = 12;
/// The height of the texts above a lane, and the space between two of them.
const HEAD: f64 = 13.0;
const GAP: f64 = 4.0;
/// The heading's first baseline, and how far its lines are apart.
pub const TITLE: f64 = 30.0;
pub const HEADING: f64 = 19.0;
/// The space between the tasks' lanes and the valves', and the height of one of those.
const VALVES: f64 = 10.0;
const VALVE_ROW: f64 = VALUES + 12.0;

/// One lane's place.
pub struct Row<'t> {
    pub lives: Vec<Life<'t>>,
    pub label: Label,
    pub top: f64,
    pub height: f64,
    /// The middle of the bars.
    pub middle: f64,
    /// Texts above the bars: what is set, or which task begins.
    pub heads: Vec<(f64, String)>,
    /// What is waited for, where there is room to say it.
    pub notes: Vec<(f64, Wait)>,
}

/// A valve's place.
pub struct ValveRow<'t> {
    pub valve: usize,
    pub levels: &'t [Level],
    /// Where the lowest value stands.
    pub base: f64,
    pub low: i32,
    pub high: i32,
}

/// The lowest and the highest value of a valve's lane, one of them 0 at least.
fn scale(levels: &[Level]) -> (i32, i32) {
    let values = || levels.iter().map(|level| level.value);
    let (low, high) = (values().fold(0, i32::min), values().fold(0, i32::max));
    // A valve at 0 throughout has the scale of one that opens.
    (low, if low == high { 1 } else { high })
}

/// What is told of a scale; nothing of that of a valve that opens and shuts.
pub fn range((low, high): (i32, i32)) -> String {
    if (low, high) == (0, 1) {
        return String::new();
    }
    format!("{low} to {high}")
}

/// The width of the widest label.
fn widest(timeline: &Timeline, labels: &[Label]) -> f64 {
    let tasks = labels.iter().map(|label| text_width(&label.text, TEXT_SIZE).max(text_width(&label.below, NOTE_SIZE)));
    let valves = timeline.used_valves().map(|(_, levels)| text_width(&range(scale(levels)), NOTE_SIZE));
    tasks.chain(valves).fold(0.0, f64::max)
}

impl ValveRow<'_> {
    /// Where a value stands.
    pub fn y(&self, value: i32) -> f64 {
        let (low, high) = (f64::from(self.low), f64::from(self.high));
        self.base - (f64::from(value) - low) / (high - low).max(1.0) * VALUES
    }
}

/// All places of a picture.
#[derive(Default)]
pub struct Plan<'t> {
    pub cell: f64,
    pub from: usize,
    pub to: usize,
    /// Whether the run's end is shown.
    pub last: bool,
    pub width: f64,
    pub height: f64,
    /// The lines below the title, and where they end.
    pub lines: Vec<String>,
    pub legend: f64,
    /// Where the lanes begin and end, from top to bottom.
    pub left: f64,
    pub top: f64,
    pub bottom: f64,
    /// Where bars end that last until the run's end, and the last of what stands to the right of them.
    pub end: f64,
    pub right: f64,
    pub wide: bool,
    /// Whether something may be joined, and what is narrower than what; 0 where nothing is.
    pub dense: bool,
    pub grain: f64,
    pub rows: Vec<Row<'t>>,
    pub valves: Vec<ValveRow<'t>>,
    lanes: BTreeMap<u16, usize>,
}

impl<'t> Plan<'t> {
    /// The places in a picture where what is narrower than a grain is joined, if records are narrow at all.
    pub fn of(timeline: &'t Timeline, heading: &Heading, grain: f64) -> Plan<'t> {
        let lanes = pack::pack(timeline);
        let labels: Vec<Label> = lanes.iter().map(|lives| Label::of(lives, heading.procedures)).collect();
        let mut plan = Plan {
            from: timeline.from,
            to: timeline.to,
            last: timeline.to == timeline.records,
            lines: heading.lines(timeline, lanes.len()),
            ..Plan::default()
        };
        let widest = widest(timeline, &labels);
        plan.across(timeline, widest, grain);
        plan.head(&heading.title(timeline), widest);
        plan.tasks(lanes, labels, heading.procedures);
        plan.valves(timeline);
        plan.height = plan.bottom + 36.0 + MARGIN;
        plan
    }

    /// What stands where from left to right.
    fn across(&mut self, timeline: &Timeline, labels: f64, grain: f64) {
        self.left = (MARGIN + labels + LABEL).max(LEFT);
        let held = timeline.lanes.values().filter_map(|lane| lane.held).map(held_width).fold(OVER, f64::max);
        // Bars that last until the run's end reach past it.
        let tail = |cell| if self.last { tail(timeline, cell) } else { 0.0 };
        let room = MOST_WIDTH - self.left - tail(WIDEST) - held - LABEL - labels - MARGIN;
        let count = self.to.saturating_sub(self.from).max(1) as f64;
        self.cell = (USUAL / count).clamp(SMALLEST, WIDEST).min(room / count);
        self.end = self.left + count * self.cell + tail(self.cell);
        self.right = self.end + held;
        self.wide = self.end - self.left > WIDE;
        self.dense = self.cell < DENSE;
        self.grain = if self.dense { grain } else { 0.0 };
    }

    /// The space of the title, the lines below it and the legend.
    fn head(&mut self, title: &str, labels: f64) {
        if self.dense {
            // The line that tells what is joined, once that is known.
            self.lines.push(String::new());
        }
        let lines =
            self.lines.iter().map(|line| text_width(line, TEXT_SIZE)).fold(text_width(title, TITLE_SIZE), f64::max);
        let label = if self.wide { LABEL + labels } else { 0.0 };
        self.width = (self.right + label + MARGIN).max(lines + 2.0 * MARGIN).max(NARROWEST);
        self.legend = TITLE + HEADING * self.lines.len() as f64;
        self.top = self.legend + legend::height(self.width, self.dense) + 14.0;
        self.bottom = self.top;
    }

    fn tasks(&mut self, lanes: Vec<Vec<Life<'t>>>, labels: Vec<Label>, procedures: &[String]) {
        for (index, (lives, label)) in lanes.into_iter().zip(labels).enumerate() {
            self.lanes.extend(lives.iter().map(|(task, _)| (*task, index)));
            let row = self.row(lives, label, procedures);
            self.bottom += row.height;
            self.rows.push(row);
        }
        self.bottom += 4.0;
    }

    /// The next lane's place.
    fn row(&self, lives: Vec<Life<'t>>, label: Label, procedures: &[String]) -> Row<'t> {
        let heads = self.heads(&lives, procedures);
        let notes: Vec<(f64, Wait)> = lives.iter().flat_map(|(_, lane)| self.notes(lane)).collect();
        let above = if heads.is_empty() { CAP } else { CAP + HEAD };
        let below = if notes.is_empty() { CAP } else { BURST + NOTE_SIZE + 3.0 };
        let top = self.bottom;
        let middle = top + 3.0 + above;
        Row { lives, label, top, height: 3.0 + above + below + 3.0, middle, heads, notes }
    }

    /// The texts above the bars: in a lane of one task what it sets, else the tasks, where there is room.
    fn heads(&self, lives: &[Life], procedures: &[String]) -> Vec<(f64, String)> {
        match lives {
            [(_, lane)] => {
                let settings = cluster(lane.settings.iter().map(|one| (self.x(one.at), *one)), SPACE * self.grain);
                let few = !self.dense || settings.len() <= FEW;
                let single = settings.iter().filter(|piece| few && piece.count == 1);
                fitting(single.map(|piece| (piece.left, flag_text(&piece.first))), self.end + OVER)
            }
            _ => {
                let begins: Vec<f64> = lives.iter().map(|(_, lane)| self.x(pack::begin(lane))).collect();
                let ends = begins.iter().skip(1).copied().chain([self.end]);
                let texts = lives.iter().map(|(task, lane)| called(*task, lane, procedures));
                let room = begins.iter().copied().zip(ends).zip(texts);
                let fits = room.filter(|((from, to), text)| to - from >= text_width(text, NOTE_SIZE) + GAP);
                fitting(fits.map(|((from, _), text)| (from, text)), self.end + OVER)
            }
        }
    }

    /// The texts under the bars of a waiting task that are long enough for them.
    fn notes(&self, lane: &Lane) -> Vec<(f64, Wait)> {
        let mut notes = Vec::new();
        for bar in &lane.bars {
            if let Doing::Waits(wait) = bar.doing {
                let (left, right) = (self.x(bar.from), bar.to.map_or(self.end, |to| self.x(to)));
                if right - left >= note_width(wait) {
                    notes.push((left + 2.0, wait));
                }
            }
        }
        notes
    }

    fn valves(&mut self, timeline: &'t Timeline) {
        for (valve, levels) in timeline.used_valves() {
            let (low, high) = scale(levels);
            let first = if self.valves.is_empty() { VALVES } else { 0.0 };
            self.bottom += first + VALVE_ROW;
            self.valves.push(ValveRow { valve, levels, base: self.bottom - 6.0, low, high });
        }
    }

    /// Where a time stands.
    pub fn x(&self, time: f64) -> f64 {
        self.left + (time - self.from as f64) * self.cell
    }

    /// The lane that a task has, by its index.
    pub fn lane(&self, task: u16) -> Option<usize> {
        self.lanes.get(&task).copied()
    }

    /// The middle of a task's lane.
    pub fn middle(&self, task: u16) -> Option<f64> {
        self.lane(task).and_then(|index| self.rows.get(index)).map(|row| row.middle)
    }

    /// The record counts that the axis names: steps of 1, 2 or 5 times a power of ten.
    pub fn ticks(&self) -> impl Iterator<Item = usize> {
        let space = TICK.max(text_width(&self.to.to_string(), NOTE_SIZE) + BESIDE);
        let mut step: usize = 1;
        for factor in [2, 5, 10].into_iter().cycle().take(24) {
            if step as f64 * self.cell >= space {
                break;
            }
            let power = 10_usize.pow(step.ilog10());
            step = power * factor;
        }
        (self.from.next_multiple_of(step)..=self.to).step_by(step)
    }
}

/// How far bars reach past the run's end: enough to tell what the tasks then wait for.
fn tail(timeline: &Timeline, cell: f64) -> f64 {
    let last = timeline.lanes.values().filter_map(|lane| lane.bars.last()).filter(|bar| bar.to.is_none());
    let widths = last.filter_map(|bar| match bar.doing {
        Doing::Waits(wait) => Some(note_width(wait)),
        _ => None,
    });
    widths.fold(cell.clamp(12.0, 28.0), f64::max)
}

/// The texts that do not reach into the one before, and end before a limit.
fn fitting(texts: impl Iterator<Item = (f64, String)>, limit: f64) -> Vec<(f64, String)> {
    let mut fitting: Vec<(f64, String)> = Vec::new();
    let mut end = f64::NEG_INFINITY;
    for (x, text) in texts {
        let right = x + text_width(&text, NOTE_SIZE);
        if x >= end && right <= limit {
            end = right + GAP;
            fitting.push((x, text));
        }
    }
    fitting
}

#[cfg(test)]
mod tests {
    use super::*;

    #[test]
    fn texts_above_a_lane_never_touch() {
        for (space, text) in [(50.0, "v0=1"), (10.0, "v0=1"), (2.0, "v7=-2147483648"), (30.0, "v0=1")] {
            let texts = (0..40).map(|i| (f64::from(i) * space, text.to_string()));
            let kept = fitting(texts, 40.0 * space);
            let width = text_width(text, NOTE_SIZE);
            assert!(!kept.is_empty() || width > 40.0 * space);
            assert!(kept.windows(2).all(|pair| pair[0].0 + width <= pair[1].0), "{space} {text}");
            assert!(kept.iter().all(|(x, _)| x + width <= 40.0 * space));
        }
    }
}
