//! The picture of a run: a lane for each task and each valve, time from left to right in log records.
//!
//! The picture is bounded: what would be narrower than a pixel, or too near to be told apart, is joined or left out,
//! and the picture says so. Where it would still be a file of more than [`MOST_BYTES`], more pixels are taken for one.

use crate::block::Wait;
use crate::svg::{text_width, Svg};
use crate::timeline::{Setting, Timeline};
use crate::words::counted;

mod heading;
mod join;
mod labels;
mod lanes;
mod legend;
mod marks;
mod pack;
mod plan;
mod valves;

pub use heading::Heading;
pub use plan::MOST_WIDTH;
use plan::{Plan, HEADING, MARGIN, TITLE};

/// The most bytes of a picture.
pub const MOST_BYTES: usize = 2_000_000;
/// What is narrower than so many pixels is joined at last.
const COARSEST: f64 = 512.0;
/// Font sizes; the style below names the same ones.
const NOTE_SIZE: f64 = 10.0;
const TEXT_SIZE: f64 = 12.0;
const TITLE_SIZE: f64 = 17.0;
/// Half the height of a burst, of a queued task's bar and of an ended task's cap.
const BURST: f64 = 7.0;
const QUEUED: f64 = 2.0;
const WAITS: f64 = 3.5;
const CAP: f64 = 10.0;
/// Half the height of joined bars without a burst.
const JOINED: f64 = 3.0;
/// The sizes of a turn's circle and a setting's diamond, from the middle; they are smaller where records are narrow.
const TURN: f64 = 3.2;
const VALVE: f64 = 4.5;
/// Half the height of the sign where a missing value stopped the run.
const STOP: f64 = 8.0;
/// The space between a lane and what its task waits for where the run is stuck.
const HELD: f64 = 6.0;
/// How far a task's starter stands below its name.
const STARTER: f64 = 11.0;

const STYLE: &str = "
text { font-family: 'DejaVu Sans', Verdana, Arial, sans-serif; font-size: 12px; fill: #2b2b2b }
.title { font-size: 17px; font-weight: bold }
.subtitle, .axis { fill: #5c5c5c }
.tick { font-size: 10px; fill: #5c5c5c; text-anchor: middle }
.label { text-anchor: end }
.starter { font-size: 10px; fill: #2e7d4f; text-anchor: end }
.range { font-size: 10px; fill: #7b1337; text-anchor: end }
.head, .note, .flagtext, .value { font-size: 10px; stroke: #fff; stroke-width: 3px }
.head, .note, .flagtext, .value { stroke-linejoin: round; paint-order: stroke }
.head { fill: #5c5c5c }
.note { fill: #7a5a12 }
.guardnote { fill: #553a80 }
.flagtext, .value { fill: #7b1337 }
.paper { fill: #fff }
.stripe { fill: #f4f5f2 }
.grid { stroke: #dcded8; stroke-width: 1 }
.base { stroke: #8a8a8a; stroke-width: 1 }
.end { stroke: #8a8a8a; stroke-width: 1; stroke-dasharray: 4 3 }
.burst { fill: #2f6690 }
.joined { fill: #5d8fb5; shape-rendering: crispEdges }
.queued { fill: #a9c4da }
.await { fill: url(#hatch); stroke: #c9952b; stroke-width: 0.8 }
.guard { fill: url(#gate); stroke: #7d5ba6; stroke-width: 0.8 }
.turn { fill: #fff; stroke: #b3541e; stroke-width: 1.6 }
.turns { fill: #b3541e }
.arrow { stroke: #2e7d4f; stroke-width: 1.4 }
.spawn { fill: #2e7d4f }
.tail { fill: #2e7d4f; stroke: #fff; stroke-width: 1 }
.cap { fill: #1f1f1f }
.valve { fill: #a3174a; stroke: #fff; stroke-width: 1 }
.settings { fill: #a3174a }
.zero { stroke: #a3174a; stroke-width: 1 }
.level { fill: #f3c6d5; stroke: #a3174a; stroke-width: 0.8 }
.area { fill: #eebccd; shape-rendering: crispEdges }
.band { fill: #c2577f; shape-rendering: crispEdges }
.stop { fill: #c62828; stroke: #fff; stroke-width: 1.2 }
";

const DEFINITIONS: &str = "<pattern id=\"hatch\" patternUnits=\"userSpaceOnUse\" width=\"5\" height=\"5\" \
    patternTransform=\"rotate(45)\"><rect width=\"5\" height=\"5\" fill=\"#fff6e0\"/>\
    <rect width=\"2\" height=\"5\" fill=\"#dfa83a\"/></pattern>\
    <pattern id=\"gate\" patternUnits=\"userSpaceOnUse\" width=\"4\" height=\"4\">\
    <rect width=\"4\" height=\"4\" fill=\"#f3edfa\"/><rect width=\"1.6\" height=\"4\" fill=\"#9b7cc2\"/></pattern>";

/// How many are not drawn.
#[derive(Clone, Copy, Debug, Default)]
struct LeftOut {
    arrows: usize,
    ends: usize,
}

impl LeftOut {
    /// What the picture says of it.
    fn words(self, grain: f64) -> String {
        let pixels = if grain > 1.0 { format!("{grain} pixels") } else { "a pixel".to_string() };
        let joined = format!("Joined: what is narrower than {pixels}, and arrows, turns or settings side by side.");
        let left = [(self.arrows, "arrow"), (self.ends, "end")].into_iter().filter(|(count, _)| *count > 0);
        let left: Vec<String> = left.map(|(count, what)| counted(count, what)).collect();
        if left.is_empty() {
            return joined;
        }
        format!("{joined} Left out, as others are near: {}.", left.join(" and "))
    }
}

/// The SVG text of a run.
pub fn draw(timeline: &Timeline, heading: &Heading) -> String {
    let mut grain = 1.0;
    loop {
        let document = drawn(timeline, heading, grain);
        if document.len() <= MOST_BYTES || grain >= COARSEST {
            return document;
        }
        grain *= 2.0;
    }
}

/// The picture in which what is narrower than a grain is joined.
fn drawn(timeline: &Timeline, heading: &Heading, grain: f64) -> String {
    let plan = Plan::of(timeline, heading, grain);
    let mut left_out = LeftOut::default();
    let mut svg = Svg::new();
    svg.rect("paper", [0.0, 0.0, plan.width, plan.height], "");
    svg.text("title", (MARGIN, TITLE), &heading.title(timeline));
    legend::draw(&mut svg, &plan);
    lanes::background(&mut svg, &plan);
    grid(&mut svg, &plan);
    plan.rows.iter().for_each(|row| lanes::bars(&mut svg, &plan, row));
    lanes::arrows(&mut svg, &plan, timeline, &mut left_out);
    for row in &plan.rows {
        lanes::notes(&mut svg, &plan, row);
        lanes::marks(&mut svg, &plan, row, &mut left_out);
    }
    if let Some(lacking) = timeline.lacking {
        lanes::stop(&mut svg, &plan, lacking);
    }
    plan.valves.iter().for_each(|row| valves::draw(&mut svg, &plan, row));
    axis(&mut svg, &plan);
    lines(&mut svg, &plan, left_out);
    svg.document((plan.width, plan.height), &heading.title(timeline), STYLE, DEFINITIONS)
}

/// The lines below the title; an empty one is kept for what is joined.
fn lines(svg: &mut Svg, plan: &Plan, left_out: LeftOut) {
    for (index, line) in plan.lines.iter().enumerate() {
        let words = if line.is_empty() { &left_out.words(plan.grain) } else { line };
        svg.text("subtitle", (MARGIN, TITLE + HEADING * (index + 1) as f64), words);
    }
}

fn grid(svg: &mut Svg, plan: &Plan) {
    for tick in plan.ticks() {
        let x = plan.x(tick as f64);
        svg.line("grid", (x, plan.top), (x, plan.bottom));
    }
    if plan.last {
        let x = plan.x(plan.to as f64);
        svg.line("end", (x, plan.top - 6.0), (x, plan.bottom));
    }
}

fn axis(svg: &mut Svg, plan: &Plan) {
    svg.line("base", (plan.left, plan.bottom), (plan.end, plan.bottom));
    for tick in plan.ticks() {
        let x = plan.x(tick as f64);
        svg.line("base", (x, plan.bottom), (x, plan.bottom + 4.0));
        svg.text("tick", (x, plan.bottom + 16.0), &tick.to_string());
    }
    let text = "log records written so far (a step that writes none takes no width)";
    svg.text("axis", (plan.left, plan.bottom + 36.0), text);
}

/// A text of at most so many characters.
fn cut(text: &str, most: usize) -> String {
    let kept: String = text.chars().take(most).collect();
    if kept.len() < text.len() {
        kept + "..."
    } else {
        kept
    }
}

/// A wait as the text under its bar has it.
fn note_text(wait: Wait) -> String {
    match wait {
        Wait::Await(number) => format!("awaits {number}"),
        Wait::Guard => "guard".to_string(),
    }
}

fn note_width(wait: Wait) -> f64 {
    text_width(&note_text(wait), NOTE_SIZE) + 4.0
}

/// A wait as the end of a stuck task's lane has it.
fn held_text(wait: Wait) -> String {
    match wait {
        Wait::Await(number) => format!("waits for {number}"),
        Wait::Guard => "at a guard".to_string(),
    }
}

fn held_width(wait: Wait) -> f64 {
    HELD + text_width(&held_text(wait), NOTE_SIZE)
}

/// A setting as the text above its lane has it.
fn flag_text(setting: &Setting) -> String {
    format!("v{}={}", setting.valve, setting.value)
}
