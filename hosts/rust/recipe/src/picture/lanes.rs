//! The tasks' lanes.

use super::join::{cluster, join, Piece, Sieve};
use super::pack;
use super::plan::{Plan, Row, LABEL, SPACE};
use super::{
    held_text, marks, note_text, LeftOut, BURST, HELD, JOINED, NOTE_SIZE, QUEUED, STARTER, TEXT_SIZE, TURN, VALVE,
    WAITS,
};
use crate::block::Wait;
use crate::svg::Svg;
use crate::timeline::{Doing, Lacking, Setting, Spawn, Timeline, Turn};
use crate::words::counted;

/// Where records are narrow: how many grains there are between two arrows to the same lane at least.
const ARROWS: f64 = 60.0;
/// How many grains there are between the lines of two arrows at least.
const LINES: f64 = 6.0;
/// How many grains wide joined bars are at most, so that their share of bursts is told in the course of time.
const COLUMN: f64 = 16.0;
/// How many grains a task lasts for at least that has its end drawn.
const ENDS: f64 = 6.0;

/// Stripes and labels.
pub fn background(svg: &mut Svg, plan: &Plan) {
    for (index, row) in plan.rows.iter().enumerate() {
        if index % 2 == 0 {
            svg.rect("stripe", [plan.left, row.top, plan.end - plan.left, row.height], "");
        }
        let baseline = row.middle + 0.35 * TEXT_SIZE;
        svg.text_with_tip("label", (plan.left - LABEL, baseline), &row.label.text, &row.label.tip);
        if !row.label.below.is_empty() {
            svg.text("starter", (plan.left - LABEL, baseline + STARTER), &row.label.below);
        }
        if plan.wide {
            svg.text("", (plan.right + LABEL, baseline), &row.label.text);
        }
    }
}

/// What a lane's tasks do.
pub fn bars(svg: &mut Svg, plan: &Plan, row: &Row) {
    let bars = row.lives.iter().flat_map(|(task, lane)| lane.bars.iter().map(move |bar| (*task, bar)));
    let pieces = bars.map(|(task, bar)| {
        let right = bar.to.map_or(plan.end, |to| plan.x(to));
        Piece::new(plan.x(bar.from), right, (task, bar.doing), bar.doing == Doing::Burst)
    });
    for piece in join(pieces.filter(|piece| piece.left < piece.right), plan.grain, COLUMN * plan.grain) {
        if piece.count == 1 {
            bar(svg, plan, row, piece);
        } else {
            joined(svg, row, piece);
        }
    }
}

/// Bars that are joined: the higher, the more of the time is of bursts.
fn joined(svg: &mut Svg, row: &Row, piece: Piece<(u16, Doing)>) {
    let Piece { left, right, first: (first, _), last: (last, _), count, weight, .. } = piece;
    let share = (weight / (right - left)).clamp(0.0, 1.0);
    let percent = (100.0 * share).round();
    let tip = format!("{}: {count} bursts and waits, {percent} % of the time in bursts", tasks(first, last));
    let half = JOINED + share * (BURST - JOINED);
    svg.rect("joined", [left, row.middle - half, right - left, 2.0 * half], &tip);
}

fn bar(svg: &mut Svg, plan: &Plan, row: &Row, Piece { left, right, first: (task, doing), .. }: Piece<(u16, Doing)>) {
    let (class, half, tip) = match doing {
        Doing::Burst => ("burst", BURST, format!("task {task}: burst")),
        Doing::Queued => ("queued", QUEUED, format!("task {task}: in the ready queue")),
        Doing::Waits(Wait::Await(number)) => ("await", WAITS, format!("task {task}: awaits {number}")),
        Doing::Waits(Wait::Guard) => ("guard", WAITS, format!("task {task}: waits at a guard")),
    };
    let width = (right - left).max(plan.grain.min(1.0));
    // The gap keeps two bursts apart that follow each other; it has no room where records are narrow.
    let gap = if doing == Doing::Burst && !plan.dense { (0.25 * width).min(0.75) } else { 0.0 };
    svg.rect(class, [left + gap, row.middle - half, width - 2.0 * gap, 2.0 * half], &tip);
}

/// One task or several.
fn tasks(first: u16, last: u16) -> String {
    if first == last {
        format!("task {first}")
    } else {
        format!("tasks {first} to {last}")
    }
}

/// The spawns' arrows. Where records are narrow, those that are too near to one to the same lane are left out, and
/// others that are near to each other share a line.
pub fn arrows(svg: &mut Svg, plan: &Plan, timeline: &Timeline, left_out: &mut LeftOut) {
    let mut sieves = vec![Sieve::new(ARROWS * plan.grain); plan.rows.len()];
    let (mut line, mut lines) = (0.0, Sieve::new(LINES * plan.grain));
    for spawn in &timeline.spawns {
        let x = plan.x(spawn.at);
        let sieve = plan.lane(spawn.spawned).and_then(|lane| sieves.get_mut(lane));
        if !sieve.is_some_and(|sieve| sieve.passes(x)) {
            left_out.arrows += 1;
            continue;
        }
        if lines.passes(x) {
            line = x;
        }
        arrow(svg, plan, spawn, line);
    }
}

/// From the spawner's burst to where the new task joins the queue.
fn arrow(svg: &mut Svg, plan: &Plan, spawn: &Spawn, x: f64) {
    let Spawn { spawner, spawned, .. } = *spawn;
    if let (Some(from), Some(to)) = (plan.middle(spawner), plan.middle(spawned)) {
        let edge = if to < from { to + QUEUED } else { to - QUEUED };
        marks::arrow(svg, x, from, edge, &format!("task {spawner} spawns task {spawned}"));
    }
}

/// What is set or begins, what is waited for in the course of the run, and at its end.
pub fn notes(svg: &mut Svg, plan: &Plan, row: &Row) {
    let class = |wait| if wait == Wait::Guard { "note guardnote" } else { "note" };
    let head = if row.lives.len() == 1 { "flagtext" } else { "head" };
    for (x, text) in &row.heads {
        svg.text(head, (*x, row.middle - super::CAP - 3.0), text);
    }
    for (x, wait) in &row.notes {
        svg.text(class(*wait), (*x, row.middle + BURST + NOTE_SIZE), &note_text(*wait));
    }
    for wait in row.lives.iter().filter_map(|(_, lane)| lane.held) {
        svg.text(class(wait), (plan.end + HELD, row.middle + 0.35 * NOTE_SIZE), &held_text(wait));
    }
}

/// Turns, ends and settings.
pub fn marks(svg: &mut Svg, plan: &Plan, row: &Row, left_out: &mut LeftOut) {
    let turns = row.lives.iter().flat_map(|(task, lane)| lane.turns.iter().map(move |turn| (*task, turn)));
    let turns = cluster(turns.map(|(task, turn)| (plan.x(turn.at), (task, *turn))), SPACE * plan.grain);
    turns.into_iter().for_each(|piece| turn(svg, plan, row, piece));
    ends(svg, plan, row, left_out);
    let settings = row.lives.iter().flat_map(|(task, lane)| lane.settings.iter().map(move |one| (*task, one)));
    let settings = cluster(settings.map(|(task, one)| (plan.x(one.at), (task, *one))), SPACE * plan.grain);
    settings.into_iter().for_each(|piece| setting(svg, plan, row, piece));
}

/// The ends of the tasks that are wide enough for them, and the last of the lane.
fn ends(svg: &mut Svg, plan: &Plan, row: &Row, left_out: &mut LeftOut) {
    let last = row.lives.last().map(|(task, _)| *task);
    for (task, lane) in &row.lives {
        let Some(end) = lane.ended else { continue };
        let width = (end - pack::begin(lane)) * plan.cell;
        if width >= ENDS * plan.grain || last == Some(*task) {
            marks::cap(svg, plan.x(end), row.middle, &format!("task {task} ended"));
        } else {
            left_out.ends += 1;
        }
    }
}

/// A mark's size, from the middle: a share of a record's width. Where records are narrow, others are not as near.
fn size(plan: &Plan, share: f64, most: f64) -> f64 {
    let least = if plan.dense { 2.2 } else { 1.2 };
    (share * plan.cell).clamp(least, most)
}

fn turn(svg: &mut Svg, plan: &Plan, row: &Row, piece: Piece<(u16, Turn)>) {
    let Piece { left, right, first: (first, turn), last: (last, _), count, .. } = piece;
    if count == 1 {
        let tip = format!("task {first} turned: {}", why(turn.wait));
        svg.circle("turn", (left, row.middle), size(plan, 0.36, TURN), &tip);
    } else {
        let tip = format!("{} turned {}", tasks(first, last), counted(count, "time"));
        marks::turns(svg, [left, right], row.middle, &tip);
    }
}

fn setting(svg: &mut Svg, plan: &Plan, row: &Row, piece: Piece<(u16, Setting)>) {
    let Piece { left, right, first: (first, setting), last: (last, _), count, .. } = piece;
    if count == 1 {
        let tip = format!("task {first} sets valve {} to {}", setting.valve, setting.value);
        marks::diamond(svg, left, row.middle, size(plan, 0.45, VALVE), &tip);
    } else {
        let tip = format!("{}: {}", tasks(first, last), counted(count, "setting"));
        marks::settings(svg, [left, right], row.middle, &tip);
    }
}

/// At the run's end, in the lane of the task whose statement has no value.
pub fn stop(svg: &mut Svg, plan: &Plan, Lacking { task, place }: Lacking) {
    if let Some(middle) = plan.middle(task) {
        let tip = format!("task {task} stopped: record {place} has no value");
        marks::stop(svg, plan.x(plan.to as f64), middle, &tip);
    }
}

/// Why a task is turned.
fn why(wait: Wait) -> String {
    match wait {
        Wait::Await(number) => format!("{number} is not done"),
        Wait::Guard => "its guard is not true".to_string(),
    }
}
