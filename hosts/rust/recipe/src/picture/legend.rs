//! What the marks of the picture mean.

use super::plan::{Plan, MARGIN};
use super::{marks, valves, BURST, CAP, NOTE_SIZE, QUEUED, TEXT_SIZE, TURN, VALVE, WAITS};
use crate::svg::Svg;

/// The height of a line of the legend, and the width of an item and of its symbol.
const LINE: f64 = 26.0;
const COLUMN: f64 = 180.0;
const SYMBOL: f64 = 40.0;
/// The first line's middle, below the last line of the heading.
const TOP: f64 = 28.0;

#[derive(Clone, Copy)]
enum Symbol {
    Burst,
    Queued,
    Await,
    Guard,
    Turn,
    Spawn,
    Cap,
    Setting,
    Level,
    End,
    Held,
    Stop,
    Joined,
    Turns,
    Settings,
    Band,
}

const ITEMS: [(Symbol, &str); 16] = [
    (Symbol::Burst, "burst"),
    (Symbol::Queued, "in the ready queue"),
    (Symbol::Await, "waits at an await"),
    (Symbol::Guard, "waits at a guard"),
    (Symbol::Turn, "turned to the back"),
    (Symbol::Spawn, "spawn"),
    (Symbol::Cap, "end of the task"),
    (Symbol::Setting, "valve 0 set to 1"),
    (Symbol::Level, "a valve's value"),
    (Symbol::End, "end of the run"),
    (Symbol::Held, "stuck: waits for 2"),
    (Symbol::Stop, "stopped: no value"),
    (Symbol::Joined, "many bursts, waits"),
    (Symbol::Turns, "many turns"),
    (Symbol::Settings, "many valves set"),
    (Symbol::Band, "many values"),
];
/// The last ones are of pictures in which something is joined.
const JOINED: usize = 4;

fn items(dense: bool) -> impl Iterator<Item = (Symbol, &'static str)> {
    ITEMS.into_iter().take(count(dense))
}

fn count(dense: bool) -> usize {
    ITEMS.len() - if dense { 0 } else { JOINED }
}

/// Where each item begins, and the middle of its line, in a picture of this width.
fn places(width: f64, count: usize) -> impl Iterator<Item = (f64, f64)> {
    let columns = (((width - 2.0 * MARGIN) / COLUMN) as usize).clamp(1, count);
    // Lines of about one length look better than long ones and a short one.
    let columns = count.div_ceil(count.div_ceil(columns));
    (0..count).map(move |index| {
        let (line, column) = (index / columns, index % columns);
        (MARGIN + column as f64 * COLUMN, TOP + line as f64 * LINE)
    })
}

/// The height of the legend in a picture of this width.
pub fn height(width: f64, dense: bool) -> f64 {
    places(width, count(dense)).last().map_or(0.0, |(_, y)| y + LINE / 2.0)
}

/// Draws the legend below the heading.
pub fn draw(svg: &mut Svg, plan: &Plan) {
    for ((symbol, text), (x, y)) in items(plan.dense).zip(places(plan.width, count(plan.dense))) {
        let y = y + plan.legend;
        symbol.draw(svg, x, y);
        svg.text("", (x + SYMBOL, y + 0.35 * TEXT_SIZE), text);
    }
}

impl Symbol {
    fn draw(self, svg: &mut Svg, x: f64, y: f64) {
        let bar = |half: f64| [x, y - half, 30.0, 2.0 * half];
        // What stands on a bar, or at its end.
        match self {
            Symbol::Burst | Symbol::Settings | Symbol::Stop | Symbol::Cap => svg.rect("burst", bar(BURST), ""),
            Symbol::Await | Symbol::Turn | Symbol::Turns => svg.rect("await", bar(WAITS), ""),
            Symbol::Queued => svg.rect("queued", bar(QUEUED), ""),
            Symbol::Guard => svg.rect("guard", bar(WAITS), ""),
            _ => {}
        }
        match self {
            Symbol::Turn => svg.circle("turn", (x + 15.0, y), TURN, ""),
            Symbol::Spawn => marks::arrow(svg, x + 15.0, y - 8.0, y + 9.0, ""),
            Symbol::Cap => svg.rect("cap", [x + 28.0, y - CAP, 3.0, 2.0 * CAP], ""),
            Symbol::Stop => marks::stop(svg, x + 22.0, y, ""),
            Symbol::Setting => {
                svg.text("flagtext", (x, y + 0.35 * NOTE_SIZE), "v0=1");
                marks::diamond(svg, x + 31.0, y, VALVE, "");
            }
            Symbol::Level => valves::level(svg, x, y),
            Symbol::Band => valves::band(svg, x, y),
            Symbol::End => svg.line("end", (x + 15.0, y - 9.0), (x + 15.0, y + 9.0)),
            Symbol::Held => svg.text("note", (x, y + 0.35 * NOTE_SIZE), "for 2"),
            Symbol::Joined => {
                // Half of the time, then all of it.
                svg.rect("joined", [x, y - 4.5, 15.0, 9.0], "");
                svg.rect("joined", [x + 15.0, y - BURST, 15.0, 2.0 * BURST], "");
            }
            Symbol::Turns => marks::turns(svg, [x, x + 30.0], y + 2.0, ""),
            Symbol::Settings => marks::settings(svg, [x, x + 30.0], y, ""),
            Symbol::Burst | Symbol::Queued | Symbol::Await | Symbol::Guard => {}
        }
    }
}
