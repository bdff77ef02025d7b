//! Plots of lines over two axes, written as SVG.

use std::fmt::Write;

/// The picture, and the area between the axes.
const WIDTH: f64 = 640.0;
const HEIGHT: f64 = 400.0;
const LEFT: f64 = 70.0;
const RIGHT: f64 = 620.0;
const TOP: f64 = 82.0;
const BOTTOM: f64 = 344.0;
/// About how many ticks a linear axis has.
const TICKS: f64 = 6.0;

/// By colour a side, by dash a workload; the lines of a plot differ in one of the two.
const COLOURS: [&str; 2] = ["#1b5e9e", "#c4520c"];
const DASHES: [&str; 2] = ["none", "6 4"];
const STYLE: &str = "text{font:12px sans-serif;fill:#222}.title{font-size:14px;font-weight:bold}\
                     .middle{text-anchor:middle}.end{text-anchor:end}.grid{stroke:#ddd}.axis{stroke:#222}\
                     polyline{fill:none;stroke-width:2}";

#[derive(Clone, Copy, Debug, PartialEq, Eq)]
pub enum Scale {
    Linear,
    Logarithmic,
}

impl Scale {
    /// Round numbers from one that is not over the least value to one that is not under the most: 1, 2 and 5 times
    /// powers of ten, or the multiples of one such number from 0.
    fn ticks(self, least: f64, most: f64) -> Vec<f64> {
        match self {
            Scale::Linear => {
                let step = round_up(most / TICKS);
                (0..=(most / step).ceil() as u32).map(|i| f64::from(i) * step).collect()
            }
            Scale::Logarithmic => {
                let mut ticks = vec![round_up(most)];
                while ticks[0] > least {
                    // The number before one of these is at least 2/5 of it.
                    ticks.insert(0, round_up(ticks[0] * 0.39));
                }
                ticks
            }
        }
    }

    /// How far a value is on the way from one to another, 0 to 1.
    fn part(self, value: f64, from: f64, to: f64) -> f64 {
        match self {
            Scale::Linear => (value - from) / (to - from),
            Scale::Logarithmic => (value / from).ln() / (to / from).ln(),
        }
    }
}

/// The least of 1, 2 or 5 times a power of ten that is not under a value.
fn round_up(value: f64) -> f64 {
    let power = 10_f64.powf(value.log10().floor());
    [1.0, 2.0, 5.0].map(|factor| factor * power).into_iter().find(|round| *round >= value).unwrap_or(10.0 * power)
}

/// A number of at most three decimals, with a comma before each group of three digits where it has none.
fn grouped(value: f64) -> String {
    let digits = format!("{}", (value * 1e3).round() / 1e3);
    let mut text = String::new();
    for (i, digit) in digits.chars().enumerate() {
        if i > 0 && !digits.contains('.') && (digits.len() - i).is_multiple_of(3) {
            text.push(',');
        }
        text.push(digit);
    }
    text
}

/// A line with a height for each place of its plot.
pub struct Line {
    pub name: String,
    pub colour: usize,
    pub dash: usize,
    pub heights: Vec<f64>,
}

impl Line {
    /// The line through points, with a dot at each.
    fn draw(&self, out: &mut String, points: &[(f64, f64)]) {
        let (colour, dash) = (COLOURS[self.colour], DASHES[self.dash]);
        let corners: Vec<String> = points.iter().map(|(x, y)| format!("{x:.1},{y:.1}")).collect();
        element(
            out,
            &format!(r#"polyline stroke="{colour}" stroke-dasharray="{dash}" points="{}""#, corners.join(" ")),
        );
        for (x, y) in points {
            element(out, &format!(r#"circle cx="{x:.1}" cy="{y:.1}" r="3" fill="{colour}""#));
        }
    }
}

pub struct Plot {
    pub title: &'static str,
    /// What the two axes count.
    pub across: &'static str,
    pub up: &'static str,
    pub scale: Scale,
    /// The places on the axis across, ascending.
    pub places: Vec<usize>,
    pub lines: Vec<Line>,
}

impl Plot {
    /// The whole picture.
    pub fn svg(&self) -> String {
        let mut out = format!(
            "<svg xmlns=\"http://www.w3.org/2000/svg\" width=\"{WIDTH}\" height=\"{HEIGHT}\" \
             viewBox=\"0 0 {WIDTH} {HEIGHT}\" role=\"img\">\n<title>{}</title>\n<style>{STYLE}</style>\n",
            self.title
        );
        element(&mut out, r#"rect width="100%" height="100%" fill="white""#);
        text(&mut out, "title middle", (WIDTH / 2.0, 24.0), self.title);
        self.legend(&mut out);
        let heights = || self.lines.iter().flat_map(|line| line.heights.iter().copied());
        let ticks = self.scale.ticks(heights().fold(f64::INFINITY, f64::min), heights().fold(0.0, f64::max));
        self.axes(&mut out, &ticks);
        for line in &self.lines {
            let points = self.places.iter().zip(&line.heights);
            let points: Vec<_> = points.map(|(place, height)| (self.x(*place), self.y(*height, &ticks))).collect();
            line.draw(&mut out, &points);
        }
        out + "</svg>\n"
    }

    /// Where a place is; a linear axis begins with 0.
    fn x(&self, place: usize) -> f64 {
        let (first, last) = (self.places[0] as f64, self.places[self.places.len() - 1] as f64);
        let from = if self.scale == Scale::Linear { 0.0 } else { first };
        LEFT + (RIGHT - LEFT) * self.scale.part(place as f64, from, last)
    }

    /// Where a height is between the first tick and the last.
    fn y(&self, height: f64, ticks: &[f64]) -> f64 {
        BOTTOM - (BOTTOM - TOP) * self.scale.part(height, ticks[0], ticks[ticks.len() - 1])
    }

    /// The lines' names above the area, two a row.
    fn legend(&self, out: &mut String) {
        for (i, line) in self.lines.iter().enumerate() {
            let x = LEFT + (RIGHT - LEFT) / 2.0 * (i % 2) as f64;
            let y = 46.0 + 20.0 * (i / 2) as f64;
            line.draw(out, &[(x, y), (x + 34.0, y)]);
            text(out, "", (x + 42.0, y + 4.0), &line.name);
        }
    }

    /// Ticks with their numbers, the axes, and what they count.
    fn axes(&self, out: &mut String, ticks: &[f64]) {
        for &tick in ticks {
            let y = self.y(tick, ticks);
            stroke(out, "grid", (LEFT, y), (RIGHT, y));
            text(out, "end", (LEFT - 8.0, y + 4.0), &grouped(tick));
        }
        for &place in &self.places {
            let x = self.x(place);
            stroke(out, "axis", (x, BOTTOM), (x, BOTTOM + 5.0));
            text(out, "middle", (x, BOTTOM + 19.0), &grouped(place as f64));
        }
        stroke(out, "axis", (LEFT, TOP), (LEFT, BOTTOM));
        stroke(out, "axis", (LEFT, BOTTOM), (RIGHT, BOTTOM));
        text(out, "middle", ((LEFT + RIGHT) / 2.0, HEIGHT - 12.0), self.across);
        let (x, y) = (16.0, (TOP + BOTTOM) / 2.0);
        let _ = writeln!(out, r#"<text class="middle" transform="translate({x} {y}) rotate(-90)">{}</text>"#, self.up);
    }
}

/// An element without content. Writing to a string cannot fail, here and below.
fn element(out: &mut String, inside: &str) {
    let _ = writeln!(out, "<{inside}/>");
}

fn stroke(out: &mut String, class: &str, from: (f64, f64), to: (f64, f64)) {
    let ((x1, y1), (x2, y2)) = (from, to);
    element(out, &format!(r#"line class="{class}" x1="{x1:.1}" y1="{y1:.1}" x2="{x2:.1}" y2="{y2:.1}""#));
}

/// Text, which holds no characters that mean something in XML.
fn text(out: &mut String, class: &str, (x, y): (f64, f64), text: &str) {
    let _ = writeln!(out, r#"<text class="{class}" x="{x:.1}" y="{y:.1}">{text}</text>"#);
}

#[cfg(test)]
mod tests {
    use super::*;

    #[test]
    fn ticks_hold_the_values() {
        assert_eq!(Scale::Linear.ticks(3.0, 11.0), [0.0, 2.0, 4.0, 6.0, 8.0, 10.0, 12.0]);
        assert_eq!(Scale::Logarithmic.ticks(60.0, 1_700.0), [50.0, 100.0, 200.0, 500.0, 1_000.0, 2_000.0]);
        assert_eq!(Scale::Logarithmic.ticks(50.0, 200.0), [50.0, 100.0, 200.0]);
    }

    #[test]
    fn digits_are_grouped() {
        assert_eq!(
            [5.0, 0.1 * 3.0, 4_096.0, 100.0, 1_000_000.0].map(grouped),
            ["5", "0.3", "4,096", "100", "1,000,000"]
        );
    }
}
