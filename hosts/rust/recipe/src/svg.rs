//! Writes SVG elements.

use std::fmt::Write;

/// How wide a character is taken to be, in sizes of the font. Few fonts have text that is wider on average.
const CHARACTER: f64 = 0.65;
/// The same of scripts whose characters fill a square, which begin there.
const SQUARE: f64 = 1.1;
const SQUARES: char = '\u{1100}';

/// A width for text of a font size that is enough for it.
pub fn text_width(text: &str, size: f64) -> f64 {
    text.chars().map(|c| size * if c < SQUARES { CHARACTER } else { SQUARE }).sum()
}

/// Text without the characters that mean something in XML, or that it cannot hold.
pub fn escape(text: &str) -> String {
    let mut escaped = String::with_capacity(text.len());
    for c in text.chars() {
        match c {
            '&' => escaped.push_str("&amp;"),
            '<' => escaped.push_str("&lt;"),
            '>' => escaped.push_str("&gt;"),
            '"' => escaped.push_str("&quot;"),
            '\'' => escaped.push_str("&#39;"),
            c if c.is_control() || matches!(c, '\u{fffe}' | '\u{ffff}') => escaped.push('\u{fffd}'),
            c => escaped.push(c),
        }
    }
    escaped
}

/// A coordinate with at most two digits behind the point.
fn number(value: f64) -> String {
    let text = format!("{value:.2}");
    let text = text.trim_end_matches('0').trim_end_matches('.');
    if text == "-0" { "0" } else { text }.to_string()
}

/// The elements of a picture, in the order in which they are drawn.
#[derive(Default)]
pub struct Svg {
    body: String,
}

impl Svg {
    pub fn new() -> Svg {
        Svg::default()
    }

    /// An element with numbers as attributes, and a tip that viewers show on pointing; an empty one is left out.
    pub fn element(&mut self, name: &str, class: &str, attributes: &[(&str, f64)], tip: &str) {
        // Writing to a string cannot fail, here and below.
        let _ = write!(self.body, "<{name} class=\"{class}\"");
        for (attribute, value) in attributes {
            let _ = write!(self.body, " {attribute}=\"{}\"", number(*value));
        }
        self.close(name, tip);
    }

    fn close(&mut self, name: &str, tip: &str) {
        let _ = if tip.is_empty() {
            writeln!(self.body, "/>")
        } else {
            writeln!(self.body, "><title>{}</title></{name}>", escape(tip))
        };
    }

    pub fn rect(&mut self, class: &str, [x, y, width, height]: [f64; 4], tip: &str) {
        self.element("rect", class, &[("x", x), ("y", y), ("width", width.max(0.0)), ("height", height)], tip);
    }

    pub fn line(&mut self, class: &str, from: (f64, f64), to: (f64, f64)) {
        self.element("line", class, &[("x1", from.0), ("y1", from.1), ("x2", to.0), ("y2", to.1)], "");
    }

    pub fn circle(&mut self, class: &str, at: (f64, f64), radius: f64, tip: &str) {
        self.element("circle", class, &[("cx", at.0), ("cy", at.1), ("r", radius)], tip);
    }

    pub fn polygon(&mut self, class: &str, corners: &[(f64, f64)], tip: &str) {
        let points: Vec<String> = corners.iter().map(|(x, y)| format!("{},{}", number(*x), number(*y))).collect();
        let _ = write!(self.body, "<polygon class=\"{class}\" points=\"{}\"", points.join(" "));
        self.close("polygon", tip);
    }

    pub fn text(&mut self, class: &str, at: (f64, f64), text: &str) {
        self.text_with_tip(class, at, text, "");
    }

    /// Text with a tip as an element has it.
    pub fn text_with_tip(&mut self, class: &str, (x, y): (f64, f64), text: &str, tip: &str) {
        let (x, y) = (number(x), number(y));
        let _ = write!(self.body, "<text class=\"{class}\" x=\"{x}\" y=\"{y}\">{}", escape(text));
        if !tip.is_empty() {
            let _ = write!(self.body, "<title>{}</title>", escape(tip));
        }
        self.body.push_str("</text>\n");
    }

    /// The whole picture. Style and definitions are written as they are.
    pub fn document(self, (width, height): (f64, f64), title: &str, style: &str, definitions: &str) -> String {
        let (width, height) = (number(width), number(height));
        format!(
            "<svg xmlns=\"http://www.w3.org/2000/svg\" width=\"{width}\" height=\"{height}\" \
             viewBox=\"0 0 {width} {height}\" role=\"img\">\n<title>{}</title>\n<style>{style}</style>\n\
             <defs>{definitions}</defs>\n{}</svg>\n",
            escape(title),
            self.body
        )
    }
}

#[cfg(test)]
mod tests {
    use super::*;

    #[test]
    fn text_is_escaped() {
        assert_eq!(escape("a<b> & \"c\"'\u{1}é"), "a&lt;b&gt; &amp; &quot;c&quot;&#39;\u{fffd}é");
    }

    #[test]
    fn characters_of_some_scripts_are_wide() {
        assert_eq!(text_width("größe", 10.0), 32.5);
        assert_eq!(text_width("圧力", 10.0), 22.0);
        assert_eq!(text_width("", 10.0), 0.0);
    }

    #[test]
    fn numbers_are_short() {
        assert_eq!([number(1.0), number(0.125), number(-0.001), number(100.0)], ["1", "0.12", "0", "100"]);
    }
}
