//! What a file is, by its content.

use std::fmt;

use recipe_runner::{State, RECORD};

use crate::{saved, state};

/// The kinds of file that the tool reads and writes.
#[derive(Clone, Copy, Debug, PartialEq, Eq)]
pub enum Content {
    Empty,
    /// A saved state, also one that is damaged, or a bare block that keeps the rules.
    State,
    Table,
    Picture,
    Text,
    Other,
}

impl Content {
    pub fn of(bytes: &[u8]) -> Content {
        match bytes {
            [] => Content::Empty,
            _ if saved::is_saved(bytes) || state::read(bytes).is_ok() => Content::State,
            _ if is_picture(bytes) => Content::Picture,
            _ if is_table(bytes) => Content::Table,
            _ if is_text(bytes) => Content::Text,
            _ => Content::Other,
        }
    }
}

impl fmt::Display for Content {
    fn fmt(&self, f: &mut fmt::Formatter) -> fmt::Result {
        f.write_str(match self {
            Content::Empty => "empty",
            Content::State => "a saved state",
            Content::Table => "a table",
            Content::Picture => "a picture",
            Content::Text => "text",
            Content::Other => "of a kind that is not known here",
        })
    }
}

/// Whether bytes are a table, or begin as one and have whole records.
fn is_table(bytes: &[u8]) -> bool {
    State::start(bytes).is_ok() || bytes.first() == Some(&1) && bytes.len() % RECORD == 0
}

/// Whether bytes begin as an SVG picture, with or without an XML declaration.
fn is_picture(bytes: &[u8]) -> bool {
    let declared = bytes.starts_with(b"<?xml").then(|| bytes.windows(2).position(|pair| pair == b"?>")).flatten();
    let rest = declared.and_then(|end| bytes.get(end + 2..)).unwrap_or(bytes).trim_ascii_start();
    let next = rest.strip_prefix(b"<svg").and_then(|rest| rest.first());
    next.is_some_and(|next| next.is_ascii_whitespace() || matches!(next, b'>' | b'/'))
}

/// Whether bytes are text; the last character may be cut short.
fn is_text(bytes: &[u8]) -> bool {
    let valid = match std::str::from_utf8(bytes) {
        Ok(_) => bytes.len(),
        Err(error) if error.error_len().is_none() => error.valid_up_to(),
        Err(_) => 0,
    };
    let text = bytes.get(..valid).and_then(|valid| std::str::from_utf8(valid).ok()).unwrap_or_default();
    !text.is_empty() && text.chars().all(|c| !c.is_control() || c.is_whitespace())
}

#[cfg(test)]
mod tests {
    use super::*;
    use recipe_runner::STATE;

    #[test]
    fn files_are_told_apart() {
        let table = [[1, 0, 1, 0, 0, 0, 0, 0], [8, 8, 0, 0, 0, 0, 0, 0]].concat();
        let block = *State::start(&table).unwrap().as_bytes();
        for (bytes, kind) in [
            (&b""[..], Content::Empty),
            (&saved::encode(&table, &block), Content::State),
            (b"recipe state 02\n", Content::State),
            (&block, Content::State),
            (&[0; STATE], Content::Other),
            (&table, Content::Table),
            (&[1, 9, 9, 9, 9, 9, 9, 9], Content::Table),
            (&[1, 9, 9], Content::Other),
            (b"<svg xmlns", Content::Picture),
            (b"<svg/>", Content::Picture),
            (b"<?xml version=\"1.0\"?>\n<svg>", Content::Picture),
            (b"<?xml version=\"1.0\"?><data/>", Content::Text),
            (b"<?xml version", Content::Text),
            (b"<svgfoo>", Content::Text),
            (b"procedure main\n\tskip\r\n", Content::Text),
            (b"recipe state of the press\n", Content::Text),
            ("\u{feff}# \u{e4}".as_bytes(), Content::Text),
            (b"# cut \xc3", Content::Text),
            (b"\xc3", Content::Other),
            (b"# \xff", Content::Other),
            (b"text\0", Content::Other),
        ] {
            assert_eq!(Content::of(bytes), kind, "{bytes:?}");
        }
        // A text of a block's length.
        assert_eq!(Content::of(&[b' '; STATE]), Content::Text);
    }
}
