//! From text to a table that the library accepts.

use recipe_runner::{Refusal, State};

use crate::content::Content;
use crate::source::{Fault, Faults, Position};
use crate::table::{encode, told, Assembled, Placed, Record, LACKING};
use crate::{raw, readable};

/// The most bytes of a text; the longest table needs far fewer.
pub const TEXT: usize = 4 << 20;

/// The characters of a file's bytes, without a byte order mark.
pub fn text(bytes: &[u8]) -> Result<&str, Fault> {
    if bytes.len() > TEXT {
        return Err(Fault::new(Position::START, format!("the text is longer than {TEXT} bytes")));
    }
    match Content::of(bytes) {
        other @ (Content::State | Content::Table | Content::Picture) => return Err(no_text(other)),
        // One that is cut short.
        Content::Other if bytes.first() == Some(&1) => return Err(no_text(Content::Table)),
        _ => {}
    }
    let text = std::str::from_utf8(bytes).map_err(|error| {
        let valid = bytes.get(..error.valid_up_to()).unwrap_or_default();
        Fault::new(end(&String::from_utf8_lossy(valid)), "this byte is not UTF-8 text")
    })?;
    Ok(text.strip_prefix('\u{feff}').unwrap_or(text))
}

fn no_text(content: Content) -> Fault {
    Fault::new(Position::START, format!("this is {content} and not text"))
}

/// The position behind the last character.
fn end(text: &str) -> Position {
    let line = text.matches('\n').count() + 1;
    let column = text.rsplit('\n').next().unwrap_or_default().chars().count() + 1;
    Position { line, column }
}

/// The table of a text in either notation.
pub fn assemble(text: &str) -> Result<Vec<u8>, Faults> {
    placed(text).map(|assembled| encode(&assembled.records))
}

/// The records of that table and the warnings. The library is asked where the text has no fault of its own.
pub fn placed(text: &str) -> Result<Assembled, Faults> {
    line_ends(text)?;
    let assembled = if raw::is_raw(text) {
        Assembled { records: raw::parse(text)?, ..Assembled::default() }
    } else {
        readable::parse(text)?
    };
    match State::start(&encode(&assembled.records)) {
        Ok(_) => Ok(assembled),
        Err(refusal) => Err(located(refusal, &assembled.records).into()),
    }
}

/// Holds a text to line ends that are read as such: without them a comment would go on to the text's end.
fn line_ends(text: &str) -> Result<(), Fault> {
    match text.trim_end().split_once('\r') {
        Some((before, _)) if !text.contains('\n') => {
            Err(Fault::new(end(before), "the lines of this text end with CR: line ends of LF or CR LF are due"))
        }
        _ => Ok(()),
    }
}

/// The library's refusal at the text of the record at fault.
fn located(refusal: Refusal, records: &[Placed]) -> Fault {
    let rows: Vec<Record> = records.iter().map(|placed| placed.record).collect();
    said_of(refusal.place, records, &format!("refused {}", refusal.number), &told(&rows, refusal))
}

/// The ending "novalue" at the text of the statement.
pub fn lacking(place: u32, records: &[Placed]) -> Fault {
    said_of(place, records, "novalue", LACKING)
}

/// What the library says of a record, in its word and in ours, at the record's text.
fn said_of(place: u32, records: &[Placed], said: &str, words: &str) -> Fault {
    match records.get(place as usize) {
        Some(Placed { record, at }) => Fault::new(*at, format!("{words} ({said} at record {place}, {record})")),
        None => Fault::new(Position::START, format!("{words} ({said})")),
    }
}

#[cfg(test)]
mod tests {
    use super::*;

    #[test]
    fn bytes_that_are_no_text_are_told() {
        assert_eq!(text(b"\xef\xbb\xbfskip"), Ok("skip"));
        assert_eq!(text(b"one\ntw\xff").unwrap_err().at, Position { line: 2, column: 3 });
        let table = [1, 0, 1, 0, 0, 0, 0, 0, 2, 0, 0, 0, 0, 0, 0, 0];
        for (bytes, kind) in [
            (&table[..], "a table"),
            (&table[..13], "a table"),
            (State::start(&table).unwrap().as_bytes(), "a saved state"),
            (b"recipe state 01\n\xff", "a saved state"),
            (b"<svg xmlns", "a picture"),
            (b"<?xml version=\"1.0\"?>\n<svg>", "a picture"),
        ] {
            assert_eq!(text(bytes), Err(Fault::new(Position::START, format!("this is {kind} and not text"))));
        }
    }
}
