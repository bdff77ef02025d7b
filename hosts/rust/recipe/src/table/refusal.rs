//! A table's refusal in words, with the bytes at fault.

use std::ops::RangeInclusive;

use recipe_runner::{Refusal, RECORD, TABLE};

use super::{decode, depths, described, kind, Record};
use crate::content::Content;
use crate::words::counted;

/// A table's refusal in a sentence. What is another kind of file is told as such.
pub fn describe(table: &[u8], refusal: Refusal) -> String {
    foreign(table).map_or_else(|| sentence(table, refusal), String::from)
}

/// What the bytes are that are no table.
fn foreign(bytes: &[u8]) -> Option<&'static str> {
    match Content::of(bytes) {
        Content::Text => Some(
            "this is text: did you mean `recipe asm`? assemble it first, or give it a name that ends in \".recipe\" (any other is a table's)",
        ),
        Content::State => Some("this is a saved state, and a table is due"),
        Content::Picture => Some("this is a picture, and a table is due"),
        _ => None,
    }
}

fn sentence(table: &[u8], refusal: Refusal) -> String {
    let told = told(&decode(table), refusal);
    match refusal.number {
        11 => length(table.len()),
        _ => format!("{}{told}", described(table, refusal.place)),
    }
}

/// What is wrong with the record that a refusal names.
pub fn told(records: &[Record], refusal: Refusal) -> String {
    let place = refusal.place as usize;
    match (refusal.number, records.get(place)) {
        (12..=17, Some(record)) => Fault { records, place, record: *record }.told(refusal),
        _ => refusal.words().to_string(),
    }
}

/// What is wrong with a table's length. Of a long file not all is read.
fn length(bytes: usize) -> String {
    match (bytes, bytes % RECORD) {
        (0, _) => "the table is empty".to_string(),
        (TABLE.., _) => "the table's bytes are more than 32,768".to_string(),
        (_, over) => format!("the table's length {bytes} is no multiple of 8: {} left over", are(over, "byte")),
    }
}

/// A count with its noun and verb.
fn are(count: usize, noun: &str) -> String {
    format!("{} {}", counted(count, noun), if count == 1 { "is" } else { "are" })
}

/// A record at fault in its table. The records before it are in order.
struct Fault<'r> {
    records: &'r [Record],
    place: usize,
    record: Record,
}

/// What a record is part of.
struct Spot {
    /// The record that encloses it, if any does.
    holder: Option<(usize, Record)>,
    /// How many records of its own depth stand before it there.
    before: usize,
    /// The first index behind what the holder encloses, else the table's end.
    end: usize,
}

impl Fault<'_> {
    fn told(&self, refusal: Refusal) -> String {
        let Record { name, value, .. } = self.record;
        match refusal.number {
            12 => self.kind(),
            13 => format!("{}: it is {}, and {}", refusal.words(), self.record.span, self.span()),
            14 => format!("{}: it is {name}, and {} is due", refusal.words(), range(&names(self.record.kind))),
            15 => format!("the value is {value}, and {}", self.value()),
            16 => format!("{}: it is {}", refusal.words(), depths(self.records).get(self.place).unwrap_or(&0)),
            17 => format!("{}: it names {value}, and there {}", refusal.words(), self.procedures()),
            _ => refusal.words().to_string(),
        }
    }

    /// Goes from the table's first record inwards to the one at fault.
    fn spot(&self) -> Spot {
        let mut spot = Spot { holder: None, before: 0, end: self.records.len() };
        let mut at = 0;
        while let Some(record) = self.records.get(at).filter(|_| at < self.place) {
            let after = at + 1 + usize::from(record.span);
            if self.place < after {
                spot = Spot { holder: Some((at, *record)), before: 0, end: after.min(spot.end) };
                at += 1;
            } else {
                spot.before += 1;
                at = after;
            }
        }
        spot
    }

    /// Which kind is due, and which is there.
    fn kind(&self) -> String {
        let Spot { holder, before, .. } = self.spot();
        let due = match holder.map(|(_, holder)| holder.kind) {
            None => "a procedure",
            Some(kind::PROCEDURE) => "a statement",
            Some(kind::IF | kind::WHILE) if before > 0 => "a statement",
            Some(_) => "an expression",
        };
        let inside = holder.map_or("here".to_string(), |(at, holder)| format!("in record {at} ({})", holder.word()));
        let Record { kind, .. } = self.record;
        match self.record.class() {
            Some(found) => format!("{due} is due {inside}, and kind {kind} is {found}"),
            None => format!("{due} is due {inside}, and kind {kind} is none of 1 to 13"),
        }
    }

    /// What the span is to fit in.
    fn span(&self) -> String {
        let (Spot { holder, before, end }, word) = (self.spot(), self.record.word());
        let (span, least, rest) = (usize::from(self.record.span), least(self.record.kind), end - self.place - 1);
        let inside = holder.map_or("the table".to_string(), |(at, holder)| format!("record {at} ({})", holder.word()));
        let is_first = before == 0 && holder.is_some_and(|(_, holder)| holder.kind == kind::BINARY);
        match least {
            None if span > 0 => format!("0 is due, as kind {} ({word}) encloses nothing", self.record.kind),
            Some(least) if span < least => format!("at least {least} is due in kind {} ({word})", self.record.kind),
            _ if span > rest => format!("{inside} has {} left behind this one", counted(rest, "record")),
            _ if is_first => format!("{inside} has no record left for its second operand"),
            None => format!("{} left over behind it in {inside}", are(rest, "record")),
            Some(_) => format!("{rest} is due, to the end of {inside}"),
        }
    }

    /// Which value is due.
    fn value(&self) -> &'static str {
        match self.record.kind {
            kind::SPAWN => "0 to 255 is due, the number of a procedure",
            _ => "0 is due",
        }
    }

    /// How many procedures there are.
    fn procedures(&self) -> String {
        match self.records.iter().filter(|record| record.kind == kind::PROCEDURE).count() {
            1 => "is 1 procedure, number 0".to_string(),
            count => format!("are {count} procedures, numbers 0 to {}", count.saturating_sub(1)),
        }
    }
}

/// The names that a kind may have.
fn names(kind: u8) -> RangeInclusive<u8> {
    match kind {
        kind::SET | kind::AWAIT | kind::VARIABLE => 0..=64,
        kind::SPAWN => 8..=64,
        kind::BINARY => 0..=7,
        kind::UNARY => 0..=1,
        _ => 0..=0,
    }
}

fn range(range: &RangeInclusive<u8>) -> String {
    let (least, most) = (range.start(), range.end());
    if least == most {
        return least.to_string();
    }
    format!("{least} to {most}")
}

/// The least that a kind encloses; none of one that encloses nothing.
fn least(kind: u8) -> Option<usize> {
    match kind {
        kind::PROCEDURE => Some(0),
        kind::SET | kind::IF | kind::WHILE | kind::SPAWN | kind::UNARY | kind::GUARD => Some(1),
        kind::BINARY => Some(2),
        _ => None,
    }
}

#[cfg(test)]
mod tests {
    use super::*;
    use crate::table::Record;
    use recipe_runner::State;

    type Fields = (u8, u8, u16, i32);

    /// What is said of a table of these records, without the record's own words.
    fn told(records: &[Fields]) -> (u32, u32, String) {
        let record = |(kind, name, span, value): &Fields| Record::new(*kind, *name, *span, *value);
        let table: Vec<u8> = records.iter().flat_map(|fields| record(fields).to_bytes()).collect();
        let refusal = State::start(&table).unwrap_err();
        let sentence = describe(&table, refusal);
        let head = described(&table, refusal.place);
        (refusal.number, refusal.place, sentence.strip_prefix(&*head).unwrap().to_string())
    }

    fn assert_told(number: u32, cases: &[(&[Fields], u32, &str)]) {
        for (records, place, sentence) in cases {
            assert_eq!(told(records), (number, *place, sentence.to_string()), "{records:?}");
        }
    }

    #[test]
    fn lengths_are_told_by_their_cause() {
        let said = |length: usize| describe(&vec![1; length], Refusal { number: 11, place: 0 });
        assert_eq!(said(0), "the table is empty");
        assert_eq!(said(1), "the table's length 1 is no multiple of 8: 1 byte is left over");
        assert_eq!(said(31), "the table's length 31 is no multiple of 8: 7 bytes are left over");
        assert_eq!(said(32_769), "the table's bytes are more than 32,768");
        assert_eq!(said(32_776), "the table's bytes are more than 32,768");
    }

    #[test]
    fn the_kind_due_is_told() {
        assert_told(
            12,
            &[
                (&[(2, 0, 0, 0)], 0, "a procedure is due here, and kind 2 is a statement"),
                (&[(0, 0, 0, 0)], 0, "a procedure is due here, and kind 0 is none of 1 to 13"),
                (
                    &[(1, 0, 1, 0), (9, 0, 0, 1)],
                    1,
                    "a statement is due in record 0 (procedure), and kind 9 is an expression",
                ),
                (
                    &[(1, 0, 2, 0), (2, 0, 0, 0), (1, 0, 0, 0)],
                    2,
                    "a statement is due in record 0 (procedure), and kind 1 is a procedure",
                ),
                (
                    &[(1, 0, 2, 0), (3, 8, 1, 0), (2, 0, 0, 0)],
                    2,
                    "an expression is due in record 1 (set), and kind 2 is a statement",
                ),
                (
                    &[(1, 0, 3, 0), (5, 0, 2, 0), (2, 0, 0, 0), (2, 0, 0, 0)],
                    2,
                    "an expression is due in record 1 (while), and kind 2 is a statement",
                ),
                (
                    &[(1, 0, 3, 0), (4, 0, 2, 0), (9, 0, 0, 0), (9, 0, 0, 0)],
                    3,
                    "a statement is due in record 1 (if), and kind 9 is an expression",
                ),
                (
                    &[(1, 0, 4, 0), (3, 8, 3, 0), (11, 0, 2, 0), (9, 0, 0, 0), (77, 0, 0, 0)],
                    4,
                    "an expression is due in record 2 (two operands), and kind 77 is none of 1 to 13",
                ),
            ],
        );
    }

    #[test]
    fn what_a_span_is_to_fit_in_is_told() {
        let fit = "the span does not fit: it is";
        for (records, place, rest) in [
            (&[(1, 0, 1, 0)][..], 0, "1, and the table has 0 records left behind this one"),
            (&[(1, 0, 1, 0), (2, 0, 3, 0)], 1, "3, and 0 is due, as kind 2 (skip) encloses nothing"),
            (&[(1, 0, 1, 0), (3, 8, 0, 0)], 1, "0, and at least 1 is due in kind 3 (set)"),
            (
                &[(1, 0, 2, 0), (3, 8, 1, 0), (11, 0, 1, 0), (9, 0, 0, 0)],
                2,
                "1, and at least 2 is due in kind 11 (two operands)",
            ),
            (
                &[(1, 0, 2, 0), (3, 8, 2, 0), (9, 0, 0, 0), (1, 0, 0, 0)],
                1,
                "2, and record 0 (procedure) has 1 record left behind this one",
            ),
            (
                &[(1, 0, 3, 0), (3, 8, 2, 0), (9, 0, 0, 0), (9, 0, 0, 0)],
                2,
                "0, and 1 record is left over behind it in record 1 (set)",
            ),
            (
                &[(1, 0, 4, 0), (3, 8, 3, 0), (12, 0, 1, 0), (9, 0, 0, 0), (9, 0, 0, 0)],
                2,
                "1, and 2 is due, to the end of record 1 (set)",
            ),
            (
                &[(1, 0, 4, 0), (3, 8, 3, 0), (11, 0, 2, 0), (12, 0, 1, 0), (9, 0, 0, 0)],
                3,
                "1, and record 2 (two operands) has no record left for its second operand",
            ),
        ] {
            assert_eq!(told(records), (13, place, format!("{fit} {rest}")), "{records:?}");
        }
    }

    #[test]
    fn names_values_and_procedures_due_are_told() {
        let name = "the name is outside its range: it is";
        for (records, place, rest) in [
            (&[(1, 7, 0, 0)][..], 0, "7, and 0 is due"),
            (&[(1, 0, 1, 0), (8, 65, 0, 0)], 1, "65, and 0 to 64 is due"),
            (&[(1, 0, 2, 0), (6, 7, 1, 0), (9, 0, 0, 0)], 1, "7, and 8 to 64 is due"),
            (&[(1, 0, 4, 0), (3, 8, 3, 0), (11, 8, 2, 0), (9, 0, 0, 0), (9, 0, 0, 0)], 2, "8, and 0 to 7 is due"),
            (&[(1, 0, 3, 0), (3, 8, 2, 0), (12, 2, 1, 0), (9, 0, 0, 0)], 2, "2, and 0 to 1 is due"),
        ] {
            assert_eq!(told(records), (14, place, format!("{name} {rest}")), "{records:?}");
        }
        let spawn = |value| [(1, 0, 2, 0), (6, 8, 1, value), (9, 0, 0, 0)];
        assert_told(
            15,
            &[
                (&[(1, 0, 1, 0), (2, 0, 0, -1)], 1, "the value is -1, and 0 is due"),
                (&spawn(256), 1, "the value is 256, and 0 to 255 is due, the number of a procedure"),
            ],
        );
        let unknown = "the spawn names no procedure of the table: it names 9, and there is 1 procedure, number 0";
        assert_eq!(told(&spawn(9)), (17, 1, unknown.to_string()));
        let two = [&spawn(2)[..], &[(1, 0, 0, 0)]].concat();
        let unknown =
            "the spawn names no procedure of the table: it names 2, and there are 2 procedures, numbers 0 to 1";
        assert_eq!(told(&two), (17, 1, unknown.to_string()));
    }

    #[test]
    fn the_depth_is_told() {
        let ifs = (0..16).map(|index| (4, 0, 2 * (16 - index) - 1, 0));
        let nested = ifs.flat_map(|test| [test, (9, 0, 0, 0)]);
        let records: Vec<_> = [(1, 0, 32, 0)].into_iter().chain(nested).collect();
        assert_eq!(told(&records), (16, 32, "the depth is over 16: it is 17".to_string()));
    }

    #[test]
    fn other_files_are_told_as_such() {
        let table = [1, 0, 0, 0, 0, 0, 0, 0];
        let block = State::start(&table).unwrap();
        for (bytes, words) in [
            (&b"procedure main\n"[..], "this is text: did you mean `recipe asm`?"),
            (b"<svg xmlns", "this is a picture, and a table is due"),
            (block.as_bytes(), "this is a saved state, and a table is due"),
            (&crate::saved::encode(&table, block.as_bytes()), "this is a saved state, and a table is due"),
        ] {
            let told = describe(bytes, State::start(bytes).unwrap_err());
            assert!(told.starts_with(words), "{told}");
        }
    }
}
