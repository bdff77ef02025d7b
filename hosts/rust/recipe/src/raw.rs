//! The table's own notation: `kind(name,span,value)` items, separated by white space.

use std::fmt::Write;

use recipe_runner::{Refusal, State, RECORD, TABLE};

use crate::source::{Fault, Faults, Position};
use crate::table::{decode, depths, Placed, Record, RECORDS};
use crate::words::quoted;

/// Records enclosed by more than this are not indented further; an accepted table has none.
const DEEPEST: usize = 32;

/// An item's first number is looked for in so many digits.
const LONGEST: usize = 20;

/// Whether a text is in this notation: its first item begins with a digit, as no line of the other one does.
pub fn is_raw(text: &str) -> bool {
    Scanner::new(text).skip().is_some_and(|first| first.is_ascii_digit())
}

/// The records of a text. An item at fault is told and the next one read.
pub fn parse(text: &str) -> Result<Vec<Placed>, Faults> {
    let mut scanner = Scanner::new(text);
    let mut faults = Faults::new();
    let mut records = Vec::new();
    let mut items = 0;
    while scanner.skip().is_some() {
        let at = scanner.at;
        if items == RECORDS {
            faults.push(Fault::new(at, format!("the table is longer than {RECORDS} records from here on")));
            break;
        }
        items += 1;
        match separate(&mut scanner) {
            Ok(record) => records.push(Placed { record, at }),
            Err(fault) => {
                faults.push(fault);
                scanner.recover();
            }
        }
    }
    if faults.is_empty() {
        Ok(records)
    } else {
        Err(faults)
    }
}

/// An item with white space behind it.
fn separate(scanner: &mut Scanner) -> Result<Record, Fault> {
    let record = item(scanner)?;
    match scanner.peek() {
        Some(next) if !is_gap(next) => Err(Fault::new(scanner.at, "white space is due between two items")),
        _ => Ok(record),
    }
}

/// Whether a character ends an item.
fn is_gap(next: char) -> bool {
    next.is_whitespace() || next == '#'
}

fn item(scanner: &mut Scanner) -> Result<Record, Fault> {
    let kind = scanner.number("kind", 0, u8::MAX.into())?;
    scanner.sign('(', "an item is kind(name,span,value)")?;
    let name = scanner.number("name", 0, u8::MAX.into())?;
    scanner.sign(',', "an item has a name, a span and a value")?;
    let span = scanner.number("span", 0, u16::MAX.into())?;
    scanner.sign(',', "an item has a name, a span and a value")?;
    let value = scanner.number("value", i32::MIN.into(), i32::MAX.into())?;
    scanner.sign(')', "an item is kind(name,span,value)")?;
    // `number` holds each to its field.
    Ok(Record::new(kind as u8, name as u8, span as u16, value as i32))
}

/// Walks over the characters of a text and keeps the position.
struct Scanner<'a> {
    rest: &'a str,
    at: Position,
}

impl<'a> Scanner<'a> {
    fn new(text: &'a str) -> Scanner<'a> {
        Scanner { rest: text, at: Position::START }
    }

    fn peek(&self) -> Option<char> {
        self.rest.chars().next()
    }

    fn take(&mut self) {
        let mut rest = self.rest.chars();
        match rest.next() {
            Some('\n') => self.at = Position { line: self.at.line + 1, column: 1 },
            Some(_) => self.at.column += 1,
            None => {}
        }
        self.rest = rest.as_str();
    }

    /// Goes over white space and comments, to the next character.
    fn skip(&mut self) -> Option<char> {
        let mut comment = false;
        while let Some(next) = self.peek() {
            comment = next != '\n' && (comment || next == '#');
            if !comment && !next.is_whitespace() {
                return Some(next);
            }
            self.take();
        }
        None
    }

    /// Goes on behind a fault: to where the next item begins, or behind a ")" and what is joined to it.
    fn recover(&mut self) {
        let mut closed = false;
        while let Some(next) = self.peek() {
            if self.begins_item() || (closed && is_gap(next)) {
                return;
            }
            closed |= next == ')';
            if is_gap(next) {
                self.skip();
            } else {
                self.take();
            }
        }
    }

    fn begins_item(&self) -> bool {
        let digits = self.rest.bytes().take(LONGEST).take_while(u8::is_ascii_digit).count();
        digits > 0 && self.rest.as_bytes().get(digits) == Some(&b'(')
    }

    fn sign(&mut self, sign: char, sentence: &str) -> Result<(), Fault> {
        if self.skip() != Some(sign) {
            return Err(Fault::new(self.at, format!("\"{sign}\" is due here: {sentence}")));
        }
        self.take();
        Ok(())
    }

    fn number(&mut self, what: &str, least: i64, most: i64) -> Result<i64, Fault> {
        self.skip();
        let at = self.at;
        let from = self.rest;
        let mut length = 0;
        while let Some(next) = self.peek().filter(|c| c.is_alphanumeric() || (*c == '-' && length == 0)) {
            length += next.len_utf8();
            self.take();
        }
        let text = from.get(..length).unwrap_or_default();
        let digits = text.strip_prefix('-').unwrap_or(text);
        if digits.is_empty() || !digits.bytes().all(|digit| digit.is_ascii_digit()) {
            let found = if text.is_empty() { String::new() } else { format!(", not {}", quoted(text)) };
            return Err(Fault::new(at, format!("a decimal number, the {what}, is due here{found}")));
        }
        let number = text.parse().ok().filter(|number| (least..=most).contains(number));
        number.ok_or_else(|| Fault::new(at, format!("number out of range: the {what} is {least} to {most}")))
    }
}

/// A table of any content, one record a line, indented by depth. The record at fault is marked.
pub fn list(table: &[u8]) -> String {
    let records = decode(table);
    let fault = State::start(table).err();
    let mut text = String::new();
    for (index, (record, depth)) in records.iter().zip(depths(&records)).take(RECORDS).enumerate() {
        let mark = fault.filter(|fault| fault.number != 11 && fault.place as usize == index).map(remark);
        // Writing to a string cannot fail.
        let _ = writeln!(text, "{:1$}{record}{2}", "", 4 * depth.min(DEEPEST), mark.unwrap_or_default());
    }
    if table.len() > TABLE {
        text.push_str("# more bytes follow\n");
    } else if table.len() % RECORD != 0 {
        let _ = writeln!(text, "# {} bytes of a record cut short follow", table.len() % RECORD);
    }
    text
}

fn remark(fault: Refusal) -> String {
    format!("    # fault {}: {}", fault.number, fault.words())
}

#[cfg(test)]
mod tests {
    use super::*;

    fn fault(text: &str) -> (usize, usize, String) {
        let faults = parse(text).unwrap_err();
        let [Fault { at, sentence }] = faults.told() else {
            panic!("{faults:?}");
        };
        (at.line, at.column, sentence.clone())
    }

    #[test]
    fn items_are_read() {
        let records = parse("# E\n1( 0, 1 ,0)\t2(0,0,-2147483648)#end\n255(255,65535,2147483647)").unwrap();
        let texts: Vec<_> = records.iter().map(|placed| placed.record.to_string()).collect();
        assert_eq!(texts, ["1(0,1,0)", "2(0,0,-2147483648)", "255(255,65535,2147483647)"]);
        assert_eq!(records[2].at, Position { line: 3, column: 1 });
    }

    #[test]
    fn faults_are_told_where_they_are() {
        assert_eq!(fault("1(0,0,0)\n  9").0, 2);
        assert_eq!(fault("1(0,0,0)2(0,0,0)").1, 9);
        assert_eq!(fault("1(0,-1,0)").1, 5);
        assert_eq!(fault("1(0,65536,0)").1, 5);
        assert_eq!(fault("256(0,0,0)").1, 1);
        assert_eq!(fault("1(0,0,2147483648)").1, 7);
        assert_eq!(fault("1(0,0,99999999999999999999)").1, 7);
        assert_eq!(fault("1(0,0,1x)").1, 7);
        assert_eq!(fault("1(0,0)").1, 6);
        assert_eq!(fault("1(0,0,0").1, 8);
        assert_eq!(fault("1(0,0,0) x").1, 10);
        assert_eq!(fault("1(0,,0)").1, 5);
        assert_eq!(fault(&"2(0,0,0)\n".repeat(4097)).0, 4097);
    }

    #[test]
    fn every_item_at_fault_is_told() {
        let places = |text: &str| -> Vec<(usize, usize)> {
            parse(text).unwrap_err().told().iter().map(|fault| (fault.at.line, fault.at.column)).collect()
        };
        assert_eq!(places("1(0,-1,0) 2(0,0,0) 300(0,0,0)\n3(0,x,0)"), [(1, 5), (1, 20), (2, 5)]);
        assert_eq!(places("1(0,0,0)2(0,0,x)"), [(1, 9), (1, 15)]);
        assert_eq!(places("1(0,0,0)x y 2(0,0,0) 9"), [(1, 9), (1, 23)]);
        assert_eq!(places("1(0,0 # 5)\n 2(0,0,0)\n9(0,0,1x)x 1(0,,0)"), [(2, 2), (3, 7), (3, 16)]);
        assert_eq!(places("1(x # (\n,0,0)\n2()"), [(1, 3), (3, 3)]);
        assert_eq!(places(&format!("1(0,0,0) x {}", "1".repeat(1 << 20))), [(1, 10)]);
    }

    #[test]
    fn a_listing_marks_the_fault() {
        let table: Vec<u8> =
            parse("1(0,2,0) 3(8,0,0) 2(0,0,0)").unwrap().iter().flat_map(|p| p.record.to_bytes()).collect();
        let listing = "1(0,2,0)\n    3(8,0,0)    # fault 13: the span does not fit\n    2(0,0,0)\n";
        assert_eq!(list(&table), listing);
        assert_eq!(list(&[1, 0, 0]), "# 3 bytes of a record cut short follow\n");
        assert!(list(&[2; 32_776]).ends_with("# more bytes follow\n"));
    }
}
