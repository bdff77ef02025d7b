//! Published cases of another model of the same document, as `cases.txt` holds them.
//!
//! A line is `start table block number place block`, `run table block budget log number steps records place block
//! records`, `explain table block chain number count end place numbers`, `shelf recipes lengths space number space` or
//! `print table text`. Bytes are in hex, `-` for none; `hh*n.` stands for n bytes hh, and `=` for "as before". The text
//! goes to the line's end, with `|` for the end of each of its lines. A shelf is a batch of recipes.

use crate::case::{Case, Outcome};
use crate::json::Json;
use std::collections::BTreeMap;
use std::fmt::Write;

/// A case, and what must come out.
#[derive(Clone, Debug, PartialEq, Eq)]
pub struct Vector {
    pub case: Case,
    pub want: Outcome,
}

/// Reads `cases.txt`.
pub fn read(text: &str) -> Result<Vec<Vector>, String> {
    let line = |(i, line)| read_line(line).map_err(|error| format!("case {i}: {error}"));
    text.lines().enumerate().map(line).collect()
}

/// Writes `cases.txt`.
pub fn write(vectors: &[Vector]) -> String {
    vectors.iter().map(|vector| write_line(vector) + "\n").collect()
}

/// Takes a file of published cases over, and counts by name the operations that are no trial's.
pub fn take_over(text: &str) -> Result<(Vec<Vector>, BTreeMap<String, usize>), String> {
    let (mut vectors, mut left) = (Vec::new(), BTreeMap::new());
    for (i, line) in text.lines().enumerate() {
        let published = Json::read(line).and_then(|json| Ok((json.text("op")?.to_string(), published(&json)?)));
        match published.map_err(|error| format!("line {}: {error}", i + 1))? {
            (_, Some(vector)) => vectors.push(vector),
            (operation, None) => *left.entry(operation).or_default() += 1,
        }
    }
    Ok((vectors, left))
}

/// One published case, if it is a start, a print, a shelf, or a run or an explanation without registers.
fn published(json: &Json) -> Result<Option<Vector>, String> {
    let want = json.field("want")?;
    let numbers = |names: &[&str]| names.iter().map(|name| want.number(name)).collect::<Result<Vec<_>, _>>();
    let vector = match json.text("op")? {
        "start" => Vector {
            case: Case::Start { table: json.bytes("table")?, block: json.bytes("block")? },
            want: Outcome { numbers: numbers(&["number", "place"])?, buffers: vec![want.bytes("block")?] },
        },
        "run" if json.field("regs").is_err() => {
            let (table, block) = (json.bytes("table")?, json.bytes("block")?);
            let (budget, log) = (json.number("budget")?, json.bytes("log")?);
            let numbers = numbers(&["number", "steps", "records", "place"])?;
            let (after, written) = (want.bytes("block")?, want.bytes("log")?);
            bytes_are_kept(&log, &written, 8 * numbers[2] as usize)?;
            let want = Outcome { numbers, buffers: vec![after, written] };
            Vector { case: Case::Run { table, block, budget, log }, want }
        }
        "explain" if json.field("regs").is_err() => {
            let (table, block, chain) = (json.bytes("table")?, json.bytes("block")?, json.bytes("out")?);
            let numbers = numbers(&["number", "count", "end", "place"])?;
            let written = want.bytes("out")?;
            bytes_are_kept(&chain, &written, 2 * numbers[1] as usize)?;
            let want = Outcome { numbers, buffers: vec![written] };
            Vector { case: Case::WhyStuck { table, block, chain }, want }
        }
        "shelf" => {
            let (recipes, lengths, outcomes) = (json.bytes("buffer")?, json.bytes("lengths")?, json.bytes("space")?);
            let want = Outcome { numbers: numbers(&["number"])?, buffers: vec![want.bytes("space")?] };
            Vector { case: Case::CheckAll { recipes, lengths, outcomes }, want }
        }
        "print" => print_vector(json.bytes("table")?, want.text("text")?.to_string()),
        _ => return Ok(None),
    };
    Ok(Some(vector))
}

/// The bytes of an output past what was written are as before: `cases.txt` does not hold them.
fn bytes_are_kept(before: &[u8], after: &[u8], written: usize) -> Result<(), String> {
    if before.len() != after.len() || before.get(written..) != after.get(written..) {
        return Err("bytes past what was written are not kept".to_string());
    }
    Ok(())
}

fn print_vector(table: Vec<u8>, text: String) -> Vector {
    let want = Outcome { numbers: vec![text.len() as u32], buffers: vec![text.into_bytes()] };
    Vector { case: Case::Print { table }, want }
}

fn read_line(line: &str) -> Result<Vector, String> {
    if let Some((table, text)) = line.strip_prefix("print ").and_then(|rest| rest.split_once(' ')) {
        return Ok(print_vector(bytes(table)?, text.replace('|', "\n")));
    }
    match line.split(' ').collect::<Vec<_>>()[..] {
        ["start", table, block, number, place, after] => {
            let (table, block) = (bytes(table)?, bytes(block)?);
            let after = bytes_after(after, &block)?;
            let want = Outcome { numbers: numbers(&[number, place])?, buffers: vec![after] };
            Ok(Vector { case: Case::Start { table, block }, want })
        }
        ["run", table, block, budget, log, number, steps, records, place, after, written] => {
            let (table, block, log) = (bytes(table)?, bytes(block)?, bytes(log)?);
            let budget = budget.parse().map_err(|_| "a budget is due")?;
            let (after, log_after) = (bytes_after(after, &block)?, bytes_over(written, &log)?);
            let want = Outcome { numbers: numbers(&[number, steps, records, place])?, buffers: vec![after, log_after] };
            Ok(Vector { case: Case::Run { table, block, budget, log }, want })
        }
        ["explain", table, block, chain, number, count, end, place, written] => {
            let (table, block, chain) = (bytes(table)?, bytes(block)?, bytes(chain)?);
            let after = bytes_over(written, &chain)?;
            let want = Outcome { numbers: numbers(&[number, count, end, place])?, buffers: vec![after] };
            Ok(Vector { case: Case::WhyStuck { table, block, chain }, want })
        }
        ["shelf", recipes, lengths, outcomes, number, after] => {
            let (recipes, lengths, outcomes) = (bytes(recipes)?, bytes(lengths)?, bytes(outcomes)?);
            let want = Outcome { numbers: numbers(&[number])?, buffers: vec![bytes_after(after, &outcomes)?] };
            Ok(Vector { case: Case::CheckAll { recipes, lengths, outcomes }, want })
        }
        _ => Err("not a case".to_string()),
    }
}

fn write_line(Vector { case, want }: &Vector) -> String {
    let numbers = want.numbers.iter().map(u32::to_string).collect::<Vec<_>>().join(" ");
    let after = |before| if want.buffers.first() == Some(before) { "=".to_string() } else { field(&want.buffers[0]) };
    match case {
        Case::Start { table, block } => format!("start {} {} {numbers} {}", field(table), field(block), after(block)),
        Case::Run { table, block, budget, log } => {
            let written = &want.buffers[1][..8 * want.numbers[2] as usize];
            let given = format!("{} {} {budget} {}", field(table), field(block), field(log));
            format!("run {given} {numbers} {} {}", after(block), field(written))
        }
        Case::WhyStuck { table, block, chain } => {
            let written = &want.buffers[0][..2 * want.numbers[1] as usize];
            let given = format!("{} {} {}", field(table), field(block), field(chain));
            format!("explain {given} {numbers} {}", field(written))
        }
        Case::CheckAll { recipes, lengths, outcomes } => {
            let given = format!("{} {} {}", field(recipes), field(lengths), field(outcomes));
            format!("shelf {given} {numbers} {}", after(outcomes))
        }
        Case::Print { table } => {
            format!("print {} {}", field(table), String::from_utf8_lossy(&want.buffers[0]).replace('\n', "|"))
        }
        Case::RunOn { .. } => unreachable!("a published case is one call"),
    }
}

/// The bytes of a field.
fn bytes(field: &str) -> Result<Vec<u8>, String> {
    let mut out = Vec::new();
    let mut rest = field.trim_start_matches('-');
    while let Some((pair, tail)) = rest.split_at_checked(2) {
        let byte = u8::from_str_radix(pair, 16).map_err(|_| format!("{pair} is no byte"))?;
        let (count, tail) = match tail.strip_prefix('*').and_then(|tail| tail.split_once('.')) {
            Some((count, tail)) => (count.parse().map_err(|_| format!("{count} is no count"))?, tail),
            None => (1, tail),
        };
        out.extend(std::iter::repeat_n(byte, count));
        rest = tail;
    }
    Ok(out)
}

/// A field of these bytes; three and more of one are written as a count.
fn field(bytes: &[u8]) -> String {
    if bytes.is_empty() {
        return "-".to_string();
    }
    let mut out = String::new();
    for same in bytes.chunk_by(|a, b| a == b) {
        let pair = format!("{:02x}", same[0]);
        match same.len() {
            count @ 1..=2 => out.push_str(&pair.repeat(count)),
            count => write!(out, "{pair}*{count}.").expect("a text grows"),
        }
    }
    out
}

/// The block or the space that must come out.
fn bytes_after(field: &str, before: &[u8]) -> Result<Vec<u8>, String> {
    if field == "=" {
        return Ok(before.to_vec());
    }
    bytes(field)
}

/// An output that must come out: what is written, over what was there before.
fn bytes_over(field: &str, before: &[u8]) -> Result<Vec<u8>, String> {
    let mut after = bytes(field)?;
    after.extend(before.get(after.len()..).ok_or("more is written than the output holds")?);
    Ok(after)
}

fn numbers(fields: &[&str]) -> Result<Vec<u32>, String> {
    fields.iter().map(|field| field.parse().map_err(|_| format!("{field} is no number"))).collect()
}
