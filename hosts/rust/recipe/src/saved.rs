//! Saved states: what `recipe run --save` writes.
//!
//! 16 bytes that name the format, the checksum of the table, the checksum of all other bytes of the file, both
//! little-endian, and the block. A file of a bare block, as a host saves it, is read as well.

use std::path::Path;

use recipe_runner::{Refusal, STATE, TABLE};

use crate::content::Content;
use crate::crc::crc64;
use crate::failure::{Failure, FAULT};
use crate::files;

/// How a file of this format begins. Byte 3 of a block is 0 or 1, so no block begins so.
const MAGIC: [u8; 16] = *b"recipe state 01\n";
/// The bytes of a checksum.
const SUM: usize = 8;
/// The first byte of the file's own checksum.
const SUM_AT: usize = MAGIC.len() + SUM;
/// The first byte of the block.
const BLOCK_AT: usize = SUM_AT + SUM;
/// The bytes of a saved state.
pub const SAVED: usize = BLOCK_AT + STATE;

/// The block of a saved state in a file or on standard input; with a table, of a run of that table.
pub fn read(file: Option<&Path>, table: Option<&[u8]>) -> Result<Vec<u8>, Failure> {
    let name = files::shown(file);
    let bytes = files::read(file, TABLE)?;
    if is_saved(&bytes) {
        let block = decode(&bytes, table).map_err(|sentence| Failure::new(FAULT, format!("{name}: {sentence}")))?;
        return Ok(block.to_vec());
    }
    if let Some(failure) = no_state(&name, &bytes) {
        return Err(failure);
    }
    files::tell(&format!("{name}: this is a bare block, which carries no checksum"));
    Ok(bytes)
}

/// Saves the block of a run of a table.
pub fn write(path: &Path, table: &[u8], block: &[u8; STATE]) -> Result<(), Failure> {
    files::write(Some(path), &encode(table, block))
}

/// Whether bytes begin as a saved state of this format or of another one.
pub fn is_saved(bytes: &[u8]) -> bool {
    let Some([d0, d1]) = format_of(bytes) else { return false };
    let others = |at: usize| bytes.get(at) == MAGIC.get(at);
    d0.is_ascii_digit() && d1.is_ascii_digit() && (0..13).chain([15]).all(others)
}

/// The digits of the format's number.
fn format_of(bytes: &[u8]) -> Option<[u8; 2]> {
    bytes.get(13..15)?.try_into().ok()
}

/// The bytes of a saved state.
pub fn encode(table: &[u8], block: &[u8; STATE]) -> Vec<u8> {
    let head = [&MAGIC[..], &crc64(&[table]).to_le_bytes()].concat();
    let sum = crc64(&[&head, block]).to_le_bytes();
    [&head[..], &sum, block].concat()
}

/// The block in a saved state's bytes; else what is wrong with them.
fn decode<'b>(bytes: &'b [u8], table: Option<&[u8]>) -> Result<&'b [u8], String> {
    if !bytes.starts_with(&MAGIC) {
        let [d0, d1] = format_of(bytes).unwrap_or_default().map(char::from);
        return Err(format!("the saved state is of format {d0}{d1}, and this version of the tool reads format 01"));
    }
    let (Some((head, rest)), SAVED) = (bytes.split_at_checked(SUM_AT), bytes.len()) else {
        return Err(format!("the saved state is damaged: it has {}, and {SAVED} are due", size(bytes)));
    };
    let (sum, block) = rest.split_at_checked(SUM).unwrap_or_default();
    let (found, due) = (number(sum), crc64(&[head, block]));
    if found != due {
        return Err(format!(
            "the saved state is damaged: its checksum does not fit (it holds {found:016x}, its bytes have {due:016x})"
        ));
    }
    let of_table = head.get(MAGIC.len()..).map(number);
    match table {
        Some(table) if of_table != Some(crc64(&[table])) => {
            Err("the state was saved in a run of another table".to_string())
        }
        _ => Ok(block),
    }
}

/// A checksum in its bytes.
fn number(bytes: &[u8]) -> u64 {
    bytes.try_into().map(u64::from_le_bytes).unwrap_or_default()
}

/// Why bytes that do not begin as a saved state are no bare block either. One that only breaks a rule is one.
fn no_state(name: &str, bytes: &[u8]) -> Option<Failure> {
    let content = Content::of(bytes);
    let other = !matches!(content, Content::State | Content::Other);
    if bytes.len() == STATE {
        let sentence = format!("{name}: this is {content}, and no saved state");
        return other.then(|| Failure::new(FAULT, sentence));
    }
    let what = match content {
        Content::Empty => "the file is empty".to_string(),
        Content::Other if bytes.len() == SAVED => {
            let sentence = "this is no saved state: it has the size of one, and does not begin as one";
            return Some(Failure::new(FAULT, format!("{name}: {sentence}")));
        }
        _ if other => format!("this is {content} of {}, and no saved state", size(bytes)),
        _ => format!("this is no saved state: it has {}", size(bytes)),
    };
    let sentence = format!("{what}; a saved state has {SAVED} bytes, and a bare block {STATE}");
    Some(Failure::of(name, Refusal { number: 21, place: 0 }, &sentence))
}

/// A file's size in words; of a long file not all is read.
fn size(bytes: &[u8]) -> String {
    match bytes.len() {
        1 => "1 byte".to_string(),
        length if length > TABLE => "over 32,768 bytes".to_string(),
        length => format!("{length} bytes"),
    }
}

#[cfg(test)]
mod tests {
    use super::*;
    use crate::asm::assemble;
    use recipe_runner::State;

    /// A table and the saved state of a fresh run of it.
    fn sample() -> (Vec<u8>, Vec<u8>) {
        let table = assemble("procedure main\n  spawn x main 1\n  await x\n").unwrap();
        let block = *State::start(&table).unwrap().as_bytes();
        let saved = encode(&table, &block);
        (table, saved)
    }

    #[test]
    fn the_format_is_as_described() {
        let (table, saved) = sample();
        assert_eq!(saved.len(), 808);
        assert_eq!(saved[..16], *b"recipe state 01\n");
        assert_eq!(saved[16..24], crc64(&[&table]).to_le_bytes());
        assert_eq!(saved[24..32], crc64(&[&saved[..24], &saved[32..]]).to_le_bytes());
        assert_eq!(saved[32..], *State::start(&table).unwrap().as_bytes());
        assert_eq!(decode(&saved, Some(&table)), Ok(&saved[32..]));
        assert_eq!(decode(&saved, None), Ok(&saved[32..]));
        let other = decode(&saved, Some(&table[8..])).unwrap_err();
        assert_eq!(other, "the state was saved in a run of another table");
    }

    /// Whether the bytes are taken as a saved state, or as a bare block.
    fn taken(bytes: &[u8], table: Option<&[u8]>) -> bool {
        if is_saved(bytes) {
            return decode(bytes, table).is_ok();
        }
        no_state("f", bytes).is_none()
    }

    #[test]
    fn each_damaged_bit_is_refused() {
        let (table, saved) = sample();
        assert!(taken(&saved, Some(&table)));
        for bit in 0..8 * SAVED {
            let mut damaged = saved.clone();
            damaged[bit / 8] ^= 1 << (bit % 8);
            assert!(!taken(&damaged, Some(&table)) && !taken(&damaged, None), "bit {bit}");
        }
    }

    #[test]
    fn each_truncation_is_refused() {
        let (table, saved) = sample();
        for length in 0..SAVED {
            assert!(!taken(&saved[..length], Some(&table)) && !taken(&saved[..length], None), "{length}");
        }
        let longer = [&saved[..], &[0]].concat();
        assert!(!taken(&longer, None));
    }

    #[test]
    fn other_formats_are_told() {
        let (table, mut saved) = sample();
        saved[14] = b'2';
        let told = "the saved state is of format 02, and this version of the tool reads format 01";
        assert_eq!(decode(&saved, Some(&table)), Err(told.to_string()));
    }
}
