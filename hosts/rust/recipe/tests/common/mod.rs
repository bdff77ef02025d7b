//! What several tests use: an encoder of their own, a seeded generator of valid tables, and the built tool.
#![allow(dead_code)]

use std::fs;
use std::io::Write;
use std::path::{Path, PathBuf};
use std::process::{Command, Output, Stdio};

/// The bytes of a record, as the table's description has them.
pub fn record(kind: u8, name: u8, span: u16, value: i32) -> [u8; 8] {
    let (s, v) = (span.to_le_bytes(), value.to_le_bytes());
    [kind, name, s[0], s[1], v[0], v[1], v[2], v[3]]
}

pub fn table(records: &[(u8, u8, u16, i32)]) -> Vec<u8> {
    records.iter().flat_map(|(kind, name, span, value)| record(*kind, *name, *span, *value)).collect()
}

/// Row A.
pub const ROW_A: [(u8, u8, u16, i32); 9] = [
    (1, 0, 5, 0),
    (6, 8, 1, 1),
    (9, 0, 0, 5),
    (8, 8, 0, 0),
    (3, 0, 1, 0),
    (9, 0, 0, 1),
    (1, 0, 2, 0),
    (3, 1, 1, 0),
    (10, 64, 0, 0),
];

pub fn row_a() -> Vec<u8> {
    table(&ROW_A)
}

/// Its text.
pub const TEXT_A: &str =
    "procedure main\n  spawn x press 5\n  await x\n  set valve0 1\nprocedure press p\n  set valve1 p\n";
/// A text that does not assemble.
pub const BAD: &str = "procedure main\n  spawn x press 5\n";
/// A table with a set that encloses nothing.
pub const REFUSED: [u8; 16] = [1, 0, 1, 0, 0, 0, 0, 0, 3, 8, 0, 0, 0, 0, 0, 0];

/// A xorshift generator.
pub struct Random(pub u64);

impl Random {
    fn next(&mut self) -> u64 {
        self.0 ^= self.0 << 13;
        self.0 ^= self.0 >> 7;
        self.0 ^= self.0 << 17;
        self.0.wrapping_mul(0x2545_f491_4f6c_dd1d) >> 16
    }

    pub fn below(&mut self, bound: usize) -> usize {
        (self.next() % bound as u64) as usize
    }

    pub fn pick<T: Copy>(&mut self, items: &[T]) -> T {
        items[self.below(items.len())]
    }
}

/// The records that a generated table has at most, with room for what is begun then.
const RECORDS: usize = 3_500;
const DEEPEST: usize = 16;

/// A valid table: every kind, nested, with empty bodies, all names and extreme constants.
pub struct Generator {
    pub random: Random,
    records: Vec<[u8; 8]>,
    procedures: usize,
    /// How often, in tenths, an expression or body goes on inwards.
    inwards: usize,
}

impl Generator {
    pub fn new(seed: u64) -> Generator {
        Generator { random: Random(seed | 1), records: Vec::new(), procedures: 0, inwards: 0 }
    }

    pub fn table(&mut self) -> Vec<u8> {
        self.records.clear();
        self.procedures =
            if self.random.below(50) == 0 { 250 + self.random.below(60) } else { 1 + self.random.below(6) };
        self.inwards = 3 + self.random.below(6);
        for _ in 0..self.procedures {
            self.enclosing(1, 0, 0, |g| g.body(1));
        }
        self.records.concat()
    }

    /// A record around what `inner` writes.
    fn enclosing(&mut self, kind: u8, name: u8, value: i32, inner: impl FnOnce(&mut Generator)) {
        let index = self.records.len();
        self.records.push([0; 8]);
        inner(self);
        let span = (self.records.len() - index - 1) as u16;
        self.records[index] = record(kind, name, span, value);
    }

    fn body(&mut self, depth: usize) {
        let most = if self.procedures > 100 { 2 } else { 6 };
        for _ in 0..self.random.below(most) {
            if self.records.len() < RECORDS && depth <= DEEPEST {
                self.statement(depth);
            }
        }
    }

    fn statement(&mut self, depth: usize) {
        let kind = if depth < DEEPEST {
            self.random.pick(&[2, 3, 3, 4, 5, 6, 7, 8, 13])
        } else {
            self.random.pick(&[2, 7, 8])
        };
        let name = self.random.below(65) as u8;
        match kind {
            3 => self.enclosing(3, name, 0, |g| g.expression(depth + 1)),
            4 | 5 => self.enclosing(kind, 0, 0, |g| {
                g.expression(depth + 1);
                g.body(depth + 1);
            }),
            6 => {
                let (name, procedure) = (8 + self.random.below(57) as u8, self.random.below(self.procedures.min(256)));
                self.enclosing(6, name, procedure as i32, |g| g.expression(depth + 1));
            }
            8 => self.wait(depth, name),
            13 => self.enclosing(13, 0, 0, |g| g.expression(depth + 1)),
            _ => self.records.push(record(kind, 0, 0, 0)),
        }
    }

    /// An await; where there is room, often behind a set of its variable, which else mostly holds 0 and holds no task up.
    fn wait(&mut self, depth: usize, name: u8) {
        if depth < DEEPEST && self.random.below(2) == 0 {
            let number = self.random.pick(&[i32::MIN, -1, 1, 2, 3, 65_536, i32::MAX]);
            self.enclosing(3, name, 0, |g| g.records.push(record(9, 0, 0, number)));
        }
        self.records.push(record(8, name, 0, 0));
    }

    fn expression(&mut self, depth: usize) {
        let leaf = depth == DEEPEST || self.records.len() > RECORDS || self.random.below(10) >= self.inwards;
        match self.random.below(5) {
            0 | 1 if !leaf => {
                let operator = self.random.below(2) as u8;
                self.enclosing(12, operator, 0, |g| g.expression(depth + 1));
            }
            _ if !leaf => {
                let operator = self.random.below(8) as u8;
                self.enclosing(11, operator, 0, |g| {
                    g.expression(depth + 1);
                    g.expression(depth + 1);
                });
            }
            0..=2 => {
                let any = self.random.next() as i32;
                let value = self.random.pick(&[i32::MIN, i32::MIN + 1, -1, 0, 1, i32::MAX - 1, i32::MAX, any]);
                self.records.push(record(9, 0, 0, value));
            }
            _ => {
                let name = self.random.below(65) as u8;
                self.records.push(record(10, name, 0, 0));
            }
        }
    }
}

/// A file or folder of the repository.
pub fn root(path: &str) -> PathBuf {
    Path::new(env!("CARGO_MANIFEST_DIR")).join("../../..").join(path)
}

/// A directory of a test's own, empty.
pub fn directory(name: &str) -> PathBuf {
    let path = Path::new(env!("CARGO_TARGET_TMPDIR")).join(name);
    let _ = fs::remove_dir_all(&path);
    fs::create_dir_all(&path).unwrap();
    path
}

/// Runs the tool in a directory.
pub fn recipe(directory: &Path, arguments: &[&str], input: &[u8]) -> Output {
    let mut child = Command::new(env!("CARGO_BIN_EXE_recipe"))
        .args(arguments)
        .current_dir(directory)
        .stdin(Stdio::piped())
        .stdout(Stdio::piped())
        .stderr(Stdio::piped())
        .spawn()
        .unwrap();
    // A tool that does not read its input may be gone already.
    let _ = child.stdin.take().unwrap().write_all(input);
    child.wait_with_output().unwrap()
}

/// The block in a saved state.
pub fn block(directory: &Path, state: &str) -> Vec<u8> {
    let saved = fs::read(directory.join(state)).unwrap();
    assert_eq!(saved.len(), 808);
    saved[32..].to_vec()
}

/// Puts a bare block in the place of a saved state, with bytes from an index on that a host has written.
pub fn rewrite(directory: &Path, state: &str, at: usize, bytes: &[u8]) {
    let mut block = block(directory, state);
    block[at..at + bytes.len()].copy_from_slice(bytes);
    fs::write(directory.join(state), block).unwrap();
}

pub fn status(output: &Output) -> i32 {
    output.status.code().unwrap()
}

pub fn stdout(output: &Output) -> String {
    String::from_utf8(output.stdout.clone()).unwrap()
}

pub fn stderr(output: &Output) -> String {
    String::from_utf8(output.stderr.clone()).unwrap()
}
