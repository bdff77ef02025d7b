//! Files and standard streams.

use std::collections::BTreeMap;
use std::fs::{self, File, OpenOptions};
use std::io::{self, ErrorKind, Read, Write};
use std::path::{Path, PathBuf};
use std::process;

use recipe_runner::TABLE;

use crate::asm;
use crate::content::Content;
use crate::failure::{Failure, USAGE};
use crate::source::Faults;
use crate::table::{encode, Assembled, Placed};
use crate::words::quoted;

/// The name that leads to standard output.
const STANDARD_OUTPUT: &str = "/dev/stdout";
/// How many names of temporary files are tried.
const ATTEMPTS: u32 = 16;

/// A table and where it came from.
pub struct Loaded {
    pub name: String,
    pub table: Vec<u8>,
    /// The text that it was assembled from, if it was.
    pub source: Option<Source>,
}

/// A text and its table's records.
pub struct Source {
    pub text: String,
    pub records: Vec<Placed>,
    /// What the text calls the shared variables, by their numbers.
    pub variables: BTreeMap<u8, String>,
}

/// What a file is called in messages.
pub fn shown(file: Option<&Path>) -> String {
    file.map_or("standard input".to_string(), named)
}

/// A file's name, with no character that a terminal would obey; an empty one in quotation marks.
pub fn named(path: &Path) -> String {
    if path.as_os_str().is_empty() {
        return quoted("");
    }
    let plain = |c: char| if c.is_control() { char::REPLACEMENT_CHARACTER } else { c };
    path.to_string_lossy().chars().map(plain).collect()
}

/// The bytes of a file or of standard input, at most one more than `limit`: that one tells that it is too long.
pub fn read(file: Option<&Path>, limit: usize) -> Result<Vec<u8>, Failure> {
    let most = limit as u64 + 1;
    let mut bytes = Vec::new();
    let result = match file {
        Some(path) => File::open(path).and_then(|file| file.take(most).read_to_end(&mut bytes)),
        None => io::stdin().lock().take(most).read_to_end(&mut bytes),
    };
    match result {
        Ok(_) => Ok(bytes),
        Err(error) => Err(trouble(file, &error)),
    }
}

/// The failure to read or write a file.
fn trouble(file: Option<&Path>, error: &io::Error) -> Failure {
    match file {
        Some(path) if path.is_dir() => directory(path),
        _ => Failure::io(shown(file), error),
    }
}

fn directory(path: &Path) -> Failure {
    Failure::usage(format_args!("{}: this is a directory, and a file is due", named(path)))
}

/// Reads a text and assembles it; its warnings are told.
pub fn assemble(file: Option<&Path>) -> Result<Loaded, Failure> {
    let bytes = read(file, asm::TEXT)?;
    let name = shown(file);
    let text = asm::text(&bytes).map_err(|fault| Failure::faults(&name, "", &fault.into()))?;
    let assembled = asm::placed(text).map_err(|faults| Failure::faults(&name, text, &faults))?;
    let Assembled { records, warnings, variables } = assembled;
    warn(&name, text, &warnings);
    let source = Source { text: text.to_string(), records, variables };
    Ok(Loaded { name, table: encode(&source.records), source: Some(source) })
}

fn warn(name: &str, text: &str, warnings: &Faults) {
    if !warnings.is_empty() {
        // The table is made all the same.
        tell(&warnings.show(name, text));
    }
}

/// A table, or text whose name ends in `.recipe`, assembled.
pub fn load(file: Option<&Path>) -> Result<Loaded, Failure> {
    let is_text = file.is_some_and(|path| path.as_os_str().to_string_lossy().ends_with(".recipe"));
    if is_text {
        return assemble(file);
    }
    Ok(Loaded { name: shown(file), table: read(file, TABLE)?, source: None })
}

/// Writes to a file, or to standard output, also where the file is what that goes to.
pub fn write(file: Option<&Path>, bytes: &[u8]) -> Result<(), Failure> {
    match file.filter(|path| !is_standard_output(path)) {
        Some(path) => place(path, bytes).map_err(|error| trouble(file, &error)),
        None => {
            let mut output = io::stdout().lock();
            output.write_all(bytes).and_then(|()| output.flush()).map_err(|error| printed(&error))
        }
    }
}

/// Writes to a file as `write` does, if what is there may be replaced by this kind.
pub fn write_over(file: Option<&Path>, bytes: &[u8], kind: Content, force: bool) -> Result<(), Failure> {
    replaceable(file, kind, force)?;
    write(file, bytes)
}

/// Whether a file may be written: no directory, one in a folder that takes files, and unless forced none of another kind
/// and none that is read-only.
pub fn replaceable(file: Option<&Path>, kind: Content, force: bool) -> Result<(), Failure> {
    let Some(path) = file.filter(|path| !is_standard_output(path)) else { return Ok(()) };
    if path.is_dir() {
        return Err(directory(path));
    }
    if path.is_file() || !path.exists() {
        takes_files(path)?;
    }
    if force || !path.is_file() {
        return Ok(());
    }
    let kept = |why: String| Failure::usage(format_args!("{}: {why} (--force replaces it)", named(path)));
    if is_read_only(path) {
        return Err(kept("the file is read-only".to_string()));
    }
    match there(path)? {
        Content::Empty => Ok(()),
        found if found == kind => Ok(()),
        found => Err(kept(format!("the file is {found}, and {kind} would replace it"))),
    }
}

/// Whether a file can be put beside this one.
fn takes_files(path: &Path) -> Result<(), Failure> {
    let tried = beside(&real(path)).and_then(|(_, temporary)| fs::remove_file(temporary));
    tried.map_err(|error| match error.kind() {
        ErrorKind::NotFound => Failure::usage(format_args!("{}: there is no such folder", named(path))),
        _ => Failure::io(format_args!("{}: no file can be written in its folder", named(path)), &error),
    })
}

/// What a file is that would be replaced. Where its content does not tell, a table's name does.
fn there(path: &Path) -> Result<Content, Failure> {
    let found = Content::of(&read(Some(path), asm::TEXT)?);
    let named = path.extension().is_some_and(|extension| extension == "table");
    Ok(if named && matches!(found, Content::Text | Content::Other) { Content::Table } else { found })
}

/// Whether a file may not be written, though its directory may.
fn is_read_only(path: &Path) -> bool {
    let unwritable = |error: io::Error| error.kind() == ErrorKind::PermissionDenied;
    fs::metadata(path).is_ok_and(|old| old.permissions().readonly())
        || OpenOptions::new().write(true).open(path).is_err_and(unwritable)
}

/// Tells a line on standard error.
pub fn tell(line: &str) {
    // Nothing is left to do where standard error is closed.
    let _ = writeln!(io::stderr(), "{line}");
}

/// The failure of a write to standard output. A reader that went away needs no message.
pub fn printed(error: &io::Error) -> Failure {
    match error.kind() {
        ErrorKind::BrokenPipe => Failure::new(USAGE, ""),
        _ => Failure::io("standard output", error),
    }
}

/// Puts a file in place whole or not at all.
fn place(path: &Path, bytes: &[u8]) -> io::Result<()> {
    match fs::metadata(path) {
        Ok(old) if old.is_file() => replace(&real(path), bytes, Some(old.permissions())),
        // A device or a pipe cannot be replaced.
        Ok(_) => OpenOptions::new().write(true).open(path)?.write_all(bytes),
        Err(error) if error.kind() == ErrorKind::NotFound => replace(&real(path), bytes, None),
        Err(error) => Err(error),
    }
}

/// The file behind a link, so that it stays one; also where that file is not there.
fn real(path: &Path) -> PathBuf {
    let behind = || Some(path.parent()?.join(fs::read_link(path).ok()?));
    fs::canonicalize(path).ok().or_else(behind).unwrap_or_else(|| path.to_path_buf())
}

fn replace(path: &Path, bytes: &[u8], permissions: Option<fs::Permissions>) -> io::Result<()> {
    let (mut file, temporary) = beside(path)?;
    let written = file
        .write_all(bytes)
        .and_then(|()| permissions.map_or(Ok(()), |permissions| file.set_permissions(permissions)))
        .and_then(|()| file.sync_all())
        .and_then(|()| fs::rename(&temporary, path));
    if written.is_err() {
        // The first error is the one to tell.
        let _ = fs::remove_file(&temporary);
    }
    written
}

/// A new temporary file in the same directory.
fn beside(path: &Path) -> io::Result<(File, PathBuf)> {
    let mut attempt = 0;
    loop {
        let temporary = path.with_file_name(format!(".recipe-{}-{attempt}.tmp", process::id()));
        match OpenOptions::new().write(true).create_new(true).open(&temporary) {
            Ok(file) => return Ok((file, temporary)),
            Err(error) if error.kind() == ErrorKind::AlreadyExists && attempt < ATTEMPTS => attempt += 1,
            Err(error) => return Err(error),
        }
    }
}

/// Whether an output would replace the input it is made from. The standard streams may be files, too.
pub fn same(input: Option<&Path>, output: Option<&Path>) -> bool {
    one_file(input.unwrap_or(Path::new("/dev/stdin")), output.unwrap_or(Path::new(STANDARD_OUTPUT)))
}

/// Whether a name leads to the file that standard output goes to.
pub fn is_standard_output(path: &Path) -> bool {
    one_file(path, Path::new(STANDARD_OUTPUT))
}

/// Whether two names lead to one file.
fn one_file(one: &Path, other: &Path) -> bool {
    let one = fs::canonicalize(one).ok().filter(|path| path.is_file());
    one.is_some() && one == fs::canonicalize(other).ok()
}
