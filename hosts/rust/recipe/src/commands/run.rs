//! `recipe run`.

use std::io;
use std::path::Path;

use recipe_runner::{records, Ending, Ran, State, RECORD};

use crate::args::{Given, Options};
use crate::commands::{begun, keep_input, refused_state, show};
use crate::content::Content;
use crate::failure::{status_of, Failure};
use crate::files::{self, Loaded, Source};
use crate::progress::Progress;
use crate::table::describe_lacking;
use crate::words::counted;
use crate::{asm, saved, why};

/// The steps of a slice, unless given.
const SLICE: u32 = 1 << 16;
/// The most steps of a slice.
const LONGEST_SLICE: u32 = 1 << 24;

pub const RUN: Options = Options {
    command: "run",
    files: &["FILE"],
    lists: &[],
    valued: &["--steps", "--slice", "--save", "--resume"],
    flags: &["--quiet", "--force"],
};

pub fn run(given: &Given) -> Result<u8, Failure> {
    let most = RUN.count(given, "--steps", 0, u64::MAX)?;
    let slice = RUN.count(given, "--slice", 1, LONGEST_SLICE.into())?.unwrap_or(SLICE.into());
    let (resume, save) = (RUN.state(given, "--resume")?, RUN.state(given, "--save")?);
    keep_input(&RUN, given.input().as_deref(), save)?;
    if save.is_some_and(files::is_standard_output) {
        return Err(RUN.wrong("--save names the file that standard output goes to".to_string()));
    }
    let loaded = files::load(given.input().as_deref())?;
    let state = begun(&loaded, resume)?;
    files::replaceable(save, Content::State, given.flag("--force"))?;
    // A step writes one record at most, so a slice's log is never full.
    let log = log(u32::try_from(slice).unwrap_or(LONGEST_SLICE))?;
    let quiet = given.flag("--quiet");
    let mut course = Run { loaded: &loaded, resume, save, state, log, quiet, steps: 0, records: 0 };
    let ending = course.run(most)?;
    ending_words(&loaded, &course.state, ending).iter().for_each(|line| files::tell(line));
    Ok(status_of(ending))
}

/// A log of zeros.
fn log(records: u32) -> Result<Vec<u8>, Failure> {
    let length = records as usize * RECORD;
    let mut log = Vec::new();
    log.try_reserve_exact(length).map_err(|error| Failure::usage(format_args!("the log: {error}")))?;
    log.resize(length, 0);
    Ok(log)
}

/// A run under way.
struct Run<'r> {
    loaded: &'r Loaded,
    resume: Option<&'r Path>,
    save: Option<&'r Path>,
    state: State,
    /// As many records as a slice has steps.
    log: Vec<u8>,
    quiet: bool,
    /// Steps made and records written so far.
    steps: u64,
    records: usize,
}

impl Run<'_> {
    /// Slices until the run ends or has made the most steps.
    fn run(&mut self, most: Option<u64>) -> Result<Ending, Failure> {
        let mut progress = Progress::new();
        loop {
            let left = most.map_or(u64::MAX, |most| most.saturating_sub(self.steps));
            let ran = self.slice(left)?;
            let over = ran.ending != Ending::Paused || most == Some(self.steps);
            // Printed before it is saved: a slice whose records were lost is then made again.
            self.print(&ran, over, &mut progress)?;
            self.save()?;
            if over {
                return Ok(ran.ending);
            }
            progress.show(|| self.progress());
        }
    }

    /// One run call.
    fn slice(&mut self, left: u64) -> Result<Ran, Failure> {
        let room = self.log.len() / RECORD;
        let budget = u32::try_from(left).unwrap_or(u32::MAX).min(u32::try_from(room).unwrap_or(u32::MAX));
        let Loaded { table, .. } = self.loaded;
        let ran = self.state.run(table, budget, &mut self.log);
        let ran = ran.map_err(|refusal| refused_state(self.resume, &self.state, refusal))?;
        self.steps += u64::from(ran.steps);
        self.records += ran.records as usize;
        Ok(ran)
    }

    /// A slice's records, and the ending behind the last slice's.
    fn print(&self, ran: &Ran, over: bool, progress: &mut Progress) -> Result<(), Failure> {
        let shown = if self.quiet { 0 } else { ran.records };
        if shown > 0 || over {
            progress.make_room();
        }
        let last = over.then(|| format!("{} {}", ran.ending, self.steps));
        show(records(&self.log, shown), last.as_deref()).map_err(|error| unsaved(&error, self.save))
    }

    fn save(&self) -> Result<(), Failure> {
        self.save.map_or(Ok(()), |path| saved::write(path, &self.loaded.table, self.state.as_bytes()))
    }

    fn progress(&self) -> String {
        let live = counted(self.state.tasks().count(), "live task");
        format!("{} steps, {live}, {}", self.steps, counted(self.records, "log record"))
    }
}

/// What is to be told of an ending beside its word, in lines.
fn ending_words(loaded: &Loaded, state: &State, ending: Ending) -> Vec<String> {
    match ending {
        Ending::Novalue { place } => vec![lacking(loaded, place)],
        // A state that a run left stuck has a chain.
        Ending::Stuck => state.why_stuck(&loaded.table).map_or(Vec::new(), |chain| why::lines(loaded, state, &chain)),
        _ => Vec::new(),
    }
}

/// Which statement has no value: with its line where the text is at hand, else by its record.
fn lacking(Loaded { name, table, source }: &Loaded, place: u32) -> String {
    match source {
        Some(Source { text, records, .. }) => asm::lacking(place, records).show(name, text),
        None => format!("{name}: {}", describe_lacking(table, place)),
    }
}

/// The failure of a run's print, which also keeps the slice's state from being saved.
fn unsaved(error: &io::Error, save: Option<&Path>) -> Failure {
    match save {
        Some(path) => Failure::usage(format_args!(
            "standard output: {error}; {} is left as it was before these records",
            files::named(path)
        )),
        None => files::printed(error),
    }
}
