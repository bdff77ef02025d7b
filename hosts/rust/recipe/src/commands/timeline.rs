//! `recipe timeline`.

use std::path::Path;

use crate::args::{Given, Options};
use crate::commands::{begun, keep_input, refused_state};
use crate::content::Content;
use crate::course::{Course, Most};
use crate::failure::Failure;
use crate::files::{self, Loaded};
use crate::picture::{self, Heading};
use crate::readable;
use crate::timeline::Timeline;
use crate::words::counted;

/// The most steps, unless given.
const STEPS: u32 = 10_000;

/// The most log records that are drawn.
const RECORDS: u32 = 1_000_000;

pub const TIMELINE: Options = Options {
    command: "timeline",
    files: &["FILE"],
    lists: &[],
    valued: &["--steps", "--from", "--to", "--resume", "-o"],
    flags: &["--force"],
};

pub fn timeline(given: &Given) -> Result<u8, Failure> {
    let most = TIMELINE.number(given, "--steps", u32::MAX, STEPS)?;
    let window = window(given)?;
    let (input, output) = (given.input(), given.output());
    let resume = TIMELINE.state(given, "--resume")?;
    keep_input(&TIMELINE, input.as_deref(), output.as_deref())?;
    keep_input(&TIMELINE, resume, output.as_deref())?;
    let loaded = files::load(input.as_deref())?;
    let begin = begun(&loaded, resume)?;
    files::replaceable(output.as_deref(), Content::Picture, given.flag("--force"))?;
    let course = Course::of(&loaded.table, &begin, Most { steps: most, records: RECORDS as usize })
        .map_err(|refusal| refused_state(resume, &begin, refusal))?;
    let Loaded { name, source, .. } = loaded;
    let title = input.as_deref().map_or(name, base);
    let resumed = resume.map(base);
    let procedures = source.map_or(Vec::new(), |source| readable::procedures(&source.text));
    let heading = Heading {
        name: &title,
        ending: course.ending,
        steps: course.steps,
        most,
        resumed: resumed.as_deref(),
        procedures: &procedures,
    };
    let timeline = part(Timeline::of(&course), window)?;
    files::write(output.as_deref(), picture::draw(&timeline, &heading).as_bytes())?;
    Ok(0)
}

/// The part that is asked for, by its records.
fn window(given: &Given) -> Result<(usize, usize), Failure> {
    let from = TIMELINE.number(given, "--from", RECORDS, 0)?;
    let to = TIMELINE.number(given, "--to", RECORDS, RECORDS)?;
    if to <= from {
        return Err(TIMELINE.wrong(format!("--from is {from}, and --to has to be more: it is {to}")));
    }
    Ok((from as usize, to as usize))
}

/// The part of a run that lies in the window.
fn part(timeline: Timeline, (from, to): (usize, usize)) -> Result<Timeline, Failure> {
    if from > 0 && from >= timeline.records {
        let records = counted(timeline.records, "log record");
        return Err(TIMELINE.wrong(format!("--from is {from}, and the run has {records}")));
    }
    Ok(if from > 0 || to < timeline.records { timeline.part(from, to) } else { timeline })
}

/// A file's name without its directory.
fn base(path: &Path) -> String {
    path.file_name().unwrap_or(path.as_os_str()).to_string_lossy().into_owned()
}
