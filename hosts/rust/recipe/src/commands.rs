//! The subcommands.

use std::ffi::OsString;
use std::io::{self, BufWriter, Write};
use std::path::Path;

use recipe_runner::{Record, Refusal, State};

use crate::args::{Given, Options};
use crate::content::Content;
use crate::failure::{Failure, TOOL, USAGE};
use crate::files::{self, Loaded};
use crate::words::quoted;
use crate::{check, help, listing, raw, saved, state, why};

mod makers;
mod run;
mod timeline;

const ASM: Options = Options { command: "asm", files: &["FILE"], lists: &[], valued: &["-o"], flags: &["--force"] };
const DIS: Options =
    Options { command: "dis", files: &["FILE"], lists: &[], valued: &["-o"], flags: &["--raw", "--force"] };
const CHECK: Options = Options { command: "check", files: &["FILE..."], lists: &[], valued: &[], flags: &[] };
const WHY: Options = Options { command: "why", files: &["TABLE", "STATE"], lists: &[], valued: &[], flags: &[] };
const STATE_OF: Options =
    Options { command: "state", files: &["FILE"], lists: &[], valued: &["--block"], flags: &["--force"] };

/// Carries out a command line; the exit status is returned, or the failure to tell.
pub fn dispatch(arguments: &[OsString]) -> Result<u8, Failure> {
    let Some((command, rest)) = arguments.split_first() else {
        return Err(Failure::usage(format_args!("a subcommand is due\n\n{}", help::TOOL.trim_end())));
    };
    let command = command.to_string_lossy();
    let before_dashes = rest.iter().take_while(|argument| *argument != "--");
    let wanted = before_dashes.clone().any(|argument| argument == "--help" || argument == "-h");
    if let (Some(text), true) = (help::of(&command), wanted) {
        return print(text);
    }
    match &*command {
        "asm" => asm(&ASM.read(rest)?),
        "dis" => dis(&DIS.read(rest)?),
        "check" => check(&CHECK.read(rest)?),
        "run" => printing_refusals(run::run(&run::RUN.read(rest)?)),
        "why" => printing_refusals(why(&WHY.read(rest)?)),
        "makers" => makers::makers(&makers::MAKERS.read(rest)?),
        "state" => printing_refusals(show_state(&STATE_OF.read(rest)?)),
        "timeline" => timeline::timeline(&timeline::TIMELINE.read(rest)?),
        "--help" | "-h" => print(help::TOOL),
        "help" => help(rest),
        "--version" | "-V" => print(concat!("recipe ", env!("CARGO_PKG_VERSION"), "\n")),
        other => Err(unknown(other)),
    }
}

fn help(rest: &[OsString]) -> Result<u8, Failure> {
    match rest.first().map(|command| command.to_string_lossy()) {
        None => print(help::TOOL),
        Some(command) => print(help::of(&command).ok_or_else(|| unknown(&command))?),
    }
}

fn unknown(command: &str) -> Failure {
    Failure::usage(format_args!("there is no subcommand {} (\"recipe --help\" lists them)", quoted(command)))
}

fn print(text: &str) -> Result<u8, Failure> {
    files::write(None, text.as_bytes())?;
    Ok(0)
}

fn print_lines(lines: &[String]) -> Result<u8, Failure> {
    print(&lines.iter().map(|line| format!("{line}\n")).collect::<String>())
}

fn asm(given: &Given) -> Result<u8, Failure> {
    let (input, output) = (given.input(), given.output());
    keep_input(&ASM, input.as_deref(), output.as_deref())?;
    let Loaded { table, .. } = files::assemble(input.as_deref())?;
    files::write_over(output.as_deref(), &table, Content::Table, given.flag("--force"))?;
    Ok(0)
}

fn dis(given: &Given) -> Result<u8, Failure> {
    let (input, output) = (given.input(), given.output());
    keep_input(&DIS, input.as_deref(), output.as_deref())?;
    let Loaded { name, table, .. } = files::load(input.as_deref())?;
    let listed = listing::list(&table);
    let text = if given.flag("--raw") { Some(raw::list(&table)) } else { listed.as_ref().ok().cloned() };
    if let Some(text) = text {
        files::write_over(output.as_deref(), text.as_bytes(), Content::Text, given.flag("--force"))?;
    }
    listed.map(|_| 0).map_err(|refusal| Failure::refused(&name, &table, refusal))
}

fn check(given: &Given) -> Result<u8, Failure> {
    let inputs = CHECK.inputs(given)?;
    let mut status = 0;
    for verdict in check::verdicts(&inputs) {
        // What is wrong with a recipe is what was asked for, and no message of the tool's beside it.
        let line = verdict.unwrap_or_else(|failure| {
            status = status.max(failure.status);
            let told = if inputs.len() == 1 { failure.shown() } else { &failure.message };
            let of_tool = told.strip_prefix(TOOL).filter(|_| failure.status == USAGE);
            of_tool.unwrap_or(told).to_string()
        });
        print(&format!("{line}\n"))?;
    }
    Ok(status)
}

fn keep_input(options: &Options, input: Option<&Path>, output: Option<&Path>) -> Result<(), Failure> {
    if files::same(input, output) {
        return Err(options.wrong("the output would replace the file that it is made from".to_string()));
    }
    Ok(())
}

/// Prints a refusal as the library gives it; the failure has it in words.
fn printing_refusals(result: Result<u8, Failure>) -> Result<u8, Failure> {
    if let Err(Failure { refusal: Some(refusal), .. }) = &result {
        show([].into_iter(), Some(&refusal.printed().to_string())).map_err(|error| files::printed(&error))?;
    }
    result
}

/// The fresh state of a table that is accepted.
fn accepted(Loaded { name, table, .. }: &Loaded) -> Result<State, Failure> {
    State::start(table).map_err(|refusal| Failure::refused(name, table, refusal))
}

/// The state that a run begins with: a fresh one, or a saved one. As in the library the table is looked at first.
fn begun(loaded: &Loaded, resume: Option<&Path>) -> Result<State, Failure> {
    let fresh = accepted(loaded)?;
    resume.map_or(Ok(fresh), |path| resumed(loaded, path))
}

/// The state that was saved in a run of a table. Its content is checked by the library's call.
fn resumed(Loaded { table, .. }: &Loaded, path: &Path) -> Result<State, Failure> {
    let block = saved::read(Some(path), Some(table))?;
    State::from_bytes(&block).map_err(|refusal| Failure::of(&files::shown(Some(path)), refusal, refusal.words()))
}

/// The library's refusal of a state with its table.
fn refused_state(file: Option<&Path>, state: &State, refusal: Refusal) -> Failure {
    Failure::of(&files::shown(file), refusal, &state::describe(state, refusal))
}

fn why(given: &Given) -> Result<u8, Failure> {
    let path = WHY.due(given, 1)?;
    let loaded = files::load(given.input().as_deref())?;
    // As in the library the table is looked at first.
    accepted(&loaded)?;
    let state = resumed(&loaded, path)?;
    match state.why_stuck(&loaded.table) {
        Ok(chain) => print_lines(&why::lines(&loaded, &state, &chain)),
        Err(refusal) => Err(refused_state(Some(path), &state, refusal)),
    }
}

fn show_state(given: &Given) -> Result<u8, Failure> {
    let input = given.input();
    let block_file = given.output_of("--block");
    if let Some(output) = &block_file {
        keep_input(&STATE_OF, input.as_deref(), output.as_deref())?;
    }
    let block = saved::read(input.as_deref(), None)?;
    let state = state::read(&block)
        .map_err(|fault| Failure::of(&files::shown(input.as_deref()), fault.refusal, &fault.sentence))?;
    let Some(output) = block_file else {
        return print_lines(&state::lines(&state));
    };
    files::write_over(output.as_deref(), state.as_bytes(), Content::State, given.flag("--force"))?;
    Ok(0)
}

/// Prints a line for each record, and a last one if there is one.
fn show(records: impl Iterator<Item = Record>, last: Option<&str>) -> io::Result<()> {
    let mut output = BufWriter::new(io::stdout().lock());
    for record in records {
        writeln!(output, "{record}")?;
    }
    if let Some(last) = last {
        writeln!(output, "{last}")?;
    }
    output.flush()
}
