//! Why a command ends without success, and the exit statuses.

use std::fmt::Display;
use std::io;

use recipe_runner::{Ending, Refusal};

use crate::source::Faults;
use crate::table::describe;

/// How a message begins that is of no recipe.
pub const TOOL: &str = "recipe: ";

/// The input is refused or at fault.
pub const FAULT: u8 = 1;
/// The command line is wrong, or a file cannot be read or written.
pub const USAGE: u8 = 2;
/// A run's steps are used up.
pub const PAUSED: u8 = 3;
/// A run is stuck.
pub const STUCK: u8 = 4;
/// A run has reached a limit of the runner.
pub const LIMIT: u8 = 5;
/// A run has stopped at an expression that divides by 0.
pub const NOVALUE: u8 = 6;

/// The exit status of a run's ending.
pub fn status_of(ending: Ending) -> u8 {
    match ending {
        Ending::Finished => 0,
        Ending::Paused => PAUSED,
        Ending::Stuck => STUCK,
        Ending::Tasks | Ending::Spent | Ending::Logfull => LIMIT,
        Ending::Novalue { .. } => NOVALUE,
    }
}

/// What to say (nothing if empty), and the exit status.
#[derive(Debug, PartialEq, Eq)]
pub struct Failure {
    pub status: u8,
    pub message: String,
    /// The message with the places in the text shown; empty if there are none.
    shown: String,
    /// The number and place of a refusal, which commands that print a run's ending print as well.
    pub refusal: Option<Refusal>,
}

impl Failure {
    pub fn new(status: u8, message: impl Into<String>) -> Failure {
        Failure { status, message: message.into(), shown: String::new(), refusal: None }
    }

    /// The faults of a text.
    pub fn faults(name: &str, text: &str, faults: &Faults) -> Failure {
        Failure { shown: faults.show(name, text), ..Failure::new(FAULT, faults.heads(name)) }
    }

    /// The message, with the places in the text where there are some.
    pub fn shown(&self) -> &str {
        if self.shown.is_empty() {
            &self.message
        } else {
            &self.shown
        }
    }

    /// A refusal, and what is wrong in a sentence.
    pub fn of(name: &str, refusal: Refusal, sentence: &str) -> Failure {
        Failure { refusal: Some(refusal), ..Failure::new(FAULT, format!("{name}: {}: {sentence}", refusal.printed())) }
    }

    /// The library's refusal of a table.
    pub fn refused(name: &str, table: &[u8], refusal: Refusal) -> Failure {
        Failure::of(name, refusal, &describe(table, refusal))
    }

    pub fn usage(message: impl Display) -> Failure {
        Failure::new(USAGE, format!("{TOOL}{message}"))
    }

    pub fn io(name: impl Display, error: &io::Error) -> Failure {
        let told = error.to_string();
        // The system's number of the error tells nobody more.
        let told = told.split_once(" (os error").map_or(&*told, |(words, _)| words);
        Failure::usage(format_args!("{name}: {told}"))
    }
}
