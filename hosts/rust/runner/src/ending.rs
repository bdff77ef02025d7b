//! How calls end, and why they are refused.

use core::fmt;

use crate::calls::Answer;

/// How a run call ended.
#[derive(Clone, Copy, Debug, PartialEq, Eq)]
pub enum Ending {
    /// No task is left.
    Finished,
    /// The budget is used up.
    Paused,
    /// Every task waits for a number that is not done or for an untrue guard.
    Stuck,
    /// The next step is a spawn, and 32 tasks are live.
    Tasks,
    /// The next step is a spawn, and 65,535 numbers are issued.
    Spent,
    /// The next step writes a log record, and the log is full.
    Logfull,
    /// The next step is a set, a test or a spawn whose expression has no value: it divides by 0.
    Novalue {
        /// The statement's record in the table.
        place: u32,
    },
}

impl Ending {
    pub(crate) fn of(answer: Answer) -> Option<Ending> {
        Some(match answer.number {
            0 => Ending::Finished,
            1 => Ending::Paused,
            2 => Ending::Stuck,
            3 => Ending::Tasks,
            4 => Ending::Spent,
            5 => Ending::Logfull,
            24 => Ending::Novalue { place: answer.place },
            _ => return None,
        })
    }
}

/// The word that the print program has for it.
impl fmt::Display for Ending {
    fn fmt(&self, f: &mut fmt::Formatter) -> fmt::Result {
        f.write_str(match self {
            Ending::Finished => "finished",
            Ending::Paused => "paused",
            Ending::Stuck => "stuck",
            Ending::Tasks => "tasks",
            Ending::Spent => "spent",
            Ending::Logfull => "logfull",
            Ending::Novalue { .. } => "novalue",
        })
    }
}

/// Why a call was refused, and the faulty record of the table (11 to 17) or of the state (22).
#[derive(Clone, Copy, Debug, PartialEq, Eq)]
pub struct Refusal {
    /// Which fault: 11 to 17 of the table, 21 to 23 of the state, 25 and 26 of one call alone.
    pub number: u32,
    /// The faulty record; 0 where none is named.
    pub place: u32,
}

impl Refusal {
    /// As the print program has it: `refused 13 4`.
    pub fn printed(self) -> impl fmt::Display {
        Printed(self)
    }

    /// The fault in words.
    pub fn words(self) -> &'static str {
        match self.number {
            11 => "the table's length is 0, not a multiple of 8, or over 32,768 bytes",
            12 => "a procedure, statement or expression was due, and this is another kind",
            13 => "the span does not fit",
            14 => "the name is outside its range",
            15 => "the value is not 0 where unused, or a spawn's is outside 0 to 255",
            16 => "the depth is over 16",
            17 => "the spawn names no procedure of the table",
            21 => "the state is not of 776 bytes",
            22 => "the state's record breaks a rule, or its place is none",
            23 => "there are more live tasks than numbers issued",
            25 => "the state is not stuck",
            26 => "there are over 64 recipes, their lengths do not add up, or the list or the space has a wrong size",
            _ => "not a published number",
        }
    }
}

/// A sentence: the number, the record where one is named, and the fault in words.
impl fmt::Display for Refusal {
    fn fmt(&self, f: &mut fmt::Formatter) -> fmt::Result {
        let Refusal { number, place } = self;
        write!(f, "refused {number}")?;
        match number {
            12..=17 => write!(f, " at record {place}")?,
            22 => write!(f, " at state record {place}")?,
            _ => {}
        }
        write!(f, ": {}", self.words())
    }
}

impl core::error::Error for Refusal {}

/// A refusal as the print program has it: the word, the number and the place.
struct Printed(Refusal);

impl fmt::Display for Printed {
    fn fmt(&self, f: &mut fmt::Formatter) -> fmt::Result {
        write!(f, "refused {} {}", self.0.number, self.0.place)
    }
}

/// What a run call that was not refused gives.
#[derive(Clone, Copy, Debug, PartialEq, Eq)]
pub struct Ran {
    /// How it ended.
    pub ending: Ending,
    /// The steps made, the budget at most.
    pub steps: u32,
    /// How many records the call wrote, from the log's first byte on.
    pub records: u32,
}
