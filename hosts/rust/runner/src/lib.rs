//! A safe wrapper of the proved recipe runner.
//!
//! A recipe is a table of 8-byte records. [`State::start`] checks it and gives a fresh state; [`State::run`] makes steps
//! from there and writes a log; [`State::why_stuck`] tells who waits for whom where a run is stuck. [`State::tasks`] has
//! the live tasks, each with who started it and how often it was taken up. [`check_all`] checks many recipes in one call.
//! Nothing here panics, and a refused call changes neither state nor log.
//!
//! ```
//! use recipe_runner::{records, Ending, State, RECORD};
//!
//! // A main task alone, which sets valve 0 to 1: procedure, set, constant.
//! let table = [[1, 0, 2, 0, 0, 0, 0, 0], [3, 0, 1, 0, 0, 0, 0, 0], [9, 0, 0, 0, 1, 0, 0, 0]].concat();
//! let mut log = [0; 16 * RECORD];
//!
//! let mut state = State::start(&table)?;
//! let ran = state.run(&table, 100, &mut log)?;
//! assert_eq!(ran.ending, Ending::Finished);
//! let lines: Vec<String> = records(&log, ran.records).map(|record| record.to_string()).collect();
//! assert_eq!(lines, ["valve 1 0 1", "ended 1 0 0"]);
//! # Ok::<(), recipe_runner::Refusal>(())
//! ```
//!
//! The crate needs neither the standard library nor an allocator; [`check`] alone takes one, with the feature `alloc`,
//! which is on unless switched off. It links `librecipe.a`, which needs `memcpy` and `memset`.
#![cfg_attr(not(test), no_std)]
#![deny(missing_docs)]

#[cfg(feature = "alloc")]
extern crate alloc;

mod batch;
mod calls;
mod chain;
mod ending;
mod log;
mod state;

#[cfg(feature = "alloc")]
pub use batch::check;
pub use batch::{outcomes, Outcome};
pub use calls::{check_all, run, start, why_stuck, Answer, Explained, Started};
pub use chain::{Chain, End};
pub use ending::{Ending, Ran, Refusal};
pub use log::{records, Kind, Record};
pub use state::{State, Task};

/// The version, which is that of the C header too.
pub const VERSION: &str = env!("CARGO_PKG_VERSION");

/// The bytes of a table record and of a log record.
pub const RECORD: usize = 8;
/// The bytes of a state block.
pub const STATE: usize = 776;
/// The most live tasks of a state.
pub const TASKS: usize = 32;
/// The first byte of a state block's tasks.
pub const TASKS_AT: usize = RECORD;
/// The bytes of a task in a state block: two records.
pub const TASK: usize = 2 * RECORD;
/// The first byte of a state block's variables 0 to 63.
pub const VARIABLES_AT: usize = TASKS_AT + TASKS * TASK;
/// The bytes of a variable in a state block: little-endian, of any content.
pub const VARIABLE: usize = 4;
/// The most bytes of a table.
pub const TABLE: usize = 32_768;
/// The most recipes of a batch.
pub const BATCH: usize = 64;
/// The bytes of a recipe's length in a batch's list.
pub const LENGTH: usize = 4;
/// The bytes of a recipe's outcome: the number and the place that `start` gives for it.
pub const OUTCOME: usize = 8;
/// The bytes of a chain: two for each of 32 live tasks, and two for the number that closes a circle.
pub const CHAIN: usize = 66;
