//! An independent model of the recipe runner, written from the documents alone.
//!
//! [`start`], [`run`], [`why_stuck`], [`check_all`] and [`print()`] are total functions on bytes. The modules follow the
//! scope document's order, and each function names the rule that it stands for. It serves as the other side of the
//! comparison tests, as the source of the stored cases and as the benchmark's baseline, so it is written the plain way,
//! with care for speed: a table is read once a call into a vector of nodes, the live tasks are a ring, the state is
//! changed in place.

mod table;

mod values;

mod tasks;

mod state;

mod steps;

mod log;

mod run;

mod why;

mod batch;

mod print;

pub use batch::check_all;
pub use print::print;
pub use run::{run, start, Answer, Started};
pub use why::{why_stuck, Explained};
