//! The stored cases of `crates/trials`: what its program reads, and what it must print.
//!
//! The answers are those of the independent model; the library is not linked here. [`suite::suite`] has the cases in
//! their order: the document's rows, the published cases of `cases.txt` (read and written by [`vectors`]), and sweeps
//! over the edges of each rule. [`case`] is the form of a case in the stored files.

pub mod block;

pub mod case;

pub mod json;

pub mod records;

pub mod stored;

pub mod suite;

pub mod vectors;
