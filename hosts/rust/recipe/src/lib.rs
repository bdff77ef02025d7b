//! The recipe tool: assembles, lists, checks, runs and draws recipes of the press controller, and shows saved states.
//!
//! A recipe has two notations: the table's own, `kind(name,span,value)` ([`raw`]), and a readable one with names and
//! indentation ([`readable`], listed again by [`listing`]). Every table is held to the library's check.

pub mod args;
pub mod asm;
pub mod block;
pub mod bodies;
pub mod check;
pub mod commands;
pub mod content;
pub mod course;
pub mod crc;
pub mod expression;
pub mod failure;
pub mod files;
pub mod help;
pub mod lexer;
pub mod listing;
pub mod makers;
pub mod names;
pub mod nearest;
pub mod outline;
pub mod picture;
pub mod progress;
pub mod raw;
pub mod readable;
pub mod saved;
pub mod source;
pub mod state;
pub mod svg;
pub mod table;
pub mod timeline;
pub mod tree;
pub mod why;
pub mod words;
