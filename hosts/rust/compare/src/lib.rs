//! Comparison of the recipe runner's library with the independent model, on generated inputs of every kind.
//!
//! [`generate`] makes cases, [`case::compare`] plays one on two sides, [`shrink::shrink`] makes a case that differs
//! small. [`view`] is for the tests without the model. The workloads of the benchmark are in [`workloads`], and how
//! their cost grows is drawn by [`growth`].

pub mod batch;
pub mod block;
pub mod case;
pub mod check;
pub mod damage;
pub mod generate;
pub mod growth;
pub mod plot;
pub mod random;
pub mod recipe;
pub mod shrink;
pub mod view;
pub mod workloads;
pub mod writer;
