//! The Rust as a judge.
//!
//! This crate builds the algebra and the complex numbers of `docs/src`
//! unchanged, over hand-written stand-ins for what they import, and asks them
//! for the answers that the port owes: lists of node records in, sums or lists
//! out. Where the paper sets a limit that the Rust lacks, a guard beside the
//! Rust says so, and the answer is marked as the paper's.

pub mod answer;
pub mod back;
pub mod cost;
pub mod costly;
pub mod crowded;
pub mod evaluate;
pub mod features;
pub mod functions;
pub mod generate;
pub mod meaning;
pub mod multiplied;
pub mod operations;
pub mod power_sums;
pub mod quiet;
pub mod random;
pub mod records;
pub mod runner;
pub mod stand_ins;
pub mod stored;
pub mod text;
pub mod value;

pub mod algebra;

#[rustfmt::skip]
#[path = "../../docs/src/parser/src/complex.rs"]
pub mod complex;

// What the algebra imports by these names.
pub use complex::Complex;
pub use stand_ins::{Assembly, CustomInverse, ImplPrimitive, Node, Primitive, SigNode, Value};

pub use algebra::{judge, judge::rust, sums};
pub use answer::{Answer, ReadSum, Refusal};
