//! Compares the proved library with the judge: every answer that the port
//! owes; the run, the cost and the value with the oracle's plain engines.

pub mod arguments;
pub mod checker;
pub mod difference;
pub mod lists;
pub mod report;
pub mod room;
pub mod roots;
pub mod seen;
pub mod tally;
mod values;
pub mod work;
