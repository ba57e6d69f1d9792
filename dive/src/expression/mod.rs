//! Formulas as people write them, such as `60 x - 6 x^2`, turned into steps. notation/README.md has the rules, notation/cases.txt a case of each.

mod fault;
mod hints;
mod kind;
#[cfg(test)]
mod meaning;
mod parse;
#[cfg(test)]
mod printed;
mod steps;
#[cfg(test)]
mod strange;
#[cfg(test)]
mod table;
mod tokens;

pub use fault::{Fault, Kind};
pub use kind::{kind_of, Notation};

use uplink::MOST_RECORDS;

use crate::notation::Parsed;

/// The functions of formulas, each with its step.
pub const FUNCTIONS: [(&str, uplink::Primitive); 7] = [
    ("sqrt", uplink::Primitive::Sqrt),
    ("sin", uplink::Primitive::Sin),
    ("cos", uplink::Primitive::Cos),
    ("exp", uplink::Primitive::Exp),
    ("ln", uplink::Primitive::Ln),
    ("log2", uplink::Primitive::Log2),
    ("log10", uplink::Primitive::Log10),
];

/// The list that a formula stands for.
///
/// # Errors
/// The first mistake, with its place.
pub fn parse(text: &str) -> Result<Parsed, Fault> {
    let tree = parse::tree(text)?;
    let parsed = steps::steps(&tree);
    if parsed.list.len() > MOST_RECORDS {
        return Err(fault::too_long(tree.start));
    }
    Ok(parsed)
}
