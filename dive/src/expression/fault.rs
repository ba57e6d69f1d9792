//! What can be wrong with a formula.

use uplink::MOST_RECORDS;

use super::parse::MOST_OPEN;
use crate::notation::{Mistake, Span};

/// The kinds of mistakes, as notation/README.md lists them.
#[derive(Debug, Clone, Copy, PartialEq, Eq)]
pub enum Kind {
    Empty,
    Sign,
    Name,
    Number,
    Operand,
    Close,
    Open,
    Either,
    Deep,
    Long,
}

/// A mistake in a formula.
#[derive(Debug, Clone, PartialEq, Eq)]
pub struct Fault {
    pub kind: Kind,
    pub span: Span,
    pub message: String,
}

impl Fault {
    pub fn new(kind: Kind, span: Span, message: impl Into<String>) -> Self {
        Fault {
            kind,
            span,
            message: message.into(),
        }
    }
}

impl From<Fault> for Mistake {
    fn from(fault: Fault) -> Self {
        Mistake::new(fault.span, fault.message)
    }
}

pub fn too_long(start: Span) -> Fault {
    let message = format!(
        "this formula makes more than {MOST_RECORDS} steps, which is the most that a list has"
    );
    Fault::new(Kind::Long, start, message)
}

pub fn too_deep(span: Span) -> Fault {
    let message =
        format!("this lies inside more than {MOST_OPEN} parentheses, powers and minus signs");
    Fault::new(Kind::Deep, span, message)
}
