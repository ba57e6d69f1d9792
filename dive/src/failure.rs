//! Why a command has no result, and its exit code.

use std::fmt;

/// What went wrong, in words for the reader.
#[derive(Debug, Clone, PartialEq, Eq)]
pub enum Failure {
    /// The list is refused, or the text is none.
    Refused(String),
    /// The command was called wrongly, or a file can't be read or written.
    Usage(String),
}

impl Failure {
    pub const fn exit_code(&self) -> u8 {
        match self {
            Failure::Refused(_) => 1,
            Failure::Usage(_) => 2,
        }
    }
}

impl fmt::Display for Failure {
    fn fmt(&self, f: &mut fmt::Formatter<'_>) -> fmt::Result {
        let (Failure::Refused(message) | Failure::Usage(message)) = self;
        write!(f, "dive: {}", message.trim_end())
    }
}
