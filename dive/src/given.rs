//! What a command is given: a file, or a formula on the command line.

/// Where a list comes from.
#[derive(Debug, Clone, PartialEq, Eq)]
pub enum Given {
    /// A file's name; `-` is the standard input.
    File(String),
    /// A formula behind -e.
    Formula(String),
}

impl Given {
    /// The name of the file that is read, if it is one.
    pub fn file(&self) -> Option<&str> {
        match self {
            Given::File(file) => Some(file),
            Given::Formula(_) => None,
        }
    }
}
