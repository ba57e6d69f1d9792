//! What an entry answers.

/// The numbers that come back.
pub mod number {
    pub const TOO_MANY_VARIABLES: u8 = 1;
    pub const NOT_SUPPORTED: u8 = 2;
    pub const NO_OUTPUT: u8 = 3;
    pub const TOO_MANY_OUTPUTS: u8 = 4;
    pub const NON_SCALAR: u8 = 5;
    pub const NON_REAL: u8 = 6;
    pub const TOO_COMPLEX: u8 = 7;
    pub const INTERPRETER_BUG: u8 = 8;
    pub const NO_INVERSE: u8 = 9;
    pub const NOT_HANDLED: u8 = 10;
    pub const BAD_RECORD: u8 = 11;
    pub const NO_ROOM: u8 = 12;
    pub const TOO_DEEP: u8 = 13;
    pub const NEEDS_MATH: u8 = 14;
    pub const NOT_FINITE: u8 = 15;
    pub const BIG_POWER: u8 = 16;
    pub const POWER_NOT_FINITE: u8 = 18;
}

/// A number that comes back, 0 excepted, and the place of the refusing record.
#[derive(Debug, Clone, Copy, PartialEq, Eq, Hash)]
pub struct Refusal {
    pub number: u8,
    pub place: usize,
}

impl Refusal {
    pub fn new(number: u8, place: usize) -> Self {
        Refusal { number, place }
    }
    /// A refusal that no single record gives.
    pub fn whole(number: u8) -> Self {
        Refusal::new(number, 0)
    }
}

/// What the port owes, and who says so.
#[derive(Debug, Clone, PartialEq, Eq)]
pub enum Answer<T> {
    /// The Rust decides: no limit of the paper cuts in.
    Rust(Result<T, Refusal>),
    /// The Rust decides, and its own code panics here.
    Panic,
    /// The paper decides: the bytes are no list or no sum (11, 13).
    Form(Refusal),
    /// The paper decides: a limit that the Rust lacks cuts in (12 to 16, 18).
    Limit(Refusal),
    /// Nobody waits for it: the list runs for too many steps.
    TooLong,
}

impl<T> Answer<T> {
    /// What the Rust gives, where it decides and does its work.
    pub fn done(self) -> Option<T> {
        match self {
            Answer::Rust(Ok(done)) => Some(done),
            _ => None,
        }
    }
    /// The answer that the port owes, whoever decides it.
    pub fn owed(self) -> Option<Result<T, Refusal>> {
        match self {
            Answer::Rust(result) => Some(result),
            Answer::Form(refusal) | Answer::Limit(refusal) => Some(Err(refusal)),
            Answer::Panic | Answer::TooLong => None,
        }
    }
}

/// A sum as read: its entries' bytes, whether a complex number was met, and how
/// many pairs of outermost terms the records of Mul and Pow multiplied.
#[derive(Debug, Clone, PartialEq, Eq)]
pub struct ReadSum {
    pub complex: bool,
    pub pairs: u64,
    pub entries: Vec<u8>,
}
