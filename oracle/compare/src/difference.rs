//! A difference between the proved library and the judge, for people.

use std::fmt;

use oracle::{
    algebra::values::sum_text,
    records::{self, RECORD},
    sums::ENTRY,
    text,
};

/// What an entry was asked about.
#[derive(Debug, Clone, Copy)]
pub enum Input<'a> {
    List(&'a [u8]),
    Sum(&'a [u8]),
}

impl Input<'_> {
    fn words(self) -> Option<String> {
        match self {
            Input::List(list) => records::check(list)
                .ok()
                .map(|records| text::words(&records)),
            Input::Sum(sum) => sum_text(sum),
        }
    }
    fn hex(self) -> String {
        match self {
            Input::List(list) => whole_hex(list, RECORD),
            Input::Sum(sum) => whole_hex(sum, ENTRY),
        }
    }
}

/// Records or entries of `size` bytes in hex, the last one cut short where it isn't whole.
pub fn whole_hex(bytes: &[u8], size: usize) -> String {
    let chunk = |chunk: &[u8]| chunk.iter().map(|byte| format!("{byte:02x}")).collect();
    bytes
        .chunks(size)
        .map(chunk)
        .collect::<Vec<String>>()
        .join(" ")
}

/// What was asked, and the two answers that should be one.
#[derive(Debug)]
pub struct Difference {
    call: String,
    words: Option<String>,
    hex: String,
    owed: String,
    given: String,
}

impl Difference {
    pub fn new(call: String, input: Input, owed: String, given: String) -> Box<Self> {
        Box::new(Difference {
            call,
            words: input.words(),
            hex: input.hex(),
            owed,
            given,
        })
    }
}

impl fmt::Display for Difference {
    fn fmt(&self, f: &mut fmt::Formatter<'_>) -> fmt::Result {
        writeln!(f, "{}", self.call)?;
        if let Some(words) = &self.words {
            writeln!(f, "  of      {words}")?;
        }
        writeln!(f, "  bytes   {}", self.hex)?;
        writeln!(f, "  owed    {}", self.owed)?;
        write!(f, "  given   {}", self.given)
    }
}
