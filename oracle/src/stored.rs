//! Stored answers as text: one item a line, a keyword first.

use crate::{
    Refusal,
    answer::Answer,
    back, judge,
    records::RECORD,
    runner,
    sums::ENTRY,
    text::{from_hex, hex},
    value::value,
};

/// Whose answers a file holds.
#[derive(Debug, Clone, Copy, PartialEq, Eq)]
pub enum Decider {
    /// The Rust's, where no limit of the paper cuts in.
    Rust,
    /// The paper's: malformed bytes, and limits that the Rust lacks.
    Paper,
}

/// The numbers at which stored lists are run.
pub const RUN_AT: [f64; 8] = [2.0, 0.0, -0.0, 0.5, -3.0, 5e-324, 1e308, f64::INFINITY];

/// The numbers at which stored sums have a value or none. At 0.7 and -1.3
/// another order of products or additions gives other digits.
pub const VALUE_AT: [f64; 8] = [2.0, 0.7, -1.3, 0.0, -0.0, 5e-324, -f64::MAX, f64::INFINITY];

/// What an entry is asked about.
#[derive(Debug, Clone, PartialEq, Eq, PartialOrd, Ord)]
pub enum Input {
    List(Vec<u8>),
    Sum(Vec<u8>),
}

impl Input {
    /// The input that a line names, if it is an input's line.
    pub fn parse(line: &str) -> Option<Self> {
        let mut parts = line.split(' ');
        match parts.next()? {
            "list" => Some(Input::List(from_hex(parts, RECORD)?)),
            "sum" => Some(Input::Sum(from_hex(parts, ENTRY)?)),
            _ => None,
        }
    }

    fn line(&self) -> String {
        match self {
            Input::List(list) => format!("list{}\n", hex(list, RECORD)),
            Input::Sum(sum) => format!("sum{}\n", hex(sum, ENTRY)),
        }
    }

    /// A list's line and the lines of its runs at each of [`RUN_AT`].
    pub fn run_item(&self) -> Option<String> {
        match self {
            Input::List(list) => Some(self.line() + &RUN_AT.map(|x| run_line(list, x)).concat()),
            Input::Sum(_) => None,
        }
    }

    /// The input's line and the lines of what the entries with the second
    /// writer answer.
    pub fn faithful_item(&self) -> String {
        let answers = match self {
            Input::List(list) => [
                ("derivative_faithful", judge::derivative_faithful(list)),
                ("integral_faithful", judge::integral_faithful(list)),
            ],
            Input::Sum(sum) => [
                ("write_faithful 0", judge::write_faithful(sum, false)),
                ("write_faithful 1", judge::write_faithful(sum, true)),
            ],
        };
        let lines = answers.map(|(name, answer)| answer_line(name, answer.owed(), RECORD));
        self.line() + &lines.concat()
    }

    /// A sum's line and the lines of its values at each of [`VALUE_AT`].
    pub fn value_item(&self) -> Option<String> {
        match self {
            Input::List(_) => None,
            Input::Sum(sum) => Some(self.line() + &VALUE_AT.map(|x| value_line(sum, x)).concat()),
        }
    }

    /// The input's line and the lines of its answers that one decider gives,
    /// if it gives any.
    pub fn item(&self, decider: Decider) -> Option<String> {
        let answers = match self {
            Input::List(list) => list_answers(list, decider),
            Input::Sum(sum) => sum_answers(sum, decider),
        };
        (!answers.is_empty()).then(|| self.line() + &answers)
    }
}

/// What a decider gives, if this answer is its own.
fn by<T>(decider: Decider, answer: Answer<T>) -> Option<Result<T, Refusal>> {
    match (decider, answer) {
        (Decider::Rust, Answer::Rust(result)) => Some(result),
        (Decider::Paper, Answer::Form(refusal) | Answer::Limit(refusal)) => Some(Err(refusal)),
        _ => None,
    }
}

fn list_answers(list: &[u8], decider: Decider) -> String {
    let mut text = String::new();
    if let Some(read) = by(decider, judge::read(list)) {
        text += &match read {
            Ok(read) => {
                let flag = u8::from(read.complex);
                let entries = hex(&read.entries, ENTRY);
                format!("read 0 0 {flag} {}{entries}\n", read.pairs)
            }
            Err(Refusal { number, place }) => format!("read {number} {place} 0 0\n"),
        };
    }
    for (name, answer) in [
        ("derivative", judge::derivative(list)),
        ("integral", judge::integral(list)),
        ("inverse", judge::inverse(list)),
    ] {
        text += &answer_line(name, by(decider, answer), RECORD);
    }
    text
}

fn sum_answers(sum: &[u8], decider: Decider) -> String {
    let mut text = String::new();
    for (name, answer) in [
        ("derive", judge::derive(sum)),
        ("integrate", judge::integrate(sum)),
    ] {
        text += &answer_line(name, by(decider, answer), ENTRY);
    }
    for (name, complex) in [("write 0", false), ("write 1", true)] {
        text += &answer_line(name, by(decider, judge::write(sum, complex)), RECORD);
    }
    if decider == Decider::Rust && back::terms(sum).is_some() {
        text += &back_line(sum, false);
        text += &back_line(sum, true);
    }
    text
}

fn answer_line(name: &str, answer: Option<Result<Vec<u8>, Refusal>>, size: usize) -> String {
    match answer {
        None => String::new(),
        Some(Ok(bytes)) => format!("{name} 0 0{}\n", hex(&bytes, size)),
        Some(Err(Refusal { number, place })) => format!("{name} {number} {place}\n"),
    }
}

/// A number, and a value, as its bits in hex; on a refusal value, steps and
/// peak are 0.
fn run_line(list: &[u8], x: f64) -> String {
    let at = x.to_bits();
    match runner::run(list, x) {
        Ok(ran) => {
            let value = ran.value.to_bits();
            format!(
                "run {at:016x} 0 0 {value:016x} {} {}\n",
                ran.steps, ran.peak
            )
        }
        Err(Refusal { number, place }) => {
            format!("run {at:016x} {number} {place} {:016x} 0 0\n", 0)
        }
    }
}

/// The same of a value, whose place is always 0 and isn't told.
fn value_line(sum: &[u8], x: f64) -> String {
    let (number, value) = match value(sum, x) {
        Ok(value) => (0, value.to_bits()),
        Err(refusal) => (refusal.number, 0),
    };
    format!("value {:016x} {number} {value:016x}\n", x.to_bits())
}

/// What is read of the list that a formula is written as, where it comes back.
fn back_line(sum: &[u8], complex: bool) -> String {
    let list = judge::write(sum, complex).done();
    match list.and_then(|list| judge::read(&list).done()) {
        Some(read) => {
            let flags = [complex, read.complex].map(u8::from);
            format!(
                "back {} 0 0 {} {}{}\n",
                flags[0],
                flags[1],
                read.pairs,
                hex(&read.entries, ENTRY)
            )
        }
        None => String::new(),
    }
}
