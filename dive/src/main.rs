//! Formulas of dives at the command line: shown, derived, run, tabled and plotted.

#![deny(unsafe_code)]

mod axis;
mod cli;
mod commands;
mod cost;
mod explain;
mod expression;
mod failure;
mod formula;
mod given;
mod help;
mod nearest;
mod notation;
mod numbers;
mod plot;
mod remarks;
mod source;
#[cfg(test)]
mod stored;
mod svg;
mod table;
mod value;
mod words;
mod writer;

use std::{
    env,
    io::{self, Write},
    process::ExitCode,
};

use commands::Printed;
use failure::Failure;

fn main() -> ExitCode {
    match arguments()
        .and_then(|words| cli::parse(&words))
        .and_then(commands::run)
    {
        Ok(printed) => print(&printed),
        Err(failure) => {
            eprintln!("{failure}");
            ExitCode::from(failure.exit_code())
        }
    }
}

fn arguments() -> Result<Vec<String>, Failure> {
    let text = |word: std::ffi::OsString| word.into_string();
    let words: Result<Vec<String>, _> = env::args_os().skip(1).map(text).collect();
    words.map_err(|word| Failure::Usage(format!("{} isn't text in UTF-8", word.to_string_lossy())))
}

/// Prints, and doesn't mind if nobody reads to the end.
fn print(printed: &Printed) -> ExitCode {
    for remark in &printed.remarks {
        eprintln!("dive: {remark}");
    }
    match io::stdout()
        .write_all(printed.text.as_bytes())
        .and_then(|()| io::stdout().flush())
    {
        Err(error) if error.kind() != io::ErrorKind::BrokenPipe => {
            eprintln!("dive: the result can't be printed: {error}");
            ExitCode::from(2)
        }
        _ => ExitCode::SUCCESS,
    }
}
