//! Measures the proved library against a plain program and the Rust module.

use std::{env, fs, path::PathBuf, process::ExitCode};

mod bars;
mod costs;
mod forms;
mod hold;
mod measure;
mod measurements;
mod report;
mod sides;
mod values;
mod writers;

use measurements::Measurements;

const USAGE: &str = "\
bench: the proved library, a plain program and the Rust module, measured in one process

    bench [--rounds R] [--record FILE]    measure, in 31 rounds if nothing else is said; with --record what is printed is written to FILE too
    bench --hold N                        hold the plain program against the proved library: on stored lists and sums, those near limits and N random ones";

#[derive(Debug, PartialEq, Eq)]
enum Task {
    Measure {
        rounds: usize,
        record: Option<PathBuf>,
    },
    Hold {
        random_lists: usize,
    },
}

const ROUNDS: usize = 31;

fn parse(words: &[String]) -> Result<Task, String> {
    let (mut rounds, mut record, mut random_lists) = (ROUNDS, None, None);
    let mut words = words.iter();
    while let Some(word) = words.next() {
        let no_value = || format!("no such argument, or without a value: {word}");
        let value = words.next().ok_or_else(no_value)?;
        let not_a_number = |_| format!("{word} needs a number, not {value}");
        let number = || value.parse::<usize>().map_err(not_a_number);
        match word.as_str() {
            "--rounds" => rounds = number()?.max(1),
            "--record" => record = Some(value.into()),
            "--hold" => random_lists = Some(number()?),
            _ => return Err(format!("no such argument: {word}")),
        }
    }
    Ok(match random_lists {
        Some(random_lists) => Task::Hold { random_lists },
        None => Task::Measure { rounds, record },
    })
}

fn measure(rounds: usize, record: Option<PathBuf>, command: String) -> ExitCode {
    let report = Measurements::take(rounds, command).report();
    print!("{report}");
    match record.map(|file| fs::write(file, &report)) {
        Some(Err(error)) => {
            eprintln!("bench: the record can't be written: {error}");
            ExitCode::from(2)
        }
        _ => ExitCode::SUCCESS,
    }
}

fn hold(random_lists: usize) -> ExitCode {
    let held = hold::hold(random_lists);
    println!("{held}");
    ExitCode::from(u8::from(!held.is_same()))
}

fn main() -> ExitCode {
    let words: Vec<String> = env::args().skip(1).collect();
    match parse(&words) {
        Ok(Task::Measure { rounds, record }) => {
            measure(rounds, record, format!("bench {}", words.join(" ")))
        }
        Ok(Task::Hold { random_lists }) => hold(random_lists),
        Err(message) => {
            eprintln!("bench: {message}\n\n{USAGE}");
            ExitCode::from(2)
        }
    }
}

#[cfg(test)]
mod tests {
    use super::*;

    fn parsed(words: &str) -> Result<Task, String> {
        let words: Vec<String> = words.split_whitespace().map(String::from).collect();
        parse(&words)
    }

    #[test]
    fn what_is_asked_for() {
        let measure = |rounds, record| Ok(Task::Measure { rounds, record });
        assert_eq!(parsed(""), measure(31, None));
        assert_eq!(
            parsed("--rounds 5 --record a"),
            measure(5, Some("a".into()))
        );
        assert_eq!(parsed("--hold 7"), Ok(Task::Hold { random_lists: 7 }));
        for wrong in ["--hold", "--hold x", "--lists 5", "5"] {
            assert!(parsed(wrong).is_err(), "{wrong}");
        }
    }
}
