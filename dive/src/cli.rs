//! The words of the command line.

use crate::{
    cost::ToRead, explain::Asked, failure::Failure, given::Given, help, nearest::nearest, numbers,
    table::Minutes, writer::Writer,
};

/// What the command line asks for.
#[derive(Debug, Clone, PartialEq)]
pub enum Command {
    Help(Option<String>),
    Version,
    Show {
        given: Given,
    },
    Assemble {
        given: Given,
        out: String,
    },
    Text {
        given: Given,
        out: Option<String>,
    },
    Cost {
        given: Given,
    },
    Read {
        list: ToRead,
        out: Option<String>,
    },
    /// Derivative, integral, inverse, or the list written anew.
    Make {
        asked: Asked,
        writer: Writer,
        list: ToRead,
        out: Option<String>,
    },
    Run {
        given: Given,
        x: f64,
    },
    /// The value of the list's formula.
    Value {
        list: ToRead,
        x: f64,
    },
    Table {
        list: ToRead,
        minutes: Minutes,
        csv: bool,
    },
    Plot {
        list: ToRead,
        minutes: Minutes,
        out: String,
    },
}

/// The words behind a command's name.
#[derive(Debug, Default)]
struct Words {
    plain: Vec<String>,
    formula: Option<String>,
    out: Option<String>,
    csv: bool,
    long: bool,
    as_rust: bool,
    help: bool,
}

/// What the words of a command line ask for, the program's name left out.
///
/// # Errors
/// Words that are no command, with a sentence that helps.
pub fn parse(words: &[String]) -> Result<Command, Failure> {
    let Some((name, rest)) = words.split_first() else {
        return Err(Failure::Usage(format!(
            "no command is given.\n\n{}",
            help::OVERVIEW
        )));
    };
    match name.as_str() {
        "-h" | "--help" => return Ok(Command::Help(None)),
        "-V" | "--version" | "version" => return Ok(Command::Version),
        "help" => return topic(rest),
        _ => {}
    }
    let usage = help::usage(name).ok_or_else(|| Failure::Usage(no_command(name)))?;
    let words = sorted(rest).map_err(|message| misused(name, usage, &message))?;
    if words.help {
        return Ok(Command::Help(Some(name.clone())));
    }
    command(name, words).map_err(|failure| match failure {
        Failure::Usage(message) => misused(name, usage, &message),
        refused => refused,
    })
}

fn misused(name: &str, usage: &str, message: &str) -> Failure {
    Failure::Usage(format!(
        "{name}: {message}\nusage: dive {usage}\n`dive help {name}` tells more"
    ))
}

fn no_command(name: &str) -> String {
    match nearest(name, help::COMMANDS.iter().map(|command| command.name)) {
        Some(meant) => {
            format!("there is no command `{name}`; is `{meant}` meant? `dive help` lists them all")
        }
        None => format!("there is no command `{name}`; `dive help` lists them all"),
    }
}

fn topic(words: &[String]) -> Result<Command, Failure> {
    match words {
        [] => Ok(Command::Help(None)),
        [name] if help::of(name).is_some() => Ok(Command::Help(Some(name.clone()))),
        [name] => Err(Failure::Usage(no_command(name))),
        _ => Err(Failure::Usage("help takes one command".into())),
    }
}

fn sorted(rest: &[String]) -> Result<Words, String> {
    let mut words = Words::default();
    let mut rest = rest.iter();
    while let Some(word) = rest.next() {
        match word.as_str() {
            "-o" | "--output" => {
                let out = rest.next().ok_or("after -o comes the name of a file")?;
                once(&mut words.out, out, "-o")?;
            }
            "-e" | "--expression" => {
                let formula = rest
                    .next()
                    .ok_or("after -e comes a formula in quotes, as in -e '60 x - 6 x^2'")?;
                once(&mut words.formula, formula, "-e")?;
            }
            "--csv" => words.csv = true,
            "--long" => words.long = true,
            "--as-rust" => words.as_rust = true,
            "-h" | "--help" => words.help = true,
            option
                if option.len() > 1
                    && option.starts_with('-')
                    && numbers::parse(option).is_err() =>
            {
                return Err(format!("there is no option {option}"));
            }
            _ => words.plain.push(word.clone()),
        }
    }
    Ok(words)
}

/// Keeps what an option says.
fn once(kept: &mut Option<String>, said: &str, option: &str) -> Result<(), String> {
    match kept.replace(said.into()) {
        Some(_) => Err(format!("{option} is given twice")),
        None => Ok(()),
    }
}

fn command(name: &str, words: Words) -> Result<Command, Failure> {
    check_options(name, &words)?;
    match name {
        "run" => run(words),
        "value" => value(words),
        "table" => table(words),
        "plot" => plot(words),
        _ => of_one_file(name, words),
    }
}

/// The commands that read a list as a formula.
const READING: [&str; 8] = [
    "read",
    "derivative",
    "integral",
    "inverse",
    "write",
    "value",
    "table",
    "plot",
];

/// The commands that write a list of a formula.
const WRITING: [&str; 3] = ["derivative", "integral", "write"];

fn check_options(name: &str, words: &Words) -> Result<(), Failure> {
    if words.csv && name != "table" {
        return Err(Failure::Usage("--csv is for the table alone".into()));
    }
    if words.out.is_some() && matches!(name, "show" | "cost" | "run" | "value" | "table") {
        return Err(Failure::Usage(
            "what it finds is printed, and it takes no -o".into(),
        ));
    }
    if words.long && !READING.contains(&name) {
        return Err(Failure::Usage(
            "it doesn't read the list as a formula, and takes no --long".into(),
        ));
    }
    if words.as_rust && !WRITING.contains(&name) {
        return Err(Failure::Usage(
            "it writes no list of a formula, and takes no --as-rust".into(),
        ));
    }
    Ok(())
}

fn of_one_file(name: &str, words: Words) -> Result<Command, Failure> {
    let ([], given) = taken(&words, "")?;
    let (out, long) = (words.out, words.long);
    let writer = if words.as_rust {
        Writer::AsRust
    } else {
        Writer::Faithful
    };
    let asked = match name {
        "show" => return Ok(Command::Show { given }),
        "assemble" => {
            return Ok(Command::Assemble {
                given,
                out: needed(out)?,
            })
        }
        "text" => return Ok(Command::Text { given, out }),
        "cost" => return Ok(Command::Cost { given }),
        "read" => {
            let list = ToRead { given, long };
            return Ok(Command::Read { list, out });
        }
        "derivative" => Asked::Derivative,
        "integral" => Asked::Integral,
        "write" => Asked::Write,
        _ => Asked::Inverse,
    };
    let list = ToRead { given, long };
    Ok(Command::Make {
        asked,
        writer,
        list,
        out,
    })
}

fn run(words: Words) -> Result<Command, Failure> {
    let (given, x) = given_and_x(&words)?;
    Ok(Command::Run { given, x })
}

fn value(words: Words) -> Result<Command, Failure> {
    let (given, x) = given_and_x(&words)?;
    let list = ToRead {
        given,
        long: words.long,
    };
    Ok(Command::Value { list, x })
}

fn table(words: Words) -> Result<Command, Failure> {
    let (list, minutes) = list_and_minutes(&words)?;
    Ok(Command::Table {
        list,
        minutes,
        csv: words.csv,
    })
}

fn plot(words: Words) -> Result<Command, Failure> {
    let (list, minutes) = list_and_minutes(&words)?;
    if minutes.from == minutes.to {
        return Err(Failure::Usage("FROM must be below TO for a plot".into()));
    }
    Ok(Command::Plot {
        list,
        minutes,
        out: needed(words.out)?,
    })
}

/// The words that a command takes, and the list's source: the word before them, or a formula.
fn taken<const N: usize>(words: &Words, what: &str) -> Result<([String; N], Given), Failure> {
    let mut plain = words.plain.clone().into_iter();
    let given = match &words.formula {
        Some(formula) => Some(Given::Formula(formula.clone())),
        None => plain.next().map(Given::File),
    };
    match (given, plain.collect::<Vec<_>>().try_into()) {
        (Some(given), Ok(taken)) => Ok((taken, given)),
        _ => Err(Failure::Usage(miscounted(words, what))),
    }
}

/// What is said of too many words or too few.
fn miscounted(words: &Words, what: &str) -> String {
    let count = words.plain.len();
    let takes = match (&words.formula, what) {
        (None, "") => "one FILE".into(),
        (None, what) => format!(
            "FILE{} {what}",
            if what.contains(", ") { "," } else { " and" }
        ),
        (Some(_), "") => "nothing beside -e, which stands for FILE".into(),
        (Some(_), what) => format!("{what} beside -e, which stands for FILE"),
    };
    format!("it takes {takes}, and {count} words are given")
}

fn needed(out: Option<String>) -> Result<String, Failure> {
    out.ok_or_else(|| Failure::Usage("-o and the name of a file to write are needed".into()))
}

fn given_and_x(words: &Words) -> Result<(Given, f64), Failure> {
    let ([x], given) = taken(words, "X")?;
    let x = numbers::parse(&x).map_err(|message| Failure::Usage(format!("X: {message}")))?;
    Ok((given, x))
}

fn list_and_minutes(words: &Words) -> Result<(ToRead, Minutes), Failure> {
    let ([from, to, step], given) = taken(words, "FROM, TO and STEP")?;
    let minutes = Minutes::parse([&from, &to, &step])?;
    let list = ToRead {
        given,
        long: words.long,
    };
    Ok((list, minutes))
}

#[cfg(test)]
mod tests {
    use super::*;

    fn parsed(line: &str) -> Result<Command, Failure> {
        let words: Vec<String> = line.split_whitespace().map(String::from).collect();
        parse(&words)
    }

    fn refused(line: &str) -> String {
        let failure = parsed(line).expect_err("wrong usage");
        assert_eq!(failure.exit_code(), 2);
        failure.to_string()
    }

    #[test]
    fn commands_are_understood() {
        let given = || Given::File("a.txt".into());
        let list = |long| ToRead {
            given: given(),
            long,
        };
        assert_eq!(parsed("show a.txt"), Ok(Command::Show { given: given() }));
        let out = Some(String::from("b"));
        assert_eq!(
            parsed("read -o b a.txt"),
            Ok(Command::Read {
                list: list(false),
                out: out.clone()
            })
        );
        let made = Command::Make {
            asked: Asked::Inverse,
            writer: Writer::Faithful,
            list: list(true),
            out,
        };
        assert_eq!(parsed("inverse a.txt --long --output b"), Ok(made));
        assert_eq!(parsed("cost a.txt"), Ok(Command::Cost { given: given() }));
        assert!(matches!(
            parsed("table - 0 10 1 --csv"),
            Ok(Command::Table { csv: true, .. })
        ));
        assert_eq!(
            parsed("help table"),
            Ok(Command::Help(Some("table".into())))
        );
        assert_eq!(
            parsed("table --help"),
            Ok(Command::Help(Some("table".into())))
        );
        assert_eq!(parsed("--version"), Ok(Command::Version));
    }

    #[test]
    fn commands_with_an_x_are_understood() {
        let given = || Given::File("a.txt".into());
        let x = -2.5;
        let run = Command::Run { given: given(), x };
        assert_eq!(parsed("run a.txt -2.5"), Ok(run));
        let list = ToRead {
            given: given(),
            long: true,
        };
        let value = Command::Value { list, x };
        assert_eq!(parsed("value a.txt -2.5 --long"), Ok(value));
    }

    #[test]
    fn a_formula_stands_for_a_file() {
        let words =
            |words: &[&str]| -> Vec<String> { words.iter().map(ToString::to_string).collect() };
        let given = Given::Formula("-x ^2".into());
        let shown = Command::Show {
            given: given.clone(),
        };
        assert_eq!(parse(&words(&["show", "-e", "-x ^2"])), Ok(shown));
        let run = Command::Run { given, x: -2.0 };
        let line = ["run", "-2", "--expression", "-x ^2"];
        assert_eq!(parse(&words(&line)), Ok(run));
        assert!(refused("show -e").contains("after -e comes a formula"));
        assert!(refused("show -e x -e x").contains("-e is given twice"));
        assert!(refused("show a.txt -e x")
            .contains("it takes nothing beside -e, which stands for FILE, and 1 words"));
        assert!(refused("run a.txt 1 -e x")
            .contains("it takes X beside -e, which stands for FILE, and 2 words"));
        assert!(refused("table -e x 0 1").contains("it takes FROM, TO and STEP beside -e"));
    }

    /// A command line of the commands that have these names.
    fn lines<'a>(names: &'a [&str]) -> impl Iterator<Item = String> + 'a {
        names.iter().map(|name| match *name {
            "run" => "run a.txt 1".into(),
            "value" => "value a.txt 1".into(),
            "table" => "table a.txt 0 1 1".into(),
            "plot" => "plot a.txt 0 1 1 -o b".into(),
            "assemble" => "assemble a.txt -o b".into(),
            name => format!("{name} a.txt"),
        })
    }

    #[test]
    fn commands_that_read_take_long() {
        let is_long = |line: &str| match parsed(line) {
            Ok(
                Command::Read { list, .. }
                | Command::Make { list, .. }
                | Command::Value { list, .. }
                | Command::Table { list, .. }
                | Command::Plot { list, .. },
            ) => list.long,
            other => panic!("{other:?} reads no list"),
        };
        for line in lines(&READING) {
            assert!(!is_long(&line), "{line}");
            assert!(is_long(&(line.clone() + " --long")), "{line}");
        }
        for line in lines(&["show", "assemble", "text", "cost", "run"]) {
            assert!(parsed(&line).is_ok(), "{line}");
            assert!(refused(&(line + " --long")).contains("takes no --long"));
        }
    }

    #[test]
    fn commands_that_write_a_formula_take_as_rust() {
        let writer_of = |line: &str| match parsed(line) {
            Ok(Command::Make { writer, .. }) => writer,
            other => panic!("{other:?} writes no list"),
        };
        for line in lines(&WRITING) {
            assert_eq!(writer_of(&line), Writer::Faithful, "{line}");
            assert_eq!(writer_of(&(line.clone() + " --as-rust")), Writer::AsRust);
        }
        for line in lines(&[
            "show", "text", "cost", "read", "inverse", "run", "value", "table",
        ]) {
            assert!(refused(&(line + " --as-rust")).contains("takes no --as-rust"));
        }
    }

    #[test]
    fn wrong_usage_says_what_is_right() {
        assert!(refused("").contains("no command"));
        assert!(refused("derivitive a").contains("is `derivative` meant?"));
        assert!(refused("frobnicate").contains("`dive help` lists"));
        assert!(refused("run a.txt")
            .contains("it takes FILE and X, and 1 words are given\nusage: dive run FILE X"));
        assert!(refused("run a.txt two").contains("X: `two` is no number"));
        assert!(refused("value a.txt").contains(
            "it takes FILE and X, and 1 words are given\nusage: dive value FILE X [--long]"
        ));
        assert!(refused("value a.txt 1 2").contains("it takes FILE and X, and 3 words"));
        assert!(refused("value a.txt two").contains("X: `two` is no number"));
        assert!(refused("value a.txt 1 -o b").contains("no -o"));
        assert!(refused("plot a.txt 0 1 0.1").contains("-o and the name"));
        assert!(refused("plot a.txt 1 1 0.1 -o b").contains("below TO"));
        assert!(refused("table a.txt 0 1 0").contains("STEP"));
        assert!(refused("show a.txt --fast").contains("no option --fast"));
        assert!(refused("show a.txt -o").contains("after -o"));
        assert!(refused("show a.txt -o b").contains("no -o"));
        assert!(refused("cost a.txt -o b").contains("no -o"));
        assert!(refused("read a.txt --csv").contains("table alone"));
        assert!(refused("help me").contains("no command `me`"));
    }
}
