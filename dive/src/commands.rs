//! What each command does.

use std::path::Path;

use uplink::{
    bytes, decode_list, decode_sum, derive, integrate, read, Refused, LIST_BYTES, SUM_BYTES,
};

use crate::{
    cli::Command,
    cost::{self, ToRead},
    explain::{explained, Asked},
    failure::Failure,
    formula::{formula, table as term_table},
    given::Given,
    help, notation, numbers,
    plot::{self, Heading},
    remarks,
    source::{save, Source},
    table::{self, Minutes},
    value, words,
    writer::Writer,
};

/// What a command prints, and what it remarks beside that.
#[derive(Debug, Clone, Default, PartialEq, Eq)]
pub struct Printed {
    pub text: String,
    pub remarks: Vec<String>,
}

impl From<String> for Printed {
    fn from(text: String) -> Self {
        Printed {
            text,
            remarks: Vec::new(),
        }
    }
}

type Done = Result<Printed, Failure>;

/// Does what is asked.
///
/// # Errors
/// A refusal, or a file that can't be read or written.
pub fn run(command: Command) -> Done {
    match command {
        Command::Help(None) => Ok(help::OVERVIEW.to_string().into()),
        Command::Help(Some(name)) => Ok(help::of(&name).unwrap_or_default().into()),
        Command::Version => Ok(format!("dive {}\n", env!("CARGO_PKG_VERSION")).into()),
        Command::Show { given } => show(&given),
        Command::Assemble { given, out } => assemble(&given, &out),
        Command::Text { given, out } => text(&given, out.as_deref()),
        Command::Cost { given } => cost_of(&given),
        Command::Read { list, out } => read_list(&list, out.as_deref()),
        Command::Make {
            asked,
            writer,
            list,
            out,
        } => make(asked, writer, &list, out.as_deref()),
        Command::Run { given, x } => run_list(&given, x),
        Command::Value { list, x } => value_of(&list, x),
        Command::Table { list, minutes, csv } => table(&list, minutes, csv),
        Command::Plot { list, minutes, out } => plot(&list, minutes, &out),
    }
}

fn show(given: &Given) -> Done {
    let list = Source::load(given)?.list()?;
    Ok(Printed {
        text: words::shown(&list),
        remarks: remarks::of_list(&list).into_iter().collect(),
    })
}

fn assemble(given: &Given, out: &str) -> Done {
    let source = Source::load(given)?;
    let list = source.list()?;
    save(out, &source.bytes, given)?;
    Ok(format!(
        "{out}: {} of {} bytes\n",
        counted(list.len(), "record", "records"),
        source.bytes.len()
    )
    .into())
}

fn counted(count: usize, one: &str, several: &str) -> String {
    format!("{count} {}", if count == 1 { one } else { several })
}

fn text(given: &Given, out: Option<&str>) -> Done {
    let text = notation::text(&Source::load(given)?.list()?);
    match out {
        Some(out) => save(out, text.as_bytes(), given).map(|()| Printed::default()),
        None => Ok(text.into()),
    }
}

fn refuse(asked: Asked, source: &Source) -> impl Fn(Refused) -> Failure + '_ {
    move |refused| Failure::Refused(explained(asked, source, refused))
}

fn cost_of(given: &Given) -> Done {
    let source = Source::load(given)?;
    let steps = bytes::cost(&source.bytes).map_err(refuse(Asked::Cost, &source))?;
    Ok(cost::text(steps).into())
}

fn read_list(list: &ToRead, out: Option<&str>) -> Done {
    let source = list.load()?;
    let mut room = [0; SUM_BYTES];
    let found = bytes::read(&source.bytes, &mut room).map_err(refuse(Asked::Read, &source))?;
    let remarks = of_source(&source).into_iter().collect();
    if let Some(out) = out {
        return save(out, found.sum, &list.given).map(|()| Printed {
            text: String::new(),
            remarks,
        });
    }
    let sum = decode_sum(found.sum).unwrap_or_default();
    let complex = if found.is_complex {
        "\nThere is a complex step in the list.\n"
    } else {
        ""
    };
    Ok(Printed {
        text: format!(
            "{}\n{}\n{}{complex}",
            formula(&sum),
            cost::pairs_text(found.pairs),
            term_table(&sum)
        ),
        remarks,
    })
}

/// What is to be remarked of a list itself.
fn of_source(source: &Source) -> Option<String> {
    remarks::of_list(&source.list().ok()?)
}

/// The list that is asked for.
fn made<'a>(
    asked: Asked,
    writer: Writer,
    list: &[u8],
    room: &'a mut [u8],
) -> Result<&'a [u8], Refused> {
    match asked {
        Asked::Derivative => writer.derivative(list, room),
        Asked::Integral => writer.integral(list, room),
        Asked::Write => writer.anew(list, room),
        _ => bytes::inverse(list, room),
    }
}

fn make(asked: Asked, writer: Writer, to_read: &ToRead, out: Option<&str>) -> Done {
    let source = to_read.load()?;
    let mut room = vec![0; LIST_BYTES];
    let list = made(asked, writer, &source.bytes, &mut room).map_err(refuse(asked, &source))?;
    let (heading, of_formula) = about(asked, &source).unwrap_or_default();
    let remarks = of_source(&source)
        .into_iter()
        .chain(of_formula)
        .chain(of_writer(asked, &source, list))
        .collect();
    match out {
        Some(out) => save(out, list, &to_read.given).map(|()| Printed {
            text: String::new(),
            remarks,
        }),
        None => Ok(Printed {
            text: heading + &words::shown(&decode_list(list).unwrap_or_default()),
            remarks,
        }),
    }
}

/// What is to be remarked of a list that isn't the one that means what the formula says.
fn of_writer(asked: Asked, source: &Source, list: &[u8]) -> Option<String> {
    let mut room = vec![0; LIST_BYTES];
    let faithful = made(asked, Writer::Faithful, &source.bytes, &mut room).ok()?;
    (faithful != list).then(|| remarks::of_the_rusts(&decode_list(list).unwrap_or_default()))
}

/// The formula that a list is written from, where there is one, and what is to be remarked of it.
fn about(asked: Asked, source: &Source) -> Option<(String, Option<String>)> {
    let sum = read(&source.list().ok()?).ok()?.entries;
    let (made, remark) = match asked {
        Asked::Derivative => (derive(&sum).ok()?, remarks::of_derivative(&sum)),
        Asked::Integral => (integrate(&sum).ok()?, remarks::of_integral(&sum)),
        Asked::Write => (sum, None),
        _ => return None,
    };
    Some((formula(&made) + "\n\n", remark))
}

fn run_list(given: &Given, x: f64) -> Done {
    let source = Source::load(given)?;
    let ran = bytes::run(&source.bytes, x).map_err(refuse(Asked::Run(x), &source))?;
    Ok(format!(
        "value  {}\nsteps  {}\npeak   {}\n",
        numbers::decimal(ran.value),
        ran.steps,
        ran.peak
    )
    .into())
}

fn value_of(list: &ToRead, x: f64) -> Done {
    let found = value::value(&list.load()?, x)?;
    Ok(Printed {
        text: format!("value  {}\n", numbers::decimal(found.value)),
        remarks: found.remarks,
    })
}

fn table(list: &ToRead, minutes: Minutes, csv: bool) -> Done {
    let source = list.load()?;
    let table = table::table(&source, minutes)?;
    let text = if csv {
        table::csv(&table.rows)
    } else {
        table::text(&table.rows, minutes)
    };
    Ok(Printed {
        text,
        remarks: of_table(&source, table.gaps),
    })
}

fn of_table(source: &Source, gaps: Vec<String>) -> Vec<String> {
    let sum = source.list().ok().and_then(|list| read(&list).ok());
    let departure = sum.and_then(|sum| remarks::of_derivative(&sum.entries));
    of_source(source)
        .into_iter()
        .chain(departure)
        .chain(gaps)
        .collect()
}

fn plot(list: &ToRead, minutes: Minutes, out: &str) -> Done {
    let source = list.load()?;
    let table = table::table(&source, minutes)?;
    let title = Path::new(&source.name)
        .file_name()
        .map_or(source.name.as_str().into(), |name| name.to_string_lossy());
    let heading = Heading {
        title: &title,
        subtitle: &subtitle(&source),
    };
    let picture = plot::svg(heading, &table.rows, minutes).ok_or_else(|| {
        let name = &source.name;
        Failure::Refused(format!("{name}: the values lie too far apart to draw"))
    })?;
    save(out, picture.as_bytes(), &list.given)?;
    let points = counted(table.rows.len(), "point", "points");
    let text = format!(
        "{out}: {points} from {} to {} minutes\n",
        minutes.from, minutes.to
    );
    Ok(Printed {
        text,
        remarks: of_table(&source, table.gaps),
    })
}

/// The formulas of depth and speed, as far as they fit a line.
fn subtitle(source: &Source) -> String {
    const MOST: usize = 105;
    let Some(sum) = source.list().ok().and_then(|list| read(&list).ok()) else {
        return String::new();
    };
    let depth = format!("depth = {}", formula(&sum.entries));
    let both = match derive(&sum.entries) {
        Ok(speed) => format!("{depth};  speed = {}", formula(&speed)),
        Err(_) => depth.clone(),
    };
    let fits = |text: &String| text.chars().count() <= MOST;
    [both, depth].into_iter().find(fits).unwrap_or_default()
}
