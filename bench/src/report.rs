//! The measurements as text.

use std::{fs, process::Command, thread};

use crate::{
    bars::Bar,
    costs::{CostLine, ReadingLine},
    measure::Measured,
    sides::{MODULE, Table},
    values::RUN_OF_LIST,
    writers::WriterLine,
};

const HEAD: &str = "\
# Measurements

Written by `bench --record` (bench/): `cd bench && cargo run --release --offline -- --record ../docs/BENCHMARKS.md`. One process, release builds, all sides over the same
lists by turns. Times are processor time of the thread, in nanoseconds a list: the median of all rounds, with the least and the most behind it. A ratio is the proved
library's time to the other's, by medians: below 1 the proved library is the faster one.

What is inside the timed part:

- **Proved**: one call of `uplink_derivative`, `uplink_read` or `uplink_run` a list, from bytes to bytes (the run: to a value). Records are decoded and checked inside the
  call, and the library clears its own working arrays there, on the stack, each time; it allocates nothing.
- **Plain program** (bench/plain): the same job from document 01 in plain Rust: bytes to bytes, no unsafe code, no dependencies, fixed arrays, no allocation in a call, the same
  arithmetic, refusals and limits. With **cleared room** it has its arrays on its own stack and clears them at each call (40 KB for derivative and read, 2 KB for the run); with **lent
  room** its caller lends them, and nobody clears them. It has the proved library's short cuts for sums of one term: one power of x times another, and one to a whole number, are
  reckoned directly. Without short cuts it takes the way of all sums there; both are measured.
- **Rust module** (derivative): `derivative` of docs/src, built unchanged over the stand-ins of oracle/, from bytes to bytes: records decoded and checked, nodes built, nodes to sum,
  derivative, sum to nodes, and the result written as records. What it allocates, and freeing it, is inside, and so is the counting of its steps, some 2 in 100 of its time. It has
  none of document 01's limits to check.

The room for a result is allocated once, outside, and never cleared, for all but the module, which allocates its own. Before anything is timed, the answers of all sides are compared,
byte for byte. `bench --hold 1000000` holds the plain program against the proved library on every stored list and sum, on those near limits and on a million random lists, with sums
among them; `./test` does so with a part of them.
";

const LISTS: &str = "\
The lists (bench/backlog) are the same ones each time: sums of 1 to 12 whole powers with coefficients as a fit has them, as `write` writes them and term by term; Horner forms; products such as
(x - a)(x - b)²; sums with square roots, and with functions of a straight line. Each has a derivative. 'All lists' are these ten thousand with kinds mixed; each kind is timed by
itself too. Besides: drag formulas, sums with x to the power 1.5, and lists of one step, which show what a step takes beside the empty list. The run is of the derivatives' lists at
1.5, of those that run to a value. Lists that grow have the powers from 1 up, 50 lists of each size.
";

const VALUES: &str = "\
## Values of sums

`uplink_value` at 1.5 of sums of whole powers with coefficients as a fit has them, from bytes to a value, by turns with two others, in nanoseconds a sum. `uplink_run` runs the list that
`write` gives for the same sum; it is written once, outside of the timed part. The plain program takes the sum's bytes in by the same rules, into an array of 64 terms, and goes over the
powers, each product from that of the last power on; with cleared room it clears the array at each call. 50 sums of each number of powers, up to the power 15; of 64 powers those from 0
to 63. At most half the run's time was asked for, and at most 1.2 times the plain program's. All values are compared before, to the bit.
";

const WRITERS: &str = "\
## Two writers

`uplink_derivative_faithful`, whose lists mean what the sum says, beside `uplink_derivative`, by turns, in nanoseconds a list. Of powers of x both write the same bytes; with functions the
second one clears a larger draft. No more than 1.1 times was asked for on sums of powers. What it writes is compared with the plain second writer of oracle/ first.
";

const COSTS: &str = "\
## What reading costs

`uplink_cost` and `uplink_derivative` of the same lists, by turns, in nanoseconds a list; a part of 0.10 means that to ask first takes a tenth of the
derivative's time. Each cost is held against the reckoning of oracle/src/cost.rs first.
";

const READINGS: &str = "\
A limit on the cost is one on steps, and steps differ. Nanoseconds a step of `uplink_read`, for records that a Both runs twice, without what is read before
them. In the last three lines every second or third step is a power of a sum whose powers of x are neighbouring numbers next to 2: all their sums round to
64 numbers, so that no power is refused, and each takes 190,000 to 200,000 products of two entries. No step can have more than 258,048. Nothing dearer was found.
";

/// How tools/native_archive compiles the proved code.
const ARCHIVE: &str = "-O3 -mllvm -inline-threshold=2000";

/// How the names of forms without short cuts end.
const WITHOUT: &str = ", without short cuts";

/// Where and how it is measured.
pub struct Setting {
    pub command: String,
    pub rounds: usize,
    pub lists: usize,
    pub fingerprint: u64,
    /// Of the computer, before anything was measured.
    pub load: String,
}

fn machine() -> String {
    let cores = thread::available_parallelism().map_or(1, usize::from);
    let model = processor().unwrap_or_else(|| "processor unknown".into());
    format!(
        "{} {}, {model}, {cores} cores",
        std::env::consts::OS,
        std::env::consts::ARCH
    )
}

fn processor() -> Option<String> {
    let output = Command::new("lscpu").output().ok()?;
    let text = String::from_utf8(output.stdout).ok()?;
    let line = text.lines().find(|line| line.starts_with("Model name:"))?;
    Some(line.split_once(':')?.1.trim().to_string())
}

/// How many programs wanted to run in the last minute.
pub fn load() -> String {
    let text = fs::read_to_string("/proc/loadavg").unwrap_or_default();
    text.split(' ').next().unwrap_or("unknown").to_string()
}

pub fn head(setting: &Setting) -> String {
    format!(
        "{HEAD}\n{LISTS}\n\
         - command: {}\n\
         - computer: {}\n\
         - its load in the last minute: {} before, {} after\n\
         - rounds: {}, after one that isn't counted\n\
         - the set: {} lists, fingerprint {:016x}\n\
         - Rust sides: {}, opt-level {}, the plain program in one codegen unit; proved side: the archive of tools/native_archive, {}\n",
        setting.command,
        machine(),
        setting.load,
        load(),
        setting.rounds,
        setting.lists,
        setting.fingerprint,
        env!("COMPILER"),
        env!("LEVEL"),
        ARCHIVE,
    )
}

fn table(heads: &[&str], rows: impl IntoIterator<Item = Vec<String>>) -> String {
    let mut text = format!(
        "| {} |\n|{}\n",
        heads.join(" | "),
        "---|".repeat(heads.len())
    );
    for cells in rows {
        text += &format!("| {} |\n", cells.join(" | "));
    }
    text
}

pub fn bars(bars: &[Bar]) -> String {
    let rows = bars.iter().map(|bar| {
        let met = if bar.is_met { "yes" } else { "no" };
        let measured = format!("{:.2}", bar.measured);
        vec![bar.what.clone(), bar.bar.clone(), measured, met.into()]
    });
    let table = table(&["what", "bar", "measured", "met"], rows);
    format!("\n## Bars\n\n{table}\nHow much stack a call takes is held to bounds by tests/stack.\n")
}

fn cell(measured: &Measured) -> String {
    format!(
        "{:.0} ({:.0} to {:.0})",
        measured.median, measured.least, measured.most
    )
}

/// Tables with the sides that have the library's short cuts, each under its title.
pub fn with_short_cuts(level: &str, tables: &[(String, &Table)]) -> String {
    let section = |(title, table): &(String, &Table)| {
        let table = against("lists", table, |name| !name.ends_with(WITHOUT));
        format!("\n{level} {title}\n\n{table}")
    };
    tables.iter().map(section).collect()
}

/// Tables with those that have none, where there are any.
pub fn without_short_cuts(level: &str, tables: &[(String, &Table)]) -> String {
    let has_some = |table: &Table| table.names.iter().any(|name| name.ends_with(WITHOUT));
    let section = |(title, table): &(String, &Table)| {
        let table = against("lists", table, |name| name.ends_with(WITHOUT));
        format!("\n{level} {title}\n\n{table}")
    };
    let tables = tables.iter().filter(|(_, table)| has_some(table));
    tables.map(section).collect()
}

/// The proved library against some of the other sides, over lists or sums.
fn against(over: &str, measured: &Table, is_shown: impl Fn(&str) -> bool) -> String {
    let others = 1..measured.names.len();
    let others: Vec<usize> = others
        .filter(|&side| is_shown(measured.names[side]))
        .collect();
    let names = others.iter().map(|&side| full_name(measured.names[side]));
    let names: Vec<String> = names.collect();
    let mut heads = vec![over, "number", "proved"];
    for name in &names {
        heads.extend([name, "ratio"]);
    }
    let rows = measured.lines.iter().map(|line| {
        let mut cells = vec![
            line.what.clone(),
            line.lists.to_string(),
            cell(&line.sides[0]),
        ];
        for &side in &others {
            let ratio = line.sides[0].to(&line.sides[side]);
            cells.extend([cell(&line.sides[side]), format!("{ratio:.2}")]);
        }
        cells
    });
    table(&heads, rows)
}

fn full_name(side: &str) -> String {
    match side.strip_suffix(WITHOUT).unwrap_or(side) {
        other @ (MODULE | RUN_OF_LIST) => other.into(),
        form => format!("plain, {form}"),
    }
}

/// The section on the values of sums.
pub fn values(measured: &Table) -> String {
    format!("\n{VALUES}\n{}", against("sums", measured, |_| true))
}

/// The section on the two writers.
pub fn writers(lines: &[WriterLine]) -> String {
    let rows = lines.iter().map(|line| {
        vec![
            line.what.clone(),
            line.lists.to_string(),
            cell(&line.first),
            cell(&line.second),
            format!("{:.2}", line.second.to(&line.first)),
        ]
    });
    let heads = [
        "lists",
        "number",
        "derivative",
        "derivative_faithful",
        "ratio",
    ];
    format!("\n{WRITERS}\n{}", table(&heads, rows))
}

/// The section on costs.
pub fn costs(costs: &[CostLine], readings: &[ReadingLine]) -> String {
    format!(
        "\n{COSTS}\n{}\n{READINGS}\n{}",
        cost_table(costs),
        reading_table(readings)
    )
}

fn cost_table(lines: &[CostLine]) -> String {
    let rows = lines.iter().map(|line| {
        let records = line.records as f64 / line.lists as f64;
        vec![
            line.what.clone(),
            line.lists.to_string(),
            format!("{records:.1}"),
            cell(&line.cost),
            format!("{:.1}", line.cost.median / records),
            cell(&line.derivative),
            format!("{:.2}", line.cost.to(&line.derivative)),
        ]
    });
    let heads = [
        "lists",
        "number",
        "records a list",
        "cost",
        "cost, a record",
        "derivative",
        "part",
    ];
    table(&heads, rows)
}

fn reading_table(lines: &[ReadingLine]) -> String {
    let rows = lines.iter().map(|line| {
        vec![
            line.what.to_string(),
            line.steps.to_string(),
            cell(&line.step),
            seconds(line.step.median / 1000.0),
        ]
    });
    table(
        &["what is read", "steps", "a step", "a million steps"],
        rows,
    )
}

/// Seconds, with three digits that say something.
fn seconds(seconds: f64) -> String {
    match seconds {
        ..1.0 => format!("{seconds:.3} s"),
        ..100.0 => format!("{seconds:.1} s"),
        _ => format!("{seconds:.0} s"),
    }
}

#[cfg(test)]
mod tests {
    use super::*;
    use crate::sides::{Line, PROVED};

    #[test]
    fn sides_stand_in_their_tables() {
        let took = |median| Measured {
            median,
            least: median - 1.0,
            most: median + 1.0,
        };
        let measured = Table {
            names: vec![PROVED, "lent room", "lent room, without short cuts", MODULE],
            lines: vec![Line {
                what: "some".into(),
                lists: 3,
                sides: [30.0, 20.0, 40.0, 90.0].map(took).to_vec(),
            }],
        };
        let tables = [("Title".to_string(), &measured)];
        assert_eq!(
            with_short_cuts("##", &tables),
            "\n## Title\n\n\
             | lists | number | proved | plain, lent room | ratio | Rust module | ratio |\n\
             |---|---|---|---|---|---|---|\n\
             | some | 3 | 30 (29 to 31) | 20 (19 to 21) | 1.50 | 90 (89 to 91) | 0.33 |\n"
        );
        assert_eq!(
            without_short_cuts("##", &tables),
            "\n## Title\n\n\
             | lists | number | proved | plain, lent room | ratio |\n\
             |---|---|---|---|---|\n\
             | some | 3 | 30 (29 to 31) | 40 (39 to 41) | 0.75 |\n"
        );
    }

    #[test]
    fn values_stand_beside_runs() {
        let took = |median| Measured {
            median,
            least: median,
            most: median,
        };
        let measured = Table {
            names: vec![PROVED, "lent room", RUN_OF_LIST],
            lines: vec![Line {
                what: "2 powers".into(),
                lists: 50,
                sides: [20.0, 16.0, 80.0].map(took).to_vec(),
            }],
        };
        assert!(values(&measured).ends_with(
            "\n\n| sums | number | proved | plain, lent room | ratio | run of the list | ratio |\n\
             |---|---|---|---|---|---|---|\n\
             | 2 powers | 50 | 20 (20 to 20) | 16 (16 to 16) | 1.25 | 80 (80 to 80) | 0.25 |\n"
        ));
    }

    #[test]
    fn digits_of_seconds() {
        let told = [0.0534, 19.24, 2164.3].map(seconds);
        assert_eq!(told, ["0.053 s", "19.2 s", "2164 s"]);
    }
}
