//! What was compared, as text.

use std::{env::consts, fmt::Write};

use crate::{
    arguments::Settings,
    tally::{ENTRIES, NUMBERS, ORIGINS, Origin, Tally},
    work::Compared,
};

fn origin_name(origin: Origin) -> &'static str {
    match origin {
        Origin::Short => "all short ones",
        Origin::Modifiers => "all short ones with one modifier",
        Origin::Crowded => "over a crowded stack",
        Origin::Limits => "near each limit",
        Origin::Random => "random and damaged",
    }
}

/// The lines that say how much was compared, and the table by entry and number.
pub fn report(settings: &Settings, compared: &Compared, roots: u64) -> String {
    let mut text = String::new();
    let all = where_and_how_long(settings, compared).into_iter();
    for (name, value) in all.chain(how_much(compared, roots)) {
        writeln!(text, "- {name}: {value}").expect("a string grows");
    }
    text + "\n" + &table(&compared.tally)
}

type Named = (&'static str, String);

fn where_and_how_long(settings: &Settings, compared: &Compared) -> Vec<Named> {
    let seconds = compared.time.as_secs_f64();
    let lists = compared.tally.all_lists() as f64 / seconds;
    vec![
        ("seed", settings.seed.to_string()),
        ("threads", settings.threads.to_string()),
        ("machine", format!("{} {}", consts::OS, consts::ARCH)),
        ("time", format!("{seconds:.0} s, {lists:.0} lists a second")),
    ]
}

fn how_much(compared: &Compared, roots: u64) -> Vec<Named> {
    let tally = &compared.tally;
    let mut lines = vec![
        ("lists compared, no two the same", lists(tally)),
        ("sums compared, no two the same", thousands(tally.sums)),
        ("answers compared", answers(tally)),
        ("square roots by themselves", thousands(roots)),
        ("runs that meet a power nought", thousands(tally.noughts)),
        ("costs told as 2^64 - 1", thousands(tally.capped)),
        (
            "sums, with either flag, that the two writers write as different lists",
            thousands(tally.apart),
        ),
        (
            "values held against the run of the list that write gives",
            against_lists(tally),
        ),
        ("sums read with pairs that were multiplied", pairs(tally)),
        ("met again, and not compared again", again(tally)),
        (
            "unexplained differences",
            compared.differences.len().to_string(),
        ),
    ];
    if compared.cut_short {
        let why = "time ran out before all of them were compared";
        lines.push(("cut short", why.into()));
    }
    lines
}

fn lists(tally: &Tally) -> String {
    let by_origin: Vec<String> = ORIGINS
        .into_iter()
        .filter(|&origin| tally.lists[origin as usize] > 0)
        .map(|origin| {
            format!(
                "{} {}",
                origin_name(origin),
                thousands(tally.lists[origin as usize])
            )
        })
        .collect();
    format!(
        "{} ({})",
        thousands(tally.all_lists()),
        by_origin.join(", ")
    )
}

fn again(tally: &Tally) -> String {
    let [lists, sums] = [tally.lists_again, tally.sums_again].map(thousands);
    format!("{lists} lists, {sums} sums")
}

fn answers(tally: &Tally) -> String {
    format!(
        "{}; of those that are written {} in exact room, {} in ample room",
        thousands(tally.compared()),
        thousands(tally.exact),
        thousands(tally.ample)
    )
}

fn against_lists(tally: &Tally) -> String {
    let against = &tally.against_lists;
    let counts = [
        against.all(),
        against.done,
        against.not_written,
        against.not_run,
    ];
    let [all, done, not_written, not_run] = counts.map(thousands);
    format!(
        "{all}; of these {done} are its value, {not_written} are 15 of write, {not_run} are 15 of run at a finite x"
    )
}

fn pairs(tally: &Tally) -> String {
    let [told, most] = [tally.pairs.told, tally.pairs.most].map(thousands);
    format!("{told}; the most of one is {most}")
}

/// One row an entry, one column a number that comes back.
fn table(tally: &Tally) -> String {
    let numbers = (1..NUMBERS).map(|number| number.to_string());
    let heads = ["entry", "compared", "done"].into_iter().map(String::from);
    let skipped = [
        "skipped: the Rust panics",
        "skipped: costs over 100,000 steps",
    ];
    let head: Vec<String> = heads
        .chain(numbers)
        .chain(skipped.map(String::from))
        .collect();
    let mut text = row(&head) + &row(&vec!["---".to_string(); head.len()]);
    for entry in ENTRIES {
        let counted = tally.row(entry);
        let mut cells = vec![entry.name().to_string(), counted.compared().to_string()];
        cells.extend(counted.numbers.iter().map(u64::to_string));
        cells.extend([counted.panics, counted.too_long].map(|count| count.to_string()));
        text += &row(&cells);
    }
    text
}

fn row(cells: &[String]) -> String {
    format!("| {} |\n", cells.join(" | "))
}

/// A number with a comma before each three digits.
fn thousands(number: u64) -> String {
    let digits = number.to_string();
    let mut text = String::new();
    for (at, digit) in digits.chars().enumerate() {
        if at > 0 && (digits.len() - at).is_multiple_of(3) {
            text.push(',');
        }
        text.push(digit);
    }
    text
}

/// The report as a file of its own.
pub fn recorded(command: &str, report: &str, differences: &[String]) -> String {
    let mut text = format!(
        "# The proved library and the judge, compared\n\n\
         Written by the program `compare` itself (`--record`). Every answer that the judge owes was compared: number, place, count, \
         complex flag, pairs and each byte; for the run value bits, steps and peak, with the plain runner of oracle/src/runner.rs; \
         the cost with the reckoning of oracle/src/cost.rs; \
         the value with the plain engine of oracle/src/value.rs, and where it isn't 14 with the library's own run of the list that it writes with the flag false; \
         lists that mean what the sum says with the second writer of oracle/src/algebra/faithful.rs. \
         Columns 1 to 18 are refusals; 17 was asked for by room that is up to one record or entry short.\n\n    {command}\n\n{report}"
    );
    for difference in differences {
        write!(text, "\n```\n{difference}\n```\n").expect("a string grows");
    }
    text
}

#[cfg(test)]
mod tests {
    use super::*;

    #[test]
    fn numbers_with_commas() {
        let written = [0, 12, 123, 1234, 123_456, 10_000_000].map(thousands);
        assert_eq!(
            written,
            ["0", "12", "123", "1,234", "123,456", "10,000,000"]
        );
    }
}
