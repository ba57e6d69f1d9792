//! What it takes to read a list: counted, and asked before it is read.

mod common;

use std::{fs, path::Path};

use common::{dive, folder, line};
use uplink::{encode_list, Record};

const HOSTILE: &str = "samples/hostile.txt";

/// The commands that read a list as a formula, with what follows the file's name.
const READING: [(&str, &str); 8] = [
    ("read", ""),
    ("derivative", ""),
    ("integral", ""),
    ("inverse", ""),
    ("write", ""),
    ("value", "2.5"),
    ("table", "0 10 1"),
    ("plot", "0 10 1 -o"),
];

/// The command lines that read a file; a picture is written to the second one.
fn readings(file: &str, picture: &Path) -> Vec<String> {
    let line = |(command, rest): (&str, &str)| match rest {
        "0 10 1 -o" => format!("{command} {file} {rest} {}", picture.display()),
        rest => format!("{command} {file} {rest}"),
    };
    READING.map(line).to_vec()
}

/// So many Boths, each in the body of the one before, around these steps.
fn boths(levels: usize, around: &str) -> String {
    format!(
        "{}{around}{} ",
        "Both {0: ".repeat(levels),
        " }".repeat(levels)
    )
}

/// A list of exactly so many steps that leaves x, or -x.
fn of_steps(steps: u64) -> String {
    let mut left = steps;
    let mut text = String::new();
    for levels in (0..62).rev() {
        let each = 4 * (1 << levels) - 3;
        while left >= each {
            text += &boths(levels, "Neg");
            left -= each;
        }
    }
    text
}

fn written(test: &str, text: &str) -> String {
    let file = folder(test).join("a.txt");
    fs::write(&file, text).expect("a file");
    file.display().to_string()
}

#[test]
fn samples_have_their_costs() {
    let costs = [
        ("parabola", "9"),
        ("cubic", "8"),
        ("fit", "18"),
        ("on", "16"),
        ("fork", "10"),
        ("drag", "9"),
        ("root", "10"),
        ("nought", "15"),
        ("turn", "7"),
        ("swell", "13"),
        ("unfinished", "8"),
        ("hostile", "18446744073709551613"),
    ];
    for (sample, steps) in costs {
        let said = line(&format!("cost samples/{sample}.txt")).done();
        assert_eq!(said, format!("steps  {steps}\n"), "{sample}");
    }
}

#[test]
fn a_run_takes_the_steps_that_the_cost_says() {
    for sample in ["parabola", "cubic", "fit", "on", "root", "nought", "turn"] {
        let cost = line(&format!("cost samples/{sample}.txt")).done();
        let ran = line(&format!("run samples/{sample}.txt 1")).done();
        assert!(ran.contains(&cost), "{sample}: {ran}");
    }
}

#[test]
fn a_cost_that_is_capped_says_so() {
    let capped = "steps  more than 18 quintillion\n";
    for (text, said) in [
        (String::new(), "steps  0\n"),
        (boths(1, "Neg"), "steps  5\n"),
        (boths(62, "Neg") + "Neg", "steps  18446744073709551614\n"),
        (boths(62, "Neg") + "Neg, Neg", capped),
        (boths(63, "Neg"), capped),
    ] {
        let file = written("capped", &text);
        assert_eq!(line(&format!("cost {file}")).done(), said);
    }
    let file = written("capped_read", &boths(63, "Neg"));
    let said = line(&format!("read {file}")).failed(1);
    assert!(
        said.contains("reading it would take more than 18 quintillion steps, and it isn't read."),
        "{said}"
    );
}

#[test]
fn a_hostile_list_is_turned_away_at_once() {
    let picture = folder("hostile").join("a.svg");
    for words in readings(HOSTILE, &picture) {
        let said = line(&words).failed(1);
        assert_eq!(
            said,
            "dive: samples/hostile.txt: reading it would take 18,446,744,073,709,551,613 steps, and it isn't read.\n\
             Both runs its body twice, so a Both inside a Both doubles the steps. \
             A list of more than 10,000,000 steps is read only with --long.\n",
            "{words}"
        );
    }
    assert!(!picture.exists());
}

#[test]
fn what_does_not_read_takes_a_hostile_list() {
    let shown = line(&format!("show {HOSTILE}")).done();
    assert_eq!(shown.lines().count(), 1 + 125);
    assert_eq!(
        line(&format!("text {HOSTILE}"))
            .done()
            .matches("Both")
            .count(),
        62
    );
    let ran = line(&format!("run {HOSTILE} 1")).failed(1);
    assert!(ran.contains("NotSupported (2) at record 0, Both"), "{ran}");
}

#[test]
fn ten_million_steps_are_the_limit() {
    let file = written("limit", &of_steps(10_000_001));
    assert_eq!(line(&format!("cost {file}")).done(), "steps  10000001\n");
    let said = line(&format!("read {file}")).failed(1);
    assert!(said.contains("would take 10,000,001 steps"), "{said}");
    let long = line(&format!("read --long {file}")).done();
    let file = written("limit", &of_steps(10_000_000));
    let read = line(&format!("read {file}")).done();
    assert!(read.starts_with(['x', '-']), "{read}");
    assert_ne!(read.starts_with('x'), long.starts_with('x'));
}

#[test]
fn long_is_taken_by_every_command_that_reads() {
    let picture = folder("long").join("a.svg");
    for words in readings("samples/parabola.txt", &picture) {
        let plain = line(&words).done();
        assert_eq!(line(&format!("{words} --long")).done(), plain, "{words}");
    }
    for words in ["show", "text", "cost"] {
        let said = line(&format!("{words} samples/fit.txt --long")).failed(2);
        assert!(said.contains("takes no --long"), "{said}");
    }
}

#[test]
fn bytes_that_are_no_list_have_no_cost() {
    let file = folder("no_cost").join("a.list").display().to_string();
    let deep: Vec<Record> = (0..130)
        .rev()
        .map(|inside| Record::Run { inside })
        .collect();
    for (bytes, named) in [
        (vec![0; 25], "its cost is refused: BadRecord (11)"),
        (vec![0; 24], "its cost is refused: BadRecord (11)"),
        (encode_list(&deep), "its cost is refused: TooDeep (13)"),
    ] {
        fs::write(&file, bytes).expect("a file");
        let said = line(&format!("cost {file}")).failed(1);
        assert!(
            said.contains(named) && said.trim_end().ends_with('.'),
            "{said}"
        );
        // the commands that read say why themselves
        let said = dive(["read", &file]).failed(1);
        assert!(said.contains("reading it is refused"), "{said}");
    }
}

#[test]
fn help_tells_of_it() {
    assert!(line("help").done().contains("dive cost FILE"));
    let help = line("help cost").done();
    assert!(help.contains("dive cost samples/hostile.txt        # 18446744073709551613"));
    for (command, _) in READING {
        let help = line(&format!("help {command}")).done();
        assert!(help
            .lines()
            .next()
            .is_some_and(|usage| usage.ends_with("[--long]")));
    }
}
