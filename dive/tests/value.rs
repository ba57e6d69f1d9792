//! The value of a formula, and what is said where the list itself runs otherwise.

mod common;

use std::fs;

use common::{folder, line, Ended};

fn value(sample: &str, x: &str) -> Ended {
    line(&format!("value samples/{sample}.txt {x}"))
}

/// A file with this text.
fn written(test: &str, text: &str) -> String {
    let file = folder(test).join("a.txt");
    fs::write(&file, text).expect("a file");
    file.display().to_string()
}

/// The value alone, as it is printed first.
fn first_line(printed: &str) -> &str {
    printed.lines().next().unwrap_or_default()
}

#[test]
fn where_the_list_gives_the_same_nothing_is_remarked() {
    for (sample, x, printed) in [
        ("parabola", "2.5", "value  112.5\n"),
        ("parabola", "-1", "value  -66\n"),
        ("cubic", "4", "value  128\n"),
        ("on", "2", "value  40\n"),
        ("turn", "4", "value  90\n"),
    ] {
        let ended = value(sample, x);
        assert_eq!(ended.remarked, "", "{sample}");
        assert_eq!(ended.done(), printed, "{sample}");
        let ran = line(&format!("run samples/{sample}.txt {x}")).done();
        assert_eq!(first_line(&ran), printed.trim_end());
    }
}

#[test]
fn it_is_the_run_of_the_list_that_is_written() {
    let anew = folder("anew_value").join("a.list").display().to_string();
    for sample in ["parabola", "cubic", "fit", "on", "fork", "nought", "turn"] {
        line(&format!("write samples/{sample}.txt -o {anew}")).done();
        for x in ["0", "-0", "0.1", "7.3", "-2.7", "11.9999", "1e15", "5e-324"] {
            let ran = line(&format!("run {anew} {x}")).done();
            let valued = value(sample, x).done();
            assert_eq!(first_line(&ran), valued.trim_end(), "{sample} at {x}");
        }
    }
}

/// A value with its only remark.
#[track_caller]
fn remarked(ended: Ended, printed: &str) -> String {
    let said = ended.remarked.clone();
    assert_eq!(ended.done(), printed, "{said}");
    assert_eq!(said.matches("dive: ").count(), 1, "{said}");
    said
}

#[test]
fn a_power_nought_is_said() {
    let said = remarked(value("nought", "0"), "value  0\n");
    assert_eq!(
        said,
        "dive: the list itself, run at x = 0, gives 5: record 11 raises to the power 0, which gives 1 where the list is run \
         and 0 where it is read as a formula (docs/DIFFERENCES.md, Reading and running)\n"
    );
    let said = remarked(value("nought", "2.5"), "value  112.5\n");
    assert!(said.contains("gives 117.5: record 11 raises"), "{said}");
}

#[test]
fn a_root_of_a_square_is_said() {
    let said = remarked(value("turn", "-4"), "value  210\n");
    assert_eq!(
        said,
        "dive: the list itself, run at x = -4, gives 90: record 2 takes a square root, and that of x^2 is the magnitude of x \
         where the list is run and x itself where it is read as a formula (docs/DIFFERENCES.md, Reading and running)\n"
    );
}

#[test]
fn rounding_is_said() {
    let said = remarked(value("fit", "7.3"), "value  186.98678208298873\n");
    assert_eq!(
        said,
        "dive: the list itself, run at x = 7.3, gives 186.98678208298884: \
         it takes other steps than to add the formula's terms in rising power, and each step rounds\n"
    );
    // x (x - 12)^2 / 2 multiplied out, near 12: large terms cancel
    let said = remarked(value("cubic", "11.9999"), "value  5.999959284963552e-8\n");
    assert!(said.contains("where large terms cancel; or"), "{said}");
}

#[test]
fn a_list_that_is_not_run_is_said() {
    let said = remarked(value("fork", "5"), "value  150\n");
    assert!(
        said.starts_with("dive: the list itself has no value there. samples/fork.txt: its run at x = 5 is refused: NotSupported (2) at record 0, Fork\n"),
        "{said}"
    );
    let file = written("over_itself", "Dup, Div");
    let said = remarked(line(&format!("value {file} 0")), "value  1\n");
    assert!(said.contains("look for a division by zero"), "{said}");
}

#[test]
fn complex_steps_are_said() {
    let file = written("complex", "push 2 + 1e-17i, Mul, push 3, Add");
    let ended = line(&format!("value {file} 5"));
    assert!(
        ended.remarked.starts_with(
            "dive: there is a complex step in the list: the value leaves out imaginary parts below 2^-52, and larger ones would refuse it (NotFinite, 15)\n"
        ),
        "{ended:?}"
    );
    assert!(
        ended.remarked.contains("NonReal (6) at record 0"),
        "{ended:?}"
    );
    assert_eq!(ended.done(), "value  13\n");
    let file = written("imaginary", "push 2 + 1i, Mul, push 3, Add");
    let said = line(&format!("value {file} 5")).failed(1);
    assert!(said.contains("refused: NotFinite (15)\n"), "{said}");
    assert!(
        said.contains("its term (2 + 1i) x has an imaginary part"),
        "{said}"
    );
}

#[test]
fn refusals_name_the_term() {
    let said = value("root", "4").failed(1);
    assert_eq!(
        said,
        "dive: samples/root.txt: the value of its formula at x = 4 is refused: NeedsMath (14)\n\
         The formula is read, but has the term -12 x^1.5, and a value is formed of whole powers of x from 0 to 64 alone. \
         `dive read` shows the formula.\n\
         The list itself can be run: at x = 4 it gives 96.\n"
    );
    let said = value("drag", "4").failed(1);
    assert!(said.contains("the term -12 x^1.5") && !said.contains("The list itself"));
    let said = value("swell", "2").failed(1);
    assert!(said.contains("has the term sin(x), and"), "{said}");
    let said = value("parabola", "1e200").failed(1);
    assert!(said.contains("NotFinite (15)\nAt x = 1e200 a power of x, a term or"));
    for x in ["inf", "-inf", "bits:7ff8000000000000"] {
        let said = value("swell", x).failed(1);
        assert!(said.contains("(15)\nx must be a finite number."), "{said}");
    }
}

#[test]
fn refusals_of_reading_have_their_place() {
    let said = value("unfinished", "1").failed(1);
    assert!(said.contains("refused: TooManyOutputs (4)\n"), "{said}");
    let file = written("root_of_four", "push 4, Mul, Sqrt");
    let said = line(&format!("value {file} 9")).failed(1);
    assert!(
        said.contains("NeedsMath (14) at record 2, Sqrt\n"),
        "{said}"
    );
    assert!(said.ends_with("at x = 9 it gives 6.\n"), "{said}");
    let file = folder("no_list").join("a.list");
    fs::write(&file, [0; 25]).expect("a file");
    let said = line(&format!("value {} 1", file.display())).failed(1);
    assert!(said.contains("BadRecord (11)\n25 bytes are no whole number"));
}

#[test]
fn help_tells_of_it_and_its_examples_hold() {
    let overview = line("help").done();
    assert!(overview.contains("dive value FILE X "), "{overview}");
    let help = line("help value").done();
    let examples: Vec<&str> = help
        .lines()
        .filter(|line| line.starts_with("  dive value"))
        .collect();
    assert_eq!(examples.len(), 3);
    for example in examples {
        let (command, said) = example.split_once('#').expect("a comment");
        let (number, _) = said.trim().split_once(',').expect("a number");
        let command = command.trim().strip_prefix("dive ").expect("a command");
        assert_eq!(line(command).done(), format!("value  {number}\n"));
        if let Some((_, ran)) = said.split_once("`dive run` gives ") {
            let ran_line = line(&command.replace("value ", "run ")).done();
            assert_eq!(first_line(&ran_line), format!("value  {ran}"));
        }
    }
}

#[test]
fn wrong_usage_is_said() {
    for (words, said) in [
        ("value samples/fit.txt", "it takes FILE and X, and 1 words"),
        ("value samples/fit.txt 1 2", "it takes FILE and X, and 3"),
        ("value samples/fit.txt x", "X: `x` is no number"),
        ("value samples/fit.txt 1 -o a", "takes no -o"),
        ("value samples/fit.txt 1 --csv", "--csv is for the table"),
        ("value samples/fit.txt 1 --as-rust", "takes no --as-rust"),
        ("valu samples/fit.txt 1", "is `value` meant?"),
    ] {
        let ended = line(words).failed(2);
        assert!(ended.contains(said), "{words}: {ended}");
    }
}
