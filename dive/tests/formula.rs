//! Formulas on the command line and in files.

mod common;

use std::{fs, path::Path};

use common::{dive, folder, line};

fn path(file: &Path) -> String {
    file.to_str().expect("a name in UTF-8").into()
}

const PARABOLA: &str = "60 x - 6 x^2";

#[test]
fn a_formula_is_shown_as_steps() {
    let shown = dive(["text", "-e", PARABOLA]).done();
    let steps = "Dup\npush 60\nMul\nFlip\npush 2\nPow\npush 6\nMul\nSub\n";
    assert_eq!(shown, steps);
    let shown = dive(["show", "--expression", PARABOLA]).done();
    assert!(shown.contains("    8  Sub "), "{shown}");
}

#[test]
fn every_command_takes_a_formula() {
    let folder = folder("formula_commands");
    let sample = "samples/parabola.txt";
    for command in ["read", "derivative", "integral", "inverse", "write"] {
        let of_file = dive([command, sample]).done();
        assert_eq!(dive([command, "-e", PARABOLA]).done(), of_file, "{command}");
    }
    assert_eq!(dive(["cost", "-e", PARABOLA]).done(), "steps  9\n");
    assert_eq!(dive(["value", "-e", PARABOLA, "5"]).done(), "value  150\n");
    assert!(dive(["run", "-e", PARABOLA, "5"])
        .done()
        .starts_with("value  150\n"));
    let table = dive(["table", "-e", PARABOLA, "0", "10", "1"]).done();
    assert_eq!(table, line("table samples/parabola.txt 0 10 1").done());
    let picture = path(&folder.join("dive.svg"));
    dive(["plot", "-e", PARABOLA, "0", "10", "1", "-o", &picture]).done();
    let picture = fs::read_to_string(picture).expect("a picture");
    assert!(picture.contains("depth = 60 x - 6 x^2;  speed = 60 - 12 x"));
}

#[test]
fn a_formula_is_stored() {
    let folder = folder("formula_stored");
    let list = path(&folder.join("parabola.list"));
    let said = dive(["assemble", "-e", PARABOLA, "-o", &list]).done();
    assert!(said.ends_with("9 records of 216 bytes\n"), "{said}");
    assert_eq!(
        dive(["text", &list]).done(),
        dive(["text", "-e", PARABOLA]).done()
    );
}

#[test]
fn a_file_holds_a_formula_or_steps() {
    let folder = folder("formula_files");
    let file = path(&folder.join("a.txt"));
    let read = |text: &str| {
        fs::write(&file, text).expect("a file");
        dive(["text", &file])
    };
    let parabola = "\u{feff}# a dive\r\n60 x\r\n − 6 x² # up again\r\n";
    assert_eq!(read(parabola).done(), dive(["text", "-e", PARABOLA]).done());
    assert_eq!(read("").done(), "");
    assert_eq!(read("# nothing\n").done(), "");
    assert_eq!(read("x").done(), "");
    assert_eq!(read("Dup, Mul").done(), "Dup\nMul\n");
    assert_eq!(read("(3)").done(), "Pop\npush 3\n");
    for numbers in ["3", "-0.5 # metres", "3, 4", "inf"] {
        let said = read(numbers).failed(1);
        assert!(
            said.contains("numbers alone") && said.contains("push 3"),
            "{said}"
        );
    }
    let said = read("push 3, x").failed(1);
    assert!(said.contains(":1:9: there is no step `x`"), "{said}");
    let said = read("60 x\n - 6 y").failed(1);
    assert!(
        said.contains(":2:6: there is no `y` in a formula"),
        "{said}"
    );
    let said = read("dup").failed(1);
    assert!(said.contains("or is the step `Dup` meant?"), "{said}");
}

#[test]
fn a_mistake_is_underlined_and_nothing_is_written() {
    let folder = folder("formula_mistakes");
    let out = folder.join("out");
    for (formula, column, said) in [
        ("60 x - 1/2 x", 12, "(1/2) x or 1/(2 x)"),
        ("60 x - ", 7, "something is missing here"),
        ("60 x - 6 z^2", 10, "the only letter in it is x"),
        ("(60 x", 1, "a ) is missing"),
        ("60 x - sinx", 8, "is `sin(x)` meant?"),
        ("2 √x", 3, "a root is written sqrt(x)"),
        ("1e999 x", 1, "too large"),
        ("", 1, "there is no formula"),
    ] {
        let found = dive(["assemble", "-e", formula, "-o", &path(&out)]).failed(1);
        let place = format!("formula:1:{column}: ");
        assert!(found.contains(&place) && found.contains(said), "{found}");
        let mark = found.lines().last().expect("a mark");
        assert_eq!(mark.find('^'), Some(5 + column), "{found}");
        assert!(!out.exists(), "{formula}");
    }
}

#[test]
fn a_refusal_is_shown_in_the_formula() {
    let said = dive(["run", "-e", "60 x + sin(x)", "1"]).failed(1);
    assert!(
        said.contains("  1 | 60 x + sin(x)\n    |        ^^^\n"),
        "{said}"
    );
    let said = dive(["read", "-e", "2 sin(x)"]).failed(1);
    assert!(
        said.contains("formula: reading it is refused: TooComplex (7)"),
        "{said}"
    );
}

#[test]
fn long_formulas_are_refused() {
    let folder = folder("formula_long");
    let file = path(&folder.join("a.txt"));
    for text in [
        "(".repeat(1_000_000),
        "x+".repeat(1_000_000),
        "x".repeat(1_000_000),
    ] {
        fs::write(&file, text).expect("a file");
        let said = dive(["show", &file]).failed(1);
        assert!(said.chars().count() < 1000, "{said}");
    }
    let steps = "x".to_string() + &" - 1".repeat(1024);
    assert_eq!(dive(["text", "-e", &steps]).done().lines().count(), 2048);
    let said = dive(["text", "-e", &(steps + " - 1")]).failed(1);
    assert!(said.contains("more than 2048 steps"), "{said}");
}
