//! The commands on the sample formulas.

mod common;

use std::{fs, path::Path};

use common::{dive, folder, line, root};
use uplink::{Primitive, Record};

fn path(file: &Path) -> String {
    file.to_str().expect("a name in UTF-8").into()
}

#[test]
fn a_list_is_shown() {
    let shown = line("show samples/on.txt").done();
    assert!(shown.contains("    0  On "), "{shown}");
    assert!(
        shown.contains("    1    body of 1 argument\n    2      push 3\n"),
        "{shown}"
    );
    assert!(shown.contains("   14  Add "), "{shown}");
}

#[test]
fn a_formula_is_read() {
    let read = line("read samples/cubic.txt").done();
    let top = "72 x - 12 x^2 + 0.5 x^3\n10 pairs multiplied\n\n";
    assert!(read.starts_with(top), "{read}");
    assert!(read.contains("\nx^2   -12\n"), "{read}");
}

/// The pairs under the formula, and everything else the same.
#[test]
fn a_formula_is_dear_or_cheap() {
    let lines = |sample: &str| {
        let read = line(&format!("read samples/{sample}.txt")).done();
        read.lines().map(String::from).collect::<Vec<_>>()
    };
    let (mut dear, mut cheap) = (lines("dear"), lines("cheap"));
    assert_eq!(dear.remove(1), "151 pairs multiplied");
    assert_eq!(cheap.remove(1), "87 pairs multiplied");
    assert_eq!(dear, cheap);
    let table = |sample| line(&format!("table samples/{sample}.txt 0 24 3")).done();
    assert_eq!(table("dear"), table("cheap"));
    let help = line("help read").done();
    for words in [
        "a times b pairs",
        "n times n pairs",
        "# 151 pairs",
        "# 87 pairs",
    ] {
        assert!(help.contains(words), "{words}");
    }
}

#[test]
fn pairs_of_every_count() {
    let folder = folder("pairs_of_every_count");
    let list = path(&folder.join("list.txt"));
    for (words, pairs) in [
        ("", "0 pairs"),
        ("Dup, Mul", "1 pair"),
        ("push 3, Pow", "2 pairs"),
        ("push 1, Add, push 63, Pow", "4,030 pairs"),
        ("Pop, push 5, Exp2", "0 pairs"),
        ("Both {0: push 2, Mul }", "2 pairs"),
    ] {
        fs::write(&list, words).expect("a file");
        let read = line(&format!("read {list}")).done();
        let second = read.lines().nth(1);
        assert_eq!(second, Some(&format!("{pairs} multiplied")[..]), "{read}");
    }
    fs::write(&list, "push 1, Add, push 64, Pow").expect("a file");
    assert!(!line(&format!("read {list}"))
        .failed(1)
        .contains("multiplied"));
}

#[test]
fn forms_of_one_formula_are_read_alike() {
    assert_eq!(
        line("read samples/fork.txt").done(),
        line("read samples/parabola.txt").done()
    );
}

#[test]
fn a_derivative_is_a_formula_and_a_list() {
    let made = line("derivative samples/parabola.txt").done();
    assert!(made.starts_with("60 - 12 x\n\nplace  record\n"), "{made}");
    assert!(made.contains("push -12"), "{made}");
    let made = line("integral samples/parabola.txt").done();
    assert!(made.starts_with("30 x^2 - 2 x^3\n"), "{made}");
}

#[test]
fn an_inverse_is_a_list() {
    let made = line("inverse samples/parabola.txt").done();
    assert!(made.contains("Sqrt"), "{made}");
}

#[test]
fn results_are_written_as_bytes() {
    let folder = folder("bytes");
    let (speed, sum) = (
        path(&folder.join("speed.list")),
        path(&folder.join("depth.sum")),
    );
    assert_eq!(
        line(&format!("derivative samples/parabola.txt -o {speed}")).done(),
        ""
    );
    assert_eq!(
        line(&format!("run {speed} 0")).done(),
        "value  60\nsteps  9\npeak   3\n"
    );
    assert_eq!(
        line(&format!("read samples/parabola.txt -o {sum}")).done(),
        ""
    );
    assert_eq!(fs::read(&sum).expect("a sum").len(), 64);
}

#[test]
fn text_and_records_go_round() {
    let folder = folder("round");
    for sample in fs::read_dir(root().join("samples")).expect("samples") {
        let sample = sample.expect("a sample").path();
        if sample
            .extension()
            .is_none_or(|extension| extension != "txt")
        {
            continue;
        }
        let (sample, one) = (path(&sample), path(&folder.join("one.list")));
        let (text, other) = (
            path(&folder.join("text.txt")),
            path(&folder.join("other.list")),
        );
        dive(["assemble", &sample, "-o", &one]).done();
        dive(["text", &one, "-o", &text]).done();
        assert_eq!(
            fs::read_to_string(&text).expect("a text"),
            dive(["text", &sample]).done()
        );
        dive(["assemble", &text, "-o", &other]).done();
        assert_eq!(
            fs::read(&one).expect("a list"),
            fs::read(&other).expect("a list"),
            "{sample}"
        );
    }
}

#[test]
fn depth_and_speed_stand_in_a_table() {
    let table = line("table samples/parabola.txt 0 10 2.5").done();
    let expected = "   minutes     depth (m)   speed (m/min)
       0.0          0.00           60.00
       2.5        112.50           30.00
       5.0        150.00            0.00
       7.5        112.50          -30.00
      10.0          0.00          -60.00
";
    assert_eq!(table, expected);
    let csv = line("table samples/cubic.txt 0 0.2 0.1 --csv").done();
    assert_eq!(csv.lines().next(), Some("minutes,depth_m,speed_m_per_min"));
    assert_eq!(csv.lines().count(), 4);
}

#[test]
fn every_dive_that_can_be_run_starts_and_ends_at_the_surface() {
    for (sample, minutes) in [
        ("parabola", 10.0),
        ("cubic", 12.0),
        ("fit", 20.0),
        ("on", 12.0),
    ] {
        for minute in [0.0, minutes] {
            let ran = line(&format!("run samples/{sample}.txt {minute}")).done();
            let value = ran
                .lines()
                .next()
                .and_then(|line| line.strip_prefix("value  "));
            let depth: f64 = value.and_then(|value| value.parse().ok()).expect("a value");
            assert!(depth.abs() < 0.01, "{sample} at {minute}: {depth}");
        }
    }
}

#[test]
fn a_plot_is_a_picture() {
    let out = path(&folder("plot").join("fit.svg"));
    let said = line(&format!("plot samples/fit.txt 0 20 0.25 -o {out}")).done();
    assert!(said.contains("81 points from 0 to 20 minutes"), "{said}");
    let picture = fs::read_to_string(&out).expect("a picture");
    assert!(picture.starts_with("<svg ") && picture.ends_with("</svg>\n"));
    assert_eq!(picture.matches("<polyline").count(), 2);
    assert!(picture.contains("depth = 95.7699 x - 18.70194 x^2"));
}

#[test]
fn the_drag_formula_is_derived_and_its_speed_is_run() {
    let made = line("derivative samples/drag.txt").done();
    assert!(made.starts_with("48 - 18 x^0.5\n"), "{made}");
    assert!(made.contains("Sqrt"), "{made}");
    let ended = line("table samples/drag.txt 0 16 4");
    assert_eq!(ended.code, 0, "{ended:?}");
    assert!(
        ended
            .printed
            .contains("       4             -           12.00\n"),
        "{ended:?}"
    );
    let said = ended.remarked;
    assert!(said.contains("the depth is left out at 5 of 5 minutes. samples/drag.txt: its run at x = 0 is refused: NeedsMath (14) at record 2, Pow\n"), "{said}");
    assert!(said.contains("Dup, push 1.5, Pow"), "{said}");
    assert!(said.contains("can be run as Dup, Sqrt, Mul"), "{said}");
    assert!(!said.contains("the speed is left out"), "{said}");
    let picture = path(&folder("drag").join("drag.svg"));
    line(&format!("plot samples/drag.txt 0 16 1 -o {picture}")).done();
    let picture = fs::read_to_string(picture).expect("a picture");
    assert_eq!(picture.matches("<polyline").count(), 1);
}

#[test]
fn a_root_is_run() {
    let ended = line("table samples/root.txt 0 16 4");
    assert_eq!(ended.remarked, "");
    let table = ended.done();
    assert!(
        table.contains("       4         96.00           12.00\n"),
        "{table}"
    );
    assert_eq!(
        line("derivative samples/root.txt").done(),
        line("derivative samples/drag.txt").done()
    );
    let ended = line("table samples/root.txt -1 1 1");
    assert!(
        ended
            .printed
            .contains("      -1             -               -\n"),
        "{ended:?}"
    );
    assert!(
        ended
            .remarked
            .contains("the depth is left out at 1 of 3 minutes"),
        "{ended:?}"
    );
    assert!(
        ended.remarked.contains("the root of a number below zero"),
        "{ended:?}"
    );
    assert!(
        ended
            .remarked
            .contains("the speed is left out at 1 of 3 minutes"),
        "{ended:?}"
    );
}

#[test]
fn a_power_nought_is_remarked_where_it_is_read() {
    let file = path(&folder("nought").join("nought.txt"));
    for zero in ["0", "-0"] {
        fs::write(&file, format!("Dup, push {zero}, Pow, Mul\n")).expect("a file");
        for command in [
            format!("show {file}"),
            format!("read {file}"),
            format!("derivative {file}"),
            format!("table {file} 0 2 1"),
        ] {
            let ended = line(&command);
            assert_eq!(ended.code, 0, "{ended:?}");
            let said = ended.remarked;
            assert!(said.contains("record 2 raises to the power 0"), "{said}");
            assert!(said.contains("gives 1 where the list is run"), "{said}");
            assert!(said.contains("depth and speed may not belong"), "{said}");
        }
        // it runs as x, and reads as 0 x
        assert!(line(&format!("run {file} 7"))
            .done()
            .starts_with("value  7\n"));
        assert!(line(&format!("read {file}")).done().starts_with("0 x\n"));
    }
    assert_eq!(line("show samples/cubic.txt").remarked, "");
    assert!(line("help run").done().contains("1 for the power 0"));
}

#[test]
fn a_runaway_power_is_told_from_a_runaway_coefficient() {
    let file = path(&folder("runaway").join("runaway.txt"));
    for (steps, named, mend) in [
        (
            "push -1e308, Pow, Dup, Mul",
            "PowerNotFinite (18) at record 3, Mul",
            "Mend the exponents",
        ),
        (
            "push -1e308, Pow, push 1e200, Mul, Dup, Mul",
            "PowerNotFinite (18) at record 5, Mul",
            "Mend the exponents",
        ),
        (
            "push 1e308, Mul, push 10, Mul",
            "NotFinite (15) at record 3, Mul",
            "Mend the weights",
        ),
    ] {
        fs::write(&file, steps).expect("a file");
        for command in ["read", "derivative", "integral", "inverse"] {
            let said = line(&format!("{command} {file}")).failed(1);
            assert!(said.contains(named) && said.contains(mend), "{said}");
        }
    }
    // read, and refused where it is derived: of no record
    fs::write(&file, "push -1e308, Pow, push 1, Add, Reciprocal").expect("a file");
    let said = line(&format!("derivative {file}")).failed(1);
    assert!(said.contains("refused: PowerNotFinite (18)\n"), "{said}");
    assert!(said.contains("mend the exponents"), "{said}");
}

#[test]
fn a_modifier_that_is_not_run_is_explained() {
    let said = line("run samples/fork.txt 1").failed(1);
    assert!(
        said.contains("NotSupported (2) at record 0, Fork"),
        "{said}"
    );
    assert!(
        said.contains("`dive write` writes the same formula"),
        "{said}"
    );
    let anew = path(&folder("anew").join("fork.list"));
    line(&format!("write samples/fork.txt -o {anew}")).done();
    let table = line(&format!("table {anew} 0 10 1")).done();
    assert_eq!(table, line("table samples/parabola.txt 0 10 1").done());
}

#[test]
fn an_unfinished_list_is_explained() {
    for command in ["read", "derivative", "integral"] {
        let said = line(&format!("{command} samples/unfinished.txt")).failed(1);
        assert!(
            said.contains("TooManyOutputs (4)\nSeveral values are left"),
            "{said}"
        );
    }
}

#[test]
fn a_refusal_points_at_its_line() {
    let file = folder("points").join("a.txt");
    fs::write(&file, "Dup\nAdd, Add # one too many\n").expect("a file");
    let said = line(&format!("read {}", path(&file))).failed(1);
    assert!(said.contains("TooManyVariables (1) at record 2, Add\n  2 | Add, Add # one too many\n    |      ^^^\n"), "{said}");
}

#[test]
fn a_mistake_in_the_text_is_shown_in_its_place() {
    let folder = folder("mistake");
    let (file, out) = (path(&folder.join("a.txt")), path(&folder.join("a.list")));
    fs::write(&file, "Dup\n  Poww\n").expect("a file");
    for words in [
        format!("assemble {file} -o {out}"),
        format!("read {file}"),
        format!("show {file}"),
    ] {
        let said = line(&words).failed(1);
        assert!(
            said.contains("a.txt:2:3: there is no step `Poww`; is `Pow` meant?\n  2 |   Poww\n"),
            "{said}"
        );
    }
    assert!(!Path::new(&out).exists());
}

#[test]
fn bytes_that_are_no_list_are_explained() {
    let file = path(&folder("bytes_no_list").join("a.list"));
    let cases: [(Vec<u8>, &str); 4] = [
        (
            vec![0; 25],
            "25 bytes are no whole number of 24: 1 are left over",
        ),
        (
            vec![0; 24],
            "Record 0 has kind 0, and there is no such kind.",
        ),
        (
            Record::Run { inside: 1 }.to_bytes().to_vec(),
            "What lies inside record 0 reaches too far",
        ),
        (
            Record::Body {
                arguments: 1,
                inside: 0,
            }
            .to_bytes()
            .to_vec(),
            "Record 0 is a body",
        ),
    ];
    for (bytes, sentence) in cases {
        fs::write(&file, bytes).expect("a file");
        for command in ["show", "text", "read", "derivative", "inverse", "write"] {
            let said = line(&format!("{command} {file}")).failed(1);
            assert!(
                said.contains("BadRecord (11)") && said.contains(sentence),
                "{command}: {said}"
            );
        }
    }
}

#[test]
fn minutes_without_a_value_are_left_out() {
    let file = path(&folder("gaps").join("a.txt"));
    fs::write(&file, "push 1, Add, Reciprocal").expect("a file");
    let ended = line(&format!("table {file} -1 0 1"));
    assert!(
        ended
            .remarked
            .contains("the depth is left out at 1 of 2 minutes, where it isn't finite"),
        "{}",
        ended.remarked
    );
    assert!(
        ended.remarked.contains("departs from calculus"),
        "{}",
        ended.remarked
    );
    assert!(ended
        .done()
        .contains("        -1             -               -\n"));
}

/// The records of a list of steps, as they are printed.
fn steps(printed: &str) -> Vec<String> {
    let lines = printed
        .lines()
        .skip_while(|line| !line.starts_with("place"));
    lines
        .skip(1)
        .map(|line| line.split("  ").nth(3).unwrap_or_default().trim().into())
        .collect()
}

#[test]
fn lists_mean_what_the_formula_says() {
    let ended = line("derivative samples/swell.txt");
    assert_eq!(ended.remarked, "");
    let printed = ended.done();
    assert!(printed.starts_with("60 - 12 x + cos(x)\n"), "{printed}");
    let file = path(&folder("faithful").join("a.txt"));
    for (text, command, says, list) in [
        (
            "Dup, Dup, Mul, Flip, Sin, Add",
            "derivative",
            "2 x + cos(x)",
            "On { push 2, Mul }, Identity, Cos, Add",
        ),
        (
            "Cos, Not",
            "integral",
            "x - sin(x)",
            "Dup, Identity, Sin, push -1, Mul, Add",
        ),
        (
            "Dup, Sin, Add",
            "write",
            "x + sin(x)",
            "Dup, Identity, Sin, Add",
        ),
    ] {
        fs::write(&file, text).expect("a file");
        let ended = line(&format!("{command} {file}"));
        assert_eq!(ended.remarked, "", "{command}");
        assert!(ended.done().starts_with(says));
        let out = path(&folder("faithful_out").join("a.list"));
        line(&format!("{command} {file} -o {out}")).done();
        let written = line(&format!("text {out}")).done();
        let expected = path(&folder("faithful_expected").join("b.txt"));
        fs::write(&expected, list).expect("a file");
        assert_eq!(written, line(&format!("text {expected}")).done());
    }
}

#[test]
fn the_rusts_list_computes_another_formula() {
    let file = path(&folder("departs").join("a.txt"));
    for (text, command, computed) in [
        ("Dup, Sin, Add", "derivative", "1 + 0 x + cos(2 x)"),
        (
            "Dup, Dup, Mul, Flip, Sin, Add",
            "derivative",
            "2 x + cos(2 x)",
        ),
        // a function times a number is written, and not read
        ("Cos, Not", "integral", ""),
        ("Dup, Sin, Add", "write", "x + sin(2 x)"),
    ] {
        fs::write(&file, text).expect("a file");
        let plain = line(&format!("{command} {file}")).done();
        let ended = line(&format!("{command} {file} --as-rust"));
        let colon = if computed.is_empty() { "" } else { ": " };
        let said = format!("the Rust's list computes another formula{colon}{computed} (");
        assert!(ended.remarked.contains(&said), "{}", ended.remarked);
        let printed = ended.done();
        // the formula is the same, and the list is another
        assert_eq!(printed.lines().next(), plain.lines().next());
        assert_ne!(steps(&printed), steps(&plain));
    }
}

#[test]
fn of_powers_both_writers_write_the_same() {
    for sample in [
        "parabola", "cubic", "fit", "on", "fork", "drag", "root", "nought", "turn", "dear", "cheap",
    ] {
        for command in ["derivative", "integral", "write"] {
            let plain = line(&format!("{command} samples/{sample}.txt"));
            let rusts = line(&format!("{command} samples/{sample}.txt --as-rust"));
            assert_eq!(plain.remarked, rusts.remarked, "{command} {sample}");
            assert_eq!(plain.done(), rusts.done(), "{command} {sample}");
        }
    }
}

/// x + 1/(x + 1) has a speed that can be run, and the Rust's list of it is another one.
#[test]
fn a_table_runs_the_list_that_means_what_the_formula_says() {
    let folder = folder("speed");
    let (file, rusts) = (path(&folder.join("a.txt")), path(&folder.join("b.list")));
    fs::write(&file, "Dup, push 1, Add, Reciprocal, Add").expect("a file");
    let table = line(&format!("table {file} 1 1 1")).done();
    assert!(
        table.ends_with("         1          1.50            1.25\n"),
        "{table}"
    );
    let faithful = path(&folder.join("c.list"));
    line(&format!("derivative {file} -o {faithful}")).done();
    assert!(line(&format!("run {faithful} 1"))
        .done()
        .starts_with("value  1.25\n"));
    line(&format!("derivative {file} --as-rust -o {rusts}")).done();
    assert!(!line(&format!("run {rusts} 1"))
        .done()
        .starts_with("value  1.25\n"));
}

#[test]
fn help_tells_why_there_are_two_writers() {
    assert!(line("help").done().contains("dive help writers"));
    let help = line("help writers").done();
    assert!(
        help.contains("the Rust's list computes 2 x + cos 2x"),
        "{help}"
    );
    for command in ["derivative", "integral", "write"] {
        let help = line(&format!("help {command}")).done();
        assert!(help
            .lines()
            .next()
            .is_some_and(|usage| usage.contains("[--as-rust]")));
        assert!(help.contains("dive help writers"), "{help}");
    }
    assert!(line("help table")
        .done()
        .contains("`dive derivative` prints"));
    let said = line("read samples/fit.txt --as-rust").failed(2);
    assert!(said.contains("takes no --as-rust"), "{said}");
}

#[test]
fn the_file_that_was_read_is_not_written_over() {
    let file = path(&folder("over").join("a.txt"));
    fs::write(&file, "Dup, Mul").expect("a file");
    assert!(line(&format!("assemble {file} -o {file}"))
        .failed(2)
        .contains("is the file that was read"));
    assert_eq!(fs::read(&file).expect("a file"), b"Dup, Mul");
}

#[test]
fn wrong_usage_has_its_own_exit_code() {
    assert!(line("").failed(2).contains("no command"));
    assert!(line("derivate samples/fit.txt")
        .failed(2)
        .contains("is `derivative` meant?"));
    assert!(line("read samples/nowhere.txt")
        .failed(2)
        .contains("can't be read"));
    assert!(line("run samples/fit.txt x")
        .failed(2)
        .contains("`x` is no number"));
    assert!(line("help").done().contains("dive plot FILE"));
    assert!(line("help plot").done().contains("SVG"));
}

#[test]
fn every_refusal_is_met_and_named() {
    let file = path(&folder("refusals").join("a.txt"));
    let (deep, wide) = ("Sin ".repeat(5), "push 1, Add, push 64, Pow".to_string());
    let cases = [
        ("read", "Flip", "TooManyVariables (1)"),
        ("read", "Obverse", "NotSupported (2)"),
        ("read", "Pop", "NoOutput (3)"),
        ("read", "Dup", "TooManyOutputs (4)"),
        ("read", "ArrayPush", "NonScalar (5)"),
        ("read", "OtherPush", "NonReal (6)"),
        ("read", "Sin, Dup, Mul", "TooComplex (7)"),
        ("read", "On", "InterpreterBug (8)"),
        ("read", "NoNormal", "NoInverse (9)"),
        ("inverse", "push 5, Add", "NotHandled (10)"),
        ("read", &wide, "NoRoom (12)"),
        ("read", &deep, "TooDeep (13)"),
        ("read", "push 4, Mul, Sqrt", "NeedsMath (14)"),
        ("read", "push inf, Add", "NotFinite (15)"),
        ("read", "push 65, Pow", "BigPower (16)"),
    ];
    for (command, text, name) in cases {
        fs::write(&file, text).expect("a file");
        let said = line(&format!("{command} {file}")).failed(1);
        assert!(said.contains(name), "{text}: {said}");
        assert!(said.trim_end().ends_with('.'), "{said}");
    }
}

#[test]
fn records_and_text_give_the_same_answers() {
    let list = path(&folder("same").join("a.list"));
    let records = [
        Primitive::Dup.into(),
        Record::RealPush(3.0),
        Primitive::Pow.into(),
        Primitive::Add.into(),
    ];
    fs::write(&list, uplink::encode_list(&records)).expect("a file");
    assert!(line(&format!("read {list}"))
        .done()
        .starts_with("x + x^3\n"));
    let derivative = line(&format!("derivative {list}")).done();
    assert_eq!(derivative.lines().count(), 2 + 1 + 11);
    assert_eq!(
        line(&format!("run {list} 2")).done(),
        "value  10\nsteps  4\npeak   3\n"
    );
}
