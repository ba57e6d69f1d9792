//! The runner that is written from the paper's text, on the paper's lists and
//! on each of its rules.

use oracle::{
    Refusal, judge,
    runner::{self, Ran},
    text,
};

fn run(words: &str, x: f64) -> Result<Ran, Refusal> {
    runner::run(&text::list(words), x)
}

#[track_caller]
fn gives(words: &str, x: f64, value: f64, steps: usize, peak: usize) {
    let ran = run(words, x).expect("a value");
    assert_eq!(ran.value.to_bits(), value.to_bits(), "{words} at {x}");
    assert_eq!((ran.steps, ran.peak), (steps, peak), "{words} at {x}");
}

#[track_caller]
fn refuses(words: &str, x: f64, number: u8, place: usize) {
    assert_eq!(
        run(words, x),
        Err(Refusal { number, place }),
        "{words} at {x}"
    );
}

/// The value of the derivative of a list.
fn speed(words: &str, x: f64) -> Ran {
    let list = judge::derivative(&text::list(words)).done().expect("done");
    runner::run(&list, x).expect("a value")
}

#[test]
fn lists_to_try() {
    gives("", 2.0, 2.0, 0, 1);
    gives("Dup Mul", 3.0, 9.0, 2, 2);
    gives("push 3, Pow", 2.0, 8.0, 2, 2);
    gives("push 0, Pow", 2.0, 1.0, 2, 2);
    refuses("Pop", 2.0, 3, 0);
    refuses("Dup", 2.0, 4, 0);
    refuses("Flip", 2.0, 1, 0);
    let ran = |value, steps, peak| Ran { value, steps, peak };
    assert_eq!(speed("", 2.0), ran(1.0, 4, 2));
    assert_eq!(speed("Dup Mul", 2.0), ran(4.0, 2, 2));
    assert_eq!(speed("push 3, Pow", 2.0), ran(12.0, 4, 2));
    assert_eq!(speed("Dup, push 3, Pow, Add", 2.0), ran(13.0, 11, 3));
    assert_eq!(speed("push 0, Pow", 2.0), ran(0.0, 2, 2));
}

#[test]
fn powers_from_0_to_64() {
    gives("push 64, Pow", 2.0, 2f64.powi(64), 2, 2);
    gives("push 1, Pow", 7.0, 7.0, 2, 2);
    gives("push -0, Pow", 7.0, 1.0, 2, 2);
    for power in ["65", "-1", "0.5", "2^53", "1e308"] {
        refuses(&format!("push {power}, Pow"), 2.0, 14, 1);
    }
    refuses("push 64, Pow", 1e5, 15, 1);
    refuses("push 0.5, Flip, Pow, Pow", 2.0, 1, 3);
}

/// Anything to the power nought is 1, whatever is raised and wherever it lies.
#[test]
fn powers_of_nought() {
    for power in ["0", "-0"] {
        let pow = format!("push {power}, Pow");
        for base in [0.0, -0.0, 5e-324, -5e-324, -7.0, -0.5, 1.0, 1e308, -1e308] {
            gives(&pow, base, 1.0, 2, 2);
            gives(&format!("Pop {base:e} {pow}"), 2.0, 1.0, 4, 2);
        }
        gives(&format!("On(1: {pow}) Add"), 5.0, 6.0, 5, 3);
        gives(&format!("Run({pow})"), 5.0, 1.0, 3, 2);
        gives(&format!("Dup {pow} Mul"), -0.0, -0.0, 4, 3);
        let below = |count: usize| "Dup ".repeat(count) + &pow + &" Pop".repeat(count);
        gives(&below(254), 5.0, 5.0, 254 + 2 + 254, 256);
        refuses(&below(255), 5.0, 12, 255);
        refuses(&format!("Pop {pow}"), 5.0, 1, 2);
        refuses(&pow, f64::NAN, 15, 0);
    }
    refuses("push 5e-324, Pow", 2.0, 14, 1);
    refuses("push -5e-324, Pow", 2.0, 14, 1);
}

/// The root is the nearest number; zeros keep their sign, and below zero there is none.
#[test]
fn roots() {
    gives("Sqrt", 4.0, 2.0, 1, 1);
    gives("Sqrt", 2.0, std::f64::consts::SQRT_2, 1, 1);
    gives("Sqrt", 0.0, 0.0, 1, 1);
    gives("Sqrt", -0.0, -0.0, 1, 1);
    // the root of the smallest number, 2^-1074, is 2^-537
    gives("Sqrt", 5e-324, f64::from_bits((1023 - 537) << 52), 1, 1);
    gives("Sqrt", f64::MAX, 1.3407807929942596e154, 1, 1);
    gives("Dup, Sqrt, Mul", 2.25, 3.375, 3, 2);
    gives("On(1: Sqrt) Mul", 2.25, 3.375, 4, 2);
    refuses("Sqrt", -5e-324, 14, 0);
    refuses("Neg Sqrt", 1.0, 14, 1);
    refuses("Pop Sqrt", 1.0, 1, 1);
    refuses("push 0.5, Pow", 4.0, 14, 1);
    refuses("push 2, Root", 4.0, 14, 1);
    refuses("Sqrt", f64::INFINITY, 15, 0);
    // a drag formula's derivative: 1.5 times the root of x
    let list = judge::derivative(&text::list("push 1.5, Pow")).done();
    let list = list.expect("done");
    let ran = |x: f64| runner::run(&list, x);
    assert_eq!(ran(2.25).expect("a value").value, 2.25);
    assert_eq!(ran(0.0).expect("a value").value, 0.0);
    assert!(ran(-0.0).expect("a value").value.is_sign_negative());
    assert_eq!(ran(-1.0), Err(Refusal::new(14, 0)));
}

#[test]
fn each_primitive() {
    gives("Identity", -0.0, -0.0, 1, 1);
    gives("Neg", 0.0, -0.0, 1, 1);
    gives("Not", 3.0, -2.0, 1, 1);
    gives("push 5, Sub", 2.0, -3.0, 2, 2);
    gives("push 5, Flip, Sub", 2.0, 3.0, 3, 2);
    gives("push 8, Div", 2.0, 0.25, 2, 2);
    gives("Reciprocal", 4.0, 0.25, 1, 1);
    gives("push 5, Over, Add, Add", 2.0, 9.0, 4, 3);
    gives("push 1, Pop", 2.0, 2.0, 2, 2);
    refuses("Reciprocal", 0.0, 15, 0);
    refuses("push 0, Div", 0.0, 15, 1);
    refuses("push 1e308, Mul", 1e308, 15, 1);
}

#[test]
fn what_it_lacks_and_what_isnt_supported() {
    for name in [
        "Exp", "Sin", "Cos", "Max", "SinH", "CosH", "Exp2", "Exp10", "Log", "Ln", "Log2", "Log10",
        "Root",
    ] {
        refuses(&format!("Pop {name}"), 2.0, 14, 1);
    }
    refuses("Pop Complex", 2.0, 6, 1);
    refuses("push 0;nan", 2.0, 6, 0);
    refuses("Other", 2.0, 6, 0);
    refuses("Array", 2.0, 5, 0);
    for words in ["Custom()", "Obverse", "NoNormal", "Under", "Else"] {
        refuses(words, 2.0, 2, 0);
    }
    for words in [
        "Dip(1:)",
        "Gap",
        "By(1:)(1:)",
        "Both(0:)",
        "Fork",
        "Bracket",
    ] {
        refuses(words, 2.0, 2, 0);
    }
    let unlisted = [5u8, 40, 0, 0]
        .into_iter()
        .chain([0; 20])
        .collect::<Vec<u8>>();
    assert_eq!(runner::run(&unlisted, 2.0), Err(Refusal::new(2, 0)));
}

#[test]
fn on_holds_a_copy() {
    gives("On(1: push 2, Mul) Add", 5.0, 15.0, 5, 3);
    gives("On(7:) Mul", 5.0, 25.0, 3, 2);
    gives("Run(Run(Neg))", 5.0, -5.0, 3, 1);
    refuses("On", 5.0, 8, 0);
    refuses("Pop On(1:)(1:)", 5.0, 8, 1);
    refuses("Pop On(1:)", 5.0, 1, 1);
    refuses("On(1: Sin)", 5.0, 14, 2);
    refuses("On(1: Pop Pop)", 5.0, 1, 3);
}

#[test]
fn at_most_256_values() {
    let dups = |count: usize| "Dup ".repeat(count) + &"Pop ".repeat(count);
    gives(&dups(255), 2.0, 2.0, 510, 256);
    refuses(&dups(256), 2.0, 12, 255);
    let held = |count: usize, top: &str| "Dup ".repeat(count) + top + &" Pop".repeat(count);
    gives(&held(254, "On(1: Pop)"), 2.0, 2.0, 254 + 3 + 254, 256);
    refuses(&held(255, "On(1: Pop)"), 2.0, 12, 255);
    refuses(&held(254, "On(1: Dup)"), 2.0, 12, 256);
    refuses(&held(255, "push inf"), 2.0, 15, 255);
    refuses(&held(255, "push 1"), 2.0, 12, 255);
}

#[test]
fn the_order_of_refusals() {
    let nested = |levels: usize| "Run(".repeat(levels) + "Neg" + &")".repeat(levels);
    gives(&nested(128), 2.0, -2.0, 129, 1);
    refuses(&nested(129), f64::NAN, 13, 0);
    refuses("Pop Pop", f64::INFINITY, 15, 0);
    assert_eq!(runner::run(&[0; 23], f64::NAN), Err(Refusal::whole(11)));
    refuses("Sin", -f64::INFINITY, 15, 0);
}
