//! The paper's rules where it leaves room, as the guard and the validator hold
//! them: which number, which place, and which of two refusals comes first.

use oracle::{
    Answer, Complex, Refusal, judge,
    random::Random,
    records::{RECORD, Record, bytes_of, kind},
    text,
};

fn read(words: &str) -> Answer<oracle::ReadSum> {
    judge::read(&text::list(words))
}

#[track_caller]
fn limit<T: std::fmt::Debug + PartialEq>(answer: Answer<T>, number: u8, place: usize) {
    assert_eq!(answer, Answer::Limit(Refusal { number, place }));
}

#[track_caller]
fn rust<T: std::fmt::Debug + PartialEq>(answer: Answer<T>, number: u8, place: usize) {
    assert_eq!(answer, Answer::Rust(Err(Refusal { number, place })));
}

#[track_caller]
fn malformed<T: std::fmt::Debug + PartialEq>(answer: Answer<T>, number: u8) {
    assert_eq!(answer, Answer::Form(Refusal::whole(number)));
}

/// One entry's bytes.
fn entry(kind: u8, inside: u32, number: f64, coef: Complex) -> Vec<u8> {
    let mut bytes = vec![kind, 0, 0, 0];
    bytes.extend(inside.to_le_bytes());
    for number in [number, coef.re, coef.im] {
        bytes.extend(number.to_le_bytes());
    }
    bytes
}

fn x(power: f64) -> Vec<u8> {
    entry(1, 0, power, Complex::ONE)
}

fn sin(inside: &[u8]) -> Vec<u8> {
    let count = (inside.len() / 32) as u32;
    [entry(5, count, 0.0, Complex::ONE), inside.to_vec()].concat()
}

#[test]
fn insides_count_nested_records_too() {
    let run = |inside| Record {
        inside,
        ..Record::of(kind::RUN)
    };
    let good = [run(2), run(1), Record::primitive(5)];
    assert!(judge::read(&bytes_of(&good)).done().is_some());
    malformed(
        judge::read(&bytes_of(&[run(1), run(1), Record::primitive(5)])),
        11,
    );
}

#[test]
fn unused_fields_are_zero_bits() {
    let minus_zero = Record {
        im: (-0.0f64).to_bits(),
        ..Record::real(1.0)
    };
    malformed(judge::read(&bytes_of(&[minus_zero])), 11);
    for code in 0..=255 {
        let read = judge::read(&bytes_of(&[Record::primitive(code)]));
        assert!(matches!(read, Answer::Rust(_)), "{code}");
    }
    // Unlisted codes, and those that are only written.
    for code in [0, 18, 19, 20, 21, 31, 39, 40, 65, 255] {
        rust(judge::read(&bytes_of(&[Record::primitive(code)])), 2, 0);
    }
}

#[test]
fn bodies_stand_in_modifiers_alone() {
    let body = Record {
        arguments: 1,
        ..Record::of(kind::BODY)
    };
    let modifier = |inside| Record {
        code: 3,
        inside,
        ..Record::of(kind::MODIFIER)
    };
    malformed(judge::read(&bytes_of(&[body])), 11);
    malformed(
        judge::read(&bytes_of(&[modifier(1), Record::primitive(5)])),
        11,
    );
    assert!(matches!(
        judge::read(&bytes_of(&[modifier(1), body])),
        Answer::Rust(_)
    ));
    rust(judge::read(&bytes_of(&[modifier(0)])), 8, 0);
}

#[test]
fn a_pushed_number_is_tested_when_it_is_pushed() {
    limit(read("1 Add inf Add"), 15, 2);
    limit(read("0;nan"), 15, 0);
    rust(read("Pop Pop inf"), 1, 1);
}

#[test]
fn sums_handed_over() {
    malformed(judge::derive(&[]), 11);
    malformed(judge::derive(&x(1.0)[..31]), 11);
    malformed(judge::derive(&[x(0.0), x(-0.0)].concat()), 11);
    malformed(judge::derive(&[x(2.0), x(1.0)].concat()), 11);
    malformed(judge::derive(&x(f64::INFINITY)), 11);
    malformed(judge::derive(&entry(2, 0, 0.0, Complex::ONE)), 11);
    malformed(
        judge::derive(&entry(1, 0, 1.0, Complex::new(f64::NAN, 0.0))),
        11,
    );
    let three = sin(&sin(&sin(&x(1.0))));
    rust(judge::derive(&three), 7, 0);
    malformed(judge::derive(&sin(&three)), 13);
    // The order is asked below the third level, too, and before 13.
    malformed(
        judge::derive(&sin(&sin(&sin(&sin(&[x(2.0), x(1.0)].concat()))))),
        11,
    );
    let many: Vec<u8> = (0..65).flat_map(|power| x(f64::from(power))).collect();
    malformed(judge::derive(&many), 11);
}

#[test]
fn formed_sums_of_65_entries() {
    // x^-1 integrates to a Log with an inside: 64 entries come to 65.
    let powers =
        |first: i32| -> Vec<u8> { (first..first + 64).flat_map(|p| x(p.into())).collect() };
    assert!(judge::integrate(&powers(0)).done().is_some());
    limit(judge::integrate(&powers(-1)), 12, 0);
}

#[test]
fn seven_before_sixteen_before_fourteen_before_those_not_finite() {
    rust(read("Sin 65 Pow"), 7, 2);
    limit(read("1e308 Mul 65 Pow"), 16, 3);
    // 7 on the way down through Div, then 14, then 18 or 15.
    rust(read("Sin 1 Add Reciprocal 0.5 Pow"), 7, 5);
    limit(read("2 Mul -1e308 Pow"), 14, 3);
    limit(read("-1e308 Pow 1e308 Neg Pow"), 18, 4);
    rust(judge::derivative(&text::list("Sin 3 Log")), 7, 0);
    limit(judge::derivative(&text::list("3 Log")), 14, 0);
}

#[test]
fn fifteen_before_thirteen_before_twelve() {
    // The reciprocal of 0 times sin sin sin x: its coefficient isn't finite,
    // and its Div would be too deep.
    limit(read("Sin Sin Sin Dup Sub Reciprocal"), 15, 5);
    limit(read("Sin Sin Sin Reciprocal"), 13, 3);
    // Three levels around 61 entries are 64; a fourth is too deep before it is too much.
    assert!(read("1 Add 60 Pow Sin Sin Sin").done().is_some());
    limit(read("1 Add 60 Pow Sin Sin Sin Sin"), 13, 7);
    limit(read("1 Add 61 Pow Sin Sin Sin"), 12, 6);
}

#[test]
fn what_modifiers_hold_counts() {
    // x and 1,023 numbers are 1,024 entries.
    let full = (0..10)
        .map(|bit| "Both(0: ".repeat(bit) + "1" + &")".repeat(bit))
        .collect::<Vec<_>>()
        .join(" ");
    let empty = full.replace('1', "Pop");
    let place = text::list(&full).len() / RECORD;
    let with = |top: &str| read(&format!("{full} {top} {empty}"));
    assert!(with("").done().is_some());
    // A copy of what is held is one too many at the modifier's own place.
    limit(with("On(1: Pop)"), 12, place);
    limit(with("By(1: Pop)"), 12, place);
    limit(with("Fork(1: Pop)(1:)"), 12, place);
    limit(with("Dup Pop"), 12, place);
    // While a sum is held it counts; Gap holds nothing.
    limit(with("Dip(1: 1 Pop)"), 12, place + 2);
    limit(with("Both(1: 1 Pop)"), 12, place + 2);
    assert!(with("Gap(1: 1)").done().is_some());
    // Putting back never refuses.
    assert!(with("Dip(1:)").done().is_some());
    assert!(with("Both(2:)").done().is_some());
    assert!(with("Bracket(2:)(2:)").done().is_some());
}

#[test]
fn place_is_the_innermost_record() {
    rust(read("Run(Neg Run(Neg Pop Pop))"), 1, 5);
    rust(read("Pop On(1: Neg)"), 1, 1);
    rust(read("On(1: Neg)(1: Neg)"), 8, 0);
    rust(read("Custom(Array)"), 5, 1);
    rust(read("Under Dip(1: Sin)"), 1, 3);
}

#[test]
fn ten_replaces_one_to_nine_met_while_reading() {
    let inverse = |words: &str| judge::inverse(&text::list(words));
    rust(inverse("Neg Array"), 10, 0);
    rust(inverse("Neg Neg Array"), 5, 2);
    rust(inverse("Neg Dup"), 10, 0);
    rust(inverse("Neg Neg Dup"), 4, 0);
    limit(inverse("inf"), 15, 0);
    limit(inverse("65 Pow"), 16, 1);
    // A sum on the stack with another power than 0 and 1 counts as handled...
    rust(inverse("Dup Mul Array"), 5, 2);
    // ... unless it is held, or popped already.
    rust(inverse("Dup Mul 1 Flip Dip(1: Array)"), 10, 0);
    rust(inverse("Reciprocal Max"), 2, 1);
    rust(inverse("Sin Sin"), 7, 0);
}

#[test]
fn the_complex_flag_stays() {
    let sum = read("0;1 Pop").done().expect("x");
    assert!(sum.complex);
    assert!(read("1 Complex").done().expect("x + i").complex);
    assert!(!read("1 Add").done().expect("x + 1").complex);
}

#[test]
fn whole_is_by_value() {
    assert_eq!(read("-0 Pow"), read("0 Pow"));
    limit(read("2^53 Pow"), 16, 1);
    limit(read("1e308 Pow"), 16, 1);
    assert!(read("63.5 Pow").done().is_some());
    assert!(read("64.5 Pow").done().is_some());
}

/// A coefficient of 1 to any power that isn't a whole number from 0 up is 1;
/// the imaginary zero takes the sign of its product with a power that isn't
/// whole, and is +0 where the power is whole.
#[test]
fn powers_of_one() {
    let mut random = Random::new(4);
    for round in 0..20_000 {
        let power = match round % 3 {
            0 => random.number(),
            1 => f64::from_bits(random.bits()),
            _ => -(random.below(1000) as f64),
        };
        if !power.is_finite() || power.fract() == 0.0 && power >= 0.0 {
            continue;
        }
        for im in [0.0, -0.0] {
            let result = Complex::new(1.0, im).powf(power);
            let sign = if power.fract() == 0.0 {
                0.0
            } else {
                im * power
            };
            assert_eq!(result.re, 1.0, "{power}");
            assert_eq!(result.im.to_bits(), sign.to_bits(), "{power}");
        }
    }
}

#[test]
fn zero_over_several_terms_keeps_its_bits() {
    let sum = read("1 Add 0;-0 Flip Div").done().expect("0");
    assert_eq!(sum.entries, entry(1, 0, 0.0, Complex::new(0.0, -0.0)));
    let sum = read("1 Add 1;-0 Flip Div").done().expect("Div");
    assert_eq!(sum.entries[..32], entry(2, 2, 0.0, Complex::ONE));
}

#[test]
fn the_integral_keeps_the_old_key() {
    // x^-0 and the constant are one key; x^(2^-60) comes to power 1 as well.
    let sum = [x(-0.0), entry(1, 0, 2f64.powi(-60), Complex::new(3.0, 0.0))].concat();
    let integral = judge::integrate(&sum).done().expect("3x");
    assert_eq!(integral, entry(1, 0, 1.0, Complex::new(3.0, 0.0)));
}

#[test]
fn the_inverse_tests_written_numbers_alone() {
    let inverse = |words: &str| judge::inverse(&text::list(words));
    // k is asked before c.
    limit(inverse("3 Pow 0.5 Mul 1e308 Add"), 14, 0);
    assert!(inverse("3 Pow 0 Mul").done().is_some());
    assert!(inverse("3 Pow 0 Mul Neg").done().is_some());
    // A constant is written as it is.
    let constant = inverse("Dup Sub 0;1 Add").done().expect("a constant");
    assert_eq!(constant, text::list("Pop 0;1"));
    limit(inverse("Dup Dup Mul 1e308 Mul Add"), 15, 0);
    limit(inverse("1e-200 Mul Neg"), 15, 0);
}

/// `abs() > 1` decides between dividing by a factor and multiplying by its
/// reciprocal; the rounded re² + im² decides it.
#[test]
fn factors_around_one() {
    let mut both = [false; 2];
    for step in 1..64 {
        let im = f64::from(step) * 2f64.powi(-28);
        let inverse = judge::inverse(&text::list(&format!("1;{im:?} Mul 0 Add")));
        let divides = inverse.done().expect("linear")[RECORD..] == text::list("Div");
        assert_eq!(divides, 1.0 + im * im > 1.0 + f64::EPSILON, "{im:?}");
        both[usize::from(divides)] = true;
    }
    assert_eq!(both, [true; 2]);
    let huge = judge::inverse(&text::list("1e200 Mul 0 Add"));
    assert_eq!(huge.done(), Some(text::list("1e200 Div")));
}

/// How many records a power sum with real coefficients is written in.
fn record_count(terms: &[(f64, f64)]) -> usize {
    let written: Vec<_> = terms.iter().filter(|(_, coef)| *coef != 0.0).collect();
    let costs: usize = written
        .iter()
        .map(|(power, coef)| match *power {
            0.0 => 4,
            power => {
                let cost = match power {
                    0.5 => 1,
                    1.0 => 0,
                    _ => 2,
                };
                cost + if *coef == 1.0 { 0 } else { 2 }
            }
        })
        .sum();
    match written[..] {
        [] => 2,
        [&(1.0, 1.0)] => 1,
        [&(1.0, 1.0), _, ..] => costs + 3 * (written.len() - 1) - 1,
        _ => costs + 3 * (written.len() - 1),
    }
}

#[test]
fn power_sums_are_written_in_so_many_records() {
    let powers = [-2.0, -1.0, 0.0, 0.5, 1.0, 1.5, 2.0, 3.0, 40.0];
    let mut random = Random::new(6);
    for _ in 0..20_000 {
        let mut terms = Vec::new();
        for power in powers {
            if random.once_in(2) {
                terms.push((power, *random.choose(&[0.0, 1.0, 1.0, -1.0, 2.5])));
            }
        }
        if terms.is_empty() {
            continue;
        }
        let sum: Vec<u8> = terms
            .iter()
            .flat_map(|&(power, coef)| entry(1, 0, power, coef.into()))
            .collect();
        let list = judge::write(&sum, false).done().expect("written");
        assert_eq!(list.len(), record_count(&terms) * RECORD, "{terms:?}");
    }
}
