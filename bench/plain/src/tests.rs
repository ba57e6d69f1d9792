//! Document 01's lists and limits, for every form, and values of sums.

use oracle::{
    Complex,
    functions::{function, power, powers},
    judge,
    power_sums::{NUMBERS, at_limits},
    records::{Record, bytes_of, kind},
    sums::{self, ENTRY, entry},
    text,
};

use crate::{Refused, Room, Run, RunRoom, ValueRoom, general, run, run_in, short};

const ROOM: usize = 2048 * 24;
const FILL: u8 = 0xa5;

/// What every form writes, which is the same.
fn derivative(list: &[u8]) -> Result<Vec<u8>, (u8, usize)> {
    let mut room = Room::new();
    let mut answers = Vec::new();
    let mut ask = |entry: &mut dyn FnMut(&mut [u8]) -> Result<usize, Refused>| {
        let mut out = vec![FILL; ROOM];
        let count = entry(&mut out);
        let written = 24 * count.unwrap_or(0);
        assert!(out[written..].iter().all(|&byte| byte == FILL));
        out.truncate(written);
        answers.push(
            count
                .map(|_| out)
                .map_err(|refused| (refused.number as u8, refused.place)),
        );
    };
    ask(&mut |out| short::derivative(list, out));
    ask(&mut |out| general::derivative(list, out));
    // twice, since the room is as the call before left it
    for _ in 0..2 {
        ask(&mut |out| short::derivative_in(&mut room, list, out));
        ask(&mut |out| general::derivative_in(&mut room, list, out));
    }
    let first = answers.remove(0);
    assert!(answers.iter().all(|answer| *answer == first));
    first
}

/// Value, steps and peak, or number and place.
fn value(list: &[u8], x: f64) -> Result<Run, (u8, usize)> {
    let answer = run(list, x);
    assert_eq!(answer, run_in(&mut RunRoom::new(), list, x));
    answer.map_err(|refused| (refused.number as u8, refused.place))
}

#[track_caller]
fn derives(words: &str, derivative_words: &str) {
    let derivative = derivative(&text::list(words));
    assert_eq!(derivative, Ok(text::list(derivative_words)), "{words}");
}

#[track_caller]
fn refuses(words: &str, number: u8, place: usize) {
    let list = text::list(words);
    assert_eq!(derivative(&list), Err((number, place)), "{words}");
    let refused = short::read(&list, &mut [0; ROOM]).expect_err("a refusal");
    assert_eq!((refused.number as u8, refused.place), (number, place));
}

#[test]
fn lists_of_document_01() {
    derives("", "0 Mul 1 Add");
    derives("Dup Mul", "2 Mul");
    derives("3 Pow", "Dup Mul 3 Mul");
    derives("Dup 3 Pow Add", "On(1: 0 Mul 1 Add) Dup Mul 3 Mul Add");
    derives("0 Pow", "0 Mul");
    refuses("Pop", 3, 0);
    refuses("Dup", 4, 0);
    refuses("Flip", 1, 0);
}

#[test]
fn functions_and_quotients() {
    for words in [
        "Sin",
        "2 Mul 1 Add Cos",
        "Exp",
        "Ln",
        "3 Mul Log2",
        "Reciprocal",
        "1 Add Reciprocal",
        "Dup Sin Add",
        "Dup 1 Add Reciprocal Over 2 Add Reciprocal Mul Over Ln Add Flip Pop",
        "Dup Exp Over Sqrt Sub Flip Pop Neg",
        "1 Add Reciprocal 3 Pow",
        "Dup 2 Pow Complex",
    ] {
        let list = text::list(words);
        let rust = judge::derivative(&list).done();
        assert_eq!(derivative(&list).ok(), rust, "{words}");
        assert!(rust.is_some(), "{words}");
    }
}

#[test]
fn what_a_step_refuses() {
    refuses("Array", 5, 0);
    refuses("1 Other", 6, 1);
    refuses("Sin Dup Mul", 7, 2);
    refuses("On", 8, 0);
    refuses("NoNormal", 9, 0);
    refuses("Else", 2, 0);
    refuses("3 Mul 0.5 Pow", 14, 3);
    refuses("1e200 Mul Dup Mul", 15, 3);
    refuses("1e308 Pow", 16, 1);
    refuses("-1e308 Pow 2 Pow", 18, 3);
}

#[test]
fn powers_up_to_64() {
    derives("64 Pow", "63 Pow 64 Mul");
    refuses("65 Pow", 16, 1);
    refuses("65 Pow Pop", 16, 1);
    refuses("Sin 65 Pow", 7, 2);
}

#[test]
fn sums_up_to_64_terms() {
    assert!(derivative(&text::list("1 Add 63 Pow")).is_ok());
    refuses("1 Add 64 Pow", 12, 3);
}

#[test]
fn up_to_1024_entries() {
    let crowd = |others: usize| "1 ".repeat(others) + &"Add ".repeat(others);
    assert!(derivative(&text::list(&crowd(1023))).is_ok());
    refuses(&crowd(1024), 12, 1023);
    let holding = |others: usize| "1 ".repeat(others) + "On(1: Add)";
    refuses(&holding(1022), 4, 0);
    refuses(&holding(1023), 12, 1023);
}

/// Runs, each inside the one before, around an Identity.
fn nested(levels: usize) -> Vec<u8> {
    let mut records: Vec<Record> = (1..=levels)
        .rev()
        .map(|inside| Record {
            inside: inside as u32,
            ..Record::of(kind::RUN)
        })
        .collect();
    records.push(Record::primitive(1));
    bytes_of(&records)
}

#[test]
fn up_to_128_levels() {
    assert!(derivative(&nested(128)).is_ok());
    for levels in [129, 130, 2047] {
        let list = nested(levels);
        assert_eq!(derivative(&list), Err((13, 0)));
        assert_eq!(value(&list, 1.0), Err((13, 0)));
    }
    // what is wrong anywhere comes first
    let mut bad = nested(2047);
    bad.extend(nested(1));
    assert_eq!(derivative(&bad), Err((11, 0)));
    let mut bad = nested(500);
    *bad.last_mut().expect("a byte") = 1;
    assert_eq!(derivative(&bad), Err((11, 0)));
}

#[test]
fn bytes_that_are_no_list() {
    let good = text::list("On(1: 3 Pow) Add Run(2 Mul)");
    for length in 0..good.len() {
        if length % 24 != 0 {
            assert_eq!(derivative(&good[..length]), Err((11, 0)));
        }
    }
    for (words, at, byte) in [
        ("Neg", 0, 0),
        ("Neg", 0, 14),
        ("Neg", 2, 1),
        ("Neg", 3, 1),
        ("Neg", 4, 1),
        ("Neg", 8, 1),
        ("Neg", 16, 1),
        ("2", 1, 1),
        ("2", 16, 1),
        ("Run(Neg)", 4, 2),
        ("Run(Neg)", 24, kind::BODY),
        ("On(1: Neg)", 24, kind::RUN),
        ("On(1: Neg)", 25, 1),
    ] {
        let mut list = text::list(words);
        list[at] = byte;
        assert_eq!(derivative(&list), Err((11, 0)), "{words} {at} {byte}");
        assert_eq!(value(&list, 1.0), Err((11, 0)));
    }
}

#[test]
fn room_that_is_too_short_is_left_alone() {
    let list = text::list("3 Pow");
    for length in 0..4 * 24 {
        let mut out = vec![FILL; length];
        let refused = short::derivative(&list, &mut out).expect_err("a refusal");
        assert_eq!((refused.number as u8, refused.place), (17, 0));
        let refused = short::read(&list, &mut out[..length.min(31)]).expect_err("a refusal");
        assert_eq!((refused.number as u8, refused.place), (17, 0));
        assert!(out.iter().all(|&byte| byte == FILL));
    }
}

#[test]
fn a_sum_with_its_flag() {
    for (words, entries, complex) in [("3 Pow 1 Add", 2, false), ("0;1 Add", 2, true)] {
        let mut out = [FILL; 64 * 32];
        let list = text::list(words);
        assert_eq!(short::read(&list, &mut out), Ok((entries, complex)));
        let mut again = [FILL; 64 * 32];
        let read = general::read_in(&mut Room::new(), &list, &mut again);
        assert_eq!((read, again), (Ok((entries, complex)), out));
        assert!(out[entries * 32..].iter().all(|&byte| byte == FILL));
    }
}

#[test]
fn runs() {
    let ran = |value, steps, peak| Ok(Run { value, steps, peak });
    assert_eq!(value(&text::list("Dup Mul 3 Mul"), 2.0), ran(12.0, 4, 2));
    let list = text::list("On(1: 0 Mul 1 Add) Dup Mul 3 Mul Add");
    assert_eq!(value(&list, 2.0), ran(13.0, 11, 3));
    assert_eq!(value(&text::list("Sqrt"), 9.0), ran(3.0, 1, 1));
    assert_eq!(value(&text::list("0 Pow"), 9.0), ran(1.0, 2, 2));
    for (words, number, place) in [
        ("Pop", 3, 0),
        ("Dup", 4, 0),
        ("Pop Pop", 1, 1),
        ("0 Div", 15, 1),
        ("Sin", 14, 0),
        ("-1 Mul Sqrt", 14, 2),
        ("65 Pow", 14, 1),
        ("Complex", 6, 0),
        ("Dip(1: Neg)", 2, 0),
        ("On", 8, 0),
    ] {
        assert_eq!(
            value(&text::list(words), 2.0),
            Err((number, place)),
            "{words}"
        );
    }
    assert_eq!(value(&[], f64::INFINITY), Err((15, 0)));
}

#[test]
fn up_to_256_values() {
    let crowd = |others: usize| "1 ".repeat(others) + &"Add ".repeat(others);
    assert!(value(&text::list(&crowd(255)), 1.0).is_ok());
    assert_eq!(value(&text::list(&crowd(256)), 1.0), Err((12, 255)));
}

/// A sum's value, or the number; lent room is as the call before left it.
fn value_at(room: &mut ValueRoom, sum: &[u8], x: f64) -> Result<u64, u8> {
    let answer = crate::value(sum, x);
    assert_eq!(answer, crate::value_in(room, sum, x));
    let number = |refused: Refused| {
        assert_eq!(refused.place, 0);
        refused.number as u8
    };
    answer.map(f64::to_bits).map_err(number)
}

#[track_caller]
fn has_value(sum: &[u8], x: f64, expected: Result<f64, u8>) {
    let given = value_at(&mut ValueRoom::new(), sum, x);
    assert_eq!(given, expected.map(f64::to_bits), "at {x}");
}

#[test]
fn values_of_powers() {
    let sum = powers(&[(0.0, 3.0), (1.0, -2.0), (3.0, 0.5)]);
    has_value(&sum, 2.0, Ok(3.0));
    has_value(&sum, f64::INFINITY, Err(15));
    has_value(&power(3.0, 0.0), -2.0, Ok(-0.0));
    has_value(&power(64.0, 1.0), 2.0, Ok(18446744073709551616.0));
    has_value(&power(65.0, 1.0), 2.0, Err(14));
    has_value(&power(0.5, 1.0), 4.0, Err(14));
    has_value(&power(1.0, f64::MAX), 2.0, Err(15));
    for (im, expected) in [(f64::EPSILON, Err(15)), (f64::EPSILON.next_down(), Ok(2.0))] {
        let sum = entry(sums::kind::X, 1.0, Complex::new(1.0, im), &[]);
        has_value(&sum, 2.0, expected);
    }
}

/// Every sum at and past a limit, at every sort of number, as the plain engine of oracle/ has it.
#[test]
fn values_at_limits() {
    let mut room = ValueRoom::new();
    for sum in at_limits() {
        for x in NUMBERS {
            let owed = oracle::value::value(&sum, x);
            let owed = owed.map(f64::to_bits).map_err(|refusal| refusal.number);
            assert_eq!(value_at(&mut room, &sum, x), owed, "{sum:?} at {x}");
        }
    }
}

#[test]
fn bytes_that_are_no_sum() {
    let sin = |inside: &[u8]| function((sums::kind::SIN, 0.0), Complex::ZERO, inside);
    let good = [power(1.0, 2.0), sin(&powers(&[(0.0, 1.0), (1.0, 1.0)]))].concat();
    has_value(&good, 2.0, Ok(4.0));
    for length in 0..good.len() {
        if length != ENTRY {
            has_value(&good[..length], 2.0, Err(11));
        }
    }
    for (at, byte) in [
        (0, 0),
        (0, 9),
        (1, 1),
        (3, 1),
        (4, 1),
        (ENTRY + 4, 0),
        (ENTRY + 4, 1),
        (ENTRY + 4, 3),
        (ENTRY + 8, 1),
        (2 * ENTRY + 8 + 7, 0x40),
    ] {
        let mut sum = good.clone();
        sum[at] = byte;
        has_value(&sum, 2.0, Err(11));
    }
    for at in [8, 16, 24] {
        let mut sum = good.clone();
        sum[at..at + 8].copy_from_slice(&f64::NAN.to_le_bytes());
        has_value(&sum, 2.0, Err(11));
    }
}
