//! The paper's lists to try, by bytes: the parts that the Rust decides.

use oracle::{Answer, Refusal, judge, text};

const E: f64 = std::f64::consts::E;

fn hex_of(bytes: &[u8]) -> String {
    text::hex(bytes, oracle::records::RECORD)
}

/// The bytes of a sum of powers with real coefficients.
fn power_sum(terms: &[(f64, f64)]) -> Vec<u8> {
    let mut bytes = Vec::new();
    for (power, coef) in terms {
        bytes.extend([1, 0, 0, 0, 0, 0, 0, 0]);
        bytes.extend(power.to_le_bytes());
        bytes.extend(coef.to_le_bytes());
        bytes.extend(0f64.to_le_bytes());
    }
    bytes
}

#[track_caller]
fn reads(words: &str, terms: &[(f64, f64)]) {
    reads_with_flag(words, terms, false);
}

#[track_caller]
fn reads_complex(words: &str, terms: &[(f64, f64)]) {
    reads_with_flag(words, terms, true);
}

#[track_caller]
fn reads_with_flag(words: &str, terms: &[(f64, f64)], complex: bool) {
    let read = judge::read(&text::list(words)).done().expect("reads");
    assert_eq!(read.complex, complex, "{words}");
    assert_eq!(read.entries, power_sum(terms), "{words}");
}

#[track_caller]
fn gives(answer: Answer<Vec<u8>>, words: &str) {
    assert_eq!(
        hex_of(&answer.done().expect("done")),
        hex_of(&text::list(words))
    );
}

#[track_caller]
fn refuses<T: std::fmt::Debug + PartialEq>(answer: Answer<T>, number: u8, place: usize) {
    assert_eq!(answer, Answer::Rust(Err(Refusal { number, place })));
}

#[track_caller]
fn limits<T: std::fmt::Debug + PartialEq>(answer: Answer<T>, number: u8, place: usize) {
    assert_eq!(answer, Answer::Limit(Refusal { number, place }));
}

#[test]
fn words_are_the_papers_bytes() {
    assert_eq!(hex_of(&text::list("Dup Mul")), " 0503 050a");
    assert_eq!(
        hex_of(&text::list("push 2, Mul")),
        " 01000000000000000000000000000040 050a"
    );
    assert_eq!(
        hex_of(&text::list("On(1: Dup) 0;1 Over")),
        " 0603000002 0700010001 0503 02000000000000000000000000000000000000000000f03f 0526"
    );
}

#[test]
fn empty() {
    let empty = text::list("");
    reads("", &[(1.0, 1.0)]);
    gives(judge::derivative(&empty), "push 0, Mul, push 1, Add");
    refuses(judge::inverse(&empty), 10, 0);
}

#[test]
fn dup_mul() {
    reads("Dup Mul", &[(2.0, 1.0)]);
    gives(judge::derivative(&text::list("Dup Mul")), "push 2, Mul");
}

#[test]
fn cube() {
    reads("push 3, Pow", &[(3.0, 1.0)]);
    gives(
        judge::derivative(&text::list("push 3, Pow")),
        "Dup, Mul, push 3, Mul",
    );
}

#[test]
fn x_and_cube() {
    let list = text::list("Dup, push 3, Pow, Add");
    reads("Dup, push 3, Pow, Add", &[(1.0, 1.0), (3.0, 1.0)]);
    let derivative = judge::derivative(&list).done().expect("done");
    assert_eq!(derivative.len(), 11 * oracle::records::RECORD);
    gives(
        Answer::Rust(Ok(derivative)),
        "On(1: push 0, Mul, push 1, Add), Dup, Mul, push 3, Mul, Add",
    );
}

#[test]
fn power_zero() {
    reads("push 0, Pow", &[(0.0, 0.0)]);
}

#[test]
fn inverses() {
    refuses(judge::inverse(&text::list("push 5, Add")), 10, 0);
    gives(
        judge::inverse(&text::list("push 2, Mul, push 5, Add")),
        "push 5, Sub, push 2, Div",
    );
    gives(judge::inverse(&text::list("Dup, Sub, Neg")), "Pop, push 0");
}

#[test]
fn integrals() {
    gives(
        judge::integral(&text::list("Reciprocal")),
        "Identity, push E, Log",
    );
    gives(
        judge::integral(&text::list("push 2, Mul, Sin")),
        "Identity, Cos, push -1, Mul",
    );
}

#[test]
fn wrong_number_of_outputs_or_inputs() {
    refuses(judge::read(&text::list("Pop")), 3, 0);
    refuses(judge::read(&text::list("Dup")), 4, 0);
    refuses(judge::read(&text::list("Flip")), 1, 0);
    refuses(judge::read(&text::list("Identity Flip")), 1, 1);
}

#[test]
fn powers_64_and_65() {
    reads("push 64, Pow", &[(64.0, 1.0)]);
    limits(judge::read(&text::list("push 65, Pow")), 16, 1);
    refuses(judge::read(&text::list("Sin, push 65, Pow")), 7, 2);
}

#[test]
fn entries_64_and_65() {
    // (x + 1)^n has n + 1 entries.
    let power = |n: u32| text::list(&format!("push 1, Add, push {n}, Pow"));
    let sum = judge::read(&power(63)).done().expect("64 entries");
    assert_eq!(sum.entries.len(), 64 * 32);
    limits(judge::read(&power(64)), 12, 3);
}

#[test]
fn levels_128_and_129() {
    let nested = |levels: usize| {
        let words = "Run(".repeat(levels) + "Neg" + &")".repeat(levels);
        judge::read(&text::list(&words))
    };
    assert!(nested(128).done().is_some());
    assert_eq!(nested(129), Answer::Form(Refusal::whole(13)));
}

#[test]
fn imaginary_parts_around_the_limit() {
    reads_complex("push 2;2^-53, Pow", &[(2.0, 1.0)]);
    refuses(judge::read(&text::list("push 2;2^-52, Pow")), 7, 1);
    let sum = |im: f64| {
        let mut bytes = power_sum(&[(1.0, 2.0)]);
        bytes[24..].copy_from_slice(&im.to_le_bytes());
        bytes
    };
    gives(judge::write(&sum(2f64.powi(-53)), false), "push 2, Mul");
    limits(judge::write(&sum(2f64.powi(-52)), false), 15, 0);
    gives(
        judge::write(&sum(2f64.powi(-52)), true),
        "push 2;2^-52, Mul",
    );
}

#[test]
fn constants() {
    assert_eq!(E.to_bits(), 0x4005bf0a8b145769);
    assert_eq!(E.ln(), 1.0);
    assert_eq!(2f64.ln().to_bits(), 0x3fe62e42fefa39ef);
    assert_eq!(10f64.ln().to_bits(), 0x40026bb1bbb55516);
}
