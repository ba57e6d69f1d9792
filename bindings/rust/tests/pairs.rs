//! How many pairs of outermost terms Mul and Pow multiply, through the C functions.

use uplink::{modified, read, Entry, Modifier, Primitive, Primitive::*, Record, Record::RealPush};

/// A word of a list: a number is pushed, a name is a primitive.
enum Word {
    Push(f64),
    Do(Primitive),
}

use Word::{Do, Push};

fn list(words: &[Word]) -> Vec<Record> {
    let record = |word: &Word| match *word {
        Push(number) => RealPush(number),
        Do(primitive) => primitive.into(),
    };
    words.iter().map(record).collect()
}

#[track_caller]
fn takes(pairs: u64, words: &[Word]) {
    assert_eq!(read(&list(words)).map(|sum| sum.pairs), Ok(pairs));
}

/// x + 1 to this power.
fn binomial(power: f64) -> Vec<Record> {
    list(&[Push(1.0), Do(Add), Push(power), Do(Pow)])
}

#[test]
fn products_and_whole_powers() {
    takes(0, &[]);
    takes(1, &[Do(Dup), Do(Mul)]);
    takes(2, &[Push(3.0), Do(Pow)]);
    takes(10, &[Push(1.0), Do(Add), Push(3.0), Do(Pow)]);
    for (power, pairs) in [(0.0, 0), (1.0, 0), (2.0, 4), (62.0, 3904), (63.0, 4030)] {
        assert_eq!(read(&binomial(power)).map(|sum| sum.pairs), Ok(pairs));
    }
    for (power, pairs) in [
        (0.0, 0),
        (1.0, 0),
        (2.0, 1),
        (63.0, 62),
        (64.0, 63),
        (-1.0, 0),
        (0.5, 0),
    ] {
        takes(pairs, &[Push(power), Do(Pow)]);
    }
}

/// A coefficient 0 counts, and a term that is there already.
#[test]
fn every_pair_counts() {
    takes(
        1 + 4,
        &[Push(0.0), Do(Mul), Push(1.0), Do(Add), Do(Dup), Do(Mul)],
    );
    let sum = read(&binomial(2.0)).expect("a sum");
    let terms = [(0.0, 1.0), (1.0, 2.0), (2.0, 1.0)].map(|(power, re)| Entry::power(power, re));
    assert_eq!((&sum.entries[..], sum.pairs), (&terms[..], 4));
}

#[test]
fn other_records_count_none() {
    takes(0, &[Do(Pop), Push(5.0), Do(Exp2)]);
    takes(0, &[Do(Pop), Push(5.0), Do(Exp10)]);
    takes(0, &[Push(1.0), Do(Add), Push(0.0), Do(Complex)]);
    takes(0, &[Do(Dup), Push(1.0), Do(Add), Do(Reciprocal), Do(Div)]);
    takes(0, &[Do(Sqrt)]);
    // 1/(x + 1) by itself: the pairs inside aren't outermost
    takes(1, &[Push(1.0), Do(Add), Do(Reciprocal), Do(Dup), Do(Mul)]);
}

#[test]
fn bodies_count_as_often_as_they_run() {
    let doubled = list(&[Push(2.0), Do(Mul)]);
    let once = modified(Modifier::Both, &[(0, &doubled)]);
    let nested = modified(Modifier::Both, &[(0, &once)]);
    assert_eq!(read(&once).map(|sum| sum.pairs), Ok(2));
    assert_eq!(read(&nested).map(|sum| sum.pairs), Ok(4));
}

/// 64 powers of x that are next to each other in binary64, squared.
#[test]
fn terms_that_fall_together() {
    let power = |at: u32| -(2f64.powi(60) + 256.0 * f64::from(at));
    let mut words = vec![Do(Dup), Push(power(0)), Do(Pow)];
    for at in 1..64 {
        words.extend([Do(Over), Push(power(at)), Do(Pow), Do(Add)]);
    }
    words.extend([Do(Flip), Do(Pop), Do(Dup), Do(Mul)]);
    let sum = read(&list(&words)).expect("a sum");
    assert_eq!((sum.entries.len(), sum.pairs), (64, 4096));
}
