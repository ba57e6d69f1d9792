//! Sums printed as formulas and read again.

use std::{collections::BTreeMap, f64::consts::E};

use uplink::{bytes, decode_sum, encode_list, Entry, Term, LIST_BYTES, SUM_BYTES};

use crate::{formula::formula, stored};

/// What comes of a sum that is printed and read again.
#[derive(Debug, Clone, Copy, PartialEq, Eq, PartialOrd, Ord)]
enum Outcome {
    /// The same sum, bit for bit.
    Same,
    /// The same but for the signs of zeros.
    SameButForZeros,
    /// Another sum.
    Other,
    /// The print isn't in the notation.
    NoFormula,
    /// The library doesn't read the formula's list.
    Refused,
}

fn outcome(sum: &[Entry]) -> Outcome {
    let Ok(parsed) = super::parse(&formula(sum)) else {
        return Outcome::NoFormula;
    };
    let mut room = [0; SUM_BYTES];
    let Ok(found) = bytes::read(&encode_list(&parsed.list), &mut room) else {
        return Outcome::Refused;
    };
    let found = decode_sum(found.sum).expect("a sum");
    let bits = |sum: &[Entry]| -> Vec<[u8; 32]> { sum.iter().map(Entry::to_bytes).collect() };
    if bits(&found) == bits(sum) {
        Outcome::Same
    } else if bits(&with_plain_zeros(&found)) == bits(&with_plain_zeros(sum)) {
        Outcome::SameButForZeros
    } else {
        Outcome::Other
    }
}

/// A sum with every -0 in it made 0.
fn with_plain_zeros(sum: &[Entry]) -> Vec<Entry> {
    let plain = |entry: &Entry| Entry {
        term: match entry.term {
            Term::X(power) => Term::X(power + 0.0),
            other => other,
        },
        inside: entry.inside,
        re: entry.re + 0.0,
        im: entry.im + 0.0,
    };
    sum.iter().map(plain).collect()
}

/// The entries of one level, each with its inside.
fn level(sum: &[Entry]) -> Vec<(&Entry, &[Entry])> {
    let mut rest = sum;
    let mut all = Vec::new();
    while let Some((entry, behind)) = rest.split_first() {
        let (inside, behind) = behind.split_at(entry.inside as usize);
        all.push((entry, inside));
        rest = behind;
    }
    all
}

/// Why a sum has no formula that gives it back bit for bit.
#[derive(Debug, Clone, Copy, PartialEq, Eq, PartialOrd, Ord)]
enum Lack {
    /// A coefficient has an imaginary part.
    Imaginary,
    /// There is a hyperbolic function, or a logarithm to a base other than e, 2 and 10.
    Function,
    /// A function has a coefficient other than 1, and other than -1 behind another term: the library reads no other.
    Coefficient,
    /// One power of x is divided by, which is read as a power, or exp is of something other than k x.
    Argument,
    /// A whole power beyond 64 isn't read.
    Power,
    /// There is a -0: as a coefficient, as a power or, the most usual, as an imaginary part.
    Zero,
}

/// What a sum lacks for a formula, the first in the order above.
fn lack(sum: &[Entry]) -> Option<Lack> {
    let all = level(sum).into_iter().enumerate();
    all.flat_map(|(at, (entry, inside))| {
        let own = lack_of_entry(entry, inside, at == 0);
        own.into_iter().chain(lack(inside))
    })
    .min()
}

fn lack_of_entry(entry: &Entry, inside: &[Entry], is_first: bool) -> Option<Lack> {
    let is_unit = entry.re == 1.0 || entry.re == -1.0 && !is_first;
    let own = match entry.term {
        Term::X(power) => lack_of_power(power),
        Term::Log(base) if base != E && base != 2.0 && base != 10.0 => Some(Lack::Function),
        Term::SinH | Term::CosH => Some(Lack::Function),
        _ if !is_unit => Some(Lack::Coefficient),
        Term::Exp if inside.len() != 1 || inside[0].term != Term::X(1.0) => Some(Lack::Argument),
        Term::Div if inside.len() == 1 => Some(Lack::Argument),
        _ => None,
    };
    let is_nought = |number: f64| number == 0.0 && number.is_sign_negative();
    let imaginary = (entry.im != 0.0).then_some(Lack::Imaginary);
    let zero = (is_nought(entry.re) || is_nought(entry.im)).then_some(Lack::Zero);
    own.into_iter().chain(imaginary).chain(zero).min()
}

fn lack_of_power(power: f64) -> Option<Lack> {
    match power {
        _ if power.fract() == 0.0 && power.abs() > 64.0 => Some(Lack::Power),
        0.0 if power.is_sign_negative() => Some(Lack::Zero),
        _ => None,
    }
}

/// Every stored sum, and what every stored list is read as.
fn sums() -> Vec<Vec<Entry>> {
    let mut all = stored::sums();
    for list in stored::lists() {
        let is_short = bytes::cost(&list).is_ok_and(|steps| steps < 1_000_000);
        let mut room = [0; SUM_BYTES];
        if let (true, Ok(found)) = (is_short, bytes::read(&list, &mut room)) {
            all.push(found.sum.to_vec());
        }
    }
    all.sort();
    all.dedup();
    let mut room = vec![0; LIST_BYTES];
    let mut is_good = |sum: &[u8]| bytes::write_faithful(sum, true, &mut room).is_ok();
    let good = all.iter().filter(|sum| is_good(sum));
    good.map(|sum| decode_sum(sum).expect("a good sum"))
        .collect()
}

#[test]
fn every_stored_sum_with_a_formula_comes_back() {
    let mut counts: BTreeMap<Option<Lack>, usize> = BTreeMap::new();
    for sum in sums() {
        let (lack, outcome) = (lack(&sum), outcome(&sum));
        let text = formula(&sum);
        match lack {
            None => assert_eq!(outcome, Outcome::Same, "{text}"),
            Some(Lack::Imaginary | Lack::Function) => {
                assert_eq!(outcome, Outcome::NoFormula, "{text}");
            }
            Some(Lack::Zero) => {
                let is_same = matches!(outcome, Outcome::Same | Outcome::SameButForZeros);
                assert!(is_same, "{outcome:?} {text}");
            }
            Some(_) => assert_ne!(outcome, Outcome::NoFormula, "{text}"),
        }
        *counts.entry(lack).or_default() += 1;
    }
    let expected = [
        (None, 1016),
        (Some(Lack::Imaginary), 1533),
        (Some(Lack::Function), 495),
        (Some(Lack::Coefficient), 405),
        (Some(Lack::Argument), 52),
        (Some(Lack::Power), 33),
        (Some(Lack::Zero), 175),
    ];
    assert_eq!(counts, BTreeMap::from(expected));
}
