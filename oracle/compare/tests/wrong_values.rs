//! A library whose value breaks a rule has a difference, whichever rule it is.

use compare::{
    arguments,
    checker::Checker,
    seen::Seen,
    work::{self, Compared},
};
use oracle::{
    back::{Entry, outermost},
    functions::powers,
    sums::{self, Fault, kind},
};
use proved::{LIBRARY, Library, Ran, Told, Valued};

/// A rule that is broken.
#[derive(Debug, Clone, Copy, PartialEq, Eq)]
enum Broken {
    Nothing,
    // what is refused, and in which order
    TooDeepIs11,
    NotFiniteXAskedLast,
    PartsBeforePowers,
    PowersTermByTerm,
    ZeroTermsAskedForPower,
    ZeroByRealPart,
    PartOf2To52LetIn,
    PartBelow2To52Refused,
    NegativePartsLetIn,
    Power65LetIn,
    Power64Refused,
    PowerMinusZeroRefused,
    RootLetIn,
    InfinityGiven,
    // what is added up
    HighestFirst,
    HighestCoefficientLost,
    CoefficientFirst,
    PowersBySquares,
    Horner,
    MultiplyAndAddAtOnce,
    PowerZeroWithoutX,
    NoTermsIsZero,
    StartsAtZero,
    // what is told
    ValueKeptOnRefusal,
    CountTold,
    PlaceTold,
}

use Broken::*;

/// The value, with one rule broken.
fn value(broken: Broken, sum: &[u8], x: f64) -> Valued {
    let result = answer(broken, sum, x);
    let kept = if broken == ValueKeptOnRefusal { x } else { 0.0 };
    let told = match result {
        Err(_) if broken == PlaceTold => [1, 0],
        Ok(_) if broken == CountTold => [0, 1],
        _ => [0, 0],
    };
    Valued {
        value: result.unwrap_or(kept).to_bits(),
        told: Told {
            number: result.err().unwrap_or(0),
            answer: told,
        },
    }
}

fn answer(broken: Broken, sum: &[u8], x: f64) -> Result<f64, u64> {
    match sums::fault(sum) {
        Some(Fault::TooDeep) if broken != TooDeepIs11 => return Err(13),
        Some(_) => return Err(11),
        None => {}
    }
    if !x.is_finite() && broken != NotFiniteXAskedLast {
        return Err(15);
    }
    let mut terms = outermost(sum);
    if broken != ZeroTermsAskedForPower {
        terms.retain(|term| !is_zero(broken, term));
    }
    if broken == PowersTermByTerm {
        for (at, term) in terms.iter().enumerate() {
            asked_for_power(broken, term)?;
            asked_for_part(broken, term)?;
            finite(broken, added_up(broken, &terms[..=at], x))?;
        }
    }
    let parts = || terms.iter().try_for_each(|t| asked_for_part(broken, t));
    if broken == PartsBeforePowers {
        parts()?;
    }
    terms.iter().try_for_each(|t| asked_for_power(broken, t))?;
    parts()?;
    terms.retain(|term| !is_zero(broken, term));
    finite(broken, added_up(broken, &terms, x))
}

fn is_zero(broken: Broken, term: &Entry) -> bool {
    term.re == 0.0 && (term.im == 0.0 || broken == ZeroByRealPart)
}

fn asked_for_power(broken: Broken, term: &Entry) -> Result<(), u64> {
    let highest = match broken {
        Power65LetIn => 65.0,
        Power64Refused => 63.0,
        _ => 64.0,
    };
    let number = term.number;
    let is_root = broken == RootLetIn && number == 0.5;
    let is_minus_zero = number == 0.0 && number.is_sign_negative();
    let is_power = term.kind == kind::X
        && (number.fract() == 0.0 && (0.0..=highest).contains(&number) || is_root)
        && !(broken == PowerMinusZeroRefused && is_minus_zero);
    is_power.then_some(()).ok_or(14)
}

fn asked_for_part(broken: Broken, term: &Entry) -> Result<(), u64> {
    let least = match broken {
        PartOf2To52LetIn => f64::EPSILON.next_up(),
        PartBelow2To52Refused => f64::EPSILON.next_down(),
        _ => f64::EPSILON,
    };
    let size = if broken == NegativePartsLetIn {
        term.im
    } else {
        term.im.abs()
    };
    (size < least).then_some(()).ok_or(15)
}

fn finite(broken: Broken, value: f64) -> Result<f64, u64> {
    (value.is_finite() || broken == InfinityGiven)
        .then_some(value)
        .ok_or(15)
}

fn added_up(broken: Broken, terms: &[Entry], x: f64) -> f64 {
    let mut terms = terms.to_vec();
    if broken == HighestFirst {
        terms.reverse();
    }
    if let Some(highest) = terms
        .last_mut()
        .filter(|_| broken == HighestCoefficientLost)
    {
        highest.re = 1.0;
    }
    if broken == Horner && terms.iter().all(|term| term.number != 0.5) {
        return horner(&terms, x);
    }
    let mut sum = (broken == StartsAtZero).then_some(0.0);
    for term in &terms {
        sum = Some(match sum {
            Some(sum) if broken == MultiplyAndAddAtOnce && term.number != 0.0 => {
                power(broken, x, term.number).mul_add(term.re, sum)
            }
            Some(sum) => sum + term_value(broken, term, x),
            None => term_value(broken, term, x),
        });
    }
    let nothing = if broken == NoTermsIsZero {
        0.0
    } else {
        x * 0.0
    };
    sum.unwrap_or(nothing)
}

fn horner(terms: &[Entry], x: f64) -> f64 {
    let highest = terms.last().map_or(0, |term| term.number as usize);
    let coefficient = |n: usize| {
        let term = terms.iter().find(|term| term.number == n as f64);
        term.map_or(0.0, |term| term.re)
    };
    let below = (0..highest).rev();
    below.fold(coefficient(highest), |sum, n| sum * x + coefficient(n))
}

fn term_value(broken: Broken, term: &Entry, x: f64) -> f64 {
    let (number, re) = (term.number, term.re);
    if number == 0.0 {
        let nothing = if broken == PowerZeroWithoutX {
            -0.0
        } else {
            x * 0.0
        };
        return nothing + re;
    }
    if broken == CoefficientFirst && number != 0.5 {
        return (0..number as usize).fold(re, |product, _| product * x);
    }
    power(broken, x, number) * re
}

fn power(broken: Broken, x: f64, number: f64) -> f64 {
    match broken {
        RootLetIn if number == 0.5 => x.sqrt(),
        PowersBySquares => by_squares(x, number as usize),
        _ => (1..number as usize).fold(x, |product, _| product * x),
    }
}

fn by_squares(x: f64, number: usize) -> f64 {
    match number {
        1 => x,
        _ if number % 2 == 1 => by_squares(x, number - 1) * x,
        _ => by_squares(x, number / 2) * by_squares(x, number / 2),
    }
}

/// Each as the function that a library has.
macro_rules! values {
    ($($broken:ident)*) => {
        [$(($broken, |sum, x| value($broken, sum, x))),*]
    };
}

type Named = (Broken, fn(&[u8], f64) -> Valued);

const WRONG: [Named; 26] = values!(
    TooDeepIs11 NotFiniteXAskedLast PartsBeforePowers PowersTermByTerm ZeroTermsAskedForPower
    ZeroByRealPart PartOf2To52LetIn PartBelow2To52Refused NegativePartsLetIn Power65LetIn
    Power64Refused PowerMinusZeroRefused RootLetIn InfinityGiven HighestFirst
    HighestCoefficientLost CoefficientFirst PowersBySquares Horner MultiplyAndAddAtOnce
    PowerZeroWithoutX NoTermsIsZero StartsAtZero ValueKeptOnRefusal CountTold PlaceTold
);

fn compared(value: fn(&[u8], f64) -> Valued) -> Compared {
    let words = "--lists 2000 --seed 1".split(' ').map(String::from);
    let settings = arguments::parse(words).expect("good words");
    work::compare(&settings, Library { value, ..LIBRARY })
}

#[test]
fn a_value_with_no_rule_broken_has_no_difference() {
    let [(_, right)]: [Named; 1] = values!(Nothing);
    let compared = compared(right);
    assert_eq!(compared.differences, Vec::<String>::new());
    assert_eq!(compared.tally.missing(), Vec::<String>::new());
}

#[test]
fn each_broken_rule_is_found() {
    for (broken, value) in WRONG {
        let differences = compared(value).differences;
        let first = differences.first().map_or("none", String::as_str);
        assert!(first.contains(": value at "), "{broken:?}: {first}");
    }
}

/// A value that isn't the run's is found by the run too, not by the engine alone.
#[test]
fn values_are_held_against_runs() {
    for run in [one_bit_up as fn(&[u8], f64) -> Ran, never_too_large] {
        let library = Library { run, ..LIBRARY };
        let seen = Seen::default();
        let mut checker = Checker::new(library, &seen);
        let sum = powers(&[(1.0, 2.0), (64.0, 3.0)]);
        let difference = checker.sum(&sum).expect_err("a difference").to_string();
        assert!(
            difference.contains("by the run of its list"),
            "{difference}"
        );
    }
}

fn one_bit_up(list: &[u8], x: f64) -> Ran {
    let mut ran = proved::run(list, x);
    ran.value += u64::from(ran.told.number == 0);
    ran
}

fn never_too_large(list: &[u8], x: f64) -> Ran {
    let mut ran = proved::run(list, x);
    if ran.told.number == 15 && x.is_finite() {
        ran.told = Told {
            number: 0,
            answer: [0, 1, 1],
        };
    }
    ran
}
