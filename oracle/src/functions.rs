//! Sums that tell a right writer of arguments from wrong ones: every function
//! with arguments of every form, behind terms of every form.

use std::f64::consts::E;

use crate::{
    Complex,
    sums::{entry, kind},
};

/// Every kind that has an inside, with the number that goes with it.
pub const FUNCTIONS: [(u8, f64); 7] = [
    (kind::DIV, 0.0),
    (kind::LOG, E),
    (kind::EXP, 0.0),
    (kind::SIN, 0.0),
    (kind::COS, 0.0),
    (kind::SIN_H, 0.0),
    (kind::COS_H, 0.0),
];

/// A power of x with a real coefficient, as an entry.
pub fn power(power: f64, coef: f64) -> Vec<u8> {
    entry(kind::X, power, coef.into(), &[])
}

/// A function of a sum with a coefficient, as entries.
pub fn function((kind, number): (u8, f64), coef: Complex, inside: &[u8]) -> Vec<u8> {
    entry(kind, number, coef, inside)
}

/// Powers of x with their coefficients, the powers rising.
pub fn powers(terms: &[(f64, f64)]) -> Vec<u8> {
    terms.iter().flat_map(|&(p, coef)| power(p, coef)).collect()
}

/// A function of a sum, with coefficient 1.
fn of(kind: u8, inside: &[u8]) -> Vec<u8> {
    let number = if kind == kind::LOG { E } else { 0.0 };
    function((kind, number), Complex::ONE, inside)
}

/// x, 2x and a + bx; zeros; bare x first, a zero first, several terms; functions inside,
/// up to three with the one that this lies in.
pub fn arguments() -> Vec<Vec<u8>> {
    let x = power(1.0, 1.0);
    let deepest = of(kind::LOG, &powers(&[(1.0, 1.0), (2.0, 1.0)]));
    vec![
        x.clone(),
        power(1.0, 2.0),
        powers(&[(0.0, 3.0), (1.0, 2.0)]),
        power(1.0, 0.0),
        powers(&[(0.0, 0.0), (2.0, -0.0)]),
        powers(&[(1.0, 1.0), (2.0, 1.0)]),
        powers(&[(0.0, 1.0), (2.0, 1.0), (3.0, 2.0)]),
        powers(&[(0.0, 0.0), (1.0, 1.0)]),
        powers(&[(0.5, 1.0), (1.0, 1.0), (1.5, 0.0)]),
        of(kind::COS, &of(kind::EXP, &x)),
        of(kind::SIN, &power(2.0, 0.0)),
        [x, of(kind::COS, &[power(0.0, 1.0), deepest].concat())].concat(),
    ]
}

/// Nothing; bare x, x², a constant, several terms; a zero term, alone and behind bare x.
pub fn before() -> Vec<Vec<u8>> {
    vec![
        Vec::new(),
        power(1.0, 1.0),
        power(2.0, 1.0),
        power(0.0, 5.0),
        powers(&[(0.0, 5.0), (1.0, 1.0), (3.0, -2.0)]),
        powers(&[(1.0, 1.0), (2.0, 1.0)]),
        power(2.0, 0.0),
        powers(&[(1.0, 1.0), (2.0, 0.0)]),
    ]
}

/// Every function of every argument behind every one of these terms, once with coefficient 1
/// and once with another; a function behind another function, and one of which the coefficient is zero.
pub fn sums() -> Vec<Vec<u8>> {
    let mut sums = Vec::new();
    for function_of in FUNCTIONS {
        for argument in arguments() {
            for before in before() {
                for coef in [1.0, -2.5] {
                    let term = function(function_of, coef.into(), &argument);
                    sums.push([&before[..], &term].concat());
                }
            }
        }
    }
    sums.extend(beside_each_other());
    sums
}

fn beside_each_other() -> Vec<Vec<u8>> {
    let mut sums = Vec::new();
    for pair in FUNCTIONS.windows(2) {
        for argument in arguments() {
            for coef in [1.0, 0.0] {
                let first = function(pair[0], coef.into(), &argument);
                let second = function(pair[1], Complex::ONE, &argument);
                sums.push([first, second].concat());
            }
        }
    }
    sums
}

/// sin of so many powers of x from x^0 on, behind some of the terms before it.
fn sin_of_many(before: &[u8], terms: u32) -> Vec<u8> {
    let terms: Vec<(f64, f64)> = (0..terms).map(|power| (f64::from(power), 2.0)).collect();
    [before, &of(kind::SIN, &powers(&terms))].concat()
}

/// x² + sin((2 + im·i) x).
pub fn with_imaginary_part(im: f64) -> Vec<u8> {
    let inside = entry(kind::X, 1.0, Complex::new(2.0, im), &[]);
    [power(2.0, 1.0), of(kind::SIN, &inside)].concat()
}

/// Arguments of 63 entries, and of as many as there can be behind x, behind x² and one too many; three functions
/// inside each other, and four; imaginary parts of 2^-53 and 2^-52 inside an argument.
pub fn at_limits() -> Vec<Vec<u8>> {
    let x = power(1.0, 1.0);
    let three = of(kind::SIN, &of(kind::SIN, &of(kind::SIN, &x)));
    vec![
        sin_of_many(&[], 63),
        sin_of_many(&x, 62),
        sin_of_many(&power(2.0, 1.0), 62),
        sin_of_many(&x, 63),
        three.clone(),
        of(kind::SIN, &three),
        with_imaginary_part(f64::EPSILON / 2.0),
        with_imaginary_part(f64::EPSILON),
    ]
}
