//! The value of a sum at a number, to hold the algebra against calculus.

use super::{Complex, Expr, ONE, Term, ZERO, sums};
use crate::meaning::Number;

/// The value that a sum's bytes stand for, if they are a sum.
pub fn sum_value(bytes: &[u8], x: Complex) -> Option<Complex> {
    sums::read(bytes).ok().map(|sum| value(&sum, x))
}

fn value(sum: &Expr, x: Complex) -> Complex {
    sum.0.iter().fold(Complex::ZERO, |total, (term, &coef)| {
        total + coef * term_value(term, x)
    })
}

fn term_value(term: &Term, x: Complex) -> Complex {
    match term {
        Term::X(power) => x.powf(*power),
        Term::Div(sum) => Complex::ONE / value(sum, x),
        Term::Log(base, sum) => value(sum, x).log(*base),
        Term::Exp(sum) => value(sum, x).exp(),
        Term::Sin(sum) => value(sum, x).sin(),
        Term::Cos(sum) => value(sum, x).cos(),
        Term::SinH(sum) => value(sum, x).sinh(),
        Term::CosH(sum) => value(sum, x).cosh(),
    }
}

/// What a sum's bytes say at a number, in the operations in which it is said:
/// the terms that aren't zero, added from the left, each times its coefficient
/// unless that is 1.
pub fn said<N: Number>(bytes: &[u8], x: N) -> Option<N> {
    sums::read(bytes).ok().map(|sum| said_by(&sum, x))
}

fn said_by<N: Number>(sum: &Expr, x: N) -> N {
    let terms = sum.0.iter().filter(|(_, coef)| **coef != ZERO);
    let added = terms
        .map(|(term, coef)| said_by_term(term, *coef, x))
        .reduce(|a, b| a + b);
    added.unwrap_or_else(|| x * 0.0.into())
}

fn said_by_term<N: Number>(term: &Term, coef: Complex, x: N) -> N {
    let value = match term {
        Term::X(0.0) => return x * 0.0.into() + N::coefficient(coef),
        Term::X(0.5) => x.sqrt(),
        Term::X(1.0) => x,
        Term::X(2.0) => x * x,
        Term::X(power) => x.power((*power).into()),
        Term::Div(sum) => N::from(1.0) / said_by(sum, x),
        Term::Log(base, sum) => said_by(sum, x).log((*base).into()),
        Term::Exp(sum) => said_by(sum, x).exp(),
        Term::Sin(sum) => said_by(sum, x).sin(),
        Term::Cos(sum) => said_by(sum, x).cos(),
        Term::SinH(sum) => said_by(sum, x).sinh(),
        Term::CosH(sum) => said_by(sum, x).cosh(),
    };
    if coef == ONE {
        value
    } else {
        value * N::coefficient(coef)
    }
}

/// A sum in the Rust's own spelling.
pub fn sum_text(bytes: &[u8]) -> Option<String> {
    sums::read(bytes).ok().map(|sum| format!("{sum:?}"))
}
