//! The derivative of a sum, one outermost term after the other.

use std::f64::consts::{E, LN_2, LN_10};

use crate::{
    SUM_ENTRIES,
    arithmetic::{is_x, mul},
    records::Refusal,
    sum::{
        COS, COS_H, Complex, DIV, EXP, LOG, Merge, SIN, SIN_H, Stretch, Term, X, next_term, put,
        put_power,
    },
};

/// The derivative of a sum where it is a number.
fn slope_of(sum: &[Term]) -> Result<Complex, Refusal> {
    let mut slope = Complex::ZERO;
    for x in sum {
        let c = x.coef.mul_real(x.num);
        let is_zero = c == Complex::ZERO;
        if x.kind != X || !is_zero && x.num != 1.0 {
            return Err(Refusal::TooComplex);
        }
        if !is_zero {
            slope = slope.add(c);
        }
    }
    Ok(slope)
}

fn ln_of_base(base: f64) -> Result<f64, Refusal> {
    match base {
        E => Ok(1.0),
        2.0 => Ok(LN_2),
        10.0 => Ok(LN_10),
        _ => Err(Refusal::NeedsMath),
    }
}

/// The derivative of a term is added into the sum at `into`. Powers of x come
/// before all others, so that what they are added into has powers alone.
fn add_derivative(
    terms: &mut [Term],
    x: Term,
    inside: Stretch,
    into: Stretch,
) -> Result<usize, Refusal> {
    let argument = inside.of(terms);
    let (kind, how, coef) = match x.kind {
        X => {
            let c = x.coef.mul_real(x.num);
            if c == Complex::ZERO {
                return Ok(into.len);
            }
            return put_power(terms, Merge::Add, (x.num - 1.0, c), into, into.len);
        }
        DIV => {
            let at = into.at + SUM_ENTRIES;
            let len = mul(terms, inside, inside, at)?;
            let div = Term::function(DIV, len, x.coef);
            return put(terms, Merge::Add, div, Stretch { at, len }, into);
        }
        LOG => {
            let slope = slope_of(argument)?;
            let ln = ln_of_base(x.num)?;
            (DIV, Merge::Add, x.coef.mul(slope).div_real(ln))
        }
        EXP if is_x(argument) => (EXP, Merge::Add, x.coef.mul(argument[0].coef)),
        EXP => return Err(Refusal::TooComplex),
        SIN => (COS, Merge::Add, x.coef.mul(slope_of(argument)?)),
        COS => (SIN, Merge::Take, x.coef.mul(slope_of(argument)?)),
        SIN_H => (COS_H, Merge::Add, x.coef.mul(slope_of(argument)?)),
        _ => (SIN_H, Merge::Add, x.coef.mul(slope_of(argument)?)),
    };
    let derivative = Term::function(kind, inside.len, coef);
    put(terms, how, derivative, inside, into)
}

/// The derivative of a sum is formed from `to` on.
pub fn derivative(terms: &mut [Term], of: Stretch, to: usize) -> Result<usize, Refusal> {
    let (mut at, mut sum) = (of.at, Stretch { at: to, len: 0 });
    while let Some((x, inside)) = next_term(terms, &mut at, of.end()) {
        sum.len = add_derivative(terms, x, inside, sum)?;
    }
    if sum.len == 0 {
        terms[to] = Term::power(0.0, Complex::ZERO);
        sum.len = 1;
    }
    Ok(sum.len)
}
