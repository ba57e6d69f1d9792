//! The steps of the Rust with the paper's limits on what they form.
//!
//! Every function here does what an operator of the Rust does, in the Rust's
//! order and with the Rust's own arithmetic, and asks of every entry put into a
//! sum whether it keeps the limits. Where the Rust itself gives up (7) is asked
//! of the Rust's operator first, over the whole step; then 16, then 14.

use super::{
    Complex, E, Expr, ONE, Term, ZERO, expr_deriv, expr_integral,
    sums::{MOST_ENTRIES, MOST_NESTING, count, nesting, own_number},
};
use std::cell::Cell;

use crate::answer::number::{
    BIG_POWER, NEEDS_MATH, NO_ROOM, NOT_FINITE, POWER_NOT_FINITE, TOO_COMPLEX, TOO_DEEP,
};

/// The largest whole power that a sum is multiplied out for.
pub const MOST_POWER: f64 = 64.0;

/// A sum formed, or the number that refuses it.
pub(super) type Formed = Result<Expr, u8>;

fn is_finite(number: Complex) -> bool {
    number.re.is_finite() && number.im.is_finite()
}

thread_local! {
    /// Whether 15 stands for every number that isn't finite, as it did at first.
    static ONE_NUMBER: Cell<bool> = const { Cell::new(false) };
}

/// Do something on this thread under the first rule, by which a power that
/// isn't finite is refused with 15 like all other numbers.
pub fn with_one_number<T>(action: impl FnOnce() -> T) -> T {
    let before = ONE_NUMBER.replace(true);
    let result = action();
    ONE_NUMBER.set(before);
    result
}

/// The refusal of a term whose own number isn't finite: a power or a base.
fn not_finite(term: &Term) -> u8 {
    match term {
        Term::X(_) if !ONE_NUMBER.get() => POWER_NOT_FINITE,
        _ => NOT_FINITE,
    }
}

/// Put an entry into a sum that is being formed: change the coefficient that
/// its term has there, from +0 where it is new. 18 or 15 for the term's own
/// number, 15 for the coefficient, 13, 12.
fn put(sum: &mut Expr, term: Term, change: impl FnOnce(&mut Complex)) -> Result<(), u8> {
    if own_number(&term).is_some_and(|number| !number.is_finite()) {
        return Err(not_finite(&term));
    }
    let nesting = nesting(&term);
    let coef = sum.0.entry(term).or_default();
    change(coef);
    if !is_finite(*coef) {
        return Err(NOT_FINITE);
    }
    if nesting > MOST_NESTING {
        return Err(TOO_DEEP);
    }
    if count(sum) > MOST_ENTRIES {
        return Err(NO_ROOM);
    }
    Ok(())
}

fn put_added(sum: &mut Expr, term: Term, coef: Complex) -> Result<(), u8> {
    put(sum, term, |old| *old += coef)
}

fn put_stored(sum: &mut Expr, term: Term, coef: Complex) -> Result<(), u8> {
    put(sum, term, |old| *old = coef)
}

/// A sum of one term with coefficient 1.
pub(super) fn single(term: Term) -> Formed {
    let mut sum = Expr::default();
    put_stored(&mut sum, term, ONE)?;
    Ok(sum)
}

pub(super) fn constant(number: Complex) -> Formed {
    let mut sum = Expr::default();
    put_stored(&mut sum, Term::ONE, number)?;
    Ok(sum)
}

pub(super) fn add(mut a: Expr, b: Expr) -> Formed {
    for (term, coef) in b.0 {
        put_added(&mut a, term, coef)?;
    }
    Ok(a)
}

pub(super) fn sub(mut a: Expr, b: Expr) -> Formed {
    for (term, coef) in b.0 {
        put_added(&mut a, term, -coef)?;
    }
    Ok(a)
}

pub(super) fn mul(a: &Expr, b: &Expr) -> Formed {
    (a.clone() * b.clone()).ok_or(TOO_COMPLEX)?;
    product(a, b)
}

/// How many pairs of outermost terms a product tries, by its factors' lengths.
pub(super) fn pairs_of(a: &Expr, b: &Expr) -> u64 {
    a.0.len() as u64 * b.0.len() as u64
}

/// The product of two sums of which the Rust has shown that it gives one.
fn product(a: &Expr, b: &Expr) -> Formed {
    let mut product = Expr::default();
    for (ta, &ca) in &a.0 {
        for (tb, &cb) in &b.0 {
            put_added(&mut product, product_term(ta, tb)?, ca * cb)?;
        }
    }
    Ok(product)
}

fn product_term(a: &Term, b: &Term) -> Result<Term, u8> {
    match (a, b) {
        (Term::Div(a), Term::Div(b)) => Ok(Term::Div(product(a, b)?)),
        (a, b) => (a.clone() * b.clone()).ok_or(TOO_COMPLEX),
    }
}

pub(super) fn div(a: &Expr, b: &Expr) -> Formed {
    (a.clone() / b.clone()).ok_or(TOO_COMPLEX)?;
    let Some((tb, cb)) = b.single() else {
        // The Rust has shown that the dividend is constant 0 or 1.
        return if a.as_constant() == Some(ZERO) {
            Ok(a.clone())
        } else {
            single(Term::Div(b.clone()))
        };
    };
    let mut quotient = Expr::default();
    for (ta, &ca) in &a.0 {
        for (term, coef) in quotient_term(ta, &tb)?.0 {
            put_added(&mut quotient, term, ca / cb * coef)?;
        }
    }
    Ok(quotient)
}

/// Only the quotient that is a product forms a sum of its own.
fn quotient_term(a: &Term, b: &Term) -> Formed {
    match (a, b) {
        (&Term::X(power), Term::Div(b)) if power != 0.0 => product(&Term::X(power).into(), b),
        (a, b) => (a.clone() / b.clone()).ok_or(TOO_COMPLEX),
    }
}

pub(super) fn pow(base: &Expr, power: &Expr) -> Formed {
    pow_and_pairs(base, power, &mut 0)
}

/// A power; the pairs that its products try are added to this number.
pub(super) fn pow_and_pairs(base: &Expr, power: &Expr, pairs: &mut u64) -> Formed {
    let is_e = base
        .as_constant()
        .is_some_and(|c| c == Complex::new(E, 0.0));
    if is_e && matches!(power.single(), Some((Term::X(1.0), _))) {
        return single(Term::Exp(power.clone()));
    }
    let power = power
        .as_constant()
        .and_then(Complex::into_real)
        .ok_or(TOO_COMPLEX)?;
    if power.fract() == 0.0 && power >= 0.0 {
        whole_power(base, power, pairs)
    } else {
        base.clone().pow(power.into()).ok_or(TOO_COMPLEX)?;
        if !has_unit_coefs(base) {
            return Err(NEEDS_MATH);
        }
        root(base, power)
    }
}

/// If any product on the way gives 7, the first one does: the terms of a
/// product are of the kinds of its factors.
fn whole_power(base: &Expr, power: f64, pairs: &mut u64) -> Formed {
    if power >= 2.0 {
        (base.clone() * base.clone()).ok_or(TOO_COMPLEX)?;
    }
    if power > MOST_POWER {
        return Err(BIG_POWER);
    }
    if power == 0.0 {
        return Ok(0.0.into());
    }
    let mut acc = base.clone();
    for _ in 1..power as usize {
        *pairs += pairs_of(&acc, base);
        acc = product(&acc, base)?;
    }
    Ok(acc)
}

/// Whether the coefficient is 1 all the way down through Div.
fn has_unit_coefs(sum: &Expr) -> bool {
    sum.0.iter().all(|(term, &coef)| {
        let below = match term {
            Term::Div(sum) => has_unit_coefs(sum),
            _ => true,
        };
        coef == ONE && below
    })
}

/// A power that isn't a whole number from 0 up, of a single term.
fn root(base: &Expr, power: f64) -> Formed {
    let (term, coef) = base.single().ok_or(TOO_COMPLEX)?;
    let term = match term {
        Term::Div(sum) => Term::Div(root(&sum, power)?),
        term => term.pow(power).ok_or(TOO_COMPLEX)?,
    };
    let mut sum = Expr::default();
    put_stored(&mut sum, term, coef.powf(power))?;
    Ok(sum)
}

pub(super) fn log(sum: Expr, base: &Expr) -> Formed {
    let base = base
        .as_constant()
        .and_then(Complex::into_real)
        .ok_or(TOO_COMPLEX)?;
    single(Term::Log(base, sum))
}

/// `b` plus `a` times i.
pub(super) fn complex(a: &Expr, b: Expr) -> Formed {
    match (a.as_constant(), b.as_constant()) {
        (Some(a), Some(b)) => constant(a * Complex::I + b),
        _ => add(b, mul(a, &Complex::I.into())?),
    }
}

/// Each outermost entry is a step of its own.
pub(super) fn derive(sum: &Expr) -> Formed {
    let mut deriv = Expr::default();
    for (term, &coef) in &sum.0 {
        expr_deriv(Expr::new_single(term.clone(), coef)).ok_or(TOO_COMPLEX)?;
        derive_entry(&mut deriv, term, coef)?;
    }
    if deriv.0.is_empty() {
        deriv = 0.0.into();
    }
    Ok(deriv)
}

fn derive_entry(deriv: &mut Expr, term: &Term, mut coef: Complex) -> Result<(), u8> {
    match term.clone() {
        Term::X(power) => {
            coef *= power;
            if coef == ZERO {
                return Ok(());
            }
            put_added(deriv, Term::X(power - 1.0), coef)
        }
        Term::Div(sum) => put_added(deriv, Term::Div(product(&sum, &sum)?), coef),
        Term::Exp(sum) => {
            let (_, inner) = sum.single().ok_or(TOO_COMPLEX)?;
            put_added(deriv, Term::Exp(sum), coef * inner)
        }
        Term::Log(base, sum) => {
            let prime = inner_prime(&sum)?;
            if ![E, 2.0, 10.0].contains(&base) {
                return Err(NEEDS_MATH);
            }
            put_added(deriv, Term::Div(sum), coef * prime / base.ln())
        }
        Term::Sin(sum) => {
            let prime = inner_prime(&sum)?;
            put_added(deriv, Term::Cos(sum), coef * prime)
        }
        Term::Cos(sum) => {
            let prime = inner_prime(&sum)?;
            put(deriv, Term::Sin(sum), |old| *old -= coef * prime)
        }
        Term::SinH(sum) => {
            let prime = inner_prime(&sum)?;
            put_added(deriv, Term::CosH(sum), coef * prime)
        }
        Term::CosH(sum) => {
            let prime = inner_prime(&sum)?;
            put_added(deriv, Term::SinH(sum), coef * prime)
        }
    }
}

/// The constant derivative of a function's argument. It holds no number that
/// isn't finite: only powers of 1 reach it, and these keep their coefficient.
fn inner_prime(sum: &Expr) -> Result<Complex, u8> {
    expr_deriv(sum.clone())
        .and_then(|prime| prime.as_constant())
        .ok_or(TOO_COMPLEX)
}

/// Each outermost entry is a step of its own.
pub(super) fn integrate(sum: &Expr) -> Formed {
    let mut integral = Expr::default();
    for (term, &coef) in &sum.0 {
        expr_integral(Expr::new_single(term.clone(), coef)).ok_or(TOO_COMPLEX)?;
        integrate_entry(&mut integral, term, coef)?;
    }
    Ok(integral)
}

fn integrate_entry(integral: &mut Expr, term: &Term, coef: Complex) -> Result<(), u8> {
    let x = || Expr::from(Term::X(1.0));
    match term {
        Term::X(power) => {
            let power = power + 1.0;
            if power == 0.0 {
                put_stored(integral, Term::Log(E, x()), coef)
            } else {
                put_stored(integral, Term::X(power), coef / power)
            }
        }
        Term::Sin(_) => put_stored(integral, Term::Cos(x()), -coef),
        Term::Cos(_) => put_stored(integral, Term::Sin(x()), coef),
        Term::SinH(_) => put_stored(integral, Term::CosH(x()), coef),
        Term::CosH(_) => put_stored(integral, Term::SinH(x()), coef),
        _ => Err(TOO_COMPLEX),
    }
}

/// Whether the inverse takes the form kx^p + c with a k whose root it needs.
pub(super) fn inverse_needs_math(sum: &Expr) -> bool {
    let mut rest = sum.clone();
    for power in [0.0, 1.0, 2.0] {
        rest.0.remove(&Term::X(power));
    }
    rest.0.values().any(|k| k.im != 0.0 || k.re.fract() != 0.0)
}
