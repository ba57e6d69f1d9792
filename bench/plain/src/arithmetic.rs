//! The arithmetic of sums. Operands lie in `terms`; a result is formed from
//! `to` on, apart from them, where there is room for two sums: the second one
//! is for what is formed on the way.

use std::f64::consts::E;

use crate::{
    SUM_ENTRIES,
    records::Refusal,
    sum::{
        Complex, DIV, EXP, LOG, Merge, Stretch, Term, X, count_powers, each, next_term, put,
        put_power, same_term,
    },
};

const HIGHEST_POWER: usize = 64;

type Formed = Result<usize, Refusal>;

pub fn as_constant(sum: &[Term]) -> Option<Complex> {
    match sum {
        [x] if x.is_one() => Some(x.coef),
        _ => None,
    }
}

fn as_real(sum: &[Term]) -> Option<f64> {
    as_constant(sum).filter(|c| c.is_real()).map(|c| c.re)
}

pub fn is_x(sum: &[Term]) -> bool {
    matches!(sum, [x] if x.kind == X && x.num == 1.0)
}

fn is_power(sum: &[Term]) -> bool {
    matches!(sum, [x] if x.kind == X)
}

fn all_powers(sum: &[Term]) -> bool {
    sum.iter().all(|x| x.kind == X)
}

/// The sum that lies from `at` on, as far as it is formed.
fn sum_at(at: usize, len: usize) -> Stretch {
    Stretch { at, len }
}

/// A power of x as a sum of its own.
fn alone(terms: &mut [Term], how: Merge, num: f64, c: Complex, to: usize) -> Formed {
    put_power(terms, how, (num, c), sum_at(to, 0), 0)
}

fn copied(terms: &mut [Term], from: Stretch, to: usize) -> Formed {
    terms.copy_within(from.at..from.end(), to);
    Ok(from.len)
}

/// Each term of a sum, with its coefficient changed, is added into another.
pub fn add_each(
    terms: &mut [Term],
    change: impl Fn(Complex) -> Complex,
    from: Stretch,
    into: Stretch,
) -> Formed {
    let mut powers = count_powers(into.of(terms));
    let (mut at, mut sum) = (from.at, into);
    while let Some((x, inside)) = next_term(terms, &mut at, from.end()) {
        let c = change(x.coef);
        let before = sum.len;
        if x.kind == X {
            sum.len = put_power(terms, Merge::Add, (x.num, c), sum, powers)?;
            powers += sum.len - before;
        } else {
            sum.len = put(terms, Merge::Add, Term { coef: c, ..x }, inside, sum)?;
        }
    }
    Ok(sum.len)
}

pub fn neg(terms: &mut [Term], of: Stretch) {
    let mut at = of.at;
    while at < of.end() {
        let x = &mut terms[at];
        x.coef = x.coef.neg();
        at += x.size();
    }
}

pub fn not(terms: &mut [Term], of: Stretch, to: usize) -> Formed {
    terms[to] = Term::power(0.0, Complex::ONE);
    add_each(terms, Complex::neg, of, sum_at(to, 1))
}

fn can_mul(a: &[Term], b: &[Term]) -> bool {
    let fits = |(x, inside_x): (&Term, &[Term])| {
        each(b).all(|(y, inside_y)| match (x.kind, y.kind) {
            (X, X) => true,
            (DIV, DIV) => can_mul(inside_x, inside_y),
            _ => false,
        })
    };
    all_powers(a) && all_powers(b) || each(a).all(fits)
}

/// The product of sums of powers, or of Divs, for which there is one.
fn mul_all(terms: &mut [Term], a: Stretch, b: Stretch, to: usize) -> Formed {
    let (mut p, mut len) = (a.at, 0);
    while let Some((x, inside_x)) = next_term(terms, &mut p, a.end()) {
        let mut q = b.at;
        while let Some((y, inside_y)) = next_term(terms, &mut q, b.end()) {
            let c = x.coef.mul(y.coef);
            len = if x.kind == X {
                put_power(terms, Merge::Add, (x.num + y.num, c), sum_at(to, len), len)?
            } else {
                mul_divs(terms, c, inside_x, inside_y, sum_at(to, len))?
            };
        }
    }
    Ok(len)
}

/// The product of two Divs is the Div of the product of their insides, which
/// is formed in a book of its own.
fn mul_divs(terms: &mut [Term], c: Complex, x: Stretch, y: Stretch, into: Stretch) -> Formed {
    let mut book = [Term::ZERO; 4 * SUM_ENTRIES];
    let [a, b] = [(x, 0), (y, SUM_ENTRIES)].map(|(from, at)| {
        book[at..at + from.len].copy_from_slice(from.of(terms));
        sum_at(at, from.len)
    });
    let (product, result) = (2 * SUM_ENTRIES, sum_at(3 * SUM_ENTRIES, into.len));
    let inside = sum_at(product, mul_all(&mut book, a, b, product)?);
    book[result.at..result.end()].copy_from_slice(into.of(terms));
    let div = Term::function(DIV, inside.len, c);
    let len = put(&mut book, Merge::Add, div, inside, result)?;
    terms[into.at..into.at + len].copy_from_slice(&book[result.at..result.at + len]);
    Ok(len)
}

pub fn mul(terms: &mut [Term], a: Stretch, b: Stretch, to: usize) -> Formed {
    if !can_mul(a.of(terms), b.of(terms)) {
        return Err(Refusal::TooComplex);
    }
    mul_all(terms, a, b, to)
}

fn can_div(x: &Term, inside_x: &[Term], y: &Term, inside_y: &[Term]) -> bool {
    match (x.kind, y.kind) {
        (X, X) => true,
        (X, DIV) => x.is_one() || all_powers(inside_y),
        (X, _) => x.is_one(),
        _ => same_term(x, inside_x, y, inside_y),
    }
}

/// A power of x by a Div is that power times what the Div divides by.
fn by_div(terms: &mut [Term], x: &Term, c: Complex, y: Stretch, into: Stretch) -> Formed {
    if x.is_one() {
        return add_each(terms, |d| c.mul(d), y, into);
    }
    let mut product = sum_at(into.at + SUM_ENTRIES, 0);
    for at in y.at..y.end() {
        let power = (x.num + terms[at].num, Complex::ONE.mul(terms[at].coef));
        product.len = put_power(terms, Merge::Add, power, product, product.len)?;
    }
    add_each(terms, |d| c.mul(d), product, into)
}

/// 1 by a function is the Div of it.
fn by_function(terms: &mut [Term], c: Complex, y: &Term, inside: Stretch, into: Stretch) -> Formed {
    let at = into.at + SUM_ENTRIES;
    terms[at] = Term {
        coef: Complex::ONE,
        ..*y
    };
    terms.copy_within(inside.at..inside.end(), at + 1);
    let div = Term::function(DIV, y.size(), c);
    put(terms, Merge::Add, div, sum_at(at, y.size()), into)
}

fn div_term(terms: &mut [Term], x: &Term, y: &Term, inside: Stretch, into: Stretch) -> Formed {
    let c = x.coef.div(y.coef);
    let power = match (x.kind, y.kind) {
        (X, X) if x.is_one() => -y.num,
        (X, X) => x.num - y.num,
        (X, DIV) => return by_div(terms, x, c, inside, into),
        (X, _) => return by_function(terms, c.mul(Complex::ONE), y, inside, into),
        _ => 1.0,
    };
    let power = Term::power(power, c.mul(Complex::ONE));
    put(terms, Merge::Add, power, sum_at(0, 0), into)
}

fn div_of(terms: &mut [Term], of: Stretch, to: usize) -> Formed {
    function(terms, DIV, of, to)
}

pub fn div(terms: &mut [Term], a: Stretch, b: Stretch, to: usize) -> Formed {
    let y = terms[b.at];
    let inside_y = sum_at(b.at + 1, y.inside as usize);
    if y.size() != b.len {
        return match as_constant(a.of(terms)) {
            Some(c) if c == Complex::ZERO => copied(terms, a, to),
            Some(c) if c == Complex::ONE => div_of(terms, b, to),
            _ => Err(Refusal::TooComplex),
        };
    }
    let by_y = |(x, inside): (&Term, &[Term])| can_div(x, inside, &y, inside_y.of(terms));
    if !each(a.of(terms)).all(by_y) {
        return Err(Refusal::TooComplex);
    }
    let (mut at, mut sum) = (a.at, sum_at(to, 0));
    while let Some((x, _)) = next_term(terms, &mut at, a.end()) {
        sum.len = div_term(terms, &x, &y, inside_y, sum)?;
    }
    Ok(sum.len)
}

pub fn reciprocal(terms: &mut [Term], of: Stretch, to: usize) -> Formed {
    let y = terms[of.at];
    if y.size() != of.len {
        return div_of(terms, of, to);
    }
    let one = Term::power(0.0, Complex::ONE);
    let inside = sum_at(of.at + 1, y.inside as usize);
    div_term(terms, &one, &y, inside, sum_at(to, 0))
}

/// One term, a power of x or a Div of such a term.
fn can_root(sum: &[Term]) -> bool {
    match sum {
        [x] if x.kind == X => true,
        [x, rest @ ..] if x.kind == DIV && x.inside as usize == rest.len() => can_root(rest),
        _ => false,
    }
}

fn root(terms: &mut [Term], power: f64, of: Stretch, to: usize) -> Formed {
    if !can_root(of.of(terms)) {
        return Err(Refusal::TooComplex);
    }
    if of.of(terms).iter().any(|x| x.coef != Complex::ONE) {
        return Err(Refusal::NeedsMath);
    }
    for k in 0..of.len {
        let x = terms[of.at + k];
        let num = if x.kind == X { x.num * power } else { 0.0 };
        if !num.is_finite() {
            return Err(Refusal::PowerNotFinite);
        }
        let im = if is_whole(power) {
            0.0
        } else {
            x.coef.im * power
        };
        let coef = Complex { re: 1.0, im };
        terms[to + k] = Term { num, coef, ..x };
    }
    Ok(of.len)
}

fn is_whole(x: f64) -> bool {
    x.is_finite() && x.trunc() == x
}

/// A whole number from 0 to the highest power.
pub fn whole(x: f64) -> Option<usize> {
    let whole = x as usize;
    (whole as f64 == x && whole <= HIGHEST_POWER).then_some(whole)
}

pub fn power_by(terms: &mut [Term], power: f64, of: Stretch, to: usize) -> Formed {
    let Some(power) = whole(power) else {
        return not_by_products(terms, power, of, to);
    };
    if power == 0 {
        return alone(terms, Merge::Store, 0.0, Complex::ZERO, to);
    }
    if power == 1 {
        return copied(terms, of, to);
    }
    if !can_mul(of.of(terms), of.of(terms)) {
        return Err(Refusal::TooComplex);
    }
    let mut product = of;
    for left in (0..power - 1).rev() {
        let at = to + left % 2 * SUM_ENTRIES;
        product = sum_at(at, mul_all(terms, product, of, at)?);
    }
    Ok(product.len)
}

/// To a power that is no whole number from 0 to 64.
fn not_by_products(terms: &mut [Term], power: f64, of: Stretch, to: usize) -> Formed {
    if power < 0.0 || !is_whole(power) {
        return root(terms, power, of, to);
    }
    if can_mul(of.of(terms), of.of(terms)) {
        Err(Refusal::BigPower)
    } else {
        Err(Refusal::TooComplex)
    }
}

pub fn function(terms: &mut [Term], kind: u32, of: Stretch, to: usize) -> Formed {
    let function = Term::function(kind, of.len, Complex::ONE);
    put(terms, Merge::Store, function, of, sum_at(to, 0))
}

pub fn pow(terms: &mut [Term], base: Stretch, power: Stretch, to: usize) -> Formed {
    const EULER: Complex = Complex { re: E, im: 0.0 };
    if as_constant(base.of(terms)) == Some(EULER) && is_x(power.of(terms)) {
        return function(terms, EXP, power, to);
    }
    match as_real(power.of(terms)) {
        Some(power) => power_by(terms, power, base, to),
        None => Err(Refusal::TooComplex),
    }
}

/// A number to the power of a sum, which is written over.
pub fn exponential(terms: &mut [Term], base: f64, power: Stretch, to: usize) -> Formed {
    if base == E && is_x(power.of(terms)) {
        return function(terms, EXP, power, to);
    }
    let real = as_real(power.of(terms)).ok_or(Refusal::TooComplex)?;
    terms[power.at] = Term::power(0.0, Complex { re: base, im: 0.0 });
    power_by(terms, real, power, to)
}

pub fn log(terms: &mut [Term], of: Stretch, base: Stretch, to: usize) -> Formed {
    match as_real(base.of(terms)) {
        Some(base) => log_by(terms, base, of, to),
        None => Err(Refusal::TooComplex),
    }
}

pub fn log_by(terms: &mut [Term], base: f64, of: Stretch, to: usize) -> Formed {
    let log = Term {
        num: base,
        ..Term::function(LOG, of.len, Complex::ONE)
    };
    put(terms, Merge::Store, log, of, sum_at(to, 0))
}

pub fn complex(terms: &mut [Term], re: Stretch, im: Stretch, to: usize) -> Formed {
    if let [Some(d), Some(c)] = [re, im].map(|part| as_constant(part.of(terms))) {
        return alone(terms, Merge::Store, 0.0, c.mul(Complex::I).add(d), to);
    }
    terms[to] = Term::power(0.0, Complex::I);
    let at = to + SUM_ENTRIES;
    let product = sum_at(at, mul(terms, im, sum_at(to, 1), at)?);
    let len = copied(terms, re, to)?;
    add_each(terms, |c| c, product, sum_at(to, len))
}

/// The short cuts: one power of x times another, or to a whole number, of
/// which the last product alone is written. None where there is none to take.
pub mod short {
    use super::*;

    pub fn mul(a: &[Term], b: &[Term]) -> Option<Result<Term, Refusal>> {
        (is_power(a) && is_power(b)).then(|| product(&a[0], &b[0]))
    }

    fn product(x: &Term, y: &Term) -> Result<Term, Refusal> {
        let num = x.num + y.num;
        let coef = Complex::ZERO.add(x.coef.mul(y.coef));
        if !num.is_finite() {
            Err(Refusal::PowerNotFinite)
        } else if !coef.is_finite() {
            Err(Refusal::NotFinite)
        } else {
            Ok(Term::power(num, coef))
        }
    }

    pub fn pow(base: &[Term], power: &[Term]) -> Option<Result<Term, Refusal>> {
        let power = whole(as_real(power)?)?;
        (is_power(base) && power > 0).then(|| raised(&base[0], power))
    }

    fn raised(x: &Term, power: usize) -> Result<Term, Refusal> {
        let mut term = *x;
        for _ in 1..power {
            term = product(&term, x)?;
        }
        Ok(term)
    }
}
