//! The value of a sum at a number, from the request's words and apart from the
//! proved `value`: no list is written for it, and none is run.

use crate::{
    answer::{
        Refusal,
        number::{NEEDS_MATH, NOT_FINITE},
    },
    back::{Entry, outermost},
    features::Features,
    stored::VALUE_AT,
    sums::{self, kind},
};

/// The highest power that is multiplied out.
pub const MOST_POWER: f64 = 64.0;
/// The least imaginary part that isn't dropped.
pub const LEAST_IMAGINARY: f64 = f64::EPSILON;

/// The value of a sum at `x`.
pub fn value(sum: &[u8], x: f64) -> Result<f64, Refusal> {
    if let Some(fault) = sums::fault(sum) {
        return Err(fault.refusal());
    }
    if !x.is_finite() {
        return Err(Refusal::whole(NOT_FINITE));
    }
    let mut terms = outermost(sum);
    terms.retain(|term| !term.is_zero());
    if !terms.iter().all(is_whole_power) {
        return Err(Refusal::whole(NEEDS_MATH));
    }
    if terms.iter().any(|term| term.im.abs() >= LEAST_IMAGINARY) {
        return Err(Refusal::whole(NOT_FINITE));
    }
    added_up(&terms, x).ok_or(Refusal::whole(NOT_FINITE))
}

fn is_whole_power(term: &Entry) -> bool {
    let power = term.number;
    term.kind == kind::X && power.fract() == 0.0 && (0.0..=MOST_POWER).contains(&power)
}

/// Terms of rising whole powers, unless something on the way isn't finite.
fn added_up(terms: &[Entry], x: f64) -> Option<f64> {
    let mut sum = None;
    for term in terms {
        let term = term_value(term, x)?;
        sum = Some(match sum {
            None => term,
            Some(sum) => finite(sum + term)?,
        });
    }
    sum.or_else(|| finite(x * 0.0))
}

fn term_value(term: &Entry, x: f64) -> Option<f64> {
    if term.number == 0.0 {
        return finite(finite(x * 0.0)? + term.re);
    }
    let mut product = x;
    for _ in 1..term.number as usize {
        product = finite(product * x)?;
    }
    if term.re == 1.0 && term.im == 0.0 {
        return Some(product);
    }
    finite(product * term.re)
}

fn finite(value: f64) -> Option<f64> {
    value.is_finite().then_some(value)
}

/// Names for what the values at the stored numbers meet.
pub fn note(sum: &[u8], features: &mut Features) {
    if let Some(fault) = sums::fault(sum) {
        let name = format!("{fault:?}");
        let rule = name.split([' ', '(']).next().unwrap_or_default();
        features.note(|| format!("no sum: {rule}"));
        return;
    }
    let terms = outermost(sum);
    for x in VALUE_AT {
        let (comes_to, given) = match value(sum, x) {
            Ok(value) => ("done".into(), sort(value).into()),
            Err(refusal) => (refusal.number.to_string(), refusal.number.to_string()),
        };
        features.note(|| format!("at {}: {given}", sort(x)));
        features.note(|| format!("{}: {comes_to}", few(&terms)));
        // of a sum that is 14, the terms that make it so
        let matters = |term: &Entry| comes_to != "14" || !is_whole_power(term);
        let terms = terms.iter().enumerate();
        for (at, term) in terms.filter(|(_, term)| x.is_finite() && matters(term)) {
            let place = if at == 0 { "first" } else { "later" };
            features.note(|| format!("{place} {}: {comes_to}", shape(term)));
        }
    }
}

/// How many terms aren't zero, and whether there are zero ones.
fn few(terms: &[Entry]) -> String {
    let zeros = terms.iter().filter(|term| term.is_zero()).count();
    let others = match terms.len() - zeros {
        few @ (0..=3 | 63..) => few.to_string(),
        _ => "some".into(),
    };
    let beside = if zeros > 0 { " beside zeros" } else { "" };
    others + beside
}

/// What an entry is to the value.
fn shape(term: &Entry) -> String {
    let power = match term.number {
        0.0..=3.0 | MOST_POWER if is_whole_power(term) => format!("power {}", term.number),
        _ if is_whole_power(term) => "a whole power".into(),
        _ if term.is_zero() => format!("another power, kind {}", term.kind),
        _ if term.kind == kind::X => return "another power".into(),
        _ => return "a function".into(),
    };
    let imaginary = match term.im.abs() {
        0.0 => "",
        im if im < LEAST_IMAGINARY => " with an im that is dropped",
        _ => " with an im",
    };
    let real = match term.re {
        1.0 => "1",
        0.0 => "0",
        _ => "k",
    };
    format!("{real}{imaginary} of {power}")
}

fn sort(number: f64) -> &'static str {
    match (number.is_sign_negative(), number.abs()) {
        (false, 0.0) => "0",
        (true, 0.0) => "-0",
        (_, size) if !size.is_finite() => "not finite",
        (_, size) if size < f64::MIN_POSITIVE => "subnormal",
        (_, size) if size > 1e150 => "large",
        (false, _) => "above 0",
        (true, _) => "below 0",
    }
}
