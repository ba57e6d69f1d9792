//! Refusals explained: by name, place and a sentence that helps.

use uplink::{
    bytes, list_fault, read, Entry, Primitive, Record, Refusal, Refused, Term, SUM_BYTES,
};

use crate::{
    formula::first_term,
    numbers,
    source::{fault_sentence, Source},
    words,
};

/// What was asked of a list.
#[derive(Debug, Clone, Copy, PartialEq)]
pub enum Asked {
    Cost,
    Read,
    Derivative,
    Integral,
    Inverse,
    /// The formula written anew.
    Write,
    /// The value at this x.
    Run(f64),
    /// The formula's value at this x.
    Value(f64),
}

impl Asked {
    fn named(self) -> String {
        match self {
            Asked::Cost => "its cost".into(),
            Asked::Read => "reading it".into(),
            Asked::Derivative => "its derivative".into(),
            Asked::Integral => "its integral".into(),
            Asked::Inverse => "its inverse".into(),
            Asked::Write => "writing it anew".into(),
            Asked::Run(x) => format!("its run at x = {}", numbers::text(x)),
            Asked::Value(x) => format!("the value of its formula at x = {}", numbers::text(x)),
        }
    }
}

/// A refusal in full: what was refused, where, and what to do.
pub fn explained(asked: Asked, source: &Source, refused: Refused) -> String {
    let Refused { refusal, .. } = refused;
    let place = refusing_record(asked, &source.bytes, refused);
    let record = place.and_then(|place| source.record(place));
    let mut text = format!(
        "{}: {} is refused: {refusal} ({})",
        source.name,
        asked.named(),
        refusal.number()
    );
    if let (Some(place), Some(record)) = (place, record) {
        text.push_str(&format!(" at record {place}, {}\n", words::name(&record)));
        text.push_str(&source.shown_at(place).unwrap_or_default());
    } else {
        text.push('\n');
    }
    text.push_str(&sentence(asked, source, refusal, record));
    text
}

/// The record that refuses, if it is one and not the whole list, its end, or what was made of it.
fn refusing_record(asked: Asked, list: &[u8], refused: Refused) -> Option<usize> {
    if refused.refusal.is_of_the_whole() || list_fault(list).is_some() {
        return None;
    }
    let is_record = match asked {
        Asked::Read => true,
        Asked::Run(x) => x.is_finite(),
        _ => bytes::read(list, &mut [0; SUM_BYTES]).is_err_and(|reading| reading == refused),
    };
    is_record.then_some(refused.place)
}

fn sentence(asked: Asked, source: &Source, refusal: Refusal, record: Option<Record>) -> String {
    if let Some(fault) = list_fault(&source.bytes) {
        return fault_sentence(fault);
    }
    let special = match (asked, record) {
        (Asked::Run(x), Some(record)) => of_the_run(refusal, &record, x),
        (Asked::Run(_), None) => of_x(refusal),
        (_, Some(record)) => of_reading(refusal, &record),
        (Asked::Value(x), None) => of_the_value(source, refusal, x),
        (_, None) => of_the_result(asked, refusal),
    };
    special.unwrap_or_else(|| in_general(refusal))
}

fn in_general(refusal: Refusal) -> String {
    let meaning = refusal.meaning();
    let (first, rest) = meaning.split_at(1);
    format!("{}{rest}. {}", first.to_uppercase(), refusal.advice())
}

const PAGE: &str =
    "so the page can't show this formula yet. It can still be read, derived and integrated.";

fn of_the_run(refusal: Refusal, record: &Record, x: f64) -> Option<String> {
    Some(match (refusal, record) {
        (Refusal::NeedsMath, Record::Primitive(Primitive::Pow)) => {
            format!("The runner raises to whole powers from 0 to 64 and to no others, {PAGE} x to the power 1.5 can be run as Dup, Sqrt, Mul.")
        }
        (Refusal::NeedsMath, Record::Primitive(Primitive::Sqrt)) => {
            format!("At x = {} this is the root of a number below zero, and there is none.", numbers::text(x))
        }
        (Refusal::NeedsMath, record) => {
            format!("The runner has no {}: it adds, subtracts, multiplies, divides, takes square roots and raises to whole powers, {PAGE}", words::name(record))
        }
        (Refusal::NotSupported, Record::Modifier { .. }) => {
            "Of the modifiers the runner has On alone. `dive write` writes the same formula with no other modifier.".into()
        }
        (Refusal::NotSupported, _) => "The runner has no such step.".into(),
        (Refusal::NonReal, _) => {
            "The runner works on real numbers alone, and this step makes something else.".into()
        }
        (Refusal::NotFinite, Record::RealPush(_)) => NOT_FINITE_PUSH.into(),
        (Refusal::NotFinite, _) => {
            format!("At x = {} this step makes a value that is infinite or not a number; look for a division by zero.", numbers::text(x))
        }
        (Refusal::NoRoom, _) => "The runner has room for 256 values at once.".into(),
        _ => return None,
    })
}

fn of_x(refusal: Refusal) -> Option<String> {
    (refusal == Refusal::NotFinite).then(|| "x must be a finite number.".into())
}

const NOT_FINITE_PUSH: &str =
    "The number that is pushed is infinite or not a number. Push a finite one.";

fn of_reading(refusal: Refusal, record: &Record) -> Option<String> {
    let text = match (refusal, record) {
        (Refusal::NotFinite, Record::RealPush(_) | Record::ComplexPush { .. }) => NOT_FINITE_PUSH,
        (Refusal::NotFinite, _) => {
            "This step makes a coefficient that is infinite or not a number. Mend the weights: look for a division by zero, and for factors that are too large."
        }
        (Refusal::PowerNotFinite, _) => {
            "This step makes a power of x whose exponent is infinite. Mend the exponents: where powers of x are multiplied, divided or raised, \
             their exponents are added, subtracted or multiplied."
        }
        (Refusal::NeedsMath, Record::Primitive(Primitive::Pow | Primitive::Sqrt)) => {
            "To a power that isn't a whole number from 0 up, a single power of x is raised, and its coefficient must be 1. \
             Raise first and multiply by the coefficient after that."
        }
        (Refusal::TooComplex, Record::Primitive(Primitive::Mul | Primitive::Div)) => {
            "Powers of x can be multiplied and divided. Sines, cosines, exponentials, logarithms and reciprocals of sums can be added up, \
             but hardly ever multiplied or divided, not by a number either; of a sum of several terms only the reciprocal is taken."
        }
        (Refusal::TooComplex, Record::Primitive(Primitive::Pow | Primitive::Sqrt)) => {
            "The power must be a constant. To one that isn't a whole number from 0 up, only a single power of x can be raised."
        }
        (Refusal::TooComplex, Record::Primitive(Primitive::Exp)) => "The exponential is taken of k x, k being a number, and of constants.",
        (Refusal::NotSupported, Record::Primitive(Primitive::Max | Primitive::SinH | Primitive::CosH | Primitive::Root)) => {
            "This step is written in results, and not read."
        }
        _ => return None,
    };
    Some(text.into())
}

fn of_the_result(asked: Asked, refusal: Refusal) -> Option<String> {
    let text = match (asked, refusal) {
        (Asked::Derivative, Refusal::TooComplex) => {
            "The formula is read, but has no derivative here: a sine, a logarithm or their like is derived where its argument is k x + c, \
             and 1 over such a function isn't. `dive read` shows the formula."
        }
        (Asked::Derivative, Refusal::NotFinite) => {
            "The formula is read, but a coefficient of its derivative is infinite: mend the weights. `dive read` shows the formula."
        }
        (Asked::Derivative, Refusal::PowerNotFinite) => {
            "The formula is read, but its derivative squares what is divided by, and a power of x is infinite there: mend the exponents. \
             `dive read` shows the formula."
        }
        (Asked::Derivative, Refusal::NeedsMath) => {
            "The formula is read, but has no derivative here: logarithms are derived to base E, 2 and 10 alone. `dive read` shows the formula."
        }
        (Asked::Integral, Refusal::TooComplex) => {
            "The formula is read, but has no integral here: powers of x and the sine and cosine of x are integrated, and no other function. \
             `dive read` shows the formula."
        }
        (Asked::Inverse, Refusal::TooComplex) => {
            "The formula is read, but can't be undone here: constants, linear and quadratic formulas and k x^p + c can be. \
             `dive read` shows the formula."
        }
        (Asked::Inverse, Refusal::NeedsMath) => "The formula is k x^p + c, which is undone where k is a whole number.",
        _ => return None,
    };
    Some(text.into())
}

/// A formula that is read, and has no value at x.
fn of_the_value(source: &Source, refusal: Refusal, x: f64) -> Option<String> {
    let sum = read(&source.list().ok()?).ok()?.entries;
    if !x.is_finite() {
        return of_x(refusal);
    }
    if refusal == Refusal::NeedsMath {
        let term = first_term(&sum, |entry| !is_zero(entry) && !is_whole_power(entry.term))?;
        return Some(format!(
            "The formula is read, but has the term {term}, and a value is formed of whole powers of x from 0 to 64 alone. \
             `dive read` shows the formula."
        ));
    }
    let is_imaginary = |entry: &Entry| entry.im.abs() >= f64::EPSILON;
    Some(match first_term(&sum, is_imaginary) {
        Some(term) => format!(
            "The formula is read, but its term {term} has an imaginary part, and the value is a real number: only imaginary parts below 2^-52 are left out. \
             `dive read` shows the formula."
        ),
        None => format!(
            "At x = {} a power of x, a term or what they add up to is infinite or not a number.",
            numbers::text(x)
        ),
    })
}

fn is_zero(entry: &Entry) -> bool {
    entry.re == 0.0 && entry.im == 0.0
}

fn is_whole_power(term: Term) -> bool {
    matches!(term, Term::X(power) if (0.0..=64.0).contains(&power) && power.fract() == 0.0)
}

#[cfg(test)]
mod tests {
    use uplink::LIST_BYTES;

    use super::*;
    use crate::writer::Writer;

    /// What is asked of a list, and the refusal if it is refused.
    fn refusals(list: &[u8]) -> Vec<(Asked, Refused)> {
        let mut room = vec![0; LIST_BYTES];
        let mut found = Vec::new();
        let mut add =
            |asked, refused: Option<Refused>| found.extend(refused.map(|refused| (asked, refused)));
        add(Asked::Cost, bytes::cost(list).err());
        add(Asked::Read, bytes::read(list, &mut room).err());
        for writer in [Writer::Faithful, Writer::AsRust] {
            add(Asked::Derivative, writer.derivative(list, &mut room).err());
            add(Asked::Integral, writer.integral(list, &mut room).err());
            add(Asked::Write, writer.anew(list, &mut room).err());
        }
        add(Asked::Inverse, bytes::inverse(list, &mut room).err());
        for x in [2.0, 1e200, f64::NAN] {
            add(Asked::Run(x), bytes::run(list, x).err());
            let sum = bytes::read(list, &mut room);
            let value = sum.and_then(|found| bytes::value(found.sum, x));
            add(Asked::Value(x), value.err());
        }
        found
    }

    #[test]
    fn every_refusal_of_a_stored_list_is_explained() {
        let mut met = [false; 19];
        for list in crate::stored::lists() {
            let source = Source::of_records("a".into(), &list);
            for (asked, refused) in refusals(&list) {
                let text = explained(asked, &source, refused);
                assert!(text.contains(refused.refusal.name()), "{text}");
                assert!(text.ends_with('.') && text.lines().count() >= 2, "{text}");
                met[refused.refusal.number() as usize] = true;
            }
        }
        // OutputRoom alone is never met: there is room for every result.
        assert!(
            met[1..17].iter().all(|&met| met) && !met[17] && met[18],
            "{met:?}"
        );
    }
}
