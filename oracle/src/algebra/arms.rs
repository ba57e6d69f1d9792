//! Names for the arms that deriving, integrating, writing and inverting reach.

use super::{Complex, Expr, Term, ZERO, expr_deriv, expr_integral, shapes, sums};
use crate::{
    answer::{Answer, number::TOO_COMPLEX},
    features::Features,
    judge,
    records::{self, Record, kind},
};

/// Note what every entry over a sum does with it.
pub fn note_sum(bytes: &[u8], features: &mut Features) {
    if let Some(fault) = sums::fault(bytes) {
        features.note(|| format!("no sum: {fault:?}"));
    }
    let Ok(sum) = sums::read(bytes) else { return };
    note_calculus("derive", &sum, super::forming::derive, expr_deriv, features);
    note_calculus(
        "integrate",
        &sum,
        super::forming::integrate,
        expr_integral,
        features,
    );
    note_writing(&sum, "the whole", true, features);
    for complex in [false, true] {
        features.note(|| {
            format!(
                "write {complex} -> {}",
                outcome(&judge::write(bytes, complex))
            )
        });
    }
}

fn outcome<T>(answer: &Answer<T>) -> String {
    match answer {
        Answer::Rust(Ok(_)) => "done".into(),
        Answer::Rust(Err(refusal)) => refusal.number.to_string(),
        Answer::Limit(refusal) | Answer::Form(refusal) => format!("limit {}", refusal.number),
        Answer::Panic => "panic".into(),
        Answer::TooLong => "too long".into(),
    }
}

/// For each outermost entry: its shape, and whether its result meets a key
/// that is there already.
fn note_calculus(
    entry: &str,
    sum: &Expr,
    form: fn(&Expr) -> Result<Expr, u8>,
    rust: fn(Expr) -> Option<Expr>,
    features: &mut Features,
) {
    let mut before = Expr::default();
    for (term, &coef) in &sum.0 {
        let alone = Expr::new_single(term.clone(), coef);
        let comes_to = match form(&alone) {
            Err(TOO_COMPLEX) => String::from("7"),
            Err(number) => number.to_string(),
            Ok(_) => {
                let result = rust(alone).unwrap_or_default();
                let meets = result.0.keys().any(|key| before.0.contains_key(key));
                before.0.extend(result.0);
                String::from(if meets { "meets a key" } else { "a new key" })
            }
        };
        features.note(|| format!("{entry} {} -> {comes_to}", shapes::entry(term, coef)));
    }
    features.note(|| {
        let several = if sum.0.len() > 1 { "several" } else { "one" };
        format!(
            "{entry} of {several} -> {}",
            shapes::formed_name(&form(sum))
        )
    });
}

/// Follow the Rust's writer: where a term stands decides how it is written.
/// Answers whether anything is written.
fn note_writing(sum: &Expr, within: &str, nothing_before: bool, features: &mut Features) -> bool {
    let mut nothing_yet = nothing_before;
    let mut bare_x = false;
    for (term, &coef) in &sum.0 {
        if coef == ZERO {
            features.note(|| format!("write a zero {} in {within}", shapes::kind_name(term)));
            continue;
        }
        let is_first = nothing_yet && !bare_x;
        let position = match (is_first, nothing_yet) {
            (true, _) => "first",
            (false, true) => "after bare x",
            (false, false) => "later",
        };
        features.note(|| {
            format!(
                "write {position} {} in {within}",
                shapes::coarse_entry(term, coef)
            )
        });
        if let Some(inside) = sums::inside(term) {
            note_writing(inside, shapes::kind_name(term), is_first, features);
        }
        let is_bare = *term == Term::X(1.0) && coef == Complex::ONE;
        bare_x |= *term == Term::X(1.0);
        nothing_yet = is_first && is_bare;
    }
    nothing_yet
}

/// Note how the second writer writes a sum.
pub fn note_faithful_sum(bytes: &[u8], features: &mut Features) {
    for complex in [false, true] {
        let answer = outcome(&judge::write_faithful(bytes, complex));
        features.note(|| format!("write_faithful {complex} -> {answer}"));
    }
    if let Ok(sum) = sums::read(bytes) {
        note_arguments(&sum, "outer", features);
    }
}

/// Each function that is written: where it stands, and what its argument is like.
fn note_arguments(sum: &Expr, level: &str, features: &mut Features) {
    let mut position = "first";
    for (term, &coef) in sum.0.iter().filter(|(_, coef)| **coef != ZERO) {
        if let Some(inside) = sums::inside(term) {
            let times = if coef == Complex::ONE { "" } else { "k " };
            features.note(|| {
                let name = shapes::kind_name(term);
                format!("{level} {position} {times}{name} of {}", argument(inside))
            });
            note_arguments(inside, "inner", features);
        }
        let is_bare = *term == Term::X(1.0) && coef == Complex::ONE;
        position = if position == "first" && is_bare {
            "after bare x"
        } else {
            "later"
        };
    }
}

/// What an argument is like, to the loop that writes it.
fn argument(sum: &Expr) -> &'static str {
    let is_bare = |(term, coef): (&Term, &Complex)| *term == Term::X(1.0) && *coef == Complex::ONE;
    let mut terms = sum.0.iter().filter(|(_, coef)| **coef != ZERO);
    match (terms.next().map(is_bare), terms.next().is_some()) {
        (None, _) => "zeros",
        (Some(true), false) => "x",
        (Some(false), false) => "one term",
        (Some(true), true) => "x and more",
        (Some(false), true) => "several",
    }
}

/// Note how the second writer writes the derivative and the integral of a list.
pub fn note_faithful_list(list: &[u8], features: &mut Features) {
    let read = judge::read(list).done();
    let flag = read.as_ref().is_some_and(|read| read.complex);
    for (name, answer) in [
        ("derivative_faithful", judge::derivative_faithful(list)),
        ("integral_faithful", judge::integral_faithful(list)),
    ] {
        features.note(|| format!("{name} {flag} -> {}", outcome(&answer)));
    }
    let Some(read) = read else { return };
    for made in [
        judge::derive(&read.entries),
        judge::integrate(&read.entries),
    ] {
        let sum = made.done().and_then(|sum| sums::read(&sum).ok());
        if let Some(sum) = sum {
            note_arguments(&sum, "made of a list:", features);
        }
    }
}

/// Note what the entries over a list do with it.
pub fn note_list(list: &[u8], features: &mut Features) {
    if let Err(fault) = records::check(list) {
        features.note(|| format!("no list: {fault:?}"));
        return;
    }
    let read = judge::read_noting(list, features);
    note_refusal(list, &read, features);
    if let Answer::Rust(Ok(read)) = read {
        features.note(|| format!("read -> complex {}", read.complex));
        note_sum(&read.entries, features);
    }
    let inverse = judge::inverse(list);
    match &inverse {
        Answer::Rust(Ok(inverse)) => {
            let records = records::split(inverse).expect("whole records");
            features.note(|| format!("inverse -> {}", codes(&records)));
        }
        other => features.note(|| format!("inverse -> {}", outcome(other))),
    }
}

/// Which kind of record refuses, with which number, inside of what.
fn note_refusal<T>(list: &[u8], answer: &Answer<T>, features: &mut Features) {
    let (Answer::Rust(Err(refusal)) | Answer::Limit(refusal)) = answer else {
        return;
    };
    let records = records::split(list).expect("whole records");
    let at = refusal.place;
    let outer = (0..at).rfind(|&outer| outer + (records[outer].inside as usize) >= at);
    let name = |record: &Record| format!("{} {}", record.kind, record.code);
    features.note(|| {
        let refusing = records.get(at).map(name).unwrap_or_default();
        let outer = outer.map(|outer| name(&records[outer])).unwrap_or_default();
        format!("{} by {refusing} inside {outer}", refusal.number)
    });
}

fn codes(records: &[Record]) -> String {
    let names: Vec<String> = records
        .iter()
        .map(|record| match record.kind {
            kind::PRIMITIVE => format!("p{}", record.code),
            kind => format!("k{kind}"),
        })
        .collect();
    names.join(" ")
}
