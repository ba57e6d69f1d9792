//! A sum in words: as a formula, and as a table of its terms.

use std::f64::consts::E;

use uplink::{Entry, Term};

use crate::numbers::decimal;

/// The entries of one level, each with its inside.
fn level(sum: &[Entry]) -> impl Iterator<Item = (&Entry, &[Entry])> {
    let mut rest = sum;
    std::iter::from_fn(move || {
        let (entry, behind) = rest.split_first()?;
        let (inside, behind) = behind.split_at((entry.inside as usize).min(behind.len()));
        rest = behind;
        Some((entry, inside))
    })
}

/// A sum as a formula in x, in the notation of formulas if it has one there: read again it is the same sum.
pub fn formula(sum: &[Entry]) -> String {
    let mut text = String::new();
    for (entry, inside) in level(sum) {
        let is_negative = entry.im == 0.0 && entry.re.is_sign_negative() && entry.re != 0.0;
        let size = Entry {
            re: entry.re.abs(),
            ..*entry
        };
        text += &match (text.is_empty(), is_negative) {
            (true, false) => with_coefficient(entry, inside),
            (true, true) => first(entry, inside),
            (false, false) => format!(" + {}", with_coefficient(entry, inside)),
            (false, true) => format!(" - {}", with_coefficient(&size, inside)),
        };
    }
    text
}

/// The first of the outermost terms that is looked for, with its coefficient.
pub fn first_term(sum: &[Entry], is_it: impl Fn(&Entry) -> bool) -> Option<String> {
    let (entry, inside) = level(sum).find(|(entry, _)| is_it(entry))?;
    Some(formula(&[&[*entry], inside].concat()))
}

fn with_coefficient(entry: &Entry, inside: &[Entry]) -> String {
    let number = coefficient(entry);
    match entry.term {
        Term::X(0.0) => number,
        Term::Div => format!("{number}/({})", formula(inside)),
        _ if number == "1" && !is_written_out(entry) => term(entry, inside),
        _ => format!("{number} {}", term(entry, inside)),
    }
}

/// Whether a coefficient of 1 is written out: a broken power below 0 by itself is read with the imaginary part -0, and times 1 with 0.
fn is_written_out(entry: &Entry) -> bool {
    let is_broken = matches!(entry.term, Term::X(power) if power < 0.0 && power.fract() != 0.0);
    is_broken && entry.im.is_sign_positive()
}

/// The first term, with its sign. A minus before a power of x is read as Neg, which makes the imaginary part -0, and a coefficient of -1 as a number.
fn first(entry: &Entry, inside: &[Entry]) -> String {
    let size = Entry {
        re: -entry.re,
        ..*entry
    };
    match entry.term {
        Term::Div if entry.re == -1.0 => format!("-({})", with_coefficient(&size, inside)),
        Term::X(power) if entry.re == -1.0 && power != 0.0 && entry.im.is_sign_positive() => {
            format!("-1 {}", term(entry, inside))
        }
        _ => format!("-{}", with_coefficient(&size, inside)),
    }
}

fn coefficient(entry: &Entry) -> String {
    if entry.im == 0.0 {
        return decimal(entry.re);
    }
    let sign = if entry.im < 0.0 { '-' } else { '+' };
    format!(
        "({} {sign} {}i)",
        decimal(entry.re),
        decimal(entry.im.abs())
    )
}

/// A term without its coefficient.
fn term(entry: &Entry, inside: &[Entry]) -> String {
    let name = match entry.term {
        Term::X(power) => return power_of_x(power),
        Term::Div => "1/".into(),
        Term::Log(base) if base == E => "ln".into(),
        Term::Log(base) if base == 2.0 || base == 10.0 => format!("log{base}"),
        Term::Log(base) => format!("log[{}]", decimal(base)),
        Term::Exp => "exp".into(),
        Term::Sin => "sin".into(),
        Term::Cos => "cos".into(),
        Term::SinH => "sinh".into(),
        Term::CosH => "cosh".into(),
    };
    format!("{name}({})", formula(inside))
}

fn power_of_x(power: f64) -> String {
    if power == 0.0 {
        "1".into()
    } else if power == 1.0 {
        "x".into()
    } else if power < 0.0 {
        format!("x^({})", decimal(power))
    } else {
        format!("x^{}", decimal(power))
    }
}

/// The outermost terms of a sum, one to a line, each with its coefficient.
pub fn table(sum: &[Entry]) -> String {
    let rows: Vec<(String, String)> = level(sum)
        .map(|(entry, inside)| (term(entry, inside), coefficient(entry)))
        .collect();
    let width = rows
        .iter()
        .map(|(term, _)| term.chars().count())
        .max()
        .unwrap_or(0)
        .max(4);
    let mut text = format!("{:<width$}  coefficient\n", "term");
    for (term, number) in rows {
        text.push_str(&format!("{term:<width$}  {number}\n"));
    }
    text
}

#[cfg(test)]
mod tests {
    use super::*;

    fn with(term: Term, inside: u32, re: f64, im: f64) -> Entry {
        Entry {
            term,
            inside,
            re,
            im,
        }
    }

    #[test]
    fn powers_of_x() {
        let sum = [
            (0.0, -2.5),
            (0.5, 1.0),
            (1.0, -1.0),
            (2.0, 60.0),
            (3.0, 0.0),
        ];
        let sum: Vec<Entry> = sum
            .into_iter()
            .map(|(power, number)| Entry::power(power, number))
            .collect();
        assert_eq!(formula(&sum), "-2.5 + x^0.5 - x + 60 x^2 + 0 x^3");
        assert_eq!(formula(&[Entry::power(-1.0, 1.0)]), "x^(-1)");
        assert_eq!(formula(&[Entry::power(0.0, 1.0)]), "1");
    }

    #[test]
    fn functions_and_what_lies_inside() {
        let sum = [
            Entry::power(1.0, 2.0),
            with(Term::Div, 2, 3.0, 0.0),
            Entry::power(0.0, 1.0),
            Entry::power(1.0, 1.0),
            with(Term::Log(E), 1, 1.0, 0.0),
            Entry::power(1.0, 1.0),
            with(Term::Log(10.0), 1, -2.0, 0.0),
            Entry::power(1.0, 1.0),
            with(Term::Sin, 1, 0.0, -1.0),
            Entry::power(1.0, 2.0),
        ];
        let expected = "2 x + 3/(1 + x) + ln(x) - 2 log10(x) + (0 - 1i) sin(2 x)";
        assert_eq!(formula(&sum), expected);
    }

    #[test]
    fn terms_stand_in_a_table() {
        let sum = [Entry::power(1.0, 60.0), Entry::power(2.0, -6.0)];
        assert_eq!(table(&sum), "term  coefficient\nx     60\nx^2   -6\n");
    }
}
