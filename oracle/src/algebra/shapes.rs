//! Short names for the shapes of sums, to tell which arms of the Rust are reached.

use super::{Complex, E, Expr, ONE, Term, forming::Formed, sums};

/// The shape of a sum, insides named one level deep.
pub(super) fn sum(sum: &Expr) -> String {
    nested(sum, 1)
}

/// The shape of a sum, insides left out.
pub(super) fn coarse(sum: &Expr) -> String {
    nested(sum, 0)
}

/// The shape of an entry, its inside left out.
pub(super) fn coarse_entry(term: &Term, coef: Complex) -> String {
    single(term, coef, 0)
}

/// The shape of an entry; of a function's coefficient only whether it is zero.
pub(super) fn entry(term: &Term, coef: Complex) -> String {
    match term {
        Term::X(_) => single(term, coef, 0),
        _ if coef == Complex::ZERO => single(term, coef, 1),
        _ => single(term, ONE, 1),
    }
}

fn nested(sum: &Expr, levels: usize) -> String {
    match sum.single() {
        Some((term, coef)) => single(&term, coef, levels),
        None => several(sum),
    }
}

fn several(sum: &Expr) -> String {
    let mut kinds: Vec<&str> = sum.0.keys().map(kind_name).collect();
    kinds.dedup();
    let more = if kinds.len() > 2 { "+.." } else { "" };
    kinds.truncate(2);
    format!("several {}{more}", kinds.join("+"))
}

fn single(term: &Term, coef: Complex, levels: usize) -> String {
    match term {
        Term::X(power) if *power == 0.0 => constant(coef),
        Term::X(power) => format!("{}{}", coefficient(coef), x_power(*power)),
        term => {
            let inside = match sums::inside(term) {
                Some(sum) if levels > 0 => nested(sum, levels - 1),
                _ => String::from(".."),
            };
            format!("{}{}({inside})", coefficient(coef), kind_name(term))
        }
    }
}

pub(super) fn kind_name(term: &Term) -> &'static str {
    match term {
        Term::X(_) => "X",
        Term::Div(_) => "Div",
        Term::Log(..) => "Log",
        Term::Exp(_) => "Exp",
        Term::Sin(_) => "Sin",
        Term::Cos(_) => "Cos",
        Term::SinH(_) => "SinH",
        Term::CosH(_) => "CosH",
    }
}

fn coefficient(coef: Complex) -> &'static str {
    if coef == ONE {
        ""
    } else if coef == Complex::ZERO {
        "0 "
    } else if coef.im == 0.0 {
        "k "
    } else {
        "z "
    }
}

fn x_power(power: f64) -> &'static str {
    if power == 1.0 {
        "x"
    } else if power == 0.5 {
        "x^0.5"
    } else if power == 2.0 {
        "x^2"
    } else if power == -1.0 {
        "x^-1"
    } else if power.fract() != 0.0 {
        "x^fraction"
    } else if power < 0.0 {
        "x^-n"
    } else {
        "x^n"
    }
}

fn constant(coef: Complex) -> String {
    let imaginary = if coef.im == 0.0 {
        ""
    } else if coef.into_real().is_some() {
        " small i"
    } else {
        " i"
    };
    format!("{}{imaginary}", real_constant(coef.re))
}

fn real_constant(re: f64) -> &'static str {
    if re == 0.0 {
        if re.is_sign_negative() { "-0" } else { "0" }
    } else if re == 1.0 {
        "1"
    } else if re == E {
        "E"
    } else if re.fract() != 0.0 {
        "fraction"
    } else if re < 0.0 {
        "-n"
    } else if re > super::forming::MOST_POWER {
        "big n"
    } else {
        "n"
    }
}

/// What a step comes to: the kinds in the sum formed, or the number that refuses it.
pub(super) fn formed(formed: &Formed) -> String {
    match formed {
        Ok(sum) if sum.0.len() > 1 => several(sum),
        Ok(sum) => sum.0.keys().map(kind_name).collect(),
        Err(number) => number.to_string(),
    }
}

/// Whether a step comes to a sum, or the number that refuses it.
pub(super) fn formed_name(formed: &Formed) -> String {
    match formed {
        Ok(sum) if sum.0.len() > 1 => "several".into(),
        Ok(_) => "one".into(),
        Err(number) => number.to_string(),
    }
}
