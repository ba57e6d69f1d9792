//! Random sums in good form, all kinds and nestings.

use super::{Complex, Expr, Term, sums};
use crate::random::Random;

/// The bytes of a random sum that is mostly within the paper's limits.
pub fn random_sum(random: &mut Random) -> Vec<u8> {
    let terms = match random.below(20) {
        0 => 1 + random.below(64),
        1..=4 => 1 + random.below(8),
        5..=12 => 1,
        _ => 1 + random.below(3),
    };
    let nesting = if random.once_in(40) {
        4
    } else {
        random.below(4)
    };
    sums::written(&sum(random, terms, nesting))
}

fn sum(random: &mut Random, terms: usize, nesting: usize) -> Expr {
    let mut sum = Expr::default();
    for _ in 0..terms {
        sum.0.insert(term(random, nesting), coefficient(random));
    }
    sum
}

fn term(random: &mut Random, nesting: usize) -> Term {
    if nesting == 0 || random.once_in(3) {
        return Term::X(random.number());
    }
    let terms = if random.once_in(4) {
        1 + random.below(3)
    } else {
        1
    };
    let inside = if random.once_in(3) {
        plain_argument(random)
    } else {
        sum(random, terms, nesting - 1)
    };
    match random.below(7) {
        0 => Term::Div(inside),
        1 => Term::Log(random.number(), inside),
        2 => Term::Exp(inside),
        3 => Term::Sin(inside),
        4 => Term::Cos(inside),
        5 => Term::SinH(inside),
        _ => Term::CosH(inside),
    }
}

/// x or kx, with a constant at times.
fn plain_argument(random: &mut Random) -> Expr {
    let mut sum = Expr::new_single(Term::X(1.0), coefficient(random));
    if random.once_in(3) {
        sum.0.insert(Term::X(0.0), coefficient(random));
    }
    sum
}

fn coefficient(random: &mut Random) -> Complex {
    let im = if random.once_in(5) {
        random.number()
    } else {
        0.0
    };
    let re = if random.once_in(3) {
        1.0
    } else {
        random.number()
    };
    Complex::new(re, im)
}
