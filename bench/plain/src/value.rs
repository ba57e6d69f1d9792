//! The value of a sum at x: its bytes taken in by the sum's rules, then a loop
//! over its powers.

use crate::{
    Refused, SUM_ENTRIES,
    arithmetic::whole,
    records::Refusal,
    sum::{Complex, Term, X, each, take_in},
};

/// The room of `value_in`.
pub struct ValueRoom {
    terms: [Term; SUM_ENTRIES],
}

impl ValueRoom {
    const CLEARED: ValueRoom = ValueRoom {
        terms: [Term::ZERO; SUM_ENTRIES],
    };

    #[must_use]
    pub fn new() -> ValueRoom {
        ValueRoom::CLEARED
    }
}

impl Default for ValueRoom {
    fn default() -> ValueRoom {
        ValueRoom::new()
    }
}

/// The value of a sum at x.
pub fn value(sum: &[u8], x: f64) -> Result<f64, Refused> {
    let mut room = ValueRoom::CLEARED;
    value_in(&mut room, sum, x)
}

/// The same with lent room.
pub fn value_in(room: &mut ValueRoom, sum: &[u8], x: f64) -> Result<f64, Refused> {
    let sum = take_in(sum, &mut room.terms).map_err(Refused::at(0))?;
    value_of(sum, x).map_err(Refused::at(0))
}

fn value_of(sum: &[Term], x: f64) -> Result<f64, Refusal> {
    if !x.is_finite() {
        return Err(Refusal::NotFinite);
    }
    let mut all_real = true;
    for (term, _) in each(sum).filter(|(term, _)| term.coef != Complex::ZERO) {
        if term.kind != X || whole(term.num).is_none() {
            return Err(Refusal::NeedsMath);
        }
        all_real &= term.coef.is_real();
    }
    if !all_real {
        return Err(Refusal::NotFinite);
    }
    let value = added_up(sum, x);
    // what isn't finite on the way stays so to the end
    if value.is_finite() {
        Ok(value)
    } else {
        Err(Refusal::NotFinite)
    }
}

/// Powers rise, so the product of each goes on from that of the last one.
fn added_up(sum: &[Term], x: f64) -> f64 {
    let (mut product, mut power) = (x, 1);
    let mut total = None;
    for (term, _) in each(sum).filter(|(term, _)| term.coef != Complex::ZERO) {
        let value = if term.num == 0.0 {
            x * 0.0 + term.coef.re
        } else {
            let wanted = term.num as usize;
            while power < wanted {
                product *= x;
                power += 1;
            }
            product * term.coef.re
        };
        total = Some(match total {
            None => value,
            Some(total) => total + value,
        });
    }
    total.unwrap_or(x * 0.0)
}
