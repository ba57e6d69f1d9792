//! Sums: terms in rising order, each followed by the terms inside it.

use std::cmp::Ordering;

use crate::{SUM_ENTRIES, records::Refusal};

pub const X: u32 = 1;
pub const DIV: u32 = 2;
pub const LOG: u32 = 3;
pub const EXP: u32 = 4;
pub const SIN: u32 = 5;
pub const COS: u32 = 6;
pub const SIN_H: u32 = 7;
pub const COS_H: u32 = 8;

const ENTRY_BYTES: usize = 32;
const MOST_LEVELS: usize = 3;

#[derive(Debug, Clone, Copy, PartialEq)]
pub struct Complex {
    pub re: f64,
    pub im: f64,
}

impl Complex {
    pub const ZERO: Complex = Complex { re: 0.0, im: 0.0 };
    pub const ONE: Complex = Complex { re: 1.0, im: 0.0 };
    pub const I: Complex = Complex { re: 0.0, im: 1.0 };

    pub fn add(self, by: Complex) -> Complex {
        Complex {
            re: self.re + by.re,
            im: self.im + by.im,
        }
    }

    pub fn sub(self, by: Complex) -> Complex {
        Complex {
            re: self.re - by.re,
            im: self.im - by.im,
        }
    }

    pub fn neg(self) -> Complex {
        Complex {
            re: -self.re,
            im: -self.im,
        }
    }

    pub fn mul(self, by: Complex) -> Complex {
        Complex {
            re: self.re * by.re - self.im * by.im,
            im: self.re * by.im + self.im * by.re,
        }
    }

    pub fn mul_real(self, by: f64) -> Complex {
        Complex {
            re: self.re * by,
            im: self.im * by,
        }
    }

    pub fn div(self, by: Complex) -> Complex {
        let denominator = by.re * by.re + by.im * by.im;
        Complex {
            re: (self.re * by.re + self.im * by.im) / denominator,
            im: (self.im * by.re - self.re * by.im) / denominator,
        }
    }

    pub fn div_real(self, by: f64) -> Complex {
        Complex {
            re: self.re / by,
            im: self.im / by,
        }
    }

    pub fn is_finite(self) -> bool {
        self.re.is_finite() && self.im.is_finite()
    }

    pub fn is_real(self) -> bool {
        self.im.abs() < f64::EPSILON
    }
}

#[derive(Debug, Clone, Copy)]
pub struct Term {
    pub kind: u32,
    /// How many of the terms after it lie inside it.
    pub inside: u32,
    /// The power of an X, the base of a Log.
    pub num: f64,
    pub coef: Complex,
}

impl Term {
    pub const ZERO: Term = Term {
        kind: 0,
        inside: 0,
        num: 0.0,
        coef: Complex::ZERO,
    };

    pub fn power(num: f64, coef: Complex) -> Term {
        Term {
            kind: X,
            inside: 0,
            num,
            coef,
        }
    }

    pub fn function(kind: u32, inside: usize, coef: Complex) -> Term {
        Term {
            kind,
            inside: inside as u32,
            num: 0.0,
            coef,
        }
    }

    pub fn is_one(&self) -> bool {
        self.kind == X && self.num == 0.0
    }

    /// How many terms it is, itself and those inside it.
    pub fn size(&self) -> usize {
        1 + self.inside as usize
    }
}

/// Where a sum lies.
#[derive(Debug, Clone, Copy)]
pub struct Stretch {
    pub at: usize,
    pub len: usize,
}

impl Stretch {
    pub fn end(self) -> usize {
        self.at + self.len
    }

    pub fn of(self, terms: &[Term]) -> &[Term] {
        &terms[self.at..self.end()]
    }
}

/// The outermost terms of the sum that lies in a stretch: where each is.
pub fn next_term(terms: &[Term], at: &mut usize, end: usize) -> Option<(Term, Stretch)> {
    if *at >= end {
        return None;
    }
    let term = terms[*at];
    let inside = Stretch {
        at: *at + 1,
        len: term.inside as usize,
    };
    *at = inside.end();
    Some((term, inside))
}

/// The outermost terms of a sum, each with what is inside it.
pub fn each(sum: &[Term]) -> impl Iterator<Item = (&Term, &[Term])> {
    let mut rest = sum;
    std::iter::from_fn(move || {
        let (term, after) = rest.split_first()?;
        let inside;
        (inside, rest) = after.split_at(term.inside as usize);
        Some((term, inside))
    })
}

/// What becomes of the coefficient where the term is there already.
#[derive(Clone, Copy)]
pub enum Merge {
    Add,
    Take,
    Store,
}

impl Merge {
    fn with(self, old: Complex, c: Complex) -> Result<Complex, Refusal> {
        let coef = match self {
            Merge::Add => old.add(c),
            Merge::Take => old.sub(c),
            Merge::Store => c,
        };
        if coef.is_finite() {
            Ok(coef)
        } else {
            Err(Refusal::NotFinite)
        }
    }
}

fn cmp_f64(a: f64, b: f64) -> Ordering {
    a.partial_cmp(&b).unwrap_or(Ordering::Equal)
}

fn cmp_term(x: &Term, inside_x: &[Term], y: &Term, inside_y: &[Term]) -> Ordering {
    x.kind
        .cmp(&y.kind)
        .then(cmp_f64(x.num, y.num))
        .then_with(|| cmp_sum(inside_x, inside_y))
}

/// Shorter sums come first, then term after term decides, each before its coefficient.
fn cmp_sum(a: &[Term], b: &[Term]) -> Ordering {
    let lengths = each(a).count().cmp(&each(b).count());
    lengths.then_with(|| {
        let orders = each(a).zip(each(b)).map(|((x, inside_x), (y, inside_y))| {
            cmp_term(x, inside_x, y, inside_y)
                .then(cmp_f64(x.coef.re, y.coef.re))
                .then(cmp_f64(x.coef.im, y.coef.im))
        });
        orders.fold(Ordering::Equal, Ordering::then)
    })
}

/// The Rust's ==, which looks at no coefficient.
pub fn same_term(x: &Term, inside_x: &[Term], y: &Term, inside_y: &[Term]) -> bool {
    x.kind == y.kind && x.num == y.num && same_sum(inside_x, inside_y)
}

fn same_sum(a: &[Term], b: &[Term]) -> bool {
    each(a).count() == each(b).count()
        && each(a)
            .zip(each(b))
            .all(|((x, inside_x), (y, inside_y))| same_term(x, inside_x, y, inside_y))
}

fn nests_within(sum: &[Term], levels: usize) -> bool {
    sum.is_empty() || levels > 0 && each(sum).all(|(_, inside)| nests_within(inside, levels - 1))
}

/// A term, what is inside which lies at `inside`, is put into the sum at `into`,
/// which lies apart from it: how many terms that has then.
pub fn put(
    terms: &mut [Term],
    how: Merge,
    x: Term,
    inside: Stretch,
    into: Stretch,
) -> Result<usize, Refusal> {
    if x.kind == X {
        let powers = count_powers(into.of(terms));
        return put_power(terms, how, (x.num, x.coef), into, powers);
    }
    if !x.num.is_finite() {
        return Err(Refusal::NotFinite);
    }
    let (place, there) = place_of(terms, &x, inside, into);
    let old = if there {
        terms[place].coef
    } else {
        Complex::ZERO
    };
    let coef = how.with(old, x.coef)?;
    if !nests_within(inside.of(terms), MOST_LEVELS) {
        return Err(Refusal::TooDeep);
    }
    if there {
        terms[place].coef = coef;
        return Ok(into.len);
    }
    let len = into.len + x.size();
    if len > SUM_ENTRIES {
        return Err(Refusal::NoRoom);
    }
    terms.copy_within(place..into.end(), place + x.size());
    terms[place] = Term { coef, ..x };
    terms.copy_within(inside.at..inside.end(), place + 1);
    Ok(len)
}

/// Where a term has its place in a sum, and whether it is there.
fn place_of(terms: &[Term], x: &Term, inside: Stretch, into: Stretch) -> (usize, bool) {
    let mut next = into.at;
    loop {
        let at = next;
        let Some((y, inside_y)) = next_term(terms, &mut next, into.end()) else {
            return (at, false);
        };
        match cmp_term(x, inside.of(terms), &y, inside_y.of(terms)) {
            Ordering::Less => return (at, false),
            Ordering::Equal => return (at, true),
            Ordering::Greater => {}
        }
    }
}

/// How many powers of x a sum has: they stand first.
pub fn count_powers(sum: &[Term]) -> usize {
    sum.iter().position(|x| x.kind != X).unwrap_or(sum.len())
}

/// A power of x is put into a sum that has so many. Most come in rising order,
/// so its place is looked for from the last one down.
#[inline(always)]
pub fn put_power(
    terms: &mut [Term],
    how: Merge,
    (num, c): (f64, Complex),
    into: Stretch,
    powers: usize,
) -> Result<usize, Refusal> {
    if !num.is_finite() {
        return Err(Refusal::PowerNotFinite);
    }
    let mut place = into.at + powers;
    while place > into.at && terms[place - 1].num > num {
        place -= 1;
    }
    if place > into.at && terms[place - 1].num == num {
        let coef = &mut terms[place - 1].coef;
        *coef = how.with(*coef, c)?;
        return Ok(into.len);
    }
    let coef = how.with(Complex::ZERO, c)?;
    if into.len == SUM_ENTRIES {
        return Err(Refusal::NoRoom);
    }
    if place < into.end() {
        terms.copy_within(place..into.end(), place + 1);
    }
    terms[place] = Term::power(num, coef);
    Ok(into.len + 1)
}

/// The terms of a sum's bytes: 11 where they break a rule, then 13 where one
/// lies inside more than three others.
pub fn take_in<'a>(
    bytes: &[u8],
    terms: &'a mut [Term; SUM_ENTRIES],
) -> Result<&'a [Term], Refusal> {
    let (entries, rest) = bytes.as_chunks::<ENTRY_BYTES>();
    if !rest.is_empty() || entries.is_empty() || entries.len() > SUM_ENTRIES {
        return Err(Refusal::BadRecord);
    }
    let sum = &mut terms[..entries.len()];
    for (entry, term) in entries.iter().zip(&mut *sum) {
        *term = decode(entry).ok_or(Refusal::BadRecord)?;
    }
    if !rises(sum) {
        return Err(Refusal::BadRecord);
    }
    if !nests_within(sum, 1 + MOST_LEVELS) {
        return Err(Refusal::TooDeep);
    }
    Ok(sum)
}

/// The term of an entry that keeps the rules by itself.
fn decode(entry: &[u8; ENTRY_BYTES]) -> Option<Term> {
    const BETWEEN: u64 = 0xffff_ff00;
    let (words, _) = entry.as_chunks::<8>();
    let [head, num, re, im] = [words[0], words[1], words[2], words[3]].map(u64::from_le_bytes);
    let term = Term {
        kind: u32::from(head as u8),
        inside: (head >> 32) as u32,
        num: f64::from_bits(num),
        coef: Complex {
            re: f64::from_bits(re),
            im: f64::from_bits(im),
        },
    };
    let is_good = (X..=COS_H).contains(&term.kind)
        && head & BETWEEN == 0
        && (term.kind == X) == (term.inside == 0)
        && (num == 0 || term.kind == X || term.kind == LOG)
        && term.num.is_finite()
        && term.coef.is_finite();
    is_good.then_some(term)
}

/// Whether what is inside each term lies in its sum, and all terms of it, and
/// of every sum inside, stand in strictly rising order.
fn rises(sum: &[Term]) -> bool {
    let mut last: Option<(&Term, &[Term])> = None;
    let mut rest = sum;
    while let Some((x, after)) = rest.split_first() {
        let Some((inside, after)) = after.split_at_checked(x.inside as usize) else {
            return false;
        };
        if !rises(inside) {
            return false;
        }
        let is_above = last.is_none_or(|(y, inside_y)| match (y.kind, x.kind) {
            (X, X) => y.num < x.num,
            _ => cmp_term(y, inside_y, x, inside) == Ordering::Less,
        });
        if !is_above {
            return false;
        }
        last = Some((x, inside));
        rest = after;
    }
    true
}

/// A sum as entries of 32 bytes.
pub fn put_out(sum: &[Term], out: &mut [u8]) -> Result<(), Refusal> {
    let (out, _) = out.as_chunks_mut::<ENTRY_BYTES>();
    if out.len() < sum.len() {
        return Err(Refusal::OutputRoom);
    }
    for (x, to) in sum.iter().zip(out) {
        let head = u64::from(x.kind) | u64::from(x.inside) << 32;
        to[..8].copy_from_slice(&head.to_le_bytes());
        to[8..16].copy_from_slice(&x.num.to_le_bytes());
        to[16..24].copy_from_slice(&x.coef.re.to_le_bytes());
        to[24..].copy_from_slice(&x.coef.im.to_le_bytes());
    }
    Ok(())
}
