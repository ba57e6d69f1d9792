//! Sum entries: 32 bytes each, with their inside after them.

use super::{Complex, Expr, Term};
use crate::answer::{
    Refusal,
    number::{BAD_RECORD, TOO_DEEP},
};

pub const ENTRY: usize = 32;
pub const MOST_ENTRIES: usize = 64;
/// How many others an entry may lie inside.
pub const MOST_NESTING: usize = 3;

/// The kinds of entries, ranked as the Rust ranks its terms.
pub mod kind {
    pub const X: u8 = 1;
    pub const DIV: u8 = 2;
    pub const LOG: u8 = 3;
    pub const EXP: u8 = 4;
    pub const SIN: u8 = 5;
    pub const COS: u8 = 6;
    pub const SIN_H: u8 = 7;
    pub const COS_H: u8 = 8;
}

/// One entry as handed over.
#[derive(Debug, Clone, Copy)]
struct Entry {
    kind: u8,
    zero: [u8; 3],
    inside: u32,
    number: f64,
    coef: Complex,
}

impl Entry {
    fn from_bytes(bytes: &[u8; ENTRY]) -> Self {
        let number = |at: usize| f64::from_le_bytes(bytes[at..at + 8].try_into().unwrap());
        Entry {
            kind: bytes[0],
            zero: [bytes[1], bytes[2], bytes[3]],
            inside: u32::from_le_bytes(bytes[4..8].try_into().unwrap()),
            number: number(8),
            coef: Complex::new(number(16), number(24)),
        }
    }
    fn write(self, bytes: &mut Vec<u8>) {
        bytes.push(self.kind);
        bytes.extend(self.zero);
        bytes.extend(self.inside.to_le_bytes());
        bytes.extend(self.number.to_le_bytes());
        bytes.extend(self.coef.re.to_le_bytes());
        bytes.extend(self.coef.im.to_le_bytes());
    }
    /// Which byte breaks a rule that the entry keeps by itself, if one does.
    fn bad_byte(self) -> Option<usize> {
        let has_number = matches!(self.kind, kind::X | kind::LOG);
        let rules = [
            (0, (kind::X..=kind::COS_H).contains(&self.kind)),
            (1, self.zero == [0; 3]),
            (4, (self.kind == kind::X) == (self.inside == 0)),
            (8, has_number || self.number.to_bits() == 0),
            (8, self.number.is_finite()),
            (16, self.coef.re.is_finite()),
            (24, self.coef.im.is_finite()),
        ];
        rules
            .into_iter()
            .find_map(|(byte, kept)| (!kept).then_some(byte))
    }
}

/// The bytes of an entry, and of what lies inside it.
pub fn entry(kind: u8, number: f64, coef: Complex, inside: &[u8]) -> Vec<u8> {
    let entry = Entry {
        kind,
        zero: [0; 3],
        inside: (inside.len() / ENTRY) as u32,
        number,
        coef,
    };
    let mut bytes = Vec::new();
    entry.write(&mut bytes);
    bytes.extend(inside);
    bytes
}

/// What is wrong with a sum's bytes.
#[derive(Debug, Clone, Copy, PartialEq, Eq)]
pub enum Fault {
    /// The length isn't whole entries.
    Length,
    /// Over 64 entries.
    TooMany,
    /// No entries.
    Empty,
    /// An entry of this kind has a wrong byte from here on.
    Byte { kind: u8, byte: usize },
    /// The inside of an entry of this kind reaches over an end.
    Inside(u8),
    /// An entry of this kind isn't above the one before it.
    Order(u8),
    /// An entry inside more than 3 others.
    TooDeep,
}

impl Fault {
    pub fn refusal(self) -> Refusal {
        match self {
            Fault::TooDeep => Refusal::whole(TOO_DEEP),
            _ => Refusal::whole(BAD_RECORD),
        }
    }
}

/// What is wrong with some bytes as a sum, if anything is.
pub fn fault(bytes: &[u8]) -> Option<Fault> {
    parse(bytes).err()
}

/// The sum of some bytes, or 11 or 13 where they are none.
pub(super) fn read(bytes: &[u8]) -> Result<Expr, Refusal> {
    parse(bytes).map_err(Fault::refusal)
}

fn parse(bytes: &[u8]) -> Result<Expr, Fault> {
    let (chunks, rest) = bytes.as_chunks::<ENTRY>();
    if !rest.is_empty() {
        return Err(Fault::Length);
    }
    if chunks.len() > MOST_ENTRIES {
        return Err(Fault::TooMany);
    }
    let entries: Vec<Entry> = chunks.iter().map(Entry::from_bytes).collect();
    let sum = level(&entries)?;
    if sum.0.keys().any(|term| nesting(term) > MOST_NESTING) {
        return Err(Fault::TooDeep);
    }
    Ok(sum)
}

/// One level of entries: not empty, and strictly rising.
fn level(mut entries: &[Entry]) -> Result<Expr, Fault> {
    let mut sum = Expr::default();
    while let Some((entry, after)) = entries.split_first() {
        let kind = entry.kind;
        if let Some(byte) = entry.bad_byte() {
            return Err(Fault::Byte { kind, byte });
        }
        let (inside, after) = after
            .split_at_checked(entry.inside as usize)
            .ok_or(Fault::Inside(kind))?;
        let term = term(*entry, inside)?;
        let last = sum.0.last_key_value();
        if last.is_some_and(|(last, _)| *last >= term) {
            return Err(Fault::Order(kind));
        }
        sum.0.insert(term, entry.coef);
        entries = after;
    }
    if sum.0.is_empty() {
        return Err(Fault::Empty);
    }
    Ok(sum)
}

fn term(entry: Entry, inside: &[Entry]) -> Result<Term, Fault> {
    Ok(match entry.kind {
        kind::X => Term::X(entry.number),
        kind::DIV => Term::Div(level(inside)?),
        kind::LOG => Term::Log(entry.number, level(inside)?),
        kind::EXP => Term::Exp(level(inside)?),
        kind::SIN => Term::Sin(level(inside)?),
        kind::COS => Term::Cos(level(inside)?),
        kind::SIN_H => Term::SinH(level(inside)?),
        _ => Term::CosH(level(inside)?),
    })
}

/// The bytes of a sum.
pub(super) fn written(sum: &Expr) -> Vec<u8> {
    let mut bytes = Vec::new();
    write(sum, &mut bytes);
    bytes
}

fn write(sum: &Expr, bytes: &mut Vec<u8>) {
    for (term, &coef) in &sum.0 {
        Entry {
            kind: kind_of(term),
            zero: [0; 3],
            inside: (count_term(term) - 1) as u32,
            number: own_number(term).unwrap_or(0.0),
            coef,
        }
        .write(bytes);
        if let Some(inside) = inside(term) {
            write(inside, bytes);
        }
    }
}

pub(super) fn kind_of(term: &Term) -> u8 {
    match term {
        Term::X(_) => kind::X,
        Term::Div(_) => kind::DIV,
        Term::Log(..) => kind::LOG,
        Term::Exp(_) => kind::EXP,
        Term::Sin(_) => kind::SIN,
        Term::Cos(_) => kind::COS,
        Term::SinH(_) => kind::SIN_H,
        Term::CosH(_) => kind::COS_H,
    }
}

/// The sum that a term's function is taken of.
pub(super) fn inside(term: &Term) -> Option<&Expr> {
    match term {
        Term::X(_) => None,
        Term::Div(sum)
        | Term::Log(_, sum)
        | Term::Exp(sum)
        | Term::Sin(sum)
        | Term::Cos(sum)
        | Term::SinH(sum)
        | Term::CosH(sum) => Some(sum),
    }
}

/// A term's power or base.
pub(super) fn own_number(term: &Term) -> Option<f64> {
    match term {
        Term::X(power) => Some(*power),
        Term::Log(base, _) => Some(*base),
        _ => None,
    }
}

/// How many entries a sum has, insides counted.
pub(super) fn count(sum: &Expr) -> usize {
    sum.0.keys().map(count_term).sum()
}

fn count_term(term: &Term) -> usize {
    1 + inside(term).map_or(0, count)
}

/// How many others the deepest entry of a term lies inside.
pub(super) fn nesting(term: &Term) -> usize {
    inside(term).map_or(0, |sum| 1 + sum.0.keys().map(nesting).max().unwrap_or(0))
}
