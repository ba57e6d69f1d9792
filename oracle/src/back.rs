//! Formulas that are written and read again: which sums come back, and as what,
//! from the request's words and apart from the proofs.

use crate::{
    ReadSum,
    random::Random,
    sums::{self, ENTRY, kind},
};

/// The most terms that aren't zero; one entry is left for 0·x.
pub const MOST_TERMS: usize = 63;
/// The largest whole power that reading multiplies out.
const MOST_POWER: f64 = 64.0;

/// An outermost entry of a sum.
#[derive(Debug, Clone, Copy, PartialEq)]
pub struct Entry {
    pub kind: u8,
    pub number: f64,
    pub re: f64,
    pub im: f64,
}

impl Entry {
    fn from_bytes(bytes: &[u8]) -> (Self, usize) {
        let number = |at: usize| f64::from_le_bytes(bytes[at..at + 8].try_into().expect("8 bytes"));
        let inside = u32::from_le_bytes(bytes[4..8].try_into().expect("4 bytes"));
        let entry = Entry {
            kind: bytes[0],
            number: number(8),
            re: number(16),
            im: number(24),
        };
        (entry, inside as usize)
    }
    /// Whether both parts of its coefficient are zeros.
    pub fn is_zero(self) -> bool {
        self.re == 0.0 && self.im == 0.0
    }
    /// The entry of a power of x.
    pub fn power(power: f64, re: f64, im: f64) -> Self {
        Entry {
            kind: kind::X,
            number: power,
            re,
            im,
        }
    }
    fn to_bytes(self) -> Vec<u8> {
        let mut bytes = vec![self.kind, 0, 0, 0, 0, 0, 0, 0];
        for number in [self.number, self.re, self.im] {
            bytes.extend(number.to_le_bytes());
        }
        bytes
    }
}

/// The bytes of powers of x.
pub fn bytes_of(entries: &[Entry]) -> Vec<u8> {
    entries.iter().flat_map(|entry| entry.to_bytes()).collect()
}

/// The outermost entries of a sum.
pub fn outermost(sum: &[u8]) -> Vec<Entry> {
    let mut entries = Vec::new();
    let mut at = 0;
    while at < sum.len() {
        let (entry, inside) = Entry::from_bytes(&sum[at..]);
        entries.push(entry);
        at += (1 + inside) * ENTRY;
    }
    entries
}

/// The terms that aren't zero, where the sum is a formula that comes back.
pub fn terms(sum: &[u8]) -> Option<Vec<Entry>> {
    let is_real = |bytes: &[u8]| Entry::from_bytes(bytes).0.im == 0.0;
    if sums::fault(sum).is_some() || !sum.chunks(ENTRY).all(is_real) {
        return None;
    }
    let terms: Vec<Entry> = outermost(sum)
        .into_iter()
        .filter(|entry| !entry.is_zero())
        .collect();
    let is_power = |entry: &Entry| {
        let is_big = entry.number.fract() == 0.0 && entry.number > MOST_POWER;
        entry.kind == kind::X && !is_big
    };
    (terms.len() <= MOST_TERMS && terms.iter().all(is_power)).then_some(terms)
}

/// What is wrong with a sum that came back of these terms, written with the
/// flag, if anything is.
pub fn fault(terms: &[Entry], complex: bool, back: &ReadSum) -> Option<String> {
    let entries = outermost(&back.entries);
    let (zeros, found): (Vec<Entry>, Vec<Entry>) =
        entries.into_iter().partition(|entry| entry.is_zero());
    if found.len() != terms.len() {
        return Some(format!("{} terms for {}", found.len(), terms.len()));
    }
    for (found, term) in found.iter().zip(terms) {
        let power = found.number == term.number
            && (term.number == 0.0 || found.number.to_bits() == term.number.to_bits());
        if found.kind != kind::X
            || !power
            || found.re.to_bits() != term.re.to_bits()
            || found.im != 0.0
        {
            return Some(format!("{found:?} for {term:?}"));
        }
    }
    let has = |power: f64| terms.iter().any(|term| term.number == power);
    let extra = terms.is_empty() || (has(0.0) && !has(1.0));
    let is_extra =
        |entry: &Entry| entry.kind == kind::X && entry.number == 1.0 && entry.re.to_bits() == 0;
    if zeros.len() != usize::from(extra) || !zeros.iter().all(is_extra) {
        return Some(format!("zeros {zeros:?}"));
    }
    let pair = terms
        .iter()
        .any(|term| term.number == 0.0 || term.re != 1.0);
    (back.complex != (complex && pair)).then(|| format!("the flag {}", back.complex))
}

/// A random formula that comes back, of up to so many terms, and zeros at times.
pub fn random_formula(random: &mut Random, most: usize) -> Vec<u8> {
    let count = random.below(most + 1);
    let mut entries: Vec<Entry> = Vec::new();
    while entries.iter().filter(|entry| !entry.is_zero()).count() < count || entries.is_empty() {
        let power = some_power(random);
        if entries.iter().any(|entry| entry.number == power) || entries.len() >= MOST_TERMS {
            if entries.len() >= MOST_TERMS {
                break;
            }
            continue;
        }
        let re = if random.once_in(12) {
            *random.choose(&[0.0, -0.0])
        } else {
            some_coefficient(random)
        };
        entries.push(Entry::power(power, re, *random.choose(&[0.0, 0.0, -0.0])));
    }
    entries.sort_by(|a, b| a.number.total_cmp(&b.number));
    bytes_of(&entries)
}

fn some_power(random: &mut Random) -> f64 {
    match random.below(8) {
        0..=3 => random.below(65) as f64,
        4 => *random.choose(&[
            0.5,
            0.49999999999999994,
            0.5000000000000001,
            0.9999999999999999,
            1.0000000000000002,
            1.9999999999999998,
            2.0000000000000004,
            65.5,
            -0.0,
        ]),
        5 => -(random.below(70) as f64),
        6 => *random.choose(&[
            -9007199254740992.0,
            -9007199254740994.0,
            -1e308,
            5e-324,
            -5e-324,
            1e-300,
            4503599627370495.5,
            -1.5,
        ]),
        _ => random.below(6400) as f64 / 100.0 - 20.0,
    }
}

fn some_coefficient(random: &mut Random) -> f64 {
    match random.below(4) {
        0 => 1.0,
        1 => *random.choose(&[
            0.9999999999999999,
            1.0000000000000002,
            -1.0,
            5e-324,
            -5e-324,
            f64::MAX,
            -f64::MAX,
            f64::MIN_POSITIVE,
        ]),
        _ => random.below(4000) as f64 / 16.0 - 125.03,
    }
}
