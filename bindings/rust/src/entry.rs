//! Sum entries: what a sum is made of.

use std::hash::{Hash, Hasher};

use crate::{fault::Fault, record::field};

/// The bytes of one entry.
pub const ENTRY_BYTES: usize = 32;
/// The most entries that a sum has, insides counted.
pub const MOST_ENTRIES: usize = 64;
/// The most other entries that an entry lies inside.
pub const MOST_NESTING: usize = 3;
/// Bytes enough for any sum.
pub const SUM_BYTES: usize = MOST_ENTRIES * ENTRY_BYTES;

/// What a term is, its coefficient aside. All but `X` are of the sum that lies inside the entry.
#[derive(Debug, Clone, Copy, PartialEq)]
pub enum Term {
    /// x to this power; the power 0 makes it a constant.
    X(f64),
    /// 1 divided by what lies inside.
    Div,
    /// The logarithm, to this base.
    Log(f64),
    Exp,
    Sin,
    Cos,
    SinH,
    CosH,
}

impl Term {
    /// The number of its kind, 1 to 8.
    pub const fn kind(self) -> u8 {
        match self {
            Term::X(_) => 1,
            Term::Div => 2,
            Term::Log(_) => 3,
            Term::Exp => 4,
            Term::Sin => 5,
            Term::Cos => 6,
            Term::SinH => 7,
            Term::CosH => 8,
        }
    }

    /// The power of X or the base of Log, else 0.
    const fn number(self) -> f64 {
        match self {
            Term::X(number) | Term::Log(number) => number,
            _ => 0.0,
        }
    }

    const fn from_kind(kind: u8, number: f64) -> Option<Self> {
        Some(match kind {
            1 => Term::X(number),
            2 => Term::Div,
            3 => Term::Log(number),
            4 => Term::Exp,
            5 => Term::Sin,
            6 => Term::Cos,
            7 => Term::SinH,
            8 => Term::CosH,
            _ => return None,
        })
    }
}

/// One entry of a sum: a coefficient against a term. `inside` is how many of the entries that follow lie inside, nested ones too.
///
/// Two entries are equal when their bytes are.
#[derive(Debug, Clone, Copy)]
pub struct Entry {
    pub term: Term,
    pub inside: u32,
    pub re: f64,
    pub im: f64,
}

impl Entry {
    /// A real coefficient against a power of x.
    ///
    /// ```
    /// use uplink::{derive, Entry};
    /// // 60 x - 6 x^2
    /// let depth = [Entry::power(1.0, 60.0), Entry::power(2.0, -6.0)];
    /// assert_eq!(derive(&depth)?, [Entry::power(0.0, 60.0), Entry::power(1.0, -12.0)]);
    /// # Ok::<(), uplink::Refused>(())
    /// ```
    pub const fn power(power: f64, coefficient: f64) -> Self {
        Entry {
            term: Term::X(power),
            inside: 0,
            re: coefficient,
            im: 0.0,
        }
    }

    /// Its bytes.
    pub fn to_bytes(&self) -> [u8; ENTRY_BYTES] {
        let mut bytes = [0; ENTRY_BYTES];
        bytes[0] = self.term.kind();
        bytes[4..8].copy_from_slice(&self.inside.to_le_bytes());
        bytes[8..16].copy_from_slice(&self.term.number().to_le_bytes());
        bytes[16..24].copy_from_slice(&self.re.to_le_bytes());
        bytes[24..].copy_from_slice(&self.im.to_le_bytes());
        bytes
    }

    /// The entry that has these bytes.
    ///
    /// # Errors
    /// There is no such kind, or a byte that this kind doesn't use isn't 0; the fault's place is 0.
    pub fn from_bytes(bytes: &[u8; ENTRY_BYTES]) -> Result<Self, Fault> {
        let number = |at| f64::from_le_bytes(field(bytes, at));
        let term = Term::from_kind(bytes[0], number(8)).ok_or(Fault::Kind {
            place: 0,
            kind: bytes[0],
        })?;
        let inside = u32::from_le_bytes(field(bytes, 4));
        let entry = Entry {
            term,
            inside,
            re: number(16),
            im: number(24),
        };
        let should = entry.to_bytes();
        match (0..ENTRY_BYTES).find(|&byte| bytes[byte] != should[byte]) {
            Some(byte) => Err(Fault::Byte { place: 0, byte }),
            None => Ok(entry),
        }
    }
}

impl PartialEq for Entry {
    fn eq(&self, other: &Self) -> bool {
        self.to_bytes() == other.to_bytes()
    }
}

impl Eq for Entry {}

impl Hash for Entry {
    fn hash<H: Hasher>(&self, state: &mut H) {
        self.to_bytes().hash(state);
    }
}

/// The bytes of a sum.
pub fn encode_sum(sum: &[Entry]) -> Vec<u8> {
    sum.iter().flat_map(Entry::to_bytes).collect()
}

/// The entries that bytes stand for, each by itself.
///
/// # Errors
/// The length isn't whole entries, or an entry is none.
pub fn decode_sum(bytes: &[u8]) -> Result<Vec<Entry>, Fault> {
    let entries = bytes.chunks_exact(ENTRY_BYTES);
    if !entries.remainder().is_empty() {
        return Err(Fault::Length {
            bytes: bytes.len(),
            each: ENTRY_BYTES,
        });
    }
    let decode =
        |(place, bytes)| Entry::from_bytes(&field(bytes, 0)).map_err(|fault| fault.at(place));
    entries.enumerate().map(decode).collect()
}

#[cfg(test)]
mod tests {
    use super::*;

    const TERMS: [Term; 8] = [
        Term::X(-0.0),
        Term::Div,
        Term::Log(10.0),
        Term::Exp,
        Term::Sin,
        Term::Cos,
        Term::SinH,
        Term::CosH,
    ];

    #[test]
    fn entries_go_to_bytes_and_back() {
        for (at, term) in TERMS.into_iter().enumerate() {
            let entry = Entry {
                term,
                inside: 0x0403_0201,
                re: 1.5,
                im: -0.0,
            };
            let bytes = entry.to_bytes();
            assert_eq!(usize::from(bytes[0]), at + 1);
            assert_eq!(bytes[4..8], [1, 2, 3, 4]);
            assert_eq!(Entry::from_bytes(&bytes), Ok(entry));
        }
    }

    #[test]
    fn a_byte_that_is_not_used_is_found() {
        let mut bytes = Entry::power(2.0, 1.0).to_bytes();
        bytes[2] = 1;
        assert_eq!(
            Entry::from_bytes(&bytes),
            Err(Fault::Byte { place: 0, byte: 2 })
        );
        let mut bytes = Entry {
            term: Term::Sin,
            inside: 1,
            re: 1.0,
            im: 0.0,
        }
        .to_bytes();
        bytes[15] = 0x80;
        assert_eq!(
            Entry::from_bytes(&bytes),
            Err(Fault::Byte { place: 0, byte: 15 })
        );
        assert_eq!(
            Entry::from_bytes(&[9; 32]),
            Err(Fault::Kind { place: 0, kind: 9 })
        );
    }

    #[test]
    fn the_place_of_a_bad_entry_is_said() {
        let mut bytes = encode_sum(&[Entry::power(1.0, 1.0), Entry::power(2.0, 1.0)]);
        assert_eq!(decode_sum(&bytes).map(|sum| sum.len()), Ok(2));
        bytes[ENTRY_BYTES] = 0;
        assert_eq!(decode_sum(&bytes), Err(Fault::Kind { place: 1, kind: 0 }));
        assert_eq!(
            decode_sum(&bytes[1..]),
            Err(Fault::Length {
                bytes: 63,
                each: 32
            })
        );
    }
}
