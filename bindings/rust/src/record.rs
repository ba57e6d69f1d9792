//! Node records: what a list is made of.

use std::hash::{Hash, Hasher};

use crate::fault::Fault;

/// The bytes of one record.
pub const RECORD_BYTES: usize = 24;
/// The most records that a list has.
pub const MOST_RECORDS: usize = 2048;
/// The most other records that a record lies inside.
pub const MOST_LEVELS: usize = 128;
/// Bytes enough for any list, taken or written.
pub const LIST_BYTES: usize = MOST_RECORDS * RECORD_BYTES;

/// Codes with their names; any other code is `Unlisted`.
macro_rules! codes {
    ($(#[$about:meta])* $type:ident { $($(#[$note:meta])* $name:ident = $code:literal,)* }) => {
        $(#[$about])*
        #[derive(Debug, Clone, Copy, PartialEq, Eq, Hash)]
        pub enum $type {
            $($(#[$note])* $name,)*
            /// A code without a name: a good record that is refused with NotSupported when it is run.
            Unlisted(u8),
        }

        impl $type {
            /// Those that have a name.
            pub const LISTED: &'static [$type] = &[$($type::$name,)*];

            /// Its code byte.
            pub const fn code(self) -> u8 {
                match self {
                    $($type::$name => $code,)*
                    $type::Unlisted(code) => code,
                }
            }

            /// What a code byte stands for.
            pub const fn from_code(code: u8) -> Self {
                match code {
                    $($code => $type::$name,)*
                    code => $type::Unlisted(code),
                }
            }

            /// Its name, if it has one.
            pub const fn name(self) -> Option<&'static str> {
                match self {
                    $($type::$name => Some(stringify!($name)),)*
                    $type::Unlisted(_) => None,
                }
            }
        }
    };
}

codes! {
    /// A step on the stack. `a` is the value on top, `b` the one below it.
    Primitive {
        /// Takes a, leaves it.
        Identity = 1,
        /// Takes a away.
        Pop = 2,
        /// Leaves a twice.
        Dup = 3,
        /// Turns a and b round.
        Flip = 4,
        /// -a
        Neg = 5,
        /// 1 - a
        Not = 6,
        /// The square root of a. The run has it from 0 up.
        Sqrt = 7,
        /// b + a
        Add = 8,
        /// b - a
        Sub = 9,
        /// b times a
        Mul = 10,
        /// b divided by a
        Div = 11,
        /// b to the power a. To the power 0 the run gives 1, and reading makes the constant 0.
        Pow = 12,
        /// e to the power a
        Exp = 13,
        /// The sine of a.
        Sin = 14,
        /// The cosine of a.
        Cos = 15,
        /// 1 divided by a
        Reciprocal = 16,
        /// b + a·i
        Complex = 17,
        /// The larger of a and b; written by the inverse, not read.
        Max = 18,
        /// The hyperbolic sine of a; written, not read.
        SinH = 19,
        /// The hyperbolic cosine of a; written, not read.
        CosH = 20,
        /// 2 to the power a
        Exp2 = 32,
        /// 10 to the power a
        Exp10 = 33,
        /// The logarithm of b to base a.
        Log = 34,
        /// The natural logarithm of a.
        Ln = 35,
        /// The logarithm of a to base 2.
        Log2 = 36,
        /// The logarithm of a to base 10.
        Log10 = 37,
        /// Leaves b, a and b again.
        Over = 38,
        /// The root of b of degree a; written by the inverse, not read.
        Root = 39,
    }
}

codes! {
    /// A step that runs the bodies inside it.
    Modifier {
        /// Runs its body below the value on top.
        Dip = 1,
        /// Takes the value on top away, then runs its body.
        Gap = 2,
        /// Runs its body, then puts the value that was on top back on top.
        On = 3,
        /// Runs its body, with a copy of the lowest value that the body takes kept below.
        By = 4,
        /// Runs its body on two sets of values.
        Both = 5,
        /// Runs its first body on the values on top and its second on those below.
        Bracket = 6,
        /// Runs each of its bodies on the same values.
        Fork = 7,
    }
}

/// One record of a list. `inside` is how many of the records that follow lie inside, nested ones too.
///
/// Two records are equal when their bytes are: 0 and -0 are two pushes, and a NaN equals itself.
#[derive(Debug, Clone, Copy)]
pub enum Record {
    RealPush(f64),
    ComplexPush {
        re: f64,
        im: f64,
    },
    ArrayPush,
    /// A push of something that is no number.
    OtherPush,
    Primitive(Primitive),
    /// Its inside is whole bodies.
    Modifier {
        modifier: Modifier,
        inside: u32,
    },
    /// A body of a modifier; it stands nowhere else.
    Body {
        arguments: u8,
        inside: u32,
    },
    /// Records in a row, as those of a function that is called.
    Run {
        inside: u32,
    },
    /// A custom inverse with its normal form inside.
    CustomInverse {
        inside: u32,
    },
    Obverse,
    /// A custom inverse without a normal form.
    NoNormal,
    /// It has no effect.
    UnderMarker,
    AnythingElse,
}

impl Record {
    /// The number of its kind, 1 to 13.
    pub const fn kind(&self) -> u8 {
        match self {
            Record::RealPush(_) => 1,
            Record::ComplexPush { .. } => 2,
            Record::ArrayPush => 3,
            Record::OtherPush => 4,
            Record::Primitive(_) => 5,
            Record::Modifier { .. } => 6,
            Record::Body { .. } => 7,
            Record::Run { .. } => 8,
            Record::CustomInverse { .. } => 9,
            Record::Obverse => 10,
            Record::NoNormal => 11,
            Record::UnderMarker => 12,
            Record::AnythingElse => 13,
        }
    }

    /// How many of the records that follow lie inside.
    pub const fn inside(&self) -> u32 {
        match self {
            Record::Modifier { inside, .. }
            | Record::Body { inside, .. }
            | Record::Run { inside }
            | Record::CustomInverse { inside } => *inside,
            _ => 0,
        }
    }

    const fn code(&self) -> u8 {
        match self {
            Record::Primitive(primitive) => primitive.code(),
            Record::Modifier { modifier, .. } => modifier.code(),
            _ => 0,
        }
    }

    const fn arguments(&self) -> u8 {
        match self {
            Record::Body { arguments, .. } => *arguments,
            _ => 0,
        }
    }

    const fn numbers(&self) -> (u64, u64) {
        match self {
            Record::RealPush(number) => (number.to_bits(), 0),
            Record::ComplexPush { re, im } => (re.to_bits(), im.to_bits()),
            _ => (0, 0),
        }
    }

    /// Its bytes.
    ///
    /// ```
    /// use uplink::{Primitive, Record};
    /// let bytes = Record::Primitive(Primitive::Mul).to_bytes();
    /// assert_eq!(bytes[..2], [5, 10]);
    /// assert_eq!(Record::from_bytes(&bytes), Ok(Primitive::Mul.into()));
    /// ```
    pub fn to_bytes(&self) -> [u8; RECORD_BYTES] {
        let (re, im) = self.numbers();
        let mut bytes = [0; RECORD_BYTES];
        bytes[..3].copy_from_slice(&[self.kind(), self.code(), self.arguments()]);
        bytes[4..8].copy_from_slice(&self.inside().to_le_bytes());
        bytes[8..16].copy_from_slice(&re.to_le_bytes());
        bytes[16..].copy_from_slice(&im.to_le_bytes());
        bytes
    }

    /// The record that has these bytes.
    ///
    /// # Errors
    /// There is no such kind, or a byte that this kind doesn't use isn't 0; the fault's place is 0.
    pub fn from_bytes(bytes: &[u8; RECORD_BYTES]) -> Result<Self, Fault> {
        let record = Self::with_fields(bytes).ok_or(Fault::Kind {
            place: 0,
            kind: bytes[0],
        })?;
        let should = record.to_bytes();
        match (0..RECORD_BYTES).find(|&byte| bytes[byte] != should[byte]) {
            Some(byte) => Err(Fault::Byte { place: 0, byte }),
            None => Ok(record),
        }
    }

    /// The record of this kind, by the fields that the kind uses.
    fn with_fields(bytes: &[u8; RECORD_BYTES]) -> Option<Self> {
        let code = bytes[1];
        let inside = u32::from_le_bytes(field(bytes, 4));
        let number = |at| f64::from_bits(u64::from_le_bytes(field(bytes, at)));
        Some(match bytes[0] {
            1 => Record::RealPush(number(8)),
            2 => Record::ComplexPush {
                re: number(8),
                im: number(16),
            },
            3 => Record::ArrayPush,
            4 => Record::OtherPush,
            5 => Record::Primitive(Primitive::from_code(code)),
            6 => Record::Modifier {
                modifier: Modifier::from_code(code),
                inside,
            },
            7 => Record::Body {
                arguments: bytes[2],
                inside,
            },
            8 => Record::Run { inside },
            9 => Record::CustomInverse { inside },
            10 => Record::Obverse,
            11 => Record::NoNormal,
            12 => Record::UnderMarker,
            13 => Record::AnythingElse,
            _ => return None,
        })
    }
}

/// The field of N bytes that starts at a byte; the record or entry has it whole.
pub(crate) fn field<const N: usize>(bytes: &[u8], at: usize) -> [u8; N] {
    std::array::from_fn(|byte| bytes[at + byte])
}

impl PartialEq for Record {
    fn eq(&self, other: &Self) -> bool {
        self.to_bytes() == other.to_bytes()
    }
}

impl Eq for Record {}

impl Hash for Record {
    fn hash<H: Hasher>(&self, state: &mut H) {
        self.to_bytes().hash(state);
    }
}

/// A push.
impl From<f64> for Record {
    fn from(number: f64) -> Self {
        Record::RealPush(number)
    }
}

impl From<Primitive> for Record {
    fn from(primitive: Primitive) -> Self {
        Record::Primitive(primitive)
    }
}

/// A modifier with its bodies, each an argument count and its records; what lies inside is counted.
///
/// ```
/// use uplink::{modified, read, Modifier, Primitive, Record};
/// // x squared, with x put back on top, and the two added
/// let mut list = modified(Modifier::On, &[(1, &[Primitive::Dup.into(), Primitive::Mul.into()])]);
/// list.push(Primitive::Add.into());
/// assert_eq!(list[0], Record::Modifier { modifier: Modifier::On, inside: 3 });
/// assert_eq!(read(&list)?.entries.len(), 2);
/// # Ok::<(), uplink::Refused>(())
/// ```
pub fn modified(modifier: Modifier, bodies: &[(u8, &[Record])]) -> Vec<Record> {
    let mut inside = Vec::new();
    for &(arguments, records) in bodies {
        inside.push(Record::Body {
            arguments,
            inside: count(records),
        });
        inside.extend_from_slice(records);
    }
    let mut list = vec![Record::Modifier {
        modifier,
        inside: count(&inside),
    }];
    list.append(&mut inside);
    list
}

/// A count as the record has it; one too large for that is too large for a list as well.
fn count(records: &[Record]) -> u32 {
    u32::try_from(records.len()).unwrap_or(u32::MAX)
}

/// The bytes of a list.
///
/// ```
/// use uplink::{decode_list, encode_list, Primitive, Record};
/// let list = [Record::RealPush(3.0), Primitive::Pow.into()];
/// let bytes = encode_list(&list);
/// assert_eq!(bytes.len(), 48);
/// assert_eq!(decode_list(&bytes), Ok(list.to_vec()));
/// ```
pub fn encode_list(list: &[Record]) -> Vec<u8> {
    list.iter().flat_map(Record::to_bytes).collect()
}

/// The records that bytes stand for, each by itself; [`list_fault`](crate::list_fault) looks at the list as a whole.
///
/// # Errors
/// The length isn't whole records, or a record is none.
pub fn decode_list(bytes: &[u8]) -> Result<Vec<Record>, Fault> {
    let records = bytes.chunks_exact(RECORD_BYTES);
    if !records.remainder().is_empty() {
        return Err(Fault::Length {
            bytes: bytes.len(),
            each: RECORD_BYTES,
        });
    }
    let decode =
        |(place, bytes)| Record::from_bytes(&field(bytes, 0)).map_err(|fault| fault.at(place));
    records.enumerate().map(decode).collect()
}

#[cfg(test)]
mod tests {
    use super::*;

    #[test]
    fn codes_are_those_of_the_table() {
        let codes: Vec<u8> = Primitive::LISTED
            .iter()
            .map(|primitive| primitive.code())
            .collect();
        assert_eq!(codes, (1..=20).chain(32..=39).collect::<Vec<u8>>());
        let codes: Vec<u8> = Modifier::LISTED
            .iter()
            .map(|modifier| modifier.code())
            .collect();
        assert_eq!(codes, (1..=7).collect::<Vec<u8>>());
        for code in 0..=u8::MAX {
            assert_eq!(Primitive::from_code(code).code(), code);
            assert_eq!(Modifier::from_code(code).code(), code);
            let is_unlisted = Primitive::from_code(code) == Primitive::Unlisted(code);
            assert_eq!(is_unlisted, Primitive::from_code(code).name().is_none());
        }
    }

    fn one_of_each_kind() -> [Record; 13] {
        [
            Record::RealPush(-0.0),
            Record::ComplexPush {
                re: 1.5,
                im: f64::from_bits(0x7ff0_0000_0000_0001),
            },
            Record::ArrayPush,
            Record::OtherPush,
            Record::Primitive(Primitive::Unlisted(255)),
            Record::Modifier {
                modifier: Modifier::Fork,
                inside: 0x0403_0201,
            },
            Record::Body {
                arguments: 200,
                inside: 7,
            },
            Record::Run { inside: 1 },
            Record::CustomInverse { inside: u32::MAX },
            Record::Obverse,
            Record::NoNormal,
            Record::UnderMarker,
            Record::AnythingElse,
        ]
    }

    #[test]
    fn records_go_to_bytes_and_back() {
        for (at, record) in one_of_each_kind().into_iter().enumerate() {
            let bytes = record.to_bytes();
            assert_eq!(
                (usize::from(record.kind()), bytes[0]),
                (at + 1, record.kind())
            );
            assert_eq!(Record::from_bytes(&bytes), Ok(record));
        }
    }

    #[test]
    fn fields_lie_where_they_should() {
        let bytes = Record::Modifier {
            modifier: Modifier::Fork,
            inside: 0x0403_0201,
        }
        .to_bytes();
        assert_eq!(bytes[..8], [6, 7, 0, 0, 1, 2, 3, 4]);
        let bytes = Record::Body {
            arguments: 9,
            inside: 0,
        }
        .to_bytes();
        assert_eq!(bytes[..8], [7, 0, 9, 0, 0, 0, 0, 0]);
        let bytes = Record::ComplexPush { re: 1.0, im: -2.0 }.to_bytes();
        assert_eq!(bytes[8..16], 1.0_f64.to_le_bytes());
        assert_eq!(bytes[16..], (-2.0_f64).to_le_bytes());
    }

    #[test]
    fn a_byte_that_is_not_used_is_found() {
        for record in one_of_each_kind() {
            for byte in 1..RECORD_BYTES {
                let mut bytes = record.to_bytes();
                bytes[byte] ^= 0x80;
                match Record::from_bytes(&bytes) {
                    Ok(other) => assert_eq!(other.to_bytes(), bytes),
                    Err(fault) => assert_eq!(fault, Fault::Byte { place: 0, byte }),
                }
            }
        }
        assert_eq!(
            Record::from_bytes(&[14; 24]),
            Err(Fault::Kind { place: 0, kind: 14 })
        );
        assert_eq!(
            Record::from_bytes(&[0; 24]),
            Err(Fault::Kind { place: 0, kind: 0 })
        );
    }

    #[test]
    fn zeros_are_told_apart() {
        assert_ne!(Record::RealPush(0.0), Record::RealPush(-0.0));
        assert_eq!(Record::RealPush(f64::NAN), Record::RealPush(f64::NAN));
    }

    #[test]
    fn modified_counts_what_lies_inside() {
        let inner = modified(Modifier::On, &[(1, &[Primitive::Neg.into()])]);
        let list = modified(Modifier::Bracket, &[(1, &inner), (2, &[])]);
        let inside: Vec<u32> = list.iter().map(Record::inside).collect();
        assert_eq!(inside, [5, 3, 2, 1, 0, 0]);
    }

    #[test]
    fn the_place_of_a_bad_record_is_said() {
        let mut bytes = encode_list(&[1.0.into(), Primitive::Add.into()]);
        bytes[RECORD_BYTES + 3] = 1;
        assert_eq!(decode_list(&bytes), Err(Fault::Byte { place: 1, byte: 3 }));
        assert_eq!(
            decode_list(&bytes[..47]),
            Err(Fault::Length {
                bytes: 47,
                each: 24
            })
        );
    }
}
