//! What is wrong with bytes that are no list or sum. The library refuses them without a place; this finds it.

use std::{error::Error, fmt};

use crate::{
    record::{decode_list, Record, MOST_LEVELS, MOST_RECORDS},
    Refusal,
};

/// A rule of lists or sums that bytes break, and where.
#[derive(Debug, Clone, Copy, PartialEq, Eq)]
pub enum Fault {
    /// The length isn't a whole number of records or entries, of so many bytes each.
    Length { bytes: usize, each: usize },
    /// There are more than a list or sum may have.
    TooMany { count: usize, most: usize },
    /// There is no such kind.
    Kind { place: usize, kind: u8 },
    /// This byte of the record or entry is not used by its kind, and isn't 0.
    Byte { place: usize, byte: usize },
    /// What lies inside reaches past the end of the list, or of what this lies inside itself.
    Inside { place: usize },
    /// A body that isn't straight inside a modifier.
    LooseBody { place: usize },
    /// Something other than a body straight inside a modifier.
    NoBody { place: usize },
    /// It lies inside too many others.
    TooDeep { place: usize },
}

impl Fault {
    /// What the library answers to such bytes.
    pub const fn refusal(self) -> Refusal {
        match self {
            Fault::TooDeep { .. } => Refusal::TooDeep,
            _ => Refusal::BadRecord,
        }
    }

    /// Which record or entry it is, if it is one of them.
    pub const fn place(self) -> Option<usize> {
        match self {
            Fault::Length { .. } | Fault::TooMany { .. } => None,
            Fault::Kind { place, .. }
            | Fault::Byte { place, .. }
            | Fault::Inside { place }
            | Fault::LooseBody { place }
            | Fault::NoBody { place }
            | Fault::TooDeep { place } => Some(place),
        }
    }

    /// The same fault at another place.
    pub(crate) const fn at(self, place: usize) -> Self {
        match self {
            Fault::Kind { kind, .. } => Fault::Kind { place, kind },
            Fault::Byte { byte, .. } => Fault::Byte { place, byte },
            other => other,
        }
    }
}

impl fmt::Display for Fault {
    fn fmt(&self, f: &mut fmt::Formatter<'_>) -> fmt::Result {
        match *self {
            Fault::Length { bytes, each } => {
                write!(
                    f,
                    "{bytes} bytes are no whole number of {each}: {} are left over",
                    bytes % each
                )
            }
            Fault::TooMany { count, most } => {
                write!(f, "there are {count}, and at most {most} are taken")
            }
            Fault::Kind { place, kind } => {
                write!(f, "{place} has kind {kind}, and there is no such kind")
            }
            Fault::Byte { place, byte } => write!(
                f,
                "byte {byte} of {place} isn't used by its kind, and isn't 0"
            ),
            Fault::Inside { place } => write!(
                f,
                "what lies inside {place} reaches too far: its count is too large"
            ),
            Fault::LooseBody { place } => write!(
                f,
                "{place} is a body, and it isn't straight inside a modifier"
            ),
            Fault::NoBody { place } => write!(
                f,
                "{place} is straight inside a modifier, and it is no body"
            ),
            Fault::TooDeep { place } => {
                write!(f, "{place} lies inside more than {MOST_LEVELS} others")
            }
        }
    }
}

impl Error for Fault {}

/// The first rule that the bytes of a list break, if they break one: those behind BadRecord, then that of TooDeep.
///
/// ```
/// use uplink::{encode_list, list_fault, Fault, Record};
/// let loose = encode_list(&[Record::Body { arguments: 1, inside: 0 }]);
/// assert_eq!(list_fault(&loose), Some(Fault::LooseBody { place: 0 }));
/// ```
pub fn list_fault(bytes: &[u8]) -> Option<Fault> {
    match decode_list(bytes) {
        Ok(list) if list.len() > MOST_RECORDS => Some(Fault::TooMany {
            count: list.len(),
            most: MOST_RECORDS,
        }),
        Ok(list) => shape_fault(&list),
        Err(fault) => Some(fault),
    }
}

/// A record whose inside is being walked.
struct Open {
    end: usize,
    is_modifier: bool,
}

fn shape_fault(list: &[Record]) -> Option<Fault> {
    let mut open: Vec<Open> = Vec::new();
    let mut too_deep = None;
    for (place, record) in list.iter().enumerate() {
        while open.last().is_some_and(|outer| outer.end == place) {
            open.pop();
        }
        let end = place + 1 + record.inside() as usize;
        let outer_end = open.last().map_or(list.len(), |outer| outer.end);
        let in_modifier = open.last().is_some_and(|outer| outer.is_modifier);
        match (in_modifier, matches!(record, Record::Body { .. })) {
            (true, false) => return Some(Fault::NoBody { place }),
            (false, true) => return Some(Fault::LooseBody { place }),
            _ if end > outer_end => return Some(Fault::Inside { place }),
            _ => {}
        }
        if open.len() > MOST_LEVELS {
            too_deep = too_deep.or(Some(Fault::TooDeep { place }));
        }
        open.push(Open {
            end,
            is_modifier: matches!(record, Record::Modifier { .. }),
        });
    }
    too_deep
}

#[cfg(test)]
mod tests {
    use super::*;
    use crate::{encode_list, Modifier, Primitive, RECORD_BYTES};

    fn fault(list: &[Record]) -> Option<Fault> {
        list_fault(&encode_list(list))
    }

    fn on(inside: u32) -> Record {
        Record::Modifier {
            modifier: Modifier::On,
            inside,
        }
    }

    fn body(inside: u32) -> Record {
        Record::Body {
            arguments: 1,
            inside,
        }
    }

    #[test]
    fn good_lists_have_no_fault() {
        let neg = Record::Primitive(Primitive::Neg);
        assert_eq!(fault(&[]), None);
        assert_eq!(fault(&[on(0), neg]), None);
        assert_eq!(
            fault(&[on(3), body(2), Record::Run { inside: 1 }, neg, neg]),
            None
        );
    }

    #[test]
    fn faults_of_shape_have_their_places() {
        let neg = Record::Primitive(Primitive::Neg);
        assert_eq!(fault(&[neg, body(0)]), Some(Fault::LooseBody { place: 1 }));
        assert_eq!(fault(&[on(1), neg]), Some(Fault::NoBody { place: 1 }));
        assert_eq!(fault(&[neg, on(1)]), Some(Fault::Inside { place: 1 }));
        assert_eq!(
            fault(&[on(1), body(1), neg]),
            Some(Fault::Inside { place: 1 })
        );
        assert_eq!(
            fault(&[Record::Run { inside: 2 }, body(0), neg]),
            Some(Fault::LooseBody { place: 1 })
        );
    }

    #[test]
    fn limits_are_those_of_the_table() {
        let neg = Record::Primitive(Primitive::Neg);
        assert_eq!(fault(&[neg; MOST_RECORDS]), None);
        let too_many = Fault::TooMany {
            count: 2049,
            most: 2048,
        };
        assert_eq!(fault(&[neg; MOST_RECORDS + 1]), Some(too_many));
        let nested = |levels: u32| {
            (0..=levels)
                .rev()
                .map(|inside| Record::Run { inside })
                .collect::<Vec<_>>()
        };
        assert_eq!(fault(&nested(128)), None);
        assert_eq!(fault(&nested(129)), Some(Fault::TooDeep { place: 129 }));
        assert_eq!(Fault::TooDeep { place: 129 }.refusal(), Refusal::TooDeep);
        assert_eq!(too_many.refusal(), Refusal::BadRecord);
    }

    #[test]
    fn a_bad_record_comes_before_depth() {
        let mut bytes = encode_list(&[Record::Run { inside: 0 }; 3]);
        bytes[2 * RECORD_BYTES + 1] = 1;
        assert_eq!(list_fault(&bytes), Some(Fault::Byte { place: 2, byte: 1 }));
    }
}
