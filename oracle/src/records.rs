//! Node records: 24 bytes each, with their inside after them.

use std::sync::Arc;

use crate::{
    Complex, CustomInverse, ImplPrimitive, Node, Primitive, SigNode, Value,
    answer::{
        Refusal,
        number::{BAD_RECORD, TOO_DEEP},
    },
    stand_ins::Array,
};

pub const RECORD: usize = 24;
pub const MOST_RECORDS: usize = 2048;
pub const MOST_LEVELS: usize = 128;

/// The kinds of records.
pub mod kind {
    pub const REAL: u8 = 1;
    pub const COMPLEX: u8 = 2;
    pub const ARRAY: u8 = 3;
    pub const OTHER_PUSH: u8 = 4;
    pub const PRIMITIVE: u8 = 5;
    pub const MODIFIER: u8 = 6;
    pub const BODY: u8 = 7;
    pub const RUN: u8 = 8;
    pub const CUSTOM_INVERSE: u8 = 9;
    pub const OBVERSE: u8 = 10;
    pub const NO_NORMAL: u8 = 11;
    pub const UNDER_MARKER: u8 = 12;
    pub const ANYTHING_ELSE: u8 = 13;
}

/// One record, its numbers as bits.
#[derive(Debug, Clone, Copy, PartialEq, Eq, Default)]
pub struct Record {
    pub kind: u8,
    pub code: u8,
    pub arguments: u8,
    pub zero: u8,
    pub inside: u32,
    pub re: u64,
    pub im: u64,
}

impl Record {
    pub fn from_bytes(bytes: &[u8; RECORD]) -> Self {
        let word = |at: usize| u64::from_le_bytes(bytes[at..at + 8].try_into().unwrap());
        Record {
            kind: bytes[0],
            code: bytes[1],
            arguments: bytes[2],
            zero: bytes[3],
            inside: u32::from_le_bytes(bytes[4..8].try_into().unwrap()),
            re: word(8),
            im: word(16),
        }
    }
    pub fn to_bytes(self) -> [u8; RECORD] {
        let mut bytes = [0; RECORD];
        bytes[..4].copy_from_slice(&[self.kind, self.code, self.arguments, self.zero]);
        bytes[4..8].copy_from_slice(&self.inside.to_le_bytes());
        bytes[8..16].copy_from_slice(&self.re.to_le_bytes());
        bytes[16..].copy_from_slice(&self.im.to_le_bytes());
        bytes
    }
    /// A record of this kind with nothing else in it.
    pub fn of(kind: u8) -> Self {
        Record {
            kind,
            ..Record::default()
        }
    }
    pub fn real(number: f64) -> Self {
        Record {
            re: number.to_bits(),
            ..Record::of(kind::REAL)
        }
    }
    pub fn complex(number: Complex) -> Self {
        Record {
            re: number.re.to_bits(),
            im: number.im.to_bits(),
            ..Record::of(kind::COMPLEX)
        }
    }
    pub fn primitive(code: u8) -> Self {
        Record {
            code,
            ..Record::of(kind::PRIMITIVE)
        }
    }
    /// The record with the fields that its kind doesn't use set to zero bits,
    /// if there is such a kind.
    fn used_fields(self) -> Option<Self> {
        use kind::*;
        let bare = Record::of(self.kind);
        Some(match self.kind {
            REAL => Record {
                re: self.re,
                ..bare
            },
            COMPLEX => Record {
                re: self.re,
                im: self.im,
                ..bare
            },
            PRIMITIVE => Record {
                code: self.code,
                ..bare
            },
            MODIFIER => Record {
                code: self.code,
                inside: self.inside,
                ..bare
            },
            BODY => Record {
                arguments: self.arguments,
                inside: self.inside,
                ..bare
            },
            RUN | CUSTOM_INVERSE => Record {
                inside: self.inside,
                ..bare
            },
            ARRAY | OTHER_PUSH | OBVERSE | NO_NORMAL | UNDER_MARKER | ANYTHING_ELSE => bare,
            _ => return None,
        })
    }
    /// Which byte breaks a rule that the record keeps by itself, if one does.
    fn bad_byte(self) -> Option<usize> {
        let Some(used) = self.used_fields() else {
            return Some(0);
        };
        let (is, should) = (self.to_bytes(), used.to_bytes());
        (0..RECORD).find(|&byte| is[byte] != should[byte])
    }
}

/// What is wrong with a list's bytes.
#[derive(Debug, Clone, Copy, PartialEq, Eq)]
pub enum Fault {
    /// The length isn't whole records.
    Length,
    /// Over 2,048 records.
    TooMany,
    /// A record of this kind has a wrong byte here.
    Byte { kind: u8, byte: usize },
    /// A body outside of a modifier, or this kind straight inside one.
    Body(u8),
    /// The inside of a record of this kind reaches over an end.
    Inside(u8),
    /// A record inside more than 128 others.
    TooDeep,
}

impl Fault {
    pub fn refusal(self) -> Refusal {
        match self {
            Fault::TooDeep => Refusal::whole(TOO_DEEP),
            _ => Refusal::whole(BAD_RECORD),
        }
    }
}

/// The bytes of some records in a row.
pub fn bytes_of(records: &[Record]) -> Vec<u8> {
    records
        .iter()
        .flat_map(|record| record.to_bytes())
        .collect()
}

/// The records of a byte list, if its length is whole records.
pub fn split(list: &[u8]) -> Option<Vec<Record>> {
    let (records, rest) = list.as_chunks::<RECORD>();
    rest.is_empty()
        .then(|| records.iter().map(Record::from_bytes).collect())
}

/// A record whose inside is being walked.
struct Open {
    end: usize,
    is_modifier: bool,
}

/// The records of a list, or what is wrong with it. Depth comes last.
pub fn check(list: &[u8]) -> Result<Vec<Record>, Fault> {
    let records = split(list).ok_or(Fault::Length)?;
    if records.len() > MOST_RECORDS {
        return Err(Fault::TooMany);
    }
    let mut open: Vec<Open> = Vec::new();
    let mut deepest = 0;
    for (at, record) in records.iter().enumerate() {
        while open.last().is_some_and(|outer| outer.end == at) {
            open.pop();
        }
        let kind = record.kind;
        if let Some(byte) = record.bad_byte() {
            return Err(Fault::Byte { kind, byte });
        }
        let in_modifier = open.last().is_some_and(|outer| outer.is_modifier);
        if (kind == kind::BODY) != in_modifier {
            return Err(Fault::Body(kind));
        }
        let end = at + 1 + record.inside as usize;
        if end > open.last().map_or(records.len(), |outer| outer.end) {
            return Err(Fault::Inside(kind));
        }
        deepest = deepest.max(open.len());
        open.push(Open {
            end,
            is_modifier: kind == kind::MODIFIER,
        });
    }
    if deepest > MOST_LEVELS {
        return Err(Fault::TooDeep);
    }
    Ok(records)
}

/// The nodes of checked records. The span of each node is its record's index.
pub fn nodes(records: &[Record]) -> Vec<Node> {
    nodes_between(records, 0, records.len())
}

fn nodes_between(records: &[Record], mut at: usize, end: usize) -> Vec<Node> {
    let mut nodes = Vec::new();
    while at < end {
        let next = at + 1 + records[at].inside as usize;
        nodes.push(node_at(records, at, next));
        at = next;
    }
    nodes
}

fn node_at(records: &[Record], at: usize, end: usize) -> Node {
    use kind::*;
    let record = records[at];
    let run = || Node::Run(nodes_between(records, at + 1, end));
    let custom = |normal, is_obverse| {
        Node::CustomInverse(Arc::new(CustomInverse { normal, is_obverse }), at)
    };
    match record.kind {
        REAL => Node::Push(f64::from_bits(record.re).into(), at),
        COMPLEX => {
            let number = Complex::new(f64::from_bits(record.re), f64::from_bits(record.im));
            Node::Push(number.into(), at)
        }
        ARRAY => {
            let array = Array {
                shape: vec![1],
                data: vec![0.0],
            };
            Node::Push(Value::Num(array), at)
        }
        OTHER_PUSH => Node::Push(Value::Char(Array::scalar('x')), at),
        PRIMITIVE => primitive_node(record.code, at),
        MODIFIER => {
            let bodies = bodies_between(records, at + 1, end);
            Node::Mod(Primitive::modifier(record.code), bodies, at)
        }
        RUN => run(),
        CUSTOM_INVERSE => custom(Ok(SigNode::new((1, 1), run())), false),
        OBVERSE => custom(Ok(SigNode::new((1, 1), Node::empty())), true),
        NO_NORMAL => custom(Err("no normal form".into()), false),
        UNDER_MARKER => Node::PushUnder(1, at),
        _ => Node::Label("anything else".into(), at),
    }
}

fn primitive_node(code: u8, at: usize) -> Node {
    if let Some(prim) = ImplPrimitive::from_code(code) {
        return Node::ImplPrim(prim, at);
    }
    // The modifiers' own codes are no primitive's.
    let prim = Primitive::from_code(code).filter(|prim| prim.code() <= 20);
    Node::Prim(prim.unwrap_or(Primitive::Unlisted(code)), at)
}

fn bodies_between(records: &[Record], mut at: usize, end: usize) -> Vec<SigNode> {
    let mut bodies = Vec::new();
    while at < end {
        let next = at + 1 + records[at].inside as usize;
        let body = Node::Run(nodes_between(records, at + 1, next));
        bodies.push(SigNode::new((usize::from(records[at].arguments), 1), body));
        at = next;
    }
    bodies
}

/// The records of a list that the Rust wrote, runs flattened.
pub fn written(node: &Node) -> Vec<Record> {
    let mut records = Vec::new();
    for node in node.as_slice() {
        write_node(node, &mut records);
    }
    records
}

fn write_node(node: &Node, records: &mut Vec<Record>) {
    match node {
        Node::Run(nodes) => nodes.iter().for_each(|node| write_node(node, records)),
        Node::Push(Value::Num(array), _) => records.push(Record::real(array.data[0])),
        Node::Push(Value::Complex(array), _) => records.push(Record::complex(array.data[0])),
        Node::Prim(prim, _) => records.push(Record::primitive(prim.code())),
        Node::ImplPrim(prim, _) => records.push(Record::primitive(prim.code())),
        Node::Mod(prim, bodies, _) => {
            let modifier = Record {
                code: prim.modifier_code(),
                ..Record::of(kind::MODIFIER)
            };
            with_inside(modifier, records, |records| {
                for body in bodies {
                    write_body(body, records);
                }
            });
        }
        other => unreachable!("the algebra writes no {other:?}"),
    }
}

fn write_body(body: &SigNode, records: &mut Vec<Record>) {
    let record = Record {
        arguments: u8::try_from(body.sig.args()).expect("few arguments"),
        ..Record::of(kind::BODY)
    };
    with_inside(record, records, |records| write_node(&body.node, records));
}

/// Write a record, then its inside, then how long that came out.
fn with_inside(record: Record, records: &mut Vec<Record>, inside: impl FnOnce(&mut Vec<Record>)) {
    let at = records.len();
    records.push(record);
    inside(records);
    records[at].inside = (records.len() - at - 1) as u32;
}

/// Whether a written number isn't finite.
pub fn any_not_finite(records: &[Record]) -> bool {
    records
        .iter()
        .flat_map(|record| [record.re, record.im])
        .any(|bits| !f64::from_bits(bits).is_finite())
}
