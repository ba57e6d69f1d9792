//! Records of 24 bytes, and the rules of 11 and 13.

/// Document 01's refusals that a derivative, a reading or a run can give.
#[derive(Debug, Clone, Copy, PartialEq, Eq)]
#[repr(u8)]
pub enum Refusal {
    TooManyVariables = 1,
    NotSupported = 2,
    NoOutput = 3,
    TooManyOutputs = 4,
    NonScalar = 5,
    NonReal = 6,
    TooComplex = 7,
    InterpreterBug = 8,
    NoInverse = 9,
    BadRecord = 11,
    NoRoom = 12,
    TooDeep = 13,
    NeedsMath = 14,
    NotFinite = 15,
    BigPower = 16,
    OutputRoom = 17,
    PowerNotFinite = 18,
}

pub const RECORD_BYTES: usize = 24;
const MOST_RECORDS: usize = 2048;
const MOST_INSIDE: usize = 128;

pub const REAL_PUSH: u8 = 1;
pub const COMPLEX_PUSH: u8 = 2;
pub const ARRAY_PUSH: u8 = 3;
pub const OTHER_PUSH: u8 = 4;
pub const PRIMITIVE: u8 = 5;
pub const MODIFIER: u8 = 6;
pub const BODY: u8 = 7;
pub const RUN: u8 = 8;
pub const CUSTOM_INVERSE: u8 = 9;
pub const OBVERSE: u8 = 10;
pub const NO_NORMAL: u8 = 11;
pub const UNDER_MARKER: u8 = 12;
pub const ANYTHING_ELSE: u8 = 13;

/// Codes of primitives that are read, run or written.
pub mod primitive {
    pub const IDENTITY: u8 = 1;
    pub const POP: u8 = 2;
    pub const DUP: u8 = 3;
    pub const FLIP: u8 = 4;
    pub const NEG: u8 = 5;
    pub const NOT: u8 = 6;
    pub const SQRT: u8 = 7;
    pub const ADD: u8 = 8;
    pub const SUB: u8 = 9;
    pub const MUL: u8 = 10;
    pub const DIV: u8 = 11;
    pub const POW: u8 = 12;
    pub const EXP: u8 = 13;
    pub const SIN: u8 = 14;
    pub const COS: u8 = 15;
    pub const RECIPROCAL: u8 = 16;
    pub const COMPLEX: u8 = 17;
    pub const MAX: u8 = 18;
    pub const SIN_H: u8 = 19;
    pub const COS_H: u8 = 20;
    pub const EXP_2: u8 = 32;
    pub const EXP_10: u8 = 33;
    pub const LOG: u8 = 34;
    pub const LN: u8 = 35;
    pub const LOG_2: u8 = 36;
    pub const LOG_10: u8 = 37;
    pub const OVER: u8 = 38;
    pub const ROOT: u8 = 39;
}

pub mod modifier {
    pub const DIP: u8 = 1;
    pub const GAP: u8 = 2;
    pub const ON: u8 = 3;
    pub const BY: u8 = 4;
    pub const BOTH: u8 = 5;
    pub const BRACKET: u8 = 6;
    pub const FORK: u8 = 7;
}

pub type Bytes = [u8; RECORD_BYTES];

#[derive(Clone, Copy)]
pub struct Record {
    pub kind: u8,
    pub code: u8,
    pub args: u8,
    /// How many of the records after it lie inside it.
    pub inside: usize,
    pub re: f64,
    pub im: f64,
}

/// The three words of a record.
fn words(bytes: &Bytes) -> [u64; 3] {
    let (words, _) = bytes.as_chunks::<8>();
    [words[0], words[1], words[2]].map(u64::from_le_bytes)
}

pub fn decode(bytes: &Bytes) -> Record {
    let [head, re, im] = words(bytes);
    Record {
        kind: head as u8,
        code: (head >> 8) as u8,
        args: (head >> 16) as u8,
        inside: (head >> 32) as usize,
        re: f64::from_bits(re),
        im: f64::from_bits(im),
    }
}

pub fn encode(record: &Record) -> Bytes {
    let head = u64::from(record.kind)
        | u64::from(record.code) << 8
        | u64::from(record.args) << 16
        | (record.inside as u64) << 32;
    let mut bytes = [0; RECORD_BYTES];
    bytes[..8].copy_from_slice(&head.to_le_bytes());
    bytes[8..16].copy_from_slice(&record.re.to_le_bytes());
    bytes[16..].copy_from_slice(&record.im.to_le_bytes());
    bytes
}

/// Whether fields that a record's kind doesn't use are zero.
fn fields_fit([head, re, im]: [u64; 3]) -> bool {
    const KIND: u64 = 0xff;
    const CODE: u64 = 0xff00;
    const ARGS: u64 = 0xff_0000;
    const INSIDE: u64 = 0xffff_ffff_0000_0000;
    let only = |bits: u64| head & !bits == 0;
    match head as u8 {
        REAL_PUSH => only(KIND) && im == 0,
        COMPLEX_PUSH => only(KIND),
        PRIMITIVE => only(KIND | CODE) && re | im == 0,
        MODIFIER => only(KIND | CODE | INSIDE) && re | im == 0,
        BODY => only(KIND | ARGS | INSIDE) && re | im == 0,
        RUN | CUSTOM_INVERSE => only(KIND | INSIDE) && re | im == 0,
        ARRAY_PUSH | OTHER_PUSH | OBVERSE..=ANYTHING_ELSE => only(KIND) && re | im == 0,
        _ => false,
    }
}

/// Where what is inside each of the records ends in which the next one lies,
/// those that lie inside none first; marked where it is a modifier's.
pub type Ends = [u16; MOST_INSIDE + 1];
pub const NO_ENDS: Ends = [0; MOST_INSIDE + 1];
const OF_MODIFIER: u16 = 0x8000;

/// The records of a list that keeps the rules: 11 where one is broken, then 13
/// where one lies inside more than 128 others.
pub fn check<'a>(list: &'a [u8], ends: &mut Ends) -> Result<&'a [Bytes], Refusal> {
    let (records, rest) = list.as_chunks();
    if !rest.is_empty() || records.len() > MOST_RECORDS {
        return Err(Refusal::BadRecord);
    }
    check_in(records, ends).map_err(|refusal| refusal_of_whole(records, refusal))?;
    Ok(records)
}

#[cold]
fn refusal_of_whole(records: &[Bytes], refusal: Refusal) -> Refusal {
    check_in(records, &mut [0; MOST_RECORDS + 1])
        .err()
        .unwrap_or(refusal)
}

/// Whether records keep the rules, up to where one lies too deep for `ends`.
fn check_in(records: &[Bytes], ends: &mut [u16]) -> Result<(), Refusal> {
    let n = records.len();
    let (mut depth, mut end, mut in_modifier) = (0, n, false);
    ends[0] = n as u16;
    for (at, bytes) in records.iter().enumerate() {
        while at == end {
            depth -= 1;
            end = (ends[depth] & !OF_MODIFIER) as usize;
            in_modifier = ends[depth] & OF_MODIFIER != 0;
        }
        let record = words(bytes);
        let (kind, inside) = (record[0] as u8, (record[0] >> 32) as usize);
        if !fields_fit(record) || inside > end - at - 1 || (kind == BODY) != in_modifier {
            return Err(Refusal::BadRecord);
        }
        if inside > 0 {
            depth += 1;
            if depth == ends.len() {
                return Err(Refusal::TooDeep);
            }
            end = at + 1 + inside;
            in_modifier = kind == MODIFIER;
            ends[depth] = end as u16 | if in_modifier { OF_MODIFIER } else { 0 };
        }
    }
    Ok(())
}
