//! Lists and sums as text: words for people, hex for stored answers.
//!
//! In words a number is a push and `re;im` a complex push; a primitive is its
//! name; a modifier's bodies follow it, each as `(arguments: records)`, and one
//! without a name is `Modifier` with its code; `Run` and `Custom` are followed
//! by one `(records)`. `Array`, `Other`, `Obverse`, `NoNormal`, `Under` and
//! `Else` are the remaining kinds. Commas and the word `push` are for the eye.

use std::f64::consts::E;

use crate::{
    Complex, ImplPrimitive, Primitive,
    records::{Record, bytes_of, kind},
};

/// The bytes of a list in words.
///
/// # Panics
/// If the words are no list: they stand in tests.
pub fn list(words: &str) -> Vec<u8> {
    let spaced = words
        .replace('(', " ( ")
        .replace(')', " ) ")
        .replace(',', " ");
    let mut words = spaced
        .split_whitespace()
        .filter(|word| *word != "push")
        .peekable();
    let mut records = Vec::new();
    while words.peek().is_some() {
        parse_record(&mut words, &mut records);
    }
    bytes_of(&records)
}

type Words<'a, I> = std::iter::Peekable<I>;

fn parse_record<'a, I: Iterator<Item = &'a str>>(
    words: &mut Words<'a, I>,
    records: &mut Vec<Record>,
) {
    let word = words.next().expect("a word");
    let at = records.len();
    let record = word_record(word).unwrap_or_else(|| panic!("no such word: {word}"));
    records.push(record);
    match record.kind {
        kind::RUN | kind::CUSTOM_INVERSE => {
            assert_eq!(words.next(), Some("("), "{word} has an inside");
            parse_group(words, records);
        }
        kind::MODIFIER => {
            while words.next_if_eq(&"(").is_some() {
                let arguments = words.next().and_then(|word| word.strip_suffix(':'));
                let arguments = arguments.and_then(|word| word.parse().ok());
                let body = records.len();
                records.push(Record {
                    arguments: arguments.expect("a body's argument count"),
                    ..Record::of(kind::BODY)
                });
                parse_group(words, records);
                records[body].inside = (records.len() - body - 1) as u32;
            }
        }
        _ => {}
    }
    records[at].inside = (records.len() - at - 1) as u32;
}

fn parse_group<'a, I: Iterator<Item = &'a str>>(
    words: &mut Words<'a, I>,
    records: &mut Vec<Record>,
) {
    while words.next_if_eq(&")").is_none() {
        parse_record(words, records);
    }
}

fn word_record(word: &str) -> Option<Record> {
    let plain = PLAIN_KINDS.iter().find(|(_, name)| *name == word);
    if let Some((kind, _)) = plain {
        return Some(Record::of(*kind));
    }
    let unlisted = || word.strip_prefix("Modifier")?.parse().ok();
    let listed = (1..=7).find(|&code| modifier_name(code) == word);
    if let Some(code) = listed.or_else(unlisted) {
        return Some(Record {
            code,
            ..Record::of(kind::MODIFIER)
        });
    }
    if let Some(code) = (0..64).find(|&code| primitive_name(code).as_deref() == Some(word)) {
        return Some(Record::primitive(code));
    }
    match word.split_once(';') {
        Some((re, im)) => Some(Record::complex(Complex::new(number(re)?, number(im)?))),
        None => number(word).map(Record::real),
    }
}

fn number(word: &str) -> Option<f64> {
    match word {
        "E" => Some(E),
        word => match word.split_once('^') {
            Some(("2", exponent)) => power_of_two(exponent.parse().ok()?),
            Some(("-2", exponent)) => power_of_two(exponent.parse().ok()?).map(|number| -number),
            _ => word.parse().ok(),
        },
    }
}

/// A normal power of 2, by its bits: `powi` may differ between machines.
fn power_of_two(exponent: i64) -> Option<f64> {
    let biased = u64::try_from(exponent + 1023).ok()?;
    (1..2047)
        .contains(&biased)
        .then(|| f64::from_bits(biased << 52))
}

const PLAIN_KINDS: [(u8, &str); 8] = [
    (kind::ARRAY, "Array"),
    (kind::OTHER_PUSH, "Other"),
    (kind::RUN, "Run"),
    (kind::CUSTOM_INVERSE, "Custom"),
    (kind::OBVERSE, "Obverse"),
    (kind::NO_NORMAL, "NoNormal"),
    (kind::UNDER_MARKER, "Under"),
    (kind::ANYTHING_ELSE, "Else"),
];

fn modifier_name(code: u8) -> String {
    match Primitive::modifier(code) {
        Primitive::Unlisted(code) => format!("Modifier{code}"),
        modifier => format!("{modifier:?}"),
    }
}

fn primitive_name(code: u8) -> Option<String> {
    ImplPrimitive::from_code(code)
        .map(|prim| format!("{prim:?}"))
        .or_else(|| Primitive::from_code(code).map(|prim| format!("{prim:?}")))
}

/// A list in words.
pub fn words(records: &[Record]) -> String {
    parts(records).join(", ")
}

/// Each outermost record with its inside, in words.
fn parts(records: &[Record]) -> Vec<String> {
    let mut parts = Vec::new();
    let mut at = 0;
    while at < records.len() {
        let end = at + 1 + records[at].inside as usize;
        parts.push(record_words(records[at], &records[at + 1..end]));
        at = end;
    }
    parts
}

fn record_words(record: Record, inside: &[Record]) -> String {
    let (re, im) = (f64::from_bits(record.re), f64::from_bits(record.im));
    match record.kind {
        kind::REAL => format!("push {}", number_words(re)),
        kind::COMPLEX => format!("push {};{}", number_words(re), number_words(im)),
        kind::PRIMITIVE => {
            primitive_name(record.code).unwrap_or_else(|| format!("Primitive{}", record.code))
        }
        kind::MODIFIER => modifier_name(record.code) + &parts(inside).concat(),
        kind::BODY => format!("({}: {})", record.arguments, words(inside)),
        other => {
            let name = PLAIN_KINDS.iter().find(|(kind, _)| *kind == other);
            let name = name.map_or("?", |(_, name)| name);
            match other {
                kind::RUN | kind::CUSTOM_INVERSE => format!("{name}({})", words(inside)),
                _ => name.to_string(),
            }
        }
    }
}

fn number_words(number: f64) -> String {
    if number == E {
        return "E".into();
    }
    let sign = if number < 0.0 { "-" } else { "" };
    match whole_exponent(number) {
        Some(exponent) if exponent.abs() > 19 => format!("{sign}2^{exponent}"),
        _ if number != 0.0 && !(1e-5..1e15).contains(&number.abs()) => format!("{number:e}"),
        _ => format!("{number}"),
    }
}

/// The exponent of a normal number that is a power of 2, its sign aside.
fn whole_exponent(number: f64) -> Option<i64> {
    let fraction = number.to_bits() & ((1 << 52) - 1);
    let exponent = (number.to_bits() >> 52 & 0x7ff) as i64 - 1023;
    (fraction == 0 && number.is_normal()).then_some(exponent)
}

/// Records or entries of `size` bytes each in hex, trailing zero bytes left
/// off, with a space before each one.
pub fn hex(bytes: &[u8], size: usize) -> String {
    bytes.chunks(size).fold(String::new(), |mut text, chunk| {
        let used = chunk
            .iter()
            .rposition(|&byte| byte != 0)
            .map_or(1, |last| last + 1);
        text.push(' ');
        for byte in &chunk[..used] {
            text.push_str(&format!("{byte:02x}"));
        }
        text
    })
}

/// The bytes that [`hex`] writes, from its space-separated parts.
pub fn from_hex<'a>(parts: impl IntoIterator<Item = &'a str>, size: usize) -> Option<Vec<u8>> {
    let mut bytes = Vec::new();
    for part in parts {
        let used = part.len() / 2;
        if part.len() % 2 != 0 || used > size {
            return None;
        }
        for at in 0..used {
            bytes.push(u8::from_str_radix(part.get(2 * at..2 * at + 2)?, 16).ok()?);
        }
        bytes.resize(bytes.len() + size - used, 0);
    }
    Some(bytes)
}
