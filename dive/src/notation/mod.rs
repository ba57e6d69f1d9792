//! The plain text notation for lists.
//!
//! Steps stand one after the other, parted by spaces, new lines or commas; `#` starts a comment. `push 3` and `push 2 + 3i` push numbers, a primitive is
//! its name, a modifier its name and its bodies in braces: `On { push 2, Mul }`. A body of other than one argument says so: `Fork {2: Add } { Neg }`.

mod mistake;
mod parse;
mod print;
mod tokens;

pub use mistake::{Mistake, Span};
pub use parse::{nearest_step, parse, starts_step, Parsed};
pub use print::text;
pub use tokens::words;

use uplink::Record;

/// The kinds that are written by their name alone.
pub const PLAIN: [(&str, Record); 6] = [
    ("ArrayPush", Record::ArrayPush),
    ("OtherPush", Record::OtherPush),
    ("Obverse", Record::Obverse),
    ("NoNormal", Record::NoNormal),
    ("UnderMarker", Record::UnderMarker),
    ("AnythingElse", Record::AnythingElse),
];

/// The kinds that are written by their name and what lies inside.
pub const HOLDING: [(&str, Record); 2] = [
    ("Run", Record::Run { inside: 0 }),
    ("CustomInverse", Record::CustomInverse { inside: 0 }),
];

/// A record by itself, as it is written, without what lies inside.
pub fn word(record: &Record) -> String {
    match record {
        Record::RealPush(number) => format!("push {}", crate::numbers::text(*number)),
        Record::ComplexPush { re, im } => complex_word(*re, *im),
        Record::Primitive(primitive) => match primitive.name() {
            Some(name) => name.into(),
            None => format!("Primitive {}", primitive.code()),
        },
        Record::Modifier { modifier, .. } => match modifier.name() {
            Some(name) => name.into(),
            None => format!("Modifier {}", modifier.code()),
        },
        Record::Body { arguments, .. } => format!("body of {arguments}"),
        other => named(other).into(),
    }
}

fn named(record: &Record) -> &'static str {
    let mut all = PLAIN.iter().chain(&HOLDING);
    all.find(|(_, other)| other.kind() == record.kind())
        .map_or("?", |(name, _)| name)
}

fn complex_word(re: f64, im: f64) -> String {
    let (sign, size) = if im.is_sign_negative() && !im.is_nan() {
        ('-', -im)
    } else {
        ('+', im)
    };
    format!(
        "push {} {sign} {}i",
        crate::numbers::text(re),
        crate::numbers::text(size)
    )
}
