//! A list in words: each record with its place and what it does.

use uplink::{Modifier, Primitive, Record};

use crate::notation;

/// Where the words start that say what a record does.
const COLUMN: usize = 24;

/// The records of a list, one to a line, nested and numbered by place.
pub fn shown(list: &[Record]) -> String {
    if list.is_empty() {
        return "(an empty list: it leaves x as it is)\n".into();
    }
    let mut text = String::from("place  record\n");
    let mut ends: Vec<usize> = Vec::new();
    for (place, record) in list.iter().enumerate() {
        while ends.last() == Some(&place) {
            ends.pop();
        }
        text.push_str(&line(place, ends.len(), record));
        ends.push(place + 1 + record.inside() as usize);
    }
    text
}

fn line(place: usize, level: usize, record: &Record) -> String {
    let name = "  ".repeat(level) + &name(record);
    let line = format!("{place:>5}  {name:<COLUMN$}  {}", does(record));
    line.trim_end().to_string() + "\n"
}

/// A record by name, with its numbers.
pub fn name(record: &Record) -> String {
    match record {
        Record::Body { arguments: 1, .. } => "body of 1 argument".into(),
        Record::Body { arguments, .. } => format!("body of {arguments} arguments"),
        other => notation::word(other),
    }
}

/// What a record does, where its name doesn't say it.
fn does(record: &Record) -> &'static str {
    match record {
        Record::RealPush(_) | Record::ComplexPush { .. } | Record::Body { .. } => "",
        Record::ArrayPush => "pushes an array",
        Record::OtherPush => "pushes something that is no number",
        Record::Primitive(primitive) => primitive_does(*primitive),
        Record::Modifier { modifier, .. } => modifier_does(*modifier),
        Record::Run { .. } => "runs what lies inside",
        Record::CustomInverse { .. } => "runs what lies inside; its inverse is given elsewhere",
        Record::Obverse => "an inverse given by hand, of a sort that isn't handled",
        Record::NoNormal => "a custom inverse without a normal form",
        Record::UnderMarker => "has no effect",
        Record::AnythingElse => "a step of some other sort",
    }
}

fn primitive_does(primitive: Primitive) -> &'static str {
    match primitive {
        Primitive::Identity => "leaves the top as it is",
        Primitive::Pop => "takes the top away",
        Primitive::Dup => "copies the top",
        Primitive::Flip => "turns the two on top round",
        Primitive::Neg => "turns the sign of the top",
        Primitive::Not => "1 minus the top",
        Primitive::Sqrt => "the square root of the top",
        Primitive::Add => "adds the two on top",
        Primitive::Sub => "takes the top from the one below",
        Primitive::Mul => "multiplies the two on top",
        Primitive::Div => "divides the one below by the top",
        Primitive::Pow => "raises the one below to the power on top",
        Primitive::Exp => "e to the power on top",
        Primitive::Sin => "the sine of the top",
        Primitive::Cos => "the cosine of the top",
        Primitive::Reciprocal => "1 divided by the top",
        Primitive::Complex => "the one below plus i times the top",
        Primitive::Max => "the larger of the two on top",
        Primitive::SinH => "the hyperbolic sine of the top",
        Primitive::CosH => "the hyperbolic cosine of the top",
        Primitive::Exp2 => "2 to the power on top",
        Primitive::Exp10 => "10 to the power on top",
        Primitive::Log => "the logarithm of the one below, to the base on top",
        Primitive::Ln => "the natural logarithm of the top",
        Primitive::Log2 => "the logarithm of the top to base 2",
        Primitive::Log10 => "the logarithm of the top to base 10",
        Primitive::Over => "copies the one below to the top",
        Primitive::Root => "the root of the one below, of the degree on top",
        Primitive::Unlisted(_) => "a primitive without a name",
    }
}

fn modifier_does(modifier: Modifier) -> &'static str {
    match modifier {
        Modifier::Dip => "runs its body below the top",
        Modifier::Gap => "takes the top away and runs its body",
        Modifier::On => "runs its body, then puts the old top on top again",
        Modifier::By => "keeps the lowest value its body takes, and runs its body",
        Modifier::Both => "runs its body on two sets of values",
        Modifier::Bracket => "runs its first body on the values on top, its second on those below",
        Modifier::Fork => "runs each of its bodies on the same values",
        Modifier::Unlisted(_) => "a modifier without a name",
    }
}

#[cfg(test)]
mod tests {
    use super::*;

    #[test]
    fn records_are_nested_and_numbered() {
        let list = notation::parse("push 3, Pow, On { Fork {2: Add } }, Mul")
            .expect("a good text")
            .list;
        let expected = "\
place  record
    0  push 3
    1  Pow                       raises the one below to the power on top
    2  On                        runs its body, then puts the old top on top again
    3    body of 1 argument
    4      Fork                  runs each of its bodies on the same values
    5        body of 2 arguments
    6          Add               adds the two on top
    7  Mul                       multiplies the two on top
";
        assert_eq!(shown(&list), expected);
    }

    #[test]
    fn an_empty_list_says_so() {
        assert!(shown(&[]).contains("empty list"));
    }
}
