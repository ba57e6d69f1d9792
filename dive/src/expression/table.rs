//! The cases of notation/cases.txt.

use std::{fs, path::Path};

use uplink::encode_list;

use super::{parse, Kind};
use crate::notation;

/// A formula, and what is said to come of it.
struct Case {
    line: usize,
    formula: String,
    expected: String,
}

fn cases() -> Vec<Case> {
    let file = Path::new(env!("CARGO_MANIFEST_DIR")).join("../notation/cases.txt");
    let text = fs::read_to_string(file).expect("the cases");
    let mut cases = Vec::new();
    let mut formula = None;
    for (at, line) in text.split('\n').enumerate() {
        if line.is_empty() || line.starts_with('#') {
            continue;
        }
        match formula.take() {
            None => formula = Some(behind("formula", line).expect("a formula")),
            Some(formula) => cases.push(Case {
                line: at,
                formula: unescaped(formula),
                expected: unescaped(line),
            }),
        }
    }
    assert_eq!(formula, None, "a formula without an answer");
    cases
}

/// What belongs to a keyword at the start of a line.
fn behind<'a>(keyword: &str, line: &'a str) -> Option<&'a str> {
    let rest = line.strip_prefix(keyword)?;
    if rest.is_empty() {
        return Some(rest);
    }
    rest.strip_prefix(' ')
}

/// A text with its escapes written out.
fn unescaped(text: &str) -> String {
    let mut plain = String::new();
    let mut rest = text;
    while let Some((before, escape)) = rest.split_once('\\') {
        plain.push_str(before);
        let (length, character) = escaped(escape);
        plain.push_str(&character);
        rest = &escape[length..];
    }
    plain + rest
}

/// How long an escape is behind its backslash, and what it stands for.
fn escaped(escape: &str) -> (usize, String) {
    let in_braces = |from: usize| {
        let end = escape.find('}').expect("a closing brace");
        (end + 1, &escape[from..end])
    };
    match escape.chars().next().expect("an escape") {
        'n' => (1, "\n".into()),
        't' => (1, "\t".into()),
        '\\' => (1, "\\".into()),
        'u' => {
            let (length, digits) = in_braces(2);
            let code = u32::from_str_radix(digits, 16).expect("hexadecimal digits");
            (length, char::from_u32(code).expect("a character").into())
        }
        '{' => {
            let (length, inside) = in_braces(1);
            let (count, repeated) = inside.split_once(':').expect("a count and a text");
            (length, repeated.repeat(count.parse().expect("a count")))
        }
        other => panic!("\\{other} is no escape"),
    }
}

const fn name(kind: Kind) -> &'static str {
    match kind {
        Kind::Empty => "empty",
        Kind::Sign => "sign",
        Kind::Name => "name",
        Kind::Number => "number",
        Kind::Operand => "operand",
        Kind::Close => "close",
        Kind::Open => "open",
        Kind::Either => "either",
        Kind::Deep => "deep",
        Kind::Long => "long",
    }
}

/// What comes of a formula, as the cases say it: its steps, or its mistake.
fn answer(formula: &str) -> String {
    match parse(formula) {
        Ok(parsed) => {
            assert_eq!(parsed.list.len(), parsed.spans.len());
            let words: Vec<String> = parsed.list.iter().map(notation::word).collect();
            format!("steps {}", words.join(", "))
        }
        Err(fault) => {
            let span = fault.span;
            let (line, column, width) = (span.line, span.column, span.width);
            format!("error {line} {column} {width} {}", name(fault.kind))
        }
    }
}

/// The bytes of steps, so that numbers are compared by their bits.
fn bytes(steps: &str) -> Option<Vec<u8>> {
    let steps = behind("steps", steps)?;
    let parsed = notation::parse(steps).expect("good steps");
    Some(encode_list(&parsed.list))
}

#[test]
fn every_case_comes_out_as_the_table_says() {
    let cases = cases();
    assert!(cases.len() >= 150, "{} cases", cases.len());
    let wrong: Vec<String> = cases
        .iter()
        .filter_map(|case| {
            let found = answer(&case.formula);
            let is_same = match bytes(&case.expected) {
                Some(expected) => bytes(&found) == Some(expected),
                None => found == case.expected,
            };
            let Case { line, formula, .. } = case;
            (!is_same).then(|| format!("line {line}: {formula}\n  {found}\n"))
        })
        .collect();
    assert!(
        wrong.is_empty(),
        "{} differ:\n{}",
        wrong.len(),
        wrong.concat()
    );
}

#[test]
fn every_kind_of_mistake_is_in_the_table() {
    let cases = cases();
    for kind in [
        Kind::Empty,
        Kind::Sign,
        Kind::Name,
        Kind::Number,
        Kind::Operand,
        Kind::Close,
        Kind::Open,
        Kind::Either,
        Kind::Deep,
        Kind::Long,
    ] {
        let is_there = |case: &Case| case.expected.ends_with(name(kind));
        assert!(cases.iter().any(is_there), "{kind:?}");
    }
}
