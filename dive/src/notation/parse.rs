//! From text to a list.

use uplink::{Modifier, Primitive, Record, MOST_LEVELS, MOST_RECORDS};

use super::{
    tokens::{Token, Tokens},
    Mistake, Span, HOLDING, PLAIN,
};
use crate::{nearest::nearest, numbers};

/// A list, and where in the text each of its records stands.
#[derive(Debug, Clone, PartialEq, Eq)]
pub struct Parsed {
    pub list: Vec<Record>,
    pub spans: Vec<Span>,
}

/// The list that a text stands for.
///
/// # Errors
/// The first mistake, with its place.
pub fn parse(text: &str) -> Result<Parsed, Mistake> {
    let parsed = Parsed {
        list: Vec::new(),
        spans: Vec::new(),
    };
    let mut parser = Parser {
        tokens: Tokens::of(text),
        parsed,
        level: 0,
    };
    parser.steps()?;
    match parser.tokens.take() {
        (Token::End, _) => Ok(parser.parsed),
        (_, span) => Err(Mistake::new(
            span,
            "this brace closes nothing: no { stands before it",
        )),
    }
}

struct Parser<'a> {
    tokens: Tokens<'a>,
    parsed: Parsed,
    /// How many records what comes next lies inside.
    level: usize,
}

impl<'a> Parser<'a> {
    /// Steps up to a closing brace or the end.
    fn steps(&mut self) -> Result<(), Mistake> {
        loop {
            match self.tokens.peek() {
                (Token::End | Token::Close, _) => return Ok(()),
                (Token::Open, span) => return Err(Mistake::new(span, LOOSE_BRACE)),
                (Token::Word(word), span) => {
                    self.tokens.take();
                    self.step(word, span)?;
                }
            }
        }
    }

    fn step(&mut self, word: &str, span: Span) -> Result<(), Mistake> {
        let record = self.record(word, span)?;
        let at = self.put(record, span)?;
        match record {
            Record::Modifier { .. } => self.inside_of(at, Self::bodies),
            Record::Run { .. } | Record::CustomInverse { .. } => self.inside_of(at, |parser| {
                parser.open(word, span)?;
                parser.steps_and_close(span)
            }),
            _ => Ok(()),
        }
    }

    /// The record that a word starts, with the numbers behind it.
    fn record(&mut self, word: &str, span: Span) -> Result<Record, Mistake> {
        match word {
            "push" => self.push(span),
            "Primitive" => self
                .code(word, span)
                .map(|code| Record::Primitive(Primitive::from_code(code))),
            "Modifier" => self
                .code(word, span)
                .map(|code| modifier(Modifier::from_code(code))),
            _ => named(word).ok_or_else(|| Mistake::new(span, no_step(word))),
        }
    }

    /// A record goes to the end of the list.
    fn put(&mut self, record: Record, span: Span) -> Result<usize, Mistake> {
        let at = self.parsed.list.len();
        if at == MOST_RECORDS {
            return Err(Mistake::new(
                span,
                format!("a list has at most {MOST_RECORDS} records, bodies counted"),
            ));
        }
        if self.level > MOST_LEVELS {
            let message =
                format!("this lies inside more than {MOST_LEVELS} records, bodies counted");
            return Err(Mistake::new(span, message));
        }
        self.parsed.list.push(record);
        self.parsed.spans.push(span);
        Ok(at)
    }

    /// What lies inside the record at a place, which is counted then.
    fn inside_of(
        &mut self,
        at: usize,
        inside: impl FnOnce(&mut Self) -> Result<(), Mistake>,
    ) -> Result<(), Mistake> {
        self.level += 1;
        inside(self)?;
        self.level -= 1;
        let count = (self.parsed.list.len() - at - 1) as u32;
        self.parsed.list[at] = with_inside(self.parsed.list[at], count);
        Ok(())
    }

    fn bodies(&mut self) -> Result<(), Mistake> {
        while let (Token::Open, span) = self.tokens.peek() {
            self.tokens.take();
            let arguments = self.arguments()?;
            let at = self.put(
                Record::Body {
                    arguments,
                    inside: 0,
                },
                span,
            )?;
            self.inside_of(at, |parser| parser.steps_and_close(span))?;
        }
        Ok(())
    }

    /// The argument count of a body, 1 where none is said.
    fn arguments(&mut self) -> Result<u8, Mistake> {
        let (Token::Word(word), span) = self.tokens.peek() else {
            return Ok(1);
        };
        let Some(count) = word.strip_suffix(':') else {
            return Ok(1);
        };
        self.tokens.take();
        let message = "a body's argument count is a whole number from 0 to 255, as in {2: Add }";
        whole_byte(count).ok_or_else(|| Mistake::new(span, message))
    }

    fn open(&mut self, word: &str, span: Span) -> Result<(), Mistake> {
        match self.tokens.peek() {
            (Token::Open, _) => {
                self.tokens.take();
                Ok(())
            }
            _ => Err(Mistake::new(
                span,
                format!("{word} needs its inside in braces: {word} {{ .. }}"),
            )),
        }
    }

    fn steps_and_close(&mut self, opened: Span) -> Result<(), Mistake> {
        self.steps()?;
        match self.tokens.take() {
            (Token::Close, _) => Ok(()),
            _ => Err(Mistake::new(
                opened,
                "what starts here is never closed: a } is missing",
            )),
        }
    }

    /// The number or numbers behind `push`.
    fn push(&mut self, span: Span) -> Result<Record, Mistake> {
        let (word, at) = self.word_after("push", "a number", span)?;
        let re =
            numbers::parse(word).map_err(|message| Mistake::new(at, with_spaces(word, message)))?;
        match self.tokens.peek() {
            (Token::Word(sign @ ("+" | "-")), _) => {
                self.tokens.take();
                self.imaginary(sign, at)
                    .map(|im| Record::ComplexPush { re, im })
            }
            _ => Ok(Record::RealPush(re)),
        }
    }

    /// The imaginary part behind its sign.
    fn imaginary(&mut self, sign: &str, span: Span) -> Result<f64, Mistake> {
        let (word, at) = self.word_after(sign, "an imaginary part, as in push 2 + 3i", span)?;
        let message =
            "an imaginary part is a number without a sign, followed by i, as in push 2 + 3i";
        let digits = word
            .strip_suffix('i')
            .filter(|digits| !digits.starts_with(['+', '-']));
        let digits = digits.ok_or_else(|| Mistake::new(at, message))?;
        let size = numbers::parse(digits).map_err(|message| Mistake::new(at, message))?;
        Ok(if sign == "-" { -size } else { size })
    }

    /// The code behind `Primitive` or `Modifier`.
    fn code(&mut self, name: &str, span: Span) -> Result<u8, Mistake> {
        let (word, at) = self.word_after(name, "its code", span)?;
        let message = format!("after {name} comes its code, a whole number from 0 to 255");
        whole_byte(word).ok_or_else(|| Mistake::new(at, message))
    }

    fn word_after(
        &mut self,
        before: &str,
        what: &str,
        span: Span,
    ) -> Result<(&'a str, Span), Mistake> {
        match self.tokens.peek() {
            (Token::Word(word), at) => {
                self.tokens.take();
                Ok((word, at))
            }
            _ => Err(Mistake::new(
                span,
                format!("after {before} comes {what}, and there is none"),
            )),
        }
    }
}

const LOOSE_BRACE: &str = "a brace stands only after a modifier, Run or CustomInverse";

fn modifier(modifier: Modifier) -> Record {
    Record::Modifier {
        modifier,
        inside: 0,
    }
}

/// The record that a name stands for.
fn named(word: &str) -> Option<Record> {
    let plain = PLAIN.iter().chain(&HOLDING).find(|(name, _)| *name == word);
    let primitive = Primitive::LISTED
        .iter()
        .find(|primitive| primitive.name() == Some(word));
    let modified = Modifier::LISTED
        .iter()
        .find(|modifier| modifier.name() == Some(word));
    plain
        .map(|(_, record)| *record)
        .or(primitive.map(|primitive| Record::Primitive(*primitive)))
        .or(modified.map(|found| modifier(*found)))
}

/// Whether a word starts a step.
pub fn starts_step(word: &str) -> bool {
    matches!(word, "push" | "Primitive" | "Modifier") || named(word).is_some()
}

/// The name of a step that is probably meant by a word.
pub fn nearest_step(word: &str) -> Option<&'static str> {
    nearest(word, names())
}

/// Every name that starts a step.
fn names() -> impl Iterator<Item = &'static str> {
    let plain = PLAIN.iter().chain(&HOLDING).map(|(name, _)| *name);
    let primitives = Primitive::LISTED
        .iter()
        .filter_map(|primitive| primitive.name());
    let modifiers = Modifier::LISTED
        .iter()
        .filter_map(|modifier| modifier.name());
    ["push"]
        .into_iter()
        .chain(primitives)
        .chain(modifiers)
        .chain(plain)
}

fn no_step(word: &str) -> String {
    if numbers::parse(word).is_ok() {
        return format!("a number is pushed by `push {word}`");
    }
    match nearest_step(word) {
        Some(name) => format!("there is no step `{word}`; is `{name}` meant?"),
        None => format!("there is no step `{word}`; `dive help notation` lists them all"),
    }
}

fn with_spaces(word: &str, message: String) -> String {
    if word.len() > 1 && word.ends_with('i') {
        return format!("{message}; a complex number is written with spaces, as in push 2 + 3i");
    }
    message
}

fn whole_byte(word: &str) -> Option<u8> {
    word.bytes()
        .all(|digit| digit.is_ascii_digit())
        .then(|| word.parse().ok())
        .flatten()
}

fn with_inside(record: Record, inside: u32) -> Record {
    match record {
        Record::Modifier { modifier, .. } => Record::Modifier { modifier, inside },
        Record::Body { arguments, .. } => Record::Body { arguments, inside },
        Record::Run { .. } => Record::Run { inside },
        Record::CustomInverse { .. } => Record::CustomInverse { inside },
        other => other,
    }
}

#[cfg(test)]
mod tests {
    use super::*;

    fn list(text: &str) -> Vec<Record> {
        parse(text).expect("a good text").list
    }

    fn mistake(text: &str) -> (usize, usize, String) {
        let mistake = parse(text).expect_err("a mistake");
        (mistake.span.line, mistake.span.column, mistake.message)
    }

    #[test]
    fn steps_of_every_sort() {
        let text = "push 3, Pow # cubed\nOn { push -0.5 Mul }\nFork {2: Add } {0: } Primitive 99 Modifier 9 Run { Neg } Obverse";
        let expected = [
            Record::RealPush(3.0),
            Record::Primitive(Primitive::Pow),
            Record::Modifier {
                modifier: Modifier::On,
                inside: 3,
            },
            Record::Body {
                arguments: 1,
                inside: 2,
            },
            Record::RealPush(-0.5),
            Record::Primitive(Primitive::Mul),
            Record::Modifier {
                modifier: Modifier::Fork,
                inside: 3,
            },
            Record::Body {
                arguments: 2,
                inside: 1,
            },
            Record::Primitive(Primitive::Add),
            Record::Body {
                arguments: 0,
                inside: 0,
            },
            Record::Primitive(Primitive::Unlisted(99)),
            Record::Modifier {
                modifier: Modifier::Unlisted(9),
                inside: 0,
            },
            Record::Run { inside: 1 },
            Record::Primitive(Primitive::Neg),
            Record::Obverse,
        ];
        assert_eq!(list(text), expected);
    }

    #[test]
    fn complex_numbers() {
        let complex = |re, im| vec![Record::ComplexPush { re, im }];
        assert_eq!(list("push 2 + 3i"), complex(2.0, 3.0));
        assert_eq!(list("push -2 - 0i"), complex(-2.0, -0.0));
        assert_eq!(list("push 0 - infi"), complex(0.0, f64::NEG_INFINITY));
        assert_eq!(
            list("push 0 + bits:7ff8000000000001i"),
            complex(0.0, f64::from_bits(0x7ff8_0000_0000_0001))
        );
    }

    #[test]
    fn an_empty_text_is_the_empty_list() {
        assert_eq!(list("\u{feff} # nothing\n"), []);
    }

    #[test]
    fn records_know_where_they_stand() {
        let parsed = parse("Dup\n  On { push 2\n Mul }").expect("a good text");
        let places: Vec<_> = parsed
            .spans
            .iter()
            .map(|span| (span.line, span.column))
            .collect();
        assert_eq!(places, [(1, 1), (2, 3), (2, 6), (2, 8), (3, 2)]);
    }

    #[test]
    fn mistakes_are_placed_and_say_what_to_do() {
        let cases = [
            (
                "Dup\n Poww",
                2,
                2,
                "there is no step `Poww`; is `Pow` meant?",
            ),
            ("pow", 1, 1, "is `Pow` meant?"),
            ("Dup, 3, Pow", 1, 6, "a number is pushed by `push 3`"),
            ("Flimflam", 1, 1, "`dive help notation` lists them all"),
            ("push", 1, 1, "after push comes a number, and there is none"),
            ("push x", 1, 6, "`x` is no number"),
            ("push 2+3i", 1, 6, "with spaces, as in push 2 + 3i"),
            ("push 2 + 3", 1, 10, "followed by i"),
            ("push 2 - -3i", 1, 10, "without a sign"),
            ("push 1e999", 1, 6, "too large"),
            ("On { Dup", 1, 4, "never closed"),
            ("Dup }", 1, 5, "closes nothing"),
            ("Dup { Mul }", 1, 5, "only after a modifier"),
            ("Run Dup", 1, 1, "Run needs its inside in braces"),
            ("On {256: Dup }", 1, 5, "from 0 to 255"),
            ("On {x: Dup }", 1, 5, "from 0 to 255"),
            ("Primitive 300", 1, 11, "from 0 to 255"),
            ("Run {2: Dup }", 1, 6, "there is no step `2:`"),
        ];
        for (text, line, column, sentence) in cases {
            let found = mistake(text);
            assert_eq!((found.0, found.1), (line, column), "{text}: {}", found.2);
            assert!(found.2.contains(sentence), "{text}: {}", found.2);
        }
    }

    #[test]
    fn limits_of_lists_are_kept() {
        assert_eq!(list(&"Dup ".repeat(2048)).len(), 2048);
        assert!(mistake(&"Dup ".repeat(2049)).2.contains("at most 2048"));
        // The innermost record lies inside 64 modifiers and their bodies.
        let deep = |levels: usize| "On { ".repeat(levels) + "Dup" + &" }".repeat(levels);
        assert_eq!(list(&deep(64)).len(), 129);
        assert!(mistake(&deep(65)).2.contains("more than 128"));
    }
}
