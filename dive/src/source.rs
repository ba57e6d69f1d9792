//! The list in a file or on the command line: bytes of records, steps in words, or a formula.

use std::{
    fs,
    io::{self, Read},
    path::Path,
};

use uplink::{decode_list, encode_list, list_fault, Fault, Record, RECORD_BYTES};

use crate::{
    expression::{self, kind_of, Fault as Wrong, Kind, Notation},
    failure::Failure,
    given::Given,
    notation::{self, Mistake, Parsed, Span},
};

/// A list, with the file that it came from.
#[derive(Debug, Clone)]
pub struct Source {
    pub name: String,
    pub bytes: Vec<u8>,
    text: Option<Text>,
}

#[derive(Debug, Clone)]
struct Text {
    written: String,
    spans: Vec<Span>,
}

impl Source {
    /// The list that is given.
    pub fn load(given: &Given) -> Result<Self, Failure> {
        match given {
            Given::File(file) => Source::of_file(file),
            Given::Formula(written) => Source::of_formula(written),
        }
    }

    /// The list in a file, or in what comes from the standard input if the name is `-`.
    fn of_file(file: &str) -> Result<Self, Failure> {
        let content = if file == "-" {
            read_input()
        } else {
            fs::read(file)
        };
        let content =
            content.map_err(|error| Failure::Usage(format!("{file} can't be read: {error}")))?;
        Source::of(if file == "-" { "standard input" } else { file }, content)
    }

    /// A list from what a file holds. Records have zero bytes in them, and text has none.
    pub fn of(name: &str, content: Vec<u8>) -> Result<Self, Failure> {
        if content.contains(&0) {
            return Ok(Source {
                name: name.into(),
                bytes: content,
                text: None,
            });
        }
        let written = text_of(content).ok_or_else(|| {
            Failure::Refused(format!("{name} is neither a list of records (there is no zero byte in it) nor text in UTF-8"))
        })?;
        let parsed = match kind_of(&written) {
            Notation::Steps => notation::parse(&written),
            Notation::Formula => {
                expression::parse(&written).map_err(|wrong| in_a_file(wrong, &written))
            }
            Notation::Either => return Err(Failure::Refused(could_be_either(name))),
        };
        Source::of_text(name, written, parsed)
    }

    /// The list of a formula.
    pub fn of_formula(written: &str) -> Result<Self, Failure> {
        let parsed = expression::parse(written).map_err(Mistake::from);
        Source::of_text("formula", written.into(), parsed)
    }

    fn of_text(
        name: &str,
        written: String,
        parsed: Result<Parsed, Mistake>,
    ) -> Result<Self, Failure> {
        let Parsed { list, spans } =
            parsed.map_err(|mistake| Failure::Refused(mistake.shown(name, &written)))?;
        Ok(Source {
            name: name.into(),
            bytes: encode_list(&list),
            text: Some(Text { written, spans }),
        })
    }

    /// A list that was made, with a name for it.
    pub fn of_records(name: String, list: &[u8]) -> Self {
        Source {
            name,
            bytes: list.to_vec(),
            text: None,
        }
    }

    /// The records, if the bytes keep the rules of lists.
    pub fn list(&self) -> Result<Vec<Record>, Failure> {
        match list_fault(&self.bytes) {
            Some(fault) if !matches!(fault, Fault::TooDeep { .. }) => {
                Err(Failure::Refused(self.fault_shown(fault)))
            }
            _ => {
                decode_list(&self.bytes).map_err(|fault| Failure::Refused(self.fault_shown(fault)))
            }
        }
    }

    pub fn fault_shown(&self, fault: Fault) -> String {
        let refusal = fault.refusal();
        format!(
            "{} is refused: {refusal} ({}). {}",
            self.name,
            refusal.number(),
            fault_sentence(fault)
        )
    }

    /// Where a record stands in the text, shown, if there is a text.
    pub fn shown_at(&self, place: usize) -> Option<String> {
        let text = self.text.as_ref()?;
        let span = text.spans.get(place)?;
        Some(span.shown(&text.written))
    }

    /// The record at a place, if that can be told.
    pub fn record(&self, place: usize) -> Option<Record> {
        record_at(&self.bytes, place)
    }
}

/// A mistake in a file's formula, which might be meant as steps.
fn in_a_file(wrong: Wrong, written: &str) -> Mistake {
    let word = (wrong.kind == Kind::Name).then(|| wrong.span.of(written));
    let step = word.and_then(|word| notation::nearest_step(&word));
    let mistake = Mistake::from(wrong);
    match step {
        Some(step) => Mistake::new(
            mistake.span,
            format!("{}; or is the step `{step}` meant?", mistake.message),
        ),
        None => mistake,
    }
}

fn could_be_either(name: &str) -> String {
    format!(
        "{name} holds numbers alone, which could be meant as steps or as a formula. As a step a number is pushed, as in `push 3`; \
         a formula that is a number is written in parentheses, as in (3)."
    )
}

/// The record at a place of a list, if that can be told.
pub fn record_at(list: &[u8], place: usize) -> Option<Record> {
    let bytes = list.chunks_exact(RECORD_BYTES).nth(place)?;
    Record::from_bytes(bytes.try_into().ok()?).ok()
}

/// A fault as a sentence about records.
pub fn fault_sentence(fault: Fault) -> String {
    match fault {
        Fault::Length { .. } => format!("{fault}; a record has {RECORD_BYTES} bytes."),
        Fault::TooMany { .. } => format!("Of records {fault}."),
        Fault::Byte { byte, place } => {
            format!("Byte {byte} of record {place} isn't used by its kind, and isn't 0.")
        }
        Fault::Inside { place } => {
            format!("What lies inside record {place} reaches too far: its count is too large.")
        }
        _ => format!("Record {fault}."),
    }
}

/// The text in UTF-8 that these bytes are: no control characters but those that part lines and words.
fn text_of(content: Vec<u8>) -> Option<String> {
    let text = String::from_utf8(content).ok()?;
    let strange = |c: char| c.is_control() && !c.is_whitespace();
    (!text.contains(strange)).then_some(text)
}

fn read_input() -> io::Result<Vec<u8>> {
    let mut content = Vec::new();
    io::stdin().read_to_end(&mut content)?;
    Ok(content)
}

/// Writes a file, but never over the one that was read.
pub fn save(file: &str, content: &[u8], read: &Given) -> Result<(), Failure> {
    if read.file().is_some_and(|read| is_same(file, read)) {
        return Err(Failure::Usage(format!(
            "{file} is the file that was read: name another one after -o"
        )));
    }
    fs::write(file, content)
        .map_err(|error| Failure::Usage(format!("{file} can't be written: {error}")))
}

fn is_same(one: &str, other: &str) -> bool {
    match (
        Path::new(one).canonicalize(),
        Path::new(other).canonicalize(),
    ) {
        (Ok(one), Ok(other)) => one == other,
        _ => false,
    }
}

#[cfg(test)]
mod tests {
    use super::*;
    use uplink::Primitive;

    #[test]
    fn text_and_bytes_are_told_apart() {
        let text = Source::of("a", b"push 3, Pow # x\n".to_vec()).expect("a text");
        let bytes =
            Source::of("b", encode_list(&[3.0.into(), Primitive::Pow.into()])).expect("bytes");
        assert!(text.text.is_some() && bytes.text.is_none());
        assert_eq!(text.bytes, bytes.bytes);
        assert!(Source::of("c", Vec::new())
            .expect("an empty list")
            .bytes
            .is_empty());
    }

    #[test]
    fn every_record_has_a_zero_byte() {
        let full = Record::ComplexPush {
            re: f64::from_bits(u64::MAX),
            im: f64::from_bits(u64::MAX),
        };
        assert!(full.to_bytes().contains(&0));
    }

    #[test]
    fn what_is_neither_says_so() {
        for content in [vec![0xff, 0xfe], vec![1, 2, 3], b"Dup\n\x1b[2J".to_vec()] {
            let Err(Failure::Refused(message)) = Source::of("a", content) else {
                panic!("it is neither");
            };
            assert!(message.contains("neither"), "{message}");
        }
    }

    #[test]
    fn faults_are_sentences() {
        let source =
            Source::of("a", vec![9; 23].into_iter().chain([0, 0]).collect()).expect("bytes");
        let Err(Failure::Refused(message)) = source.list() else {
            panic!("it is no list");
        };
        assert_eq!(message, "a is refused: BadRecord (11). 25 bytes are no whole number of 24: 1 are left over; a record has 24 bytes.");
    }

    #[test]
    fn a_record_is_shown_where_it_stands() {
        let source = Source::of("a", b"Dup\n  Poww".to_vec()).unwrap_err();
        assert!(
            source.to_string().contains("  2 |   Poww\n    |   ^^^^"),
            "{source}"
        );
        let source = Source::of("a", b"Dup\n  Pow".to_vec()).expect("a text");
        assert_eq!(
            source.shown_at(1).expect("a place"),
            "  2 |   Pow\n    |   ^^^\n"
        );
    }
}
