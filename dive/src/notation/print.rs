//! From a list to text.

use uplink::Record;

use super::word;

/// A step with its inside stays on one line up to this width.
const WIDTH: usize = 76;

/// The text of a list whose records lie well inside one another; [`parse`](super::parse) gives the same list back.
pub fn text(list: &[Record]) -> String {
    let mut text = String::new();
    for step in steps(list) {
        put_step(step, 0, &mut text);
    }
    text
}

/// The outermost steps of a list, each a record with its inside.
pub fn steps(list: &[Record]) -> impl Iterator<Item = &[Record]> {
    let mut rest = list;
    std::iter::from_fn(move || {
        let first = rest.first()?;
        let (step, behind) = rest.split_at((1 + first.inside() as usize).min(rest.len()));
        rest = behind;
        Some(step)
    })
}

fn put_step(step: &[Record], level: usize, text: &mut String) {
    let indent = "  ".repeat(level);
    match short_line(step, WIDTH.saturating_sub(indent.len())) {
        Some(line) => text.push_str(&format!("{indent}{line}\n")),
        None => put_broken(step, level, text),
    }
}

/// A step on one line, if it is a single record or its line has at most so many characters.
fn short_line(step: &[Record], most: usize) -> Option<String> {
    // A record has a name of two letters at the least, and a space behind it.
    let may_be_short = step.len() == 1 || 3 * step.len() <= most + 1;
    let line = may_be_short.then(|| on_one_line(step))?;
    (step.len() == 1 || line.len() <= most).then_some(line)
}

/// A step on several lines, with what lies inside set to the right.
fn put_broken(step: &[Record], level: usize, text: &mut String) {
    let indent = "  ".repeat(level);
    text.push_str(&format!("{indent}{}", word(&step[0])));
    for group in groups(step) {
        text.push_str(&format!(" {}\n", group.opening));
        for inner in steps(group.inside) {
            put_step(inner, level + 1, text);
        }
        text.push_str(&format!("{indent}}}"));
    }
    text.push('\n');
}

fn on_one_line(step: &[Record]) -> String {
    let mut line = word(&step[0]);
    for group in groups(step) {
        let inside: Vec<String> = steps(group.inside).map(on_one_line).collect();
        let space = if inside.is_empty() { "" } else { " " };
        line.push_str(&format!(
            " {}{space}{} }}",
            group.opening,
            inside.join(", ")
        ));
    }
    line
}

/// What stands in one pair of braces.
struct Group<'a> {
    opening: String,
    inside: &'a [Record],
}

fn groups(step: &[Record]) -> Vec<Group<'_>> {
    match step[0] {
        Record::Modifier { .. } => steps(&step[1..]).map(body).collect(),
        Record::Run { .. } | Record::CustomInverse { .. } => {
            vec![Group {
                opening: "{".into(),
                inside: &step[1..],
            }]
        }
        _ => Vec::new(),
    }
}

fn body(step: &[Record]) -> Group<'_> {
    let opening = match step[0] {
        Record::Body { arguments, .. } if arguments != 1 => format!("{{{arguments}:"),
        _ => "{".into(),
    };
    Group {
        opening,
        inside: &step[1..],
    }
}

#[cfg(test)]
mod tests {
    use uplink::{decode_list, encode_list, list_fault};

    use super::{super::parse, *};

    fn round_trip(written: &str) {
        let list = parse(written).expect("a good text").list;
        let text = text(&list);
        assert_eq!(
            parse(&text).expect("a list's text is good").list,
            list,
            "{text}"
        );
    }

    #[test]
    fn short_steps_stay_on_a_line() {
        let list = parse("On{push 3 Pow}Fork{2:Add}{0:}{}Run{}On")
            .expect("a good text")
            .list;
        assert_eq!(
            text(&list),
            "On { push 3, Pow }\nFork {2: Add } {0: } { }\nRun { }\nOn\n"
        );
    }

    #[test]
    fn long_steps_are_broken() {
        let list = parse(&format!("On {{ {} }}", "push 1.0625, Mul, ".repeat(5)))
            .expect("a good text")
            .list;
        let expected = format!("On {{\n{}}}\n", "  push 1.0625\n  Mul\n".repeat(5));
        assert_eq!(text(&list), expected);
    }

    #[test]
    fn every_name_reads_back() {
        for primitive in uplink::Primitive::LISTED {
            round_trip(&word(&Record::Primitive(*primitive)));
        }
        for modifier in uplink::Modifier::LISTED {
            let name = word(&Record::Modifier {
                modifier: *modifier,
                inside: 0,
            });
            round_trip(&name);
            round_trip(&format!("{name} {{ Dup }} {{200: {name} {{ }} }}"));
        }
        round_trip("ArrayPush OtherPush Obverse NoNormal UnderMarker AnythingElse CustomInverse { Neg } Primitive 0 Modifier 255 { }");
    }

    #[test]
    fn every_number_reads_back() {
        for number in [
            "0",
            "-0",
            "E",
            "inf",
            "-inf",
            "bits:fff8000000000001",
            "5e-324",
            "0.1",
        ] {
            round_trip(&format!("push {number}"));
            round_trip(&format!("push 1 + {}i", number.trim_start_matches('-')));
            round_trip(&format!(
                "push {number} - {}i",
                number.trim_start_matches('-')
            ));
        }
    }

    #[test]
    fn every_stored_list_reads_back_byte_for_byte() {
        let mut count = 0;
        for bytes in crate::stored::lists()
            .iter()
            .filter(|list| list_fault(list).is_none())
        {
            let written = text(&decode_list(bytes).expect("a good list"));
            let back = parse(&written).expect("a list's text is good").list;
            assert!(encode_list(&back) == *bytes, "{written}");
            assert_eq!(text(&back), written);
            count += 1;
        }
        assert!(count > 4600, "{count}");
    }

    /// Texts of random words, good and bad.
    fn random_texts() -> impl Iterator<Item = String> {
        let words = "push 3 -0.5 + 2i - { } {2: On Fork Run Dup Pow # \n Primitive 99 Modifier é bits:7ff8000000000000 {";
        let words: Vec<&str> = words.split(' ').collect();
        let mut state = 1_u64;
        let mut below = move |most: usize| {
            state = state
                .wrapping_mul(6_364_136_223_846_793_005)
                .wrapping_add(1_442_695_040_888_963_407);
            (state >> 33) as usize % most
        };
        (0..5000).map(move |_| {
            let chosen: Vec<&str> = (0..below(12)).map(|_| words[below(words.len())]).collect();
            chosen.join(if below(2) == 0 { " " } else { "," })
        })
    }

    #[test]
    fn every_random_text_is_a_list_or_a_mistake_in_it() {
        let (mut good, mut bad) = (0, 0);
        for written in random_texts() {
            match parse(&written) {
                Ok(parsed) => {
                    assert_eq!(list_fault(&encode_list(&parsed.list)), None, "{written}");
                    assert_eq!(parsed.list.len(), parsed.spans.len());
                    round_trip(&written);
                    good += 1;
                }
                Err(mistake) => {
                    assert!(mistake.shown("a", &written).contains('^'), "{written}");
                    bad += 1;
                }
            }
        }
        assert!(good > 500 && bad > 500, "{good} {bad}");
    }
}
