//! Which number overflowed: 18 for a power of x, 15 for everything else, in
//! the order 18, 15, 13, 12 at one entry.

use std::{fs, path::Path};

use oracle::{
    Answer, Refusal,
    algebra::with_one_number,
    generate, judge,
    stored::{Decider, Input},
    text,
};

/// The entries over lists, by name, each with what it refuses.
fn refusals(list: &[u8]) -> [(&'static str, Option<Refusal>); 4] {
    fn refusal<T>(answer: Answer<T>) -> Option<Refusal> {
        answer.owed().and_then(Result::err)
    }
    [
        ("read", refusal(judge::read(list))),
        ("derivative", refusal(judge::derivative(list))),
        ("integral", refusal(judge::integral(list))),
        ("inverse", refusal(judge::inverse(list))),
    ]
}

#[track_caller]
fn every_entry_refuses(words: &str, number: u8, place: usize) {
    for (entry, refusal) in refusals(&text::list(words)) {
        assert_eq!(
            refusal,
            Some(Refusal { number, place }),
            "{entry} of {words}"
        );
    }
}

#[track_caller]
fn refuses(words: &str, entry: &str, number: u8) {
    let found = refusals(&text::list(words));
    let (_, refusal) = found
        .iter()
        .find(|(name, _)| *name == entry)
        .expect("an entry");
    assert_eq!(
        refusal.map(|refusal| refusal.number),
        Some(number),
        "{entry} of {words}"
    );
}

/// The examples of the request.
#[test]
fn powers_and_coefficients_are_told_apart() {
    every_entry_refuses("push -1e308, Pow, Dup, Mul", 18, 3);
    every_entry_refuses("push -1e308, Pow, push 1e200, Mul, Dup, Mul", 18, 5);
    every_entry_refuses("push 1e308, Mul, push 10, Mul", 15, 3);
    every_entry_refuses("push -1e308, Pow, push 65, Pow", 16, 3);
}

#[test]
fn every_way_to_a_power() {
    for (words, place) in [
        ("-1e308 Pow Dup Mul", 3),
        ("Dup -1e308 Pow Flip -1.5e308 Pow Mul", 6),
        ("-1e308 Pow Dup 1 Add Mul", 5),
        ("-1e308 Pow 1 Add Reciprocal Dup Mul", 6),
        (
            "Dup -1e308 Pow 1 Add Reciprocal Flip -1e308 Pow 2 Add Reciprocal Add Reciprocal Dup Mul",
            15,
        ),
        ("-1e308 Pow 2 Pow", 3),
        ("-5e307 Pow 4 Pow", 3),
        ("-5e307 Pow 1 Add 4 Pow", 5),
        ("-1e308 Pow Dup Reciprocal Div", 4),
        ("-1e308 Pow Dup Reciprocal Flip Div", 5),
        ("-1e308 Pow Dup 1 Add Reciprocal Div", 6),
        ("-1e308 Pow -2 Pow", 3),
        ("-1e308 Pow 2.5 Pow", 3),
        ("2 Pow -1e308 Pow", 3),
    ] {
        every_entry_refuses(words, 18, place);
    }
    // with a coefficient of 0 too
    every_entry_refuses("-1e308 Pow 0 Mul Dup Mul", 18, 5);
    every_entry_refuses("-1e308 Pow Dup Sub 2 Pow", 18, 5);
    // a third of the way there is no overflow
    assert!(
        judge::read(&text::list("-5e307 Pow 3 Pow"))
            .done()
            .is_some()
    );
    // nor does the power of a derivative or an integral overflow by itself
    let lowest = "push -1.7976931348623157e308, Pow";
    assert!(judge::derivative(&text::list(lowest)).done().is_some());
    assert!(judge::integral(&text::list(lowest)).done().is_some());
}

/// 18 comes before 15 at one entry, and an entry before the next.
#[test]
fn entry_by_entry() {
    every_entry_refuses("-1e308 Pow 1e200 Mul Dup Mul", 18, 5);
    every_entry_refuses("-1e308 Pow 1e200 Add Dup Mul", 18, 5);
    every_entry_refuses("-1e308 Pow Reciprocal 1e200 Add Dup Mul", 15, 6);
    every_entry_refuses("-1e308 Pow 1e200 Add Reciprocal Dup Mul", 18, 6);
    every_entry_refuses("-1e308 Pow Reciprocal 1e200 Add Reciprocal Dup Mul", 15, 7);
}

/// What stands on the stack as an exponent is a coefficient, and so is a push.
#[test]
fn an_exponent_is_a_coefficient() {
    every_entry_refuses("push 1e308, push 10, Mul, Pow", 15, 2);
    every_entry_refuses("push inf, Pow", 15, 0);
    every_entry_refuses("push inf, Log", 15, 0);
}

#[test]
fn the_derivative_of_a_reciprocal() {
    let words = "-1e308 Pow 1 Add Reciprocal";
    let read = judge::read(&text::list(words)).done().expect("it is read");
    let derived = judge::derive(&read.entries).owed().expect("owed");
    assert_eq!(derived, Err(Refusal::whole(18)));
    refuses(words, "derivative", 18);
    refuses(words, "integral", 7);
    let coefficient = "-1e308 Pow Reciprocal 1e200 Add Reciprocal";
    refuses(coefficient, "derivative", 15);
}

/// 18 is never replaced by 10, whatever counts as handled before it.
#[test]
fn the_inverse_keeps_it() {
    for before in ["", "Neg Neg", "Dup Mul", "Under"] {
        refuses(&format!("{before} -1e308 Pow Dup Mul"), "inverse", 18);
    }
}

#[test]
fn inside_bodies_and_runs() {
    let overflow = "-1e308 Pow Dup Mul";
    for (context, place) in [
        ("Run(W)", 4),
        ("Custom(W)", 4),
        ("1 Dip(1: W)", 6),
        ("On(1: W)", 5),
        ("Both(1: W)", 5),
        ("Fork(1:)(1: W)", 6),
    ] {
        let words = context.replace('W', overflow);
        let pushed = if context.starts_with("Both") {
            format!("Dup {words}")
        } else {
            words.clone()
        };
        let place = place + usize::from(pushed != words);
        every_entry_refuses(&pushed, 18, place);
    }
}

fn stored(name: &str) -> String {
    let folder = Path::new(env!("CARGO_MANIFEST_DIR")).join("../vectors");
    fs::read_to_string(folder.join(name)).expect("stored answers")
}

/// A stored line with 18 put back to 15.
fn with_one_number_of(line: &str) -> String {
    let mut words: Vec<&str> = line.split(' ').collect();
    let at = if words[0] == "write" { 2 } else { 1 };
    if !["list", "sum", "run"].contains(&words[0]) && words[at] == "18" {
        words[at] = "15";
    }
    words.join(" ") + "\n"
}

/// Every stored answer with 18 put back to 15 is what it was: what the guard
/// gives under the rule by which 15 stood for both.
#[test]
fn stored_answers_are_those_of_one_number() {
    let mut eighteens = 0;
    for (name, decider) in [
        ("lists.txt", Decider::Rust),
        ("sums.txt", Decider::Rust),
        ("limits.txt", Decider::Paper),
    ] {
        let mut items: Vec<(Input, String)> = Vec::new();
        for line in stored(name).lines() {
            if let Some(input) = Input::parse(line) {
                items.push((input, String::new()));
            }
            let before = with_one_number_of(line);
            eighteens += usize::from(before.trim_end() != line);
            items.last_mut().expect("an input first").1 += &before;
        }
        for (input, before) in items {
            let found = with_one_number(|| input.item(decider));
            assert_eq!(found.as_deref(), Some(&before[..]), "{name}");
        }
    }
    assert!(eighteens > 50, "{eighteens} answers of 18");
}

/// Under the first rule the directed lists give 15 wherever they give 18 now,
/// and nothing else is another answer.
#[test]
fn nothing_else_is_another_answer() {
    let mut eighteens = 0;
    for words in generate::power_overflows() {
        let list = text::list(&words);
        let (now, before) = (refusals(&list), with_one_number(|| refusals(&list)));
        for ((entry, now), (_, before)) in now.into_iter().zip(before) {
            let put_back = now.map(|refusal| match refusal.number {
                18 => Refusal {
                    number: 15,
                    ..refusal
                },
                _ => refusal,
            });
            eighteens += usize::from(put_back != now);
            assert_eq!(put_back, before, "{entry} of {words}");
        }
    }
    assert!(eighteens > 300, "{eighteens} answers of 18");
}
