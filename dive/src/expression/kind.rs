//! Which of the two notations a text is in.

use crate::{notation, numbers};

/// What a text holds, by its words.
#[derive(Debug, Clone, Copy, PartialEq, Eq)]
pub enum Notation {
    Steps,
    Formula,
    /// Numbers alone, which could be meant as steps or as a formula.
    Either,
}

/// The notation of a text. Whatever has a brace, `push` or a step's name in it is steps, and so is a text without words; no formula has one of these.
pub fn kind_of(text: &str) -> Notation {
    let words = notation::words(text);
    let is_step = |word: &&str| matches!(*word, "{" | "}") || notation::starts_step(word);
    if words.is_empty() || words.iter().any(is_step) {
        Notation::Steps
    } else if words.iter().all(|word| numbers::parse(word).is_ok()) {
        Notation::Either
    } else {
        Notation::Formula
    }
}

#[cfg(test)]
mod tests {
    use super::*;

    #[test]
    fn every_list_in_words_is_steps() {
        for list in crate::stored::lists() {
            let text = uplink::decode_list(&list).map(|list| notation::text(&list));
            let text = text.unwrap_or_default();
            if notation::parse(&text).is_ok() {
                assert_eq!(kind_of(&text), Notation::Steps, "{text}");
            }
        }
    }

    #[test]
    fn no_formula_is_steps() {
        let cases = [
            ("x", Notation::Formula),
            ("60 x - 6 x^2", Notation::Formula),
            ("sin(x)", Notation::Formula),
            ("(3)", Notation::Formula),
            ("3 + 4", Notation::Formula),
            ("3", Notation::Either),
            ("-3 4", Notation::Either),
            ("E", Notation::Either),
            ("push 3", Notation::Steps),
            ("x Sin", Notation::Steps),
            ("{x}", Notation::Steps),
            ("# x", Notation::Steps),
        ];
        for (text, expected) in cases {
            assert_eq!(kind_of(text), expected, "{text}");
        }
    }
}
