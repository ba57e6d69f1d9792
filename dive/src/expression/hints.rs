//! What could be meant by something that isn't in the notation.

use super::FUNCTIONS;
use crate::nearest::nearest;

/// A text that is short enough to be said again.
pub fn short(word: &str) -> String {
    const MOST: usize = 40;
    match word.char_indices().nth(MOST) {
        Some((end, _)) => format!("{}..", &word[..end]),
        None => word.into(),
    }
}

/// Of a character that no part of a formula starts with.
pub fn of_sign(sign: char) -> String {
    let shown = if sign.is_control() || sign.is_whitespace() {
        format!("the character U+{:04X}", sign as u32)
    } else {
        format!("`{sign}`")
    };
    format!("{shown} isn't part of a formula; {}", meant_by_sign(sign))
}

fn meant_by_sign(sign: char) -> String {
    match sign {
        '√' => "a root is written sqrt(x)".into(),
        '÷' | ':' | '∕' => "is `/` meant?".into(),
        '⋅' | '∙' | '•' | '∗' | '⨯' => "is `*` meant?".into(),
        '–' | '—' | '‐' | '‑' | '‒' => "is `-` meant?".into(),
        ',' => "a number has a decimal point, as in 2.5".into(),
        '[' | '{' => "is `(` meant?".into(),
        ']' | '}' => "is `)` meant?".into(),
        '=' => "write what stands behind the =".into(),
        'π' => "π is 3.141592653589793".into(),
        '½' => "is 0.5 meant?".into(),
        '¹' => "leave it out: the power 1 changes nothing".into(),
        _ => match raised(sign) {
            Some(digit) => format!("is `^{digit}` meant?"),
            None => "`dive help formula` tells what there is".into(),
        },
    }
}

/// The digit that stands raised in this character.
fn raised(sign: char) -> Option<usize> {
    "⁰¹²³⁴⁵⁶⁷⁸⁹".chars().position(|digit| digit == sign)
}

/// Of a word that is neither x nor a function.
pub fn of_name(word: &str) -> String {
    format!(
        "there is no `{}` in a formula; {}",
        short(word),
        meant_by_name(word)
    )
}

fn meant_by_name(word: &str) -> String {
    match word {
        "e" => return "e^x is written exp(x), and e itself exp(1)".into(),
        "pi" | "Pi" | "PI" => return "is 3.141592653589793 meant?".into(),
        "log" => return "is `ln`, `log2` or `log10` meant?".into(),
        "X" => return "is `x` meant?".into(),
        letter if letter.len() == 1 => return "the only letter in it is x".into(),
        "tan" => return "tan(x) is sin(x)/cos(x)".into(),
        "abs" => return "the magnitude of x is sqrt(x^2) where it is run".into(),
        _ => {}
    }
    let names = || FUNCTIONS.iter().map(|(name, _)| *name);
    let meant = joined(word, names()).or_else(|| nearest(word, names().chain(["x"])).map(quoted));
    match meant {
        Some(meant) => format!("is {meant} meant?"),
        None => "`dive help formula` tells what there is".into(),
    }
}

fn quoted(name: &str) -> String {
    format!("`{name}`")
}

/// What is meant by a word in which a blank or a sign is missing.
fn joined(word: &str, mut names: impl Iterator<Item = &'static str>) -> Option<String> {
    match word.strip_prefix('x') {
        Some(digits) if digits.bytes().all(|byte| byte.is_ascii_digit()) && !digits.is_empty() => {
            return Some(format!("`x^{0}` or `{0} x`", short(digits)));
        }
        Some(letters) if letters == "x" || names_any(letters) => {
            return Some(format!("`x {letters}`"));
        }
        _ => {}
    }
    names.find_map(|name| match word.strip_prefix(name)? {
        "x" => Some(format!("`{name}(x)`")),
        _ => None,
    })
}

fn names_any(word: &str) -> bool {
    FUNCTIONS.iter().any(|(name, _)| *name == word)
}
