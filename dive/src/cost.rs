//! What it takes to read a list: its steps, asked before it is read, and the pairs of terms that were multiplied.

use uplink::{bytes, MOST_STEPS};

use crate::{failure::Failure, given::Given, source::Source};

/// A list of up to so many steps is read without `--long`.
const MOST_WITHOUT_LONG: u64 = 10_000_000;

/// What is given with a list that is to be read as a formula.
#[derive(Debug, Clone, PartialEq, Eq)]
pub struct ToRead {
    pub given: Given,
    /// However long that takes.
    pub long: bool,
}

impl ToRead {
    /// The list that is given.
    ///
    /// # Errors
    /// There is none, or reading it would take too long.
    pub fn load(&self) -> Result<Source, Failure> {
        let source = Source::load(&self.given)?;
        match bytes::cost(&source.bytes) {
            Ok(steps) if is_too_long(steps, self.long) => {
                Err(Failure::Refused(too_long(&source.name, steps)))
            }
            // Bytes that are no list are refused by reading too, which says why.
            _ => Ok(source),
        }
    }
}

const fn is_too_long(steps: u64, long: bool) -> bool {
    steps > MOST_WITHOUT_LONG && !long
}

fn too_long(name: &str, steps: u64) -> String {
    format!(
        "{name}: reading it would take {} steps, and it isn't read.\n\
         Both runs its body twice, so a Both inside a Both doubles the steps. A list of more than {} steps is read only with --long.",
        counted(steps, grouped),
        grouped(MOST_WITHOUT_LONG)
    )
}

/// A number of steps or pairs, in digits as given; the largest is told for everything above it too.
fn counted(number: u64, digits: fn(u64) -> String) -> String {
    match number {
        MOST_STEPS => "more than 18 quintillion".into(),
        number => digits(number),
    }
}

/// The pairs that a reading multiplied, as `dive read` prints them.
pub fn pairs_text(pairs: u64) -> String {
    let noun = if pairs == 1 { "pair" } else { "pairs" };
    format!("{} {noun} multiplied\n", counted(pairs, grouped))
}

/// A number of steps as `dive cost` prints it.
pub fn text(steps: u64) -> String {
    format!("steps  {}\n", counted(steps, |steps| steps.to_string()))
}

/// A number with a comma before every three digits.
fn grouped(number: u64) -> String {
    let digits = number.to_string();
    let mut text = String::new();
    for (at, digit) in digits.chars().enumerate() {
        if at > 0 && (digits.len() - at) % 3 == 0 {
            text.push(',');
        }
        text.push(digit);
    }
    text
}

#[cfg(test)]
mod tests {
    use super::*;

    #[test]
    fn the_limit_is_ten_million() {
        assert!(!is_too_long(10_000_000, false));
        assert!(is_too_long(10_000_001, false));
        assert!(is_too_long(MOST_STEPS, false));
        assert!(!is_too_long(MOST_STEPS, true));
    }

    #[test]
    fn numbers_are_grouped() {
        let cases = [
            (0, "0"),
            (999, "999"),
            (1000, "1,000"),
            (10_000_000, "10,000,000"),
            (u64::MAX, "18,446,744,073,709,551,615"),
        ];
        for (number, text) in cases {
            assert_eq!(grouped(number), text);
        }
    }

    #[test]
    fn pairs_in_words() {
        let cases = [
            (0, "0 pairs multiplied\n"),
            (1, "1 pair multiplied\n"),
            (4030, "4,030 pairs multiplied\n"),
            (258_048, "258,048 pairs multiplied\n"),
            (u64::MAX, "more than 18 quintillion pairs multiplied\n"),
        ];
        for (pairs, text) in cases {
            assert_eq!(pairs_text(pairs), text);
        }
    }

    #[test]
    fn a_number_that_is_capped_says_so() {
        assert_eq!(text(5), "steps  5\n");
        assert_eq!(text(MOST_STEPS - 1), "steps  18446744073709551614\n");
        assert_eq!(text(MOST_STEPS), "steps  more than 18 quintillion\n");
        assert!(too_long("a", MOST_STEPS)
            .starts_with("a: reading it would take more than 18 quintillion steps, and"));
    }
}
