//! The eighteen refusals, and the error that names one with its place.

use std::{error::Error, fmt};

/// Why there is no result. Each refusal is a number from 1 to 18; 0 means done.
#[derive(Debug, Clone, Copy, PartialEq, Eq, Hash, PartialOrd, Ord)]
#[repr(u8)]
pub enum Refusal {
    TooManyVariables = 1,
    NotSupported = 2,
    NoOutput = 3,
    TooManyOutputs = 4,
    NonScalar = 5,
    NonReal = 6,
    TooComplex = 7,
    InterpreterBug = 8,
    NoInverse = 9,
    NotHandled = 10,
    BadRecord = 11,
    NoRoom = 12,
    TooDeep = 13,
    NeedsMath = 14,
    NotFinite = 15,
    BigPower = 16,
    OutputRoom = 17,
    PowerNotFinite = 18,
}

use Refusal::*;

impl Refusal {
    /// All of them, in the order of their numbers.
    pub const ALL: [Refusal; 18] = [
        TooManyVariables,
        NotSupported,
        NoOutput,
        TooManyOutputs,
        NonScalar,
        NonReal,
        TooComplex,
        InterpreterBug,
        NoInverse,
        NotHandled,
        BadRecord,
        NoRoom,
        TooDeep,
        NeedsMath,
        NotFinite,
        BigPower,
        OutputRoom,
        PowerNotFinite,
    ];

    /// The number that the library returns for it, 1 to 18.
    ///
    /// ```
    /// use uplink::Refusal;
    /// assert_eq!(Refusal::NeedsMath.number(), 14);
    /// assert_eq!(Refusal::from_number(14), Some(Refusal::NeedsMath));
    /// assert_eq!(Refusal::from_number(0), None);
    /// ```
    pub const fn number(self) -> u64 {
        self as u64
    }

    /// The refusal with this number, if there is one.
    pub fn from_number(number: u64) -> Option<Self> {
        Self::ALL
            .into_iter()
            .find(|refusal| refusal.number() == number)
    }

    /// Its name.
    pub const fn name(self) -> &'static str {
        match self {
            TooManyVariables => "TooManyVariables",
            NotSupported => "NotSupported",
            NoOutput => "NoOutput",
            TooManyOutputs => "TooManyOutputs",
            NonScalar => "NonScalar",
            NonReal => "NonReal",
            TooComplex => "TooComplex",
            InterpreterBug => "InterpreterBug",
            NoInverse => "NoInverse",
            NotHandled => "NotHandled",
            BadRecord => "BadRecord",
            NoRoom => "NoRoom",
            TooDeep => "TooDeep",
            NeedsMath => "NeedsMath",
            NotFinite => "NotFinite",
            BigPower => "BigPower",
            OutputRoom => "OutputRoom",
            PowerNotFinite => "PowerNotFinite",
        }
    }

    /// What it means, in a few words.
    pub const fn meaning(self) -> &'static str {
        match self {
            TooManyVariables => "a step takes a value from the stack, and none is left there",
            NotSupported => "there is a step of a sort that isn't handled",
            NoOutput => "no value is left on the stack at the end",
            TooManyOutputs => "several values are left on the stack at the end",
            NonScalar => "an array is pushed, and only single numbers are handled",
            NonReal => "a value is pushed that is no number, or that isn't real where reals alone are run",
            TooComplex => "the formula is none that the algebra has a rule for",
            InterpreterBug => "a modifier doesn't have the number of bodies that it needs",
            NoInverse => "there is a custom inverse without a normal form",
            NotHandled => "the list has too few steps of arithmetic to be undone by algebra",
            BadRecord => "the bytes break a rule of lists or sums",
            NoRoom => "a sum or the stack grows past its limit",
            TooDeep => "records or terms lie too deep inside one another",
            NeedsMath => "a power, a root, a logarithm or a function is asked for that this code can't compute",
            NotFinite => "a coefficient or another number is infinite or not a number, or has an imaginary part where a real number is needed",
            BigPower => "a sum is raised to a whole power above 64",
            OutputRoom => "the result doesn't fit the bytes lent for it, and none of it was written",
            PowerNotFinite => "a power of x is infinite",
        }
    }

    /// What to do about it, as a sentence.
    pub const fn advice(self) -> &'static str {
        match self {
            TooManyVariables => "The stack starts with x alone: put a push or a Dup before the step that finds nothing.",
            NotSupported => "Write the formula with the primitives and modifiers that are handled.",
            NoOutput => "Leave one value, the formula's: take out a Pop.",
            TooManyOutputs => "Leave one value, the formula's: bring them together with Add, for example, or Pop those not wanted.",
            NonScalar => "Push single numbers.",
            NonReal => "Push real numbers.",
            TooComplex => "Write the formula as a sum of powers of x; functions of x can be added, but not multiplied or divided.",
            InterpreterBug => "Give Dip, Gap, On, By and Both one body, and Bracket two.",
            NoInverse => "Hand over the steps that the custom inverse stands for.",
            NotHandled => "Undo such a list step by step: push 5, Add is undone by push 5, Sub.",
            BadRecord => "Check that the length is whole (24 bytes a record, 32 an entry), that unused bytes are 0 and counts of what lies inside are right, and that there are at most 2,048 records or 64 entries.",
            NoRoom => "Use fewer terms or lower powers: a sum has at most 64 entries, the stack 1,024 of them, and in the run 256 values.",
            TooDeep => "Nest less: a record lies inside at most 128 others, a term inside at most 3.",
            NeedsMath => "Keep to whole powers from 0 to 64; a formula that is only read and derived may have other powers of x itself, and logarithms to base e, 2 and 10.",
            NotFinite => "Look for a division by zero, for coefficients that grow too large, and for a push or an x that isn't finite.",
            BigPower => "Use whole powers up to 64.",
            OutputRoom => "Lend SUM_BYTES bytes for a sum and LIST_BYTES for a list: no result needs more.",
            PowerNotFinite => "Mend the exponents: where powers of x are multiplied, divided or raised, their exponents are added, subtracted or multiplied.",
        }
    }

    /// Whether it is always about the whole list or sum, so that its place says nothing.
    pub const fn is_of_the_whole(self) -> bool {
        matches!(
            self,
            NoOutput | TooManyOutputs | NotHandled | BadRecord | OutputRoom
        )
    }
}

impl fmt::Display for Refusal {
    fn fmt(&self, f: &mut fmt::Formatter<'_>) -> fmt::Result {
        f.write_str(self.name())
    }
}

/// A refusal with its place. Nothing was written: every byte lent for the result is as it was.
///
/// ```
/// use uplink::{read, Primitive, Refusal};
/// let refused = read(&[Primitive::Neg.into(), Primitive::Add.into()]).unwrap_err();
/// assert_eq!((refused.refusal, refused.place), (Refusal::TooManyVariables, 1));
/// assert!(refused.to_string().starts_with("TooManyVariables (1) at record 1: a step takes a value"));
/// ```
#[derive(Debug, Clone, Copy, PartialEq, Eq, Hash)]
pub struct Refused {
    pub refusal: Refusal,
    /// Which record refused, counted from 0; 0 too where it is none of them, but the whole list, its end, or what was made of it.
    pub place: usize,
}

impl fmt::Display for Refused {
    fn fmt(&self, f: &mut fmt::Formatter<'_>) -> fmt::Result {
        let refusal = self.refusal;
        write!(f, "{refusal} ({})", refusal.number())?;
        match self.place {
            0 if refusal.is_of_the_whole() => {}
            0 => f.write_str(" at record 0 or after the last")?,
            place => write!(f, " at record {place}")?,
        }
        write!(f, ": {}. {}", refusal.meaning(), refusal.advice())
    }
}

impl Error for Refused {}

#[cfg(test)]
mod tests {
    use super::*;

    #[test]
    fn numbers_and_names_are_those_of_the_table() {
        for (place, refusal) in Refusal::ALL.into_iter().enumerate() {
            assert_eq!(refusal.number(), place as u64 + 1);
            assert_eq!(Refusal::from_number(refusal.number()), Some(refusal));
            assert_eq!(format!("{refusal:?}"), refusal.name());
        }
        assert_eq!(Refusal::from_number(0), None);
        assert_eq!(Refusal::from_number(19), None);
    }

    #[test]
    fn each_refusal_says_what_it_means_and_what_to_do() {
        for refusal in Refusal::ALL {
            let (meaning, advice) = (refusal.meaning(), refusal.advice());
            assert!(meaning.starts_with(char::is_lowercase) && !meaning.ends_with('.'));
            assert!(advice.starts_with(char::is_uppercase) && advice.ends_with('.'));
        }
    }

    #[test]
    fn a_place_is_said_where_there_is_one() {
        let said = |refusal, place| Refused { refusal, place }.to_string();
        assert!(said(NotFinite, 3).starts_with("NotFinite (15) at record 3: a coefficient or"));
        assert!(said(NotFinite, 0).starts_with("NotFinite (15) at record 0 or after the last: "));
        assert!(said(NoOutput, 0).starts_with("NoOutput (3): no value is left"));
    }
}
