//! The value of the formula that a list stands for, beside the run of the list itself.

use uplink::{bytes, run, Primitive, Record, Refused, SUM_BYTES};

use crate::{
    explain::{explained, Asked},
    failure::Failure,
    numbers, remarks,
    source::Source,
};

/// The formula's value, and what is remarked beside it.
#[derive(Debug, Clone, PartialEq)]
pub struct Valued {
    pub value: f64,
    pub remarks: Vec<String>,
}

/// The value at x of the formula that a list stands for.
///
/// # Errors
/// The list isn't read as a formula, or the formula has no value at x.
pub fn value(source: &Source, x: f64) -> Result<Valued, Failure> {
    let mut room = [0; SUM_BYTES];
    let refuse = |refused| Failure::Refused(refusal(source, x, refused));
    let found = bytes::read(&source.bytes, &mut room).map_err(refuse)?;
    let value = bytes::value(found.sum, x).map_err(refuse)?;
    let mut remarks = Vec::new();
    if found.is_complex {
        remarks.push(COMPLEX.into());
    }
    remarks.extend(beside_the_run(source, x, value));
    Ok(Valued { value, remarks })
}

const COMPLEX: &str =
    "there is a complex step in the list: the value leaves out imaginary parts below 2^-52, and larger ones would refuse it (NotFinite, 15)";

/// Why there is no value, and that of the list itself where it has one.
fn refusal(source: &Source, x: f64, refused: Refused) -> String {
    let text = explained(Asked::Value(x), source, refused);
    match bytes::run(&source.bytes, x) {
        Ok(ran) => format!(
            "{text}\nThe list itself can be run: at x = {} it gives {}.",
            numbers::text(x),
            numbers::decimal(ran.value)
        ),
        Err(_) => text,
    }
}

/// What is remarked where the list itself, run at x, doesn't give the formula's value.
fn beside_the_run(source: &Source, x: f64, value: f64) -> Vec<String> {
    let list = source.list().unwrap_or_default();
    match bytes::run(&source.bytes, x) {
        Ok(ran) if ran.value.to_bits() == value.to_bits() => Vec::new(),
        Ok(ran) => vec![format!(
            "the list itself, run at x = {}, gives {}: {}",
            numbers::text(x),
            numbers::decimal(ran.value),
            why_it_differs(&list, x, value, ran.value)
        )],
        Err(refused) => {
            let why = explained(Asked::Run(x), source, refused);
            let remark = format!("the list itself has no value there. {why}");
            remarks::of_list(&list)
                .into_iter()
                .chain([remark])
                .collect()
        }
    }
}

/// Why the run of a list doesn't give the formula's value: a step that runs otherwise than it reads, or other steps that round otherwise.
fn why_it_differs(list: &[Record], x: f64, value: f64, ran: f64) -> String {
    if value == ran {
        return "the two differ in the sign of zero alone".into();
    }
    let step = (0..list.len()).find_map(|place| step_that_differs(list, place, x, value, ran));
    step.unwrap_or_else(|| other_steps(value, ran))
}

/// That the step at a place runs otherwise than it reads, where the run comes nearer to the formula's value if that step does what it reads as.
fn step_that_differs(
    list: &[Record],
    place: usize,
    x: f64,
    value: f64,
    ran: f64,
) -> Option<String> {
    let is_nearer = |changed: &[Record]| {
        run(changed, x).is_ok_and(|other| (other.value - value).abs() < (ran - value).abs())
    };
    if remarks::raises_to_nought(list, place) && is_nearer(&with_constant_zero(list, place)) {
        return Some(format!(
            "record {place} raises to the power 0, which gives 1 where the list is run and 0 where it is read as a formula \
             (docs/DIFFERENCES.md, Reading and running)"
        ));
    }
    let is_root = list[place] == Primitive::Sqrt.into();
    (is_root && is_nearer(&with_negative_root(list, place))).then(|| {
        format!(
            "record {place} takes a square root, and that of x^2 is the magnitude of x where the list is run and x itself \
             where it is read as a formula (docs/DIFFERENCES.md, Reading and running)"
        )
    })
}

/// The list with the constant 0 where the step at a place raises to the power 0.
fn with_constant_zero(list: &[Record], place: usize) -> Vec<Record> {
    let mut list = list.to_vec();
    list[place - 1] = Primitive::Pop.into();
    list[place] = Record::RealPush(0.0);
    list
}

/// The list with a Neg behind the root at a place.
fn with_negative_root(list: &[Record], place: usize) -> Vec<Record> {
    let mut list = list.to_vec();
    for (at, record) in list.iter_mut().enumerate().take(place) {
        if at + record.inside() as usize >= place {
            hold_one_more(record);
        }
    }
    list.insert(place + 1, Primitive::Neg.into());
    list
}

/// One more record lies inside. Of the records that hold others, these are run.
fn hold_one_more(record: &mut Record) {
    if let Record::Modifier { inside, .. } | Record::Body { inside, .. } | Record::Run { inside } =
        record
    {
        *inside += 1;
    }
}

/// Values that are this near, as a share of the larger one, differ by what is rounded.
const ROUNDED: f64 = 1e-9;

fn other_steps(value: f64, ran: f64) -> String {
    let is_near = (value - ran).abs() <= ROUNDED * value.abs().max(ran.abs());
    let steps = "it takes other steps than to add the formula's terms in rising power, and each step rounds";
    if is_near {
        return steps.into();
    }
    format!(
        "{steps}, which counts for much where large terms cancel; or a step is read otherwise than calculus has it \
         (docs/DIFFERENCES.md, Reading)"
    )
}

#[cfg(test)]
mod tests {
    use super::*;

    fn of(text: &str, x: f64) -> Result<Valued, Failure> {
        value(&Source::of("a", text.into()).expect("a text"), x)
    }

    /// The value, and the only remark on it.
    #[track_caller]
    fn remarked(text: &str, x: f64) -> (f64, String) {
        let Valued { value, remarks } = of(text, x).expect("a value");
        let [remark] = remarks.try_into().expect("one remark");
        (value, remark)
    }

    #[track_caller]
    fn is_remarked(text: &str, x: f64, value: f64, parts: &[&str]) {
        let (found, remark) = remarked(text, x);
        assert_eq!(found.to_bits(), value.to_bits(), "{found}: {remark}");
        for part in parts {
            assert!(remark.contains(part), "{part}: {remark}");
        }
    }

    #[test]
    fn where_the_run_agrees_there_is_no_remark() {
        for x in [0.0, 2.5, -3.0, 1e9] {
            let found = of("Dup, push 2, Pow, push -6, Mul, Flip, push 60, Mul, Add", x);
            let value = -6.0 * (x * x) + 60.0 * x;
            let remarks = Vec::new();
            assert_eq!(found, Ok(Valued { value, remarks }));
        }
        // a power 0 and a root that make no difference
        for text in [
            "push 2, Pow, Sqrt",
            "Dup, push 0, Pow, push 0, Mul, Add",
            "On { push 0, Pow, push 0, Mul }, Add",
        ] {
            assert_eq!(of(text, 3.0).expect("a value").remarks, [""; 0], "{text}");
        }
    }

    #[test]
    fn a_power_nought_is_the_reason() {
        for (text, place) in [
            ("push 0, Pow", 1),
            ("push -0, Pow", 1),
            ("push 1, Pow, push 0, Pow", 3),
            ("On { push 0, Pow }, Pop", 3),
        ] {
            let said =
                format!("run at x = 2, gives 1: record {place} raises to the power 0, which");
            is_remarked(text, 2.0, 0.0, &[&said]);
        }
    }

    #[test]
    fn the_root_of_a_square_is_the_reason() {
        for (text, place) in [
            ("Dup, Mul, Sqrt", 2),
            ("push 2, Pow, Sqrt", 2),
            ("On { Run { Dup, Mul, Sqrt } }, Pop", 5),
            ("push 4, Pow, Sqrt, Sqrt", 3),
            (
                "Dup, Dup, Mul, Sqrt, Flip, push 0, Pow, push 0, Mul, Add",
                3,
            ),
        ] {
            let said = format!("run at x = -3, gives 3: record {place} takes a square root, and");
            is_remarked(text, -3.0, -3.0, &[&said, "the magnitude of x"]);
        }
        // next to what is large
        let text = "Dup, Mul, Sqrt, push 1e12, Add";
        is_remarked(text, -0.25, 1e12 - 0.25, &["record 2 takes a square root"]);
    }

    #[test]
    fn rounding_is_the_reason() {
        let steps = "it takes other steps than to add";
        let (value, remark) = remarked("push 0.1, Div", 3.0);
        assert_eq!(value, 3.0 * 9.999999999999998);
        assert!(remark.contains(steps) && remark.ends_with("each step rounds"));
        // the root of x^4 is x^2 either way
        let text = "push 4, Pow, Sqrt, push 0.1, Div";
        is_remarked(text, -1.1, 1.2100000000000002 * 9.999999999999998, &[steps]);
        let (_, remark) = remarked("push -1, Add, push 20, Pow", 1.125);
        assert!(remark.contains(steps) && remark.contains("large terms cancel"));
        // a reciprocal of a sum over itself reads as x
        let text = "push 1, Add, Reciprocal, Dup, Div";
        is_remarked(
            text,
            3.0,
            3.0,
            &["gives 1:", "read otherwise than calculus"],
        );
    }

    #[test]
    fn zeros_differ_in_their_signs() {
        is_remarked(
            "Dup, Sub",
            -1.0,
            -0.0,
            &["gives 0: the two differ in the sign of zero"],
        );
    }

    #[test]
    fn a_list_that_is_not_run_says_why() {
        let no_value = "the list itself has no value there. a: its run at x = ";
        is_remarked(
            "Dup, Div",
            0.0,
            1.0,
            &[no_value, "NotFinite (15) at record 1, Div"],
        );
        is_remarked(
            "Sqrt, Dup, Mul",
            -4.0,
            -4.0,
            &[no_value, "the root of a number below zero"],
        );
        let found = of("Fork { push 0, Pow } { push 3, Mul }, Add", 2.0).expect("a value");
        assert_eq!(found.value, 6.0);
        assert!(found.remarks[0].starts_with("record 3 raises to the power 0"));
        assert!(found.remarks[1].contains("NotSupported (2) at record 0, Fork"));
    }

    #[test]
    fn complex_steps_are_remarked() {
        for text in ["push 0, Complex", "push 3 + 1e-17i, Mul, push 3, Div"] {
            let found = of(text, 2.0).expect("a value");
            assert_eq!(found.value, 2.0, "{text}");
            assert!(found.remarks[0].contains("leaves out imaginary parts below 2^-52"));
            assert!(found.remarks[1].contains("NonReal (6)"), "{found:?}");
        }
    }

    #[track_caller]
    fn is_refused(text: &str, x: f64, parts: &[&str]) {
        let Err(Failure::Refused(said)) = of(text, x) else {
            panic!("{text} has a value");
        };
        for part in parts {
            assert!(said.contains(part), "{part}: {said}");
        }
    }

    #[test]
    fn refusals_name_the_term() {
        let needs = "a: the value of its formula at x = 2 is refused: NeedsMath (14)\n";
        is_refused("Dup, Sqrt, Mul", 2.0, &[needs, "has the term x^1.5, and"]);
        is_refused(
            "Dup, push 3, Mul, Flip, Reciprocal, Sub",
            2.0,
            &["the term -1 x^(-1), and"],
        );
        is_refused(
            "Dup, Dup, Dup, Sub, Sin, Add, Flip, Cos, Add",
            2.0,
            &["the term sin(0 x), and"],
        );
        is_refused("push 64, Pow, Dup, Mul", 2.0, &["the term x^128, and"]);
        let infinite = "is refused: NotFinite (15)\n";
        is_refused(
            "push 2 + 3i, Mul, push 5, Add",
            2.0,
            &[infinite, "its term (2 + 3i) x has"],
        );
        is_refused("Dup, Mul", 1e200, &[infinite, "At x = 1e200 a power of x"]);
        is_refused(
            "Dup, Sqrt, Mul",
            f64::INFINITY,
            &["x must be a finite number."],
        );
    }

    #[test]
    fn refusals_say_what_the_list_itself_gives() {
        let gives = "\nThe list itself can be run: at x = 4 it gives 8.";
        is_refused("Dup, Sqrt, Mul", 4.0, &[gives]);
        is_refused(
            "push 16, Mul, Sqrt",
            4.0,
            &["NeedsMath (14) at record 2, Sqrt", gives],
        );
        let Err(Failure::Refused(said)) = of("Sin", 4.0) else {
            panic!("a sine has a value");
        };
        assert!(!said.contains("The list itself"), "{said}");
    }

    /// What is said of the list's own run, if something is.
    fn said_of_the_run(found: &Result<Valued, Failure>) -> bool {
        match found {
            Ok(valued) => valued
                .remarks
                .iter()
                .any(|said| said.starts_with("the list itself")),
            Err(failure) => failure.to_string().contains("The list itself can be run"),
        }
    }

    #[test]
    fn of_every_stored_list_it_is_said_where_the_run_differs() {
        let mut counts = [0; 4];
        for list in crate::stored::lists() {
            let source = Source::of_records("a".into(), &list);
            for x in [2.0, -3.0, 0.0, 1e200] {
                let found = value(&source, x);
                let valued = found.as_ref().map(|valued| valued.value.to_bits());
                let ran = bytes::run(&list, x).map(|ran| ran.value.to_bits());
                let differs = valued.ok() != ran.ok();
                assert_eq!(said_of_the_run(&found), differs, "{found:?}");
                counts[2 * usize::from(found.is_ok()) + usize::from(differs)] += 1;
            }
        }
        assert!(counts.iter().all(|&count| count > 100), "{counts:?}");
    }
}
