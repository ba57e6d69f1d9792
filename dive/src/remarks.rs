//! What is said beside a result that departs from calculus. The library follows the Rust that it ports; docs/DIFFERENCES.md lists where that departs.

use uplink::{read, Entry, Primitive, Record, Term};

use crate::formula::formula;

/// Whether the step at a place is 'to the power 0', straight behind its push.
pub fn raises_to_nought(list: &[Record], place: usize) -> bool {
    let pow = Record::Primitive(Primitive::Pow);
    let is_nought = |record| matches!(record, Record::RealPush(power) if power == 0.0);
    list[place] == pow && place > 0 && is_nought(list[place - 1])
}

/// Of a list with the step 'to the power 0', which runs otherwise than it reads.
pub fn of_list(list: &[Record]) -> Option<String> {
    let place = (0..list.len()).find(|&place| raises_to_nought(list, place))?;
    Some(format!(
        "record {place} raises to the power 0, which gives 1 where the list is run and 0 where it is read as a formula: \
         depth and speed may not belong together (docs/DIFFERENCES.md, Reading and running)"
    ))
}

/// Of the derivative of a sum.
pub fn of_derivative(sum: &[Entry]) -> Option<String> {
    let has_reciprocal = sum.iter().any(|entry| matches!(entry.term, Term::Div));
    has_reciprocal.then(|| {
        "the derivative of 1 over several terms departs from calculus here: its sign and its inner factor are missing \
         (docs/DIFFERENCES.md, Derivative)"
            .into()
    })
}

/// Of the integral of a sum.
pub fn of_integral(sum: &[Entry]) -> Option<String> {
    let x = Entry::power(1.0, 1.0);
    let is_wave = |term| matches!(term, Term::Sin | Term::Cos | Term::SinH | Term::CosH);
    let is_departing = sum
        .windows(2)
        .any(|pair| is_wave(pair[0].term) && pair[1] != x);
    is_departing.then(|| {
        "the integral of a sine or cosine of k x departs from calculus here: it is taken as that of x \
         (docs/DIFFERENCES.md, Integral)"
            .into()
    })
}

/// Of a list by the Rust's writer, where the other one writes another list: what it computes, if it can be read.
pub fn of_the_rusts(list: &[Record]) -> String {
    let computed = read(list).map_or_else(
        |_| String::new(),
        |found| format!(": {}", formula(&found.entries)),
    );
    format!(
        "the Rust's list computes another formula{computed} (docs/DIFFERENCES.md, Written lists); \
         without --as-rust the list means what the formula says"
    )
}

#[cfg(test)]
mod tests {
    use super::*;

    fn of(term: Term, inside: Entry) -> [Entry; 2] {
        [
            Entry {
                term,
                inside: 1,
                re: 1.0,
                im: 0.0,
            },
            inside,
        ]
    }

    #[test]
    fn sums_of_powers_need_no_remark() {
        let sum = [Entry::power(0.5, 2.0), Entry::power(2.0, 1.0)];
        assert_eq!((of_derivative(&sum), of_integral(&sum)), (None, None));
    }

    #[test]
    fn a_power_nought_is_remarked() {
        let raised = |power| [Record::RealPush(power), Primitive::Pow.into()];
        let said = of_list(&raised(0.0)).expect("a remark");
        assert!(said.starts_with("record 1 raises to the power 0"), "{said}");
        assert!(of_list(&raised(-0.0)).is_some());
        assert_eq!(of_list(&raised(1.0)), None);
        assert_eq!(of_list(&raised(0.0)[..1]), None);
        let apart = [
            Record::RealPush(0.0),
            Primitive::Flip.into(),
            Primitive::Pow.into(),
        ];
        assert_eq!(of_list(&apart), None);
    }

    #[test]
    fn the_rusts_list_is_remarked_with_what_it_computes() {
        let list = [Primitive::Dup.into(), Primitive::Add.into()];
        let said = of_the_rusts(&list);
        assert!(said.starts_with("the Rust's list computes another formula: 2 x (docs"));
        // SinH is only written
        let said = of_the_rusts(&[Primitive::SinH.into()]);
        assert!(said.starts_with("the Rust's list computes another formula (docs"));
    }

    #[test]
    fn departures_are_remarked() {
        assert!(of_derivative(&of(Term::Div, Entry::power(1.0, 1.0))).is_some());
        assert!(of_integral(&of(Term::Sin, Entry::power(1.0, 2.0))).is_some());
        assert!(of_integral(&of(Term::Sin, Entry::power(1.0, 1.0))).is_none());
    }
}
