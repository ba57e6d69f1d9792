//! A formula that is written as a list comes back when the list is read, through the C functions: the same terms, 0·x besides where a constant
//! has no x beside it, and, where it was written as real, the same list again.

use uplink::{
    bytes, encode_sum, read, write, Entry, Refusal, Term, ENTRY_BYTES, LIST_BYTES, MOST_ENTRIES,
    SUM_BYTES,
};

fn power_of(entry: &Entry) -> f64 {
    match entry.term {
        Term::X(power) => power,
        other => panic!("{other:?} is no power of x"),
    }
}

fn is_zero(entry: &&Entry) -> bool {
    entry.re == 0.0 && entry.im == 0.0
}

/// The outermost entries that aren't zero.
fn terms_of(sum: &[Entry]) -> Vec<&Entry> {
    let mut terms = Vec::new();
    let mut rest = sum;
    while let Some(entry) = rest.first() {
        if !is_zero(&entry) {
            terms.push(entry);
        }
        rest = &rest[1 + entry.inside as usize..];
    }
    terms
}

/// The formula comes back with either flag.
#[track_caller]
fn comes_back(sum: &[Entry]) {
    let terms = terms_of(sum);
    let has = |power: f64| terms.iter().any(|term| power_of(term) == power);
    let extra = terms.is_empty() || (has(0.0) && !has(1.0));
    let pair = terms
        .iter()
        .any(|term| power_of(term) == 0.0 || term.re != 1.0);
    for is_complex in [false, true] {
        let list = write(sum, is_complex).expect("a list");
        let back = read(&list).expect("a sum");
        let (zeros, found): (Vec<&Entry>, Vec<&Entry>) = back.entries.iter().partition(is_zero);
        assert_eq!(found.len(), terms.len(), "{sum:?}");
        for (found, term) in found.iter().zip(&terms) {
            let (now, before) = (power_of(found), power_of(term));
            assert!(
                now == before && (now == 0.0 || now.to_bits() == before.to_bits()),
                "{found:?} {term:?}"
            );
            assert_eq!((found.re.to_bits(), found.im), (term.re.to_bits(), 0.0));
        }
        let expected: &[Entry] = if extra {
            &[Entry::power(1.0, 0.0)]
        } else {
            &[]
        };
        assert_eq!(zeros, expected.iter().collect::<Vec<_>>(), "{sum:?}");
        assert!(back.entries.len() <= MOST_ENTRIES);
        assert_eq!(back.is_complex, is_complex && pair, "{sum:?}");
        if !is_complex {
            assert_eq!(
                write(&back.entries, false).expect("a list"),
                list,
                "{sum:?}"
            );
        }
    }
}

fn with_im(entry: Entry, im: f64) -> Entry {
    Entry { im, ..entry }
}

#[test]
fn formulas_of_few_terms() {
    let x = Entry::power;
    comes_back(&[x(1.0, 0.0)]);
    comes_back(&[x(0.0, 0.0)]);
    comes_back(&[x(2.0, 0.0), x(3.0, -0.0)]);
    comes_back(&[x(1.0, 1.0)]);
    comes_back(&[with_im(x(1.0, 1.0), -0.0)]);
    comes_back(&[with_im(x(1.0, 3.0), -0.0)]);
    comes_back(&[with_im(x(-1.5, 1.0), -0.0)]);
    comes_back(&[x(0.0, 5.0)]);
    comes_back(&[x(-0.0, 5.0)]);
    comes_back(&[x(0.0, 5.0), x(1.0, 2.0)]);
    comes_back(&[x(-0.0, 5.0), x(1.0, 1.0)]);
    comes_back(&[x(0.0, 5.0), x(1.0, 0.0)]);
    comes_back(&[x(0.0, 5.0), x(1.0, 1.0), x(2.0, 1.0)]);
}

/// Entries of any kind may be there with coefficient zero, with any power inside; they aren't written.
#[test]
fn zeros_of_every_kind() {
    let kinds = [
        Term::Div,
        Term::Log(2.0),
        Term::Exp,
        Term::Sin,
        Term::Cos,
        Term::SinH,
        Term::CosH,
    ];
    for term in kinds {
        for re in [0.0, -0.0] {
            let zero = Entry {
                term,
                inside: 1,
                re,
                im: 0.0,
            };
            let inside = Entry::power(65.0, 2.0);
            comes_back(&[zero, inside]);
            comes_back(&[Entry::power(0.0, 5.0), zero, inside]);
            comes_back(&[Entry::power(1.0, 1.0), zero, inside]);
        }
    }
}

#[test]
fn every_power_and_coefficient() {
    let wholes = (0..=64).map(f64::from);
    let others = [
        -0.0,
        0.5,
        0.49999999999999994,
        0.5000000000000001,
        1.0000000000000002,
        0.9999999999999999,
        2.0000000000000004,
        1.9999999999999998,
        65.5,
        1e-300,
        5e-324,
        -5e-324,
        -1.0,
        -2.0,
        -64.0,
        -65.0,
        -0.5,
        -1.5,
        -1e308,
        -f64::MAX,
        -9007199254740992.0,
        -9007199254740994.0,
        4503599627370495.5,
    ];
    let coefficients = [
        1.0,
        0.9999999999999999,
        1.0000000000000002,
        -1.0,
        5e-324,
        -5e-324,
        f64::MIN_POSITIVE,
        f64::MAX,
        -f64::MAX,
        12.5,
    ];
    for power in wholes.chain(others) {
        for coefficient in coefficients {
            let term = Entry::power(power, coefficient);
            comes_back(&[term]);
            comes_back(&beside(term, &[Entry::power(0.0, 5.0)]));
            comes_back(&beside(term, &[Entry::power(1.0, 1.0)]));
            comes_back(&beside(
                term,
                &[Entry::power(0.0, -0.1), Entry::power(1.0, 2.0)],
            ));
        }
    }
}

/// The term and those of the others that have another power, in rising order.
fn beside(term: Entry, others: &[Entry]) -> Vec<Entry> {
    let is_other = |other: &&Entry| power_of(other) != power_of(&term);
    let mut sum: Vec<Entry> = others.iter().filter(is_other).copied().collect();
    sum.push(term);
    sum.sort_by(|a, b| power_of(a).total_cmp(&power_of(b)));
    sum
}

fn rising(powers: impl IntoIterator<Item = u32>, coefficient: f64) -> Vec<Entry> {
    powers
        .into_iter()
        .map(|power| Entry::power(f64::from(power), coefficient))
        .collect()
}

/// 63 terms, with a constant and without x.
fn no_x() -> Vec<Entry> {
    rising((0..64).filter(|power| *power != 1), 2.0)
}

#[test]
fn formulas_of_many_terms() {
    // 63 terms: bare x first; powers up to 0, whole and broken; a constant and no x, of which 64 entries come back
    comes_back(&rising(1..64, 1.0));
    comes_back(&rising(1..64, 2.0));
    for step in [1.0, 0.3] {
        let to_nought = (0..63).map(|place| Entry::power((f64::from(place) - 62.0) * step, 0.1));
        comes_back(&to_nought.collect::<Vec<_>>());
    }
    assert_eq!(no_x().len(), 63);
    comes_back(&no_x());
    let list = write(&no_x(), false).expect("a list");
    assert_eq!(read(&list).expect("a sum").entries.len(), 64);
    // 64 entries of which one is zero
    for at in [0, 1, 7, 63] {
        let mut one_zero = rising(0..64, 3.0);
        one_zero[at].re = 0.0;
        comes_back(&one_zero);
    }
}

#[test]
fn room_for_64_entries_is_enough_and_needed() {
    let mut list = vec![0; LIST_BYTES];
    let list = bytes::write(&encode_sum(&no_x()), false, &mut list).expect("a list");
    let mut room = [7; SUM_BYTES];
    let back = bytes::read(list, &mut room).expect("a sum");
    assert_eq!(back.sum.len(), SUM_BYTES);
    let mut room = [7; SUM_BYTES - ENTRY_BYTES];
    let refused = bytes::read(list, &mut room).expect_err("63 entries");
    assert_eq!(
        (refused.refusal, refused.place, room),
        (Refusal::OutputRoom, 0, [7; SUM_BYTES - ENTRY_BYTES])
    );
}

#[test]
fn past_the_limits() {
    let most = rising((0..65).filter(|power| *power != 1), 2.0);
    assert_eq!(most.len(), 64);
    let x_65 = [Entry::power(65.0, 1.0)];
    for is_complex in [false, true] {
        // 64 terms with a constant and no x: the last Add makes 65 entries
        let list = write(&most, is_complex).expect("a list");
        let refused = read(&list).expect_err("65 entries");
        assert_eq!(
            (refused.refusal, refused.place),
            (Refusal::NoRoom, list.len() - 1)
        );
        let list = write(&x_65, is_complex).expect("a list");
        let refused = read(&list).expect_err("a power of 65");
        assert_eq!((refused.refusal, refused.place), (Refusal::BigPower, 1));
        let refused = write(&rising(0..65, 2.0), is_complex).expect_err("65 entries");
        assert_eq!((refused.refusal, refused.place), (Refusal::BadRecord, 0));
    }
    let imaginary = with_im(Entry::power(2.0, 3.0), f64::EPSILON);
    let refused = write(&[imaginary], false).expect_err("no real number");
    assert_eq!((refused.refusal, refused.place), (Refusal::NotFinite, 0));
}

/// The same list again is promised of a real write alone: a pair can have -0 for its imaginary part, which isn't kept.
#[test]
fn a_pair_loses_the_sign_of_a_zero() {
    let list = write(&[with_im(Entry::power(1.0, 3.0), -0.0)], true).expect("a list");
    let back = read(&list).expect("a sum");
    assert_eq!(back.entries, [Entry::power(1.0, 3.0)]);
    assert_ne!(write(&back.entries, true).expect("a list"), list);
    let root = write(&[Entry::power(-1.5, 1.0)], false).expect("a list");
    let back = read(&root).expect("a sum");
    assert_eq!(back.entries, [with_im(Entry::power(-1.5, 1.0), -0.0)]);
}
