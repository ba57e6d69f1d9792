//! The value of a sum at x, held against a reckoning of the test's own and against the run of the list that the sum is written as, to the bit.

mod common;

use common::{file, lines};
use uplink::{
    bytes, decode_sum, encode_sum, run, value, write, Entry, Refusal, Refused, Term, ENTRY_BYTES,
    MOST_ENTRIES,
};

/// Zeros, small and large numbers, and those whose powers overflow or vanish.
const NUMBERS: [f64; 16] = [
    0.0,
    -0.0,
    1.0,
    -1.0,
    2.5,
    -0.1,
    0.7,
    -3.0,
    17.25,
    5e-324,
    -1e-160,
    2e4,
    -3e5,
    1e155,
    -1e308,
    f64::MAX,
];

const NOT_FINITE: [f64; 3] = [f64::INFINITY, f64::NEG_INFINITY, f64::NAN];

const KINDS: [Term; 7] = [
    Term::Div,
    Term::Log(2.0),
    Term::Exp,
    Term::Sin,
    Term::Cos,
    Term::SinH,
    Term::CosH,
];

fn x(power: f64, re: f64) -> Entry {
    Entry::power(power, re)
}

fn with_im(entry: Entry, im: f64) -> Entry {
    Entry { im, ..entry }
}

/// A function of a sum, as entries.
fn of(term: Term, re: f64, inside: &[Entry]) -> Vec<Entry> {
    let entry = Entry {
        term,
        inside: inside.len() as u32,
        re,
        im: 0.0,
    };
    [&[entry], inside].concat()
}

/// The outermost entries that aren't zero.
fn terms_of(sum: &[Entry]) -> Vec<&Entry> {
    let mut terms = Vec::new();
    let mut rest = sum;
    while let Some(entry) = rest.first() {
        if entry.re != 0.0 || entry.im != 0.0 {
            terms.push(entry);
        }
        rest = &rest[1 + entry.inside as usize..];
    }
    terms
}

fn whole_power(entry: &Entry) -> Option<u32> {
    match entry.term {
        Term::X(power) => (0..=64).find(|&whole| f64::from(whole) == power),
        _ => None,
    }
}

fn term_value(entry: &Entry, power: u32, x: f64) -> f64 {
    if power == 0 {
        return x * 0.0 + entry.re;
    }
    let product = (1..power).fold(x, |product, _| product * x);
    if entry.re == 1.0 && entry.im == 0.0 {
        product
    } else {
        product * entry.re
    }
}

/// What the value of a good sum is to be, as it was asked for.
fn reckoned(sum: &[Entry], x: f64) -> Result<f64, Refusal> {
    if !x.is_finite() {
        return Err(Refusal::NotFinite);
    }
    let terms = terms_of(sum);
    let powers: Option<Vec<u32>> = terms.iter().map(|term| whole_power(term)).collect();
    let powers = powers.ok_or(Refusal::NeedsMath)?;
    if terms.iter().any(|term| term.im.abs() >= f64::EPSILON) {
        return Err(Refusal::NotFinite);
    }
    let values = terms.iter().zip(powers);
    let values = values.map(|(term, power)| term_value(term, power, x));
    let value = values.reduce(|sum, value| sum + value).unwrap_or(x * 0.0);
    value.is_finite().then_some(value).ok_or(Refusal::NotFinite)
}

/// The run of the list that the sum is written as.
fn by_list(sum: &[Entry], x: f64) -> Result<f64, Refusal> {
    let list = write(sum, false).map_err(|refused| refused.refusal)?;
    let ran = run(&list, x).map_err(|refused| refused.refusal)?;
    Ok(ran.value)
}

/// Values by their bits.
fn bits<E>(value: Result<f64, E>) -> Result<u64, E> {
    value.map(f64::to_bits)
}

/// The value is that of the reckoning and, of powers alone, of the list. It is given back.
#[track_caller]
fn is_right(sum: &[Entry], x: f64) -> Result<f64, Refusal> {
    let found = value(sum, x);
    assert_eq!(bits(found), bits(bytes::value(&encode_sum(sum), x)));
    assert!(found.is_ok() || found.is_err_and(|refused| refused.place == 0));
    let found = found.map_err(|refused| refused.refusal);
    assert_eq!(bits(found), bits(reckoned(sum, x)), "{sum:?} at {x}");
    if terms_of(sum).iter().all(|term| whole_power(term).is_some()) {
        assert_eq!(bits(found), bits(by_list(sum, x)), "{sum:?} at {x}");
    }
    found
}

#[track_caller]
fn is_right_everywhere(sum: &[Entry]) {
    for number in NUMBERS.into_iter().chain(NOT_FINITE) {
        let _ = is_right(sum, number);
    }
}

#[track_caller]
fn is_refused(sum: &[Entry], x: f64, refusal: Refusal) {
    assert_eq!(is_right(sum, x), Err(refusal), "{sum:?} at {x}");
}

#[test]
fn examples() {
    let depth = [x(1.0, 60.0), x(2.0, -6.0)];
    assert_eq!(is_right(&depth, 2.5), Ok(112.5));
    assert_eq!(is_right(&[x(64.0, 3.0)], -2.0), Ok(3.0 * 2_f64.powi(64)));
    assert_eq!(is_right(&[x(-0.0, 5.0), x(1.0, 1.0)], 2.0), Ok(7.0));
    assert_eq!(bits(is_right(&[x(1.0, 0.0)], -2.0)), bits(Ok(-0.0)));
    assert_eq!(bits(is_right(&[x(0.0, -0.0)], 2.0)), bits(Ok(0.0)));
    is_right_everywhere(&depth);
}

#[test]
fn every_power_alone_and_beside_others() {
    for power in (0..=64).map(f64::from) {
        for re in [1.0, -1.0, 0.3, 5e-324, f64::MAX] {
            is_right_everywhere(&[x(power, re)]);
            is_right_everywhere(&[x(-1.0, 0.0), x(power, re), x(65.0, 0.0)]);
        }
    }
    is_right_everywhere(&[x(-0.0, 0.1)]);
    is_right_everywhere(&[x(-0.0, 0.1), x(1.0, 1.0), x(3.0, 0.3)]);
    let all: Vec<Entry> = (1..=64).map(|power| x(f64::from(power), 0.1)).collect();
    assert_eq!(all.len(), MOST_ENTRIES);
    is_right_everywhere(&all);
    is_right_everywhere(&all[1..]);
}

#[test]
fn powers_that_are_none_of_these() {
    let others = [
        0.5,
        1.0000000000000002,
        0.9999999999999999,
        5e-324,
        -5e-324,
        -1.0,
        -2.0,
        63.99999999999999,
        64.00000000000001,
        65.0,
        1.5,
        9007199254740992.0,
        f64::MAX,
        -f64::MAX,
    ];
    for power in others {
        for number in NUMBERS {
            is_refused(&[x(power, 1.0)], number, Refusal::NeedsMath);
            is_refused(&[x(power, 5e-324)], number, Refusal::NeedsMath);
            is_refused(
                &[with_im(x(power, 0.0), 5e-324)],
                number,
                Refusal::NeedsMath,
            );
        }
        is_right_everywhere(&[x(power, 0.0)]);
        is_right_everywhere(&[x(power, -0.0)]);
    }
}

#[test]
fn zeros_of_every_kind_do_not_matter() {
    let deep = of(Term::Sin, 3.0, &of(Term::Exp, 2.0, &[x(0.5, 1.0)]));
    let insides = [vec![x(65.0, 2.0)], vec![with_im(x(1.0, 1.0), 1.0)], deep];
    for term in KINDS {
        for inside in &insides {
            for re in [0.0, -0.0] {
                let zero = of(term, re, inside);
                assert_eq!(is_right(&zero, 2.0), Ok(0.0));
                let sum = [vec![x(0.0, 5.0), x(2.0, 3.0)], zero].concat();
                assert_eq!(is_right(&sum, 2.0), Ok(17.0));
                is_right_everywhere(&sum);
            }
            let function = of(term, 5e-324, inside);
            is_refused(&function, 2.0, Refusal::NeedsMath);
            is_refused(
                &[vec![x(2.0, 3.0)], function].concat(),
                1e300,
                Refusal::NeedsMath,
            );
        }
    }
}

#[test]
fn imaginary_parts() {
    let small = f64::EPSILON / 2.0;
    for im in [small, -small, 5e-324, -0.0] {
        for re in [1.0, 0.3, -1.0] {
            for power in [0.0, 1.0, 7.0] {
                is_right_everywhere(&[with_im(x(power, re), im)]);
            }
        }
        assert_eq!(is_right(&[with_im(x(2.0, 0.0), im)], 3.0), Ok(0.0));
    }
    for im in [f64::EPSILON, -f64::EPSILON, 1.0, -f64::MAX] {
        for number in NUMBERS {
            let term = with_im(x(1.0, 2.0), im);
            is_refused(&[term], number, Refusal::NotFinite);
            is_refused(&[x(0.0, 1.0), term], number, Refusal::NotFinite);
            let nothing_else = with_im(x(1.0, 0.0), im);
            is_refused(&[nothing_else], number, Refusal::NotFinite);
        }
    }
}

#[test]
fn refusals_come_in_their_order() {
    let deep = (0..4).fold(vec![x(1.0, 1.0)], |inside, _| of(Term::Sin, 1.0, &inside));
    let root = [with_im(x(0.5, 1.0), 1.0), x(2.0, 1e308)];
    let imaginary = [with_im(x(1.0, 1.0), 1.0), x(2.0, 1e308)];
    for number in NOT_FINITE {
        let no_sum = bytes::value(&encode_sum(&root)[1..], number);
        let said = |refusal| Err(Refused { refusal, place: 0 });
        assert_eq!(no_sum, said(Refusal::BadRecord));
        assert_eq!(value(&deep, number), said(Refusal::TooDeep));
        is_refused(&root, number, Refusal::NotFinite);
        is_refused(&imaginary, number, Refusal::NotFinite);
    }
    // the 14 of the last term is asked before the 15 of the first
    is_refused(&root, 1e100, Refusal::NeedsMath);
    let last = [with_im(x(1.0, 1.0), 1.0), x(2.0, 1e308), x(65.0, 1.0)];
    is_refused(&last, 1e100, Refusal::NeedsMath);
    is_refused(&imaginary, 1.0, Refusal::NotFinite);
}

#[test]
fn values_that_overflow() {
    is_refused(&[x(2.0, 1.0)], 1e155, Refusal::NotFinite);
    is_refused(&[x(2.0, 5e-324)], 1e155, Refusal::NotFinite);
    is_refused(&[x(1.0, 10.0)], 1e308, Refusal::NotFinite);
    is_refused(&[x(1.0, 1.0), x(2.0, 1e300)], 1e5, Refusal::NotFinite);
    is_refused(&[x(0.0, f64::MAX), x(1.0, 1.0)], 1e308, Refusal::NotFinite);
    // infinity and its opposite make something that is no number
    is_refused(&[x(2.0, 1.0), x(3.0, -1.0)], 1e200, Refusal::NotFinite);
    assert_eq!(is_right(&[x(0.0, f64::MAX)], f64::MAX), Ok(f64::MAX));
}

/// The sums of the stored files, good ones and others, have the value of the reckoning, or are refused as `derive` takes them in.
#[test]
fn stored_sums() {
    let (mut values, mut refused) = (0, [0; 19]);
    for name in ["sums.txt", "limits.txt", "faithful.txt"] {
        let text = file(name);
        for line in lines(&text).filter(|line| line.keyword == "sum") {
            let sum = line.bytes(0, ENTRY_BYTES);
            let entries = match taken_in(&sum) {
                Ok(entries) => entries,
                Err(refusal) => {
                    let said = Refused { refusal, place: 0 };
                    assert_eq!(bytes::value(&sum, 1.0), Err(said));
                    refused[refusal.number() as usize] += 1;
                    continue;
                }
            };
            for number in NUMBERS {
                match is_right(&entries, number) {
                    Ok(_) => values += 1,
                    Err(refusal) => refused[refusal.number() as usize] += 1,
                }
            }
        }
    }
    assert!(values > 1000, "{values}");
    for number in [11, 13, 14, 15] {
        assert!(refused[number] > 0, "{refused:?}");
    }
}

/// The entries of a sum that is good. Writing as pairs refuses no good sum.
fn taken_in(sum: &[u8]) -> Result<Vec<Entry>, Refusal> {
    let mut room = vec![0; uplink::LIST_BYTES];
    bytes::write(sum, true, &mut room).map_err(|refused| refused.refusal)?;
    Ok(decode_sum(sum).expect("a sum"))
}

/// A byte changed makes no sum, or another one, and then the value is that one's.
#[test]
fn damaged_sums() {
    let sum = [
        vec![x(0.0, 3.0), x(2.0, 1.0)],
        of(Term::Sin, 0.0, &[x(1.0, 1.0)]),
    ]
    .concat();
    let good = encode_sum(&sum);
    let (mut taken, mut refused) = (0, 0);
    for at in 0..good.len() {
        for byte in [0, 1, 2, 9, 0x3f, 0x80, 0xff] {
            let mut damaged = good.clone();
            damaged[at] = byte;
            match taken_in(&damaged) {
                Ok(entries) => {
                    is_right_everywhere(&entries);
                    taken += 1;
                }
                Err(refusal) => {
                    let said = Refused { refusal, place: 0 };
                    assert_eq!(bytes::value(&damaged, 1.0), Err(said), "{at}");
                    refused += 1;
                }
            }
        }
    }
    assert!(taken > 200 && refused > 200, "{taken} {refused}");
    for length in 0..good.len() {
        let cut = bytes::value(&good[..length], 1.0);
        assert_eq!(cut.is_ok(), taken_in(&good[..length]).is_ok(), "{length}");
    }
    let many: Vec<Entry> = (0..65).map(|power| x(f64::from(power), 1.0)).collect();
    assert!(value(&many[..MOST_ENTRIES], 1.0) == Ok(64.0));
    let refused = value(&many, 1.0).expect_err("65 entries");
    assert_eq!(refused.refusal, Refusal::BadRecord);
}

/// Numbers that only seem random.
struct Chance(u64);

impl Chance {
    fn below(&mut self, limit: u64) -> u64 {
        self.0 = self.0.wrapping_mul(6_364_136_223_846_793_005);
        self.0 = self.0.wrapping_add(1_442_695_040_888_963_407);
        (self.0 >> 33) % limit
    }

    /// A number with 20 random digits in binary, of a size that is given.
    fn number(&mut self, size: u64) -> f64 {
        let digits = self.below(1 << 21) as f64 - f64::from(1 << 20);
        let shift = self.below(2 * size + 1) as i32 - size as i32;
        digits * 2_f64.powi(shift - 20)
    }

    fn sum(&mut self) -> Vec<Entry> {
        let mut sum = Vec::new();
        let step = 1 + self.below(8);
        let mut power = self.below(4);
        while power <= 64 && sum.len() < 1 + step as usize * 8 {
            let re = match self.below(6) {
                0 => 1.0,
                1 => 0.0,
                _ => self.number(12),
            };
            let im = if self.below(4) == 0 { 1e-17 } else { 0.0 };
            sum.push(with_im(x(power as f64, re), im));
            power += 1 + self.below(step);
        }
        sum
    }
}

#[test]
fn random_sums() {
    let mut chance = Chance(21);
    let mut values = 0;
    for _ in 0..4000 {
        let sum = chance.sum();
        for size in [2, 8, 40] {
            let number = chance.number(size);
            values += usize::from(is_right(&sum, number).is_ok());
        }
    }
    assert!((6000..11_990).contains(&values), "{values}");
}
