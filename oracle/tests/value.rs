//! The value of a sum: examples at and past each limit, each two refusals in
//! their order, and what the run of the written list gives.

use oracle::{
    Answer, Complex, Refusal,
    algebra::{random_sums::random_sum, values::sum_text},
    functions::{FUNCTIONS, function, power, powers},
    generate, judge,
    power_sums::{NUMBERS, at_limits, random_power_sum, some_number},
    random::Random,
    runner,
    sums::{ENTRY, entry, kind},
    value::value,
};

const SMALL: f64 = f64::EPSILON.next_down();
const NOT_FINITE: [f64; 3] = [f64::INFINITY, f64::NEG_INFINITY, f64::NAN];

#[track_caller]
fn gives(sum: &[u8], x: f64, expected: f64) {
    let given = value(sum, x).map(f64::to_bits);
    assert_eq!(given, Ok(expected.to_bits()), "{:?} at {x}", sum_text(sum));
}

#[track_caller]
fn refuses(sum: &[u8], x: f64, number: u8) {
    let refused = Err(Refusal::new(number, 0));
    assert_eq!(value(sum, x), refused, "{:?} at {x}", sum_text(sum));
}

/// A power of x with a coefficient of two parts.
fn complex(number: f64, re: f64, im: f64) -> Vec<u8> {
    entry(kind::X, number, Complex::new(re, im), &[])
}

fn sin_of(coef: f64, inside: &[u8]) -> Vec<u8> {
    function((kind::SIN, 0.0), coef.into(), inside)
}

/// x inside so many sines, the outermost with a coefficient.
fn in_sines(levels: usize, coef: f64) -> Vec<u8> {
    let inside = (1..levels).fold(power(1.0, 1.0), |sum, _| sin_of(1.0, &sum));
    sin_of(coef, &inside)
}

#[test]
fn examples() {
    gives(&power(1.0, 1.0), 0.7, 0.7);
    gives(&power(1.0, 3.0), 0.7, 0.7 * 3.0);
    gives(&power(2.0, 1.0), 0.7, 0.7 * 0.7);
    gives(&power(0.0, 5.0), 0.7, 5.0);
    let sum = powers(&[(0.0, 3.0), (1.0, -2.0), (3.0, 0.5)]);
    gives(&sum, 2.0, 3.0);
    gives(&sum, -1.0, 4.5);
    let cube = 1.3 * 1.3 * 1.3;
    gives(&sum, 1.3, ((1.3 * 0.0 + 3.0) + 1.3 * -2.0) + cube * 0.5);
}

/// From the left and from the lowest: other orders give other bits.
#[test]
fn orders_of_products_and_additions() {
    let x: f64 = 1.1;
    let from_the_left = x * x * x * x * x * x * x;
    let (two, three) = (x * x, x * x * x);
    assert_ne!(from_the_left.to_bits(), (two * two * three).to_bits());
    gives(&power(7.0, 1.0), x, from_the_left);
    assert_ne!(x * x * 2.3, x * 2.3 * x);
    gives(&power(2.0, 2.3), x, x * x * 2.3);
    let sum = powers(&[(1.0, 1e16), (2.0, -1e16), (3.0, 1.0)]);
    gives(&sum, 1.0, 1.0);
    assert_eq!(1.0 - 1e16 + 1e16, 0.0);
}

/// x·0 has the sign of x, and is part of the power 0.
#[test]
fn signs_of_zeros() {
    for (x, nothing) in [(2.0, 0.0), (-2.0, -0.0), (0.0, 0.0), (-0.0, -0.0)] {
        gives(&power(3.0, 0.0), x, nothing);
        gives(&complex(0.0, -0.0, -0.0), x, nothing);
        gives(&complex(0.0, -0.0, SMALL), x, nothing);
        gives(&complex(0.0, 0.0, SMALL), x, 0.0);
        let times_zero = complex(1.0, -0.0, SMALL);
        gives(&times_zero, x, -nothing);
    }
    gives(&power(1.0, 1.0), -0.0, -0.0);
    gives(&powers(&[(1.0, 1.0), (3.0, 1.0)]), -0.0, -0.0);
    gives(&powers(&[(1.0, 1.0), (2.0, 1.0)]), -0.0, 0.0);
}

#[test]
fn powers_up_to_64() {
    let x: f64 = 1.1;
    let highest = (1..64).fold(x, |product, _| product * x);
    gives(&power(64.0, 1.0), x, highest);
    gives(&power(64.0, 0.3), x, highest * 0.3);
    gives(&power(-0.0, 5.0), x, 5.0);
    for number in [
        65.0,
        66.0,
        64f64.next_up(),
        64f64.next_down(),
        0.5,
        1.5,
        1f64.next_up(),
        5e-324,
        -5e-324,
        -1.0,
        1e308,
    ] {
        refuses(&power(number, 1.0), 4.0, 14);
        gives(&power(number, 0.0), 4.0, 0.0);
    }
}

#[test]
fn up_to_64_entries_and_three_levels() {
    let ones = |count: i32| {
        let terms: Vec<(f64, f64)> = (0..count).map(|n| (f64::from(n), 1.0)).collect();
        powers(&terms)
    };
    gives(&ones(64), 1.0, 64.0);
    refuses(&ones(65), 1.0, 11);
    refuses(&[], 1.0, 11);
    let zero_sine = sin_of(0.0, &power(1.0, 1.0));
    gives(&[ones(62), zero_sine.clone()].concat(), 1.0, 62.0);
    refuses(&[ones(63), zero_sine].concat(), 1.0, 11);
    let x = power(1.0, 3.0);
    gives(&[x.clone(), in_sines(3, 0.0)].concat(), 2.0, 6.0);
    refuses(&[x.clone(), in_sines(4, 0.0)].concat(), 2.0, 13);
    refuses(&[x, in_sines(3, 1.0)].concat(), 2.0, 14);
}

/// Zero terms of every kind, power and sign are as if they weren't there.
#[test]
fn zero_terms() {
    for (re, im) in [(0.0, 0.0), (-0.0, 0.0), (0.0, -0.0), (-0.0, -0.0)] {
        for kind in FUNCTIONS {
            let zero = function(kind, Complex::new(re, im), &power(0.5, 1.0));
            gives(&[power(1.0, 3.0), zero.clone()].concat(), 2.0, 6.0);
            gives(&zero, -2.0, -0.0);
            let term = function(kind, Complex::ONE, &power(1.0, 1.0));
            refuses(&[power(1.0, 3.0), term].concat(), 2.0, 14);
        }
        for number in [-1.0, 0.0, 0.5, 1.0] {
            let zero = complex(number, re, im);
            gives(&[zero, power(2.0, 3.0)].concat(), 2.0, 12.0);
        }
    }
    // too large for x to the power 64 to have a value
    gives(&powers(&[(1.0, 1.0), (64.0, 0.0)]), 1e300, 1e300);
}

#[test]
fn imaginary_parts() {
    for number in [0.0, 1.0, 2.0, 7.0] {
        for (re, im) in [(1.0, SMALL), (0.3, SMALL), (-0.0, -SMALL), (0.3, 5e-324)] {
            let sum = complex(number, re, im);
            let product = (1..number as usize).fold(1.1, |product, _| product * 1.1);
            let expected = if number == 0.0 {
                1.1 * 0.0 + re
            } else {
                product * re
            };
            gives(&sum, 1.1, expected);
            for im in [f64::EPSILON, -f64::EPSILON, f64::EPSILON.next_up(), 1e300] {
                refuses(&complex(number, re, im), 1.1, 15);
            }
        }
    }
}

#[test]
fn values_that_are_not_finite() {
    let below = 65536f64.next_down();
    assert!(value(&power(64.0, 1.0), below).is_ok());
    refuses(&power(64.0, 1.0), 65536.0, 15);
    refuses(&power(64.0, 5e-324), 65536.0, 15);
    gives(&power(1.0, f64::MAX), 1.0, f64::MAX);
    refuses(&power(1.0, f64::MAX), 1f64.next_up(), 15);
    let both = powers(&[(0.0, f64::MAX), (1.0, f64::MAX)]);
    gives(&both, -1.0, 0.0);
    refuses(&both, 1.0, 15);
    // what comes after it would take it away
    let away = powers(&[(0.0, f64::MAX), (1.0, f64::MAX), (2.0, -f64::MAX)]);
    refuses(&away, 1.0, 15);
    refuses(&powers(&[(63.0, 1.0), (64.0, -1.0)]), 1e300, 15);
    for x in NOT_FINITE {
        refuses(&power(1.0, 1.0), x, 15);
        refuses(&power(1.0, 0.0), x, 15);
    }
}

/// In each pair the one that comes first in the order: 11, 13, 15 of x, 14, 15
/// of an imaginary part, 15 of a value.
#[test]
fn refusals_at_odds() {
    let (bad, deep) = (power(0.0, 1.0), in_sines(4, 0.0));
    let too_large = power(1.0, f64::MAX);
    let imaginary = complex(1.0, 1.0, 1.0);
    let math = power(65.0, 1.0);
    let both = |first: &[u8], later: &[u8]| [first, later].concat();
    refuses(&both(&deep, &bad), 2.0, 11);
    for first in [&math, &imaginary, &too_large] {
        refuses(&both(first, &bad), 2.0, 11);
        refuses(&both(first, &deep), 2.0, 13);
    }
    for x in NOT_FINITE {
        refuses(&both(&power(1.0, 1.0), &bad), x, 11);
        refuses(&deep, x, 13);
        refuses(&math, x, 15);
        refuses(&in_sines(1, 1.0), x, 15);
    }
    for first in [&imaginary, &too_large] {
        refuses(&both(first, &math), 2.0, 14);
        refuses(&both(first, &in_sines(1, 1.0)), 2.0, 14);
    }
    for number in [-1.0, 0.5, 65.0] {
        refuses(&complex(number, 1.0, 1.0), 2.0, 14);
        refuses(&both(&power(number, f64::MAX), &in_sines(1, 1.0)), 2.0, 14);
    }
}

#[test]
fn bytes_that_are_no_sum() {
    let good = powers(&[(0.0, 1.0), (2.0, 3.0)]);
    for length in 1..2 * ENTRY {
        if length != ENTRY {
            refuses(&good[..length], 2.0, 11);
        }
    }
    for (at, byte) in [
        (0, 0),
        (0, 9),
        (1, 1),
        (3, 1),
        (4, 1),
        (15, 0x7f),
        (31, 0x7f),
    ] {
        let mut sum = good.clone();
        sum[at] = byte;
        if at == 15 || at == 31 {
            sum[at - 1] = 0xf0;
        }
        refuses(&sum, 2.0, 11);
    }
}

/// What `value` must be by the list that is written: the run's value, and 15
/// where either refuses with it.
fn by_the_list(sum: &[u8], x: f64) -> Result<u64, Refusal> {
    match judge::write(sum, false) {
        Answer::Rust(Ok(list)) => runner::run(&list, x)
            .map(|ran| ran.value.to_bits())
            .map_err(|refusal| Refusal::whole(refusal.number)),
        Answer::Form(refusal) | Answer::Limit(refusal) => Err(refusal),
        other => panic!("{other:?}"),
    }
}

/// How many answers there were of a value, 11, 13, 14 and 15.
#[derive(Default, Debug)]
struct Tally([usize; 5]);

impl Tally {
    fn check(&mut self, sum: &[u8], x: f64) {
        let given = value(sum, x).map(f64::to_bits);
        let sort = match given {
            Ok(_) => 0,
            Err(Refusal { number: 11, .. }) => 1,
            Err(Refusal { number: 13, .. }) => 2,
            Err(Refusal { number: 14, .. }) => 3,
            Err(_) => 4,
        };
        self.0[sort] += 1;
        if sort != 3 {
            assert_eq!(given, by_the_list(sum, x), "{:?} at {x}", sum_text(sum));
        }
    }

    fn check_at_all(&mut self, sum: &[u8], random: &mut Random) {
        NUMBERS.into_iter().for_each(|x| self.check(sum, x));
        self.check(sum, some_number(random));
    }

    #[track_caller]
    fn has_at_least(&self, counts: [usize; 5]) {
        let is_enough = self.0.iter().zip(counts).all(|(has, least)| *has >= least);
        assert!(is_enough, "{self:?}");
    }
}

#[test]
fn limits_give_what_the_list_gives() {
    let (mut tally, mut random) = (Tally::default(), Random::new(70));
    for sum in at_limits() {
        tally.check_at_all(&sum, &mut random);
    }
    tally.has_at_least([500, 100, 100, 300, 400]);
}

#[test]
fn random_power_sums_give_what_the_list_gives() {
    let (mut tally, mut random) = (Tally::default(), Random::new(71));
    let mut other = Vec::new();
    for _ in 0..4_000 {
        let sum = random_power_sum(&mut random);
        tally.check_at_all(&sum, &mut random);
        let damaged = generate::damaged(&mut random, &sum, &other, ENTRY);
        tally.check(&damaged, some_number(&mut random));
        other = sum;
    }
    tally.has_at_least([20_000, 1_000, 100, 5_000, 10_000]);
}

#[test]
fn random_sums_give_what_the_list_gives() {
    let (mut tally, mut random) = (Tally::default(), Random::new(72));
    for _ in 0..20_000 {
        let sum = random_sum(&mut random);
        tally.check(&sum, some_number(&mut random));
    }
    tally.has_at_least([1_000, 100, 10, 5_000, 1_000]);
}
