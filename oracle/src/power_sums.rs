//! Sums that tell a right value from wrong ones: whole powers of x with
//! coefficients of every sort, zero terms of every kind among them; at and past
//! each limit; with two refusals at odds. And numbers at which to ask for it.

use std::f64::consts::E;

use crate::{
    Complex,
    back::{Entry, bytes_of},
    functions::{FUNCTIONS, function, power, powers},
    random::Random,
    sums::{MOST_ENTRIES, entry, kind},
    value::{LEAST_IMAGINARY, MOST_POWER},
};

/// Numbers of every sort. 65,536 is the least above 0 whose power 64 is too large.
pub const NUMBERS: [f64; 16] = [
    0.0,
    -0.0,
    1.0,
    -1.0,
    0.7,
    -1.3,
    f64::MAX,
    -f64::MAX,
    f64::MIN_POSITIVE,
    5e-324,
    -1e-310,
    65536f64.next_down(),
    65536.0,
    f64::INFINITY,
    f64::NEG_INFINITY,
    f64::NAN,
];

/// The largest imaginary part that is dropped, and some smaller ones.
const DROPPED: [f64; 5] = [
    LEAST_IMAGINARY.next_down(),
    -LEAST_IMAGINARY.next_down(),
    LEAST_IMAGINARY / 2.0,
    -5e-324,
    f64::MIN_POSITIVE,
];

/// The least imaginary part that is refused, and some larger ones.
const REFUSED: [f64; 5] = [
    LEAST_IMAGINARY,
    -LEAST_IMAGINARY,
    LEAST_IMAGINARY.next_up(),
    1.0,
    -f64::MAX,
];

/// Powers that aren't whole, or not from 0 to 64.
const OTHER_POWERS: [f64; 13] = [
    65.0,
    66.0,
    MOST_POWER.next_up(),
    MOST_POWER.next_down(),
    0.5,
    1.5,
    1f64.next_up(),
    5e-324,
    -5e-324,
    -1.0,
    -0.5,
    9007199254740992.0,
    1e308,
];

/// Real parts next to 1, at both ends, and some besides.
const EDGES: [f64; 10] = [
    -1.0,
    1f64.next_up(),
    1f64.next_down(),
    f64::MAX,
    -f64::MAX,
    f64::MIN_POSITIVE,
    5e-324,
    -5e-324,
    0.1,
    3.0,
];

/// A number at which a sum may have a value: mostly of a size that a high power
/// bears, at times of any, seldom one that isn't finite.
pub fn some_number(random: &mut Random) -> f64 {
    match random.below(16) {
        0 => f64::from_bits(random.bits()),
        1 => f64::from_bits(random.bits() | 0x7ff << 52),
        2 | 3 => random.number(),
        _ => of_size(random, 20),
    }
}

/// A number with all its digits, from 2^-most to 2^most, on either side of 0.
fn of_size(random: &mut Random, most: usize) -> f64 {
    let exponent = 1023 - most + random.below(2 * most);
    let digits = random.bits();
    f64::from_bits(digits & 1 << 63 | (exponent as u64) << 52 | digits >> 12)
}

/// What a random sum has beside whole powers and coefficients of usual sizes.
struct Sorts {
    other_powers: bool,
    refused_parts: bool,
    edges: bool,
}

/// A random sum of whole powers mostly, of 1 to 64 terms and seldom more.
pub fn random_power_sum(random: &mut Random) -> Vec<u8> {
    let sorts = Sorts {
        other_powers: random.once_in(4),
        refused_parts: random.once_in(6),
        edges: random.once_in(4),
    };
    let mut entries: Vec<Entry> = Vec::new();
    for number in some_powers(random, sorts.other_powers) {
        let (re, im) = coefficient(random, &sorts, OTHER_POWERS.contains(&number));
        entries.push(Entry::power(number, re, im));
    }
    let mut sum = bytes_of(&entries);
    if random.once_in(4) {
        sum.extend(some_functions(random));
    }
    sum
}

/// Powers that differ, rising.
fn some_powers(random: &mut Random, with_others: bool) -> Vec<f64> {
    let count = match random.below(12) {
        0 => 1 + random.below(MOST_ENTRIES),
        1..=4 => 1 + random.below(8),
        _ => 1 + random.below(3),
    };
    let highest = *random.choose(&[2, 8, 64, 64]);
    let mut powers: Vec<f64> = (0..=highest.max(count)).map(|n| n as f64).collect();
    while powers.len() > count {
        powers.swap_remove(random.below(powers.len()));
    }
    if random.once_in(4) {
        powers
            .iter_mut()
            .filter(|n| **n == 0.0)
            .for_each(|n| *n = -0.0);
    }
    if with_others {
        let more = 1 + random.below(2);
        powers.extend((0..more).map(|_| *random.choose(&OTHER_POWERS)));
    }
    powers.sort_by(f64::total_cmp);
    powers.dedup();
    powers
}

fn zero(random: &mut Random) -> f64 {
    *random.choose(&[0.0, -0.0])
}

fn coefficient(random: &mut Random, sorts: &Sorts, is_other_power: bool) -> (f64, f64) {
    let seldom = if is_other_power { 2 } else { 8 };
    if random.once_in(seldom) {
        return (zero(random), zero(random));
    }
    let re = match random.below(10) {
        0..=2 => 1.0,
        3 => return (zero(random), *random.choose(&DROPPED)),
        4 | 5 if sorts.edges => *random.choose(&EDGES),
        6 => random.below(9) as f64 - 4.5,
        _ => of_size(random, 4),
    };
    let im = match random.below(12) {
        0 | 1 => *random.choose(&DROPPED),
        2 | 3 if sorts.refused_parts => *random.choose(&REFUSED),
        _ => zero(random),
    };
    (re, im)
}

/// Functions in their order, mostly with coefficients that are zero.
fn some_functions(random: &mut Random) -> Vec<u8> {
    let mut terms = Vec::new();
    for kind in FUNCTIONS {
        if random.once_in(3) {
            let levels = if random.once_in(30) {
                4
            } else {
                1 + random.below(3)
            };
            let re = if random.once_in(12) {
                2.0
            } else {
                zero(random)
            };
            let coef = Complex::new(re, zero(random));
            let inside = nested(random, levels - 1);
            terms.extend(function(kind, coef, &inside));
        }
    }
    terms
}

/// A power of x inside so many functions.
fn nested(random: &mut Random, levels: usize) -> Vec<u8> {
    let number = *random.choose(&OTHER_POWERS);
    let mut sum = power(number, of_size(random, 4));
    for _ in 0..levels {
        let kind = *random.choose(&FUNCTIONS);
        sum = function(kind, Complex::ONE, &sum);
    }
    sum
}

/// Sums at and just past each limit, with zero terms of every kind, with two
/// refusals at odds, and ordinary ones.
pub fn at_limits() -> Vec<Vec<u8>> {
    [
        ordinary(),
        many_entries(),
        other_powers(),
        zero_terms(),
        nested_terms(),
        imaginary_parts(),
        large_values(),
        at_odds(),
    ]
    .concat()
}

fn ordinary() -> Vec<Vec<u8>> {
    let some = |terms: &[(f64, f64)]| powers(terms);
    vec![
        some(&[(1.0, 1.0)]),
        some(&[(1.0, 2.5)]),
        some(&[(1.0, -1.0)]),
        some(&[(2.0, 1.0)]),
        some(&[(3.0, 0.1)]),
        some(&[(0.0, 1.0)]),
        some(&[(0.0, -5.0)]),
        some(&[(0.0, 1.0), (1.0, 1.0)]),
        some(&[(1.0, 1.0), (2.0, 1.0)]),
        some(&[(2.0, -0.3), (7.0, 1.0)]),
        some(&[(0.0, 3.0), (1.0, -2.0), (3.0, 0.5)]),
        some(&[
            (0.0, -125.3),
            (1.0, 12.4),
            (2.0, -3.1),
            (3.0, 0.07),
            (4.0, -0.002),
        ]),
        some(&[(1.0, E), (5.0, 1.0), (6.0, -0.1), (15.0, 5e-4)]),
        some(&[
            (0.0, 1e16),
            (1.0, 1.0),
            (2.0, -1e16),
            (3.0, 1.0),
            (4.0, 1e16),
        ]),
    ]
}

/// The powers from one up, with coefficients that differ.
fn dense(first: usize, count: usize) -> Vec<u8> {
    let term = |n: usize| (n as f64, 1.0 / (1 + n) as f64);
    let terms: Vec<(f64, f64)> = (first..first + count).map(term).collect();
    powers(&terms)
}

/// 64 entries and 65, of whole powers and with a zero function among them.
fn many_entries() -> Vec<Vec<u8>> {
    let sin = zero_sin(&power(1.0, 1.0));
    vec![
        Vec::new(),
        dense(0, 8),
        dense(0, 63),
        dense(0, 64),
        dense(1, 64),
        dense(0, 65),
        [dense(0, 62), sin.clone()].concat(),
        [dense(0, 63), sin].concat(),
    ]
}

fn zero_sin(inside: &[u8]) -> Vec<u8> {
    function((kind::SIN, 0.0), Complex::ZERO, inside)
}

/// The power 64; powers that aren't whole or not from 0 to 64, alone, before 3x
/// or behind it, and as zero terms there; -0 for 0.
fn other_powers() -> Vec<Vec<u8>> {
    let mut sums = vec![
        power(MOST_POWER, 1.0),
        power(MOST_POWER, 2.0),
        power(-0.0, 5.0),
        powers(&[(-0.0, 5.0), (MOST_POWER, 1.0)]),
    ];
    for number in OTHER_POWERS {
        sums.push(power(number, 1.0));
        for coef in [1.0, 0.0] {
            let mut terms = [(1.0, 3.0), (number, coef)];
            terms.sort_by(|a, b| a.0.total_cmp(&b.0));
            sums.push(powers(&terms));
        }
    }
    sums
}

/// Zeros of every sign, alone and beside other terms; zero functions of every kind.
fn zero_terms() -> Vec<Vec<u8>> {
    let mut sums = Vec::new();
    for (re, im) in [(0.0, 0.0), (-0.0, 0.0), (0.0, -0.0), (-0.0, -0.0)] {
        for number in [0.0, 1.0, 3.0] {
            let zero = entry(kind::X, number, Complex::new(re, im), &[]);
            sums.push([&zero[..], &power(4.0, 0.1)].concat());
            sums.push(zero);
        }
    }
    for kind in FUNCTIONS {
        let zero = function(kind, Complex::new(-0.0, 0.0), &power(0.5, 1.0));
        sums.push([power(1.0, 0.1), zero.clone()].concat());
        sums.push(
            [
                power(1.0, 0.1),
                function(kind, Complex::ONE, &power(1.0, 1.0)),
            ]
            .concat(),
        );
        sums.push(zero);
    }
    sums
}

/// x inside so many sines, of which the outermost has this coefficient.
fn in_sines(levels: usize, coef: Complex) -> Vec<u8> {
    let inside = (1..levels).fold(power(1.0, 1.0), |sum, _| {
        function((kind::SIN, 0.0), Complex::ONE, &sum)
    });
    function((kind::SIN, 0.0), coef, &inside)
}

/// x inside three functions and inside four, in a term that is zero or not.
fn nested_terms() -> Vec<Vec<u8>> {
    let mut sums = Vec::new();
    for levels in [3, 4] {
        for coef in [Complex::ZERO, Complex::ONE] {
            let term = in_sines(levels, coef);
            sums.push([power(1.0, 3.0), term.clone()].concat());
            sums.push(term);
        }
    }
    sums
}

/// Imaginary parts of 2^-52 and next to it, on either side of 0, beside real
/// parts that are 1, another number, and zeros.
fn imaginary_parts() -> Vec<Vec<u8>> {
    let mut sums = Vec::new();
    for im in [DROPPED[0], DROPPED[1], REFUSED[0], REFUSED[1]] {
        for (number, re) in [
            (0.0, 2.0),
            (0.0, 0.0),
            (0.0, -0.0),
            (1.0, 1.0),
            (3.0, 0.1),
            (3.0, -0.0),
        ] {
            let term = entry(kind::X, number, Complex::new(re, im), &[]);
            if number == 0.0 {
                sums.push([&term[..], &power(2.0, 1.0)].concat());
            }
            sums.push(term);
        }
    }
    sums
}

/// Values that are too large on the way: in a product, times a coefficient, in
/// an addition, and with another such value that would take it away.
fn large_values() -> Vec<Vec<u8>> {
    const MOST: f64 = f64::MAX;
    let some = |terms: &[(f64, f64)]| powers(terms);
    vec![
        some(&[(0.0, MOST)]),
        some(&[(1.0, MOST)]),
        some(&[(1.0, 5e-324)]),
        some(&[(0.0, MOST), (1.0, MOST)]),
        some(&[(0.0, -MOST), (1.0, -MOST)]),
        some(&[(0.0, MOST), (1.0, MOST), (2.0, -MOST)]),
        some(&[(1.0, MOST), (2.0, -MOST)]),
        some(&[(63.0, 1.0), (64.0, -1.0)]),
        some(&[(1.0, 1.0), (40.0, 5e-324)]),
    ]
}

/// Each two refusals of which one comes before the other, together in one sum:
/// with a number that isn't finite, which is 15, there is another.
fn at_odds() -> Vec<Vec<u8>> {
    let imaginary = entry(kind::X, 1.0, Complex::new(1.0, 1.0), &[]);
    let too_large = power(1.0, f64::MAX);
    let needs_math = [power(65.0, 1.0), in_sines(1, Complex::ONE)];
    let too_deep = in_sines(4, Complex::ZERO);
    let not_rising = power(0.0, 1.0);
    let of_15 = [imaginary, too_large];
    let mut sums = vec![[&too_deep[..], &not_rising].concat()];
    for later in [&not_rising, &too_deep] {
        for first in of_15.iter().chain(&needs_math[..1]) {
            sums.push([&first[..], later].concat());
        }
    }
    for later in needs_math {
        for first in &of_15 {
            sums.push([&first[..], &later].concat());
        }
    }
    for number in [0.5, 65.0] {
        sums.push(entry(kind::X, number, Complex::new(1.0, 1.0), &[]));
        sums.push(power(number, f64::MAX));
    }
    for wrong in [f64::INFINITY, f64::NAN] {
        sums.push(power(1.0, wrong));
        sums.push(power(wrong, 0.0));
    }
    sums
}
