//! A small generator of random numbers, the same on every machine.

/// SplitMix64.
#[derive(Debug, Clone)]
pub struct Random(u64);

impl Random {
    pub fn new(seed: u64) -> Self {
        Random(seed)
    }
    pub fn bits(&mut self) -> u64 {
        self.0 = self.0.wrapping_add(0x9e37_79b9_7f4a_7c15);
        let mut z = self.0;
        z = (z ^ (z >> 30)).wrapping_mul(0xbf58_476d_1ce4_e5b9);
        z = (z ^ (z >> 27)).wrapping_mul(0x94d0_49bb_1331_11eb);
        z ^ (z >> 31)
    }
    /// A number below `end`.
    pub fn below(&mut self, end: usize) -> usize {
        (self.bits() % end as u64) as usize
    }
    /// True once in `n` times.
    pub fn once_in(&mut self, n: usize) -> bool {
        self.below(n) == 0
    }
    pub fn choose<'a, T>(&mut self, items: &'a [T]) -> &'a T {
        &items[self.below(items.len())]
    }
    /// A number that algebra finds interesting, mostly a small one.
    pub fn number(&mut self) -> f64 {
        match self.below(12) {
            0 => *self.choose(&EXTREMES),
            1 => self.bits() as i32 as f64 / 8.0,
            2..=4 => (self.below(9) as f64) - 3.0,
            _ => *self.choose(&COMMON),
        }
    }
    /// A number from anywhere, seldom one that isn't finite.
    pub fn any_number(&mut self) -> f64 {
        match self.below(40) {
            0 => *self.choose(&[f64::INFINITY, f64::NEG_INFINITY, f64::NAN]),
            1 => f64::from_bits(self.bits()),
            _ => self.number(),
        }
    }
}

const COMMON: [f64; 12] = [
    0.0,
    -0.0,
    1.0,
    1.0,
    -1.0,
    2.0,
    2.0,
    3.0,
    0.5,
    -0.5,
    10.0,
    std::f64::consts::E,
];

const EXTREMES: [f64; 22] = [
    63.0,
    64.0,
    65.0,
    9007199254740992.0,
    9007199254740996.0,
    -9007199254740992.0,
    4503599627370497.5,
    1e308,
    -1e308,
    f64::MAX,
    f64::MIN_POSITIVE,
    5e-324,
    1e-300,
    1e200,
    1e154,
    1.0000000000000002,
    0.9999999999999999,
    1.1102230246251565e-16,
    2.220446049250313e-16,
    -2.220446049250313e-16,
    0.1,
    1.5,
];
