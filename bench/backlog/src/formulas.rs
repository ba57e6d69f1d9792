//! Formulas as a fit has them, as lists and as words of lists.

use oracle::{judge, random::Random, sums::ENTRY};

/// A power of x with its coefficient.
pub type Power = (usize, f64);

/// Lists of the set have at most so many whole powers of x.
const MOST_POWERS: usize = 12;
const HIGHEST_POWER: usize = 15;

/// Between -1 and 1, with as many digits as a number has.
fn fraction(random: &mut Random) -> f64 {
    (random.bits() >> 10) as f64 / (1u64 << 53) as f64 - 1.0
}

/// The higher the power, the smaller its coefficient.
fn coefficient(random: &mut Random, power: usize) -> f64 {
    const SIZES: [f64; 8] = [200.0, 30.0, 8.0, 1.5, 0.2, 3e-2, 4e-3, 5e-4];
    let size = SIZES[power.min(SIZES.len() - 1)];
    fraction(random) * size
}

/// The powers from the first one up, without a gap.
pub fn dense(random: &mut Random, first: usize, count: usize) -> Vec<Power> {
    (first..first + count)
        .map(|power| (power, coefficient(random, power)))
        .collect()
}

/// So many different powers, rising.
fn sparse(random: &mut Random, count: usize) -> Vec<Power> {
    let mut powers: Vec<usize> = (0..=HIGHEST_POWER).collect();
    while powers.len() > count {
        powers.remove(random.below(powers.len()));
    }
    powers
        .into_iter()
        .map(|power| (power, coefficient(random, power)))
        .collect()
}

/// A sum of 1 to 12 powers: every second one without gaps, from 0 or 1 up.
pub fn fit(random: &mut Random) -> Vec<Power> {
    let count = 1 + random.below(MOST_POWERS);
    fit_of(random, count)
}

/// Such a sum of so many powers; more than there are up to the highest have no gaps.
pub fn fit_of(random: &mut Random, count: usize) -> Vec<Power> {
    if count > HIGHEST_POWER {
        return dense(random, 0, count);
    }
    match random.below(4) {
        0 => dense(random, 0, count),
        1 => dense(random, 1, count),
        _ => sparse(random, count),
    }
}

/// All powers up to one from 1 to 11.
pub fn polynomial(random: &mut Random) -> Vec<Power> {
    let degree = 1 + random.below(MOST_POWERS - 1);
    dense(random, 0, degree + 1)
}

/// The list that the Rust writes of a sum.
pub fn written(sum: &[Power]) -> Vec<u8> {
    judge::write(&entries(sum), false).done().expect("a list")
}

/// A sum's bytes.
pub fn entries(sum: &[Power]) -> Vec<u8> {
    sum.iter().flat_map(|&power| entry(power)).collect()
}

fn entry((power, coefficient): Power) -> [u8; ENTRY] {
    let mut entry = [0; ENTRY];
    entry[0] = 1;
    entry[8..16].copy_from_slice(&(power as f64).to_le_bytes());
    entry[16..24].copy_from_slice(&coefficient.to_le_bytes());
    entry
}

/// Terms that are added up, each made of the x that lies below them.
struct Terms {
    words: String,
    count: usize,
}

impl Terms {
    fn new(sum: &[Power]) -> Terms {
        let mut terms = Terms {
            words: String::new(),
            count: 0,
        };
        for &(power, coefficient) in sum {
            match power {
                0 => terms.add_constant(coefficient),
                1 => terms.add("", coefficient),
                _ => terms.add(&format!("{power} Pow"), coefficient),
            }
        }
        terms
    }

    fn add_constant(&mut self, constant: f64) {
        self.words += &format!("{constant:?} ");
        self.added();
    }

    /// What these words make of x, times a coefficient.
    fn add(&mut self, words: &str, coefficient: f64) {
        self.add_alone(&format!("{words} {coefficient:?} Mul"));
    }

    /// What these words make of x.
    fn add_alone(&mut self, words: &str) {
        let copy = if self.count == 0 { "Dup" } else { "Over" };
        self.words += &format!("{copy} {words} ");
        self.added();
    }

    fn added(&mut self) {
        if self.count > 0 {
            self.words += "Add ";
        }
        self.count += 1;
    }

    fn sum(self) -> String {
        self.words + "Flip Pop"
    }
}

pub fn term_by_term(sum: &[Power]) -> String {
    Terms::new(sum).sum()
}

/// A sum without gaps from power 0 or 1 up: by turns times x and plus a coefficient.
pub fn horner(sum: &[Power]) -> String {
    let mut words = String::new();
    for &(power, coefficient) in sum.iter().rev() {
        if words.is_empty() {
            let copy = if power > 1 { "Dup" } else { "" };
            words = format!("{copy} {coefficient:?} Mul ");
        } else {
            words += &format!("{coefficient:?} Add ");
            words += match power {
                0 => "",
                1 => "Mul ",
                _ => "Over Mul ",
            };
        }
    }
    words
}

/// Two or three factors such as x - a or the square of x - b, and at times a coefficient.
pub fn product(random: &mut Random) -> String {
    let mut words = String::new();
    for factor in 0..2 + random.below(2) {
        let copy = if factor == 0 { "Dup" } else { "Over" };
        words += &format!("{copy} {:?} Sub ", coefficient(random, 1));
        match 1 + random.below(3) {
            1 => {}
            power => words += &format!("{power} Pow "),
        }
        if factor > 0 {
            words += "Mul ";
        }
    }
    if random.once_in(2) {
        words += &format!("{:?} Mul ", coefficient(random, 0));
    }
    words + "Flip Pop"
}

fn some_powers(random: &mut Random) -> Terms {
    let count = 1 + random.below(MOST_POWERS / 2);
    Terms::new(&sparse(random, count))
}

/// Some powers, and one or two with a square root.
pub fn with_roots(random: &mut Random) -> String {
    const ROOTS: [&str; 3] = ["Sqrt", "Sqrt 3 Pow", "3 Pow Sqrt"];
    let mut terms = some_powers(random);
    for _ in 0..1 + random.below(2) {
        let root = random.choose(&ROOTS);
        terms.add(root, coefficient(random, 1));
    }
    terms.sum()
}

/// Some powers, and x to the power 1.5.
pub fn with_drag(random: &mut Random) -> String {
    let mut terms = some_powers(random);
    terms.add("1.5 Pow", -12.0);
    terms.sum()
}

/// Some powers, and one or two functions of x or of a straight line. They have
/// no coefficient: the algebra refuses a function times a number.
pub fn with_functions(random: &mut Random) -> String {
    let mut terms = some_powers(random);
    for _ in 0..1 + random.below(2) {
        terms.add_alone(&function(random));
    }
    terms.sum()
}

fn function(random: &mut Random) -> String {
    const OF_A_LINE: [&str; 6] = ["Sin", "Cos", "Ln", "Log2", "Log10", "Reciprocal"];
    let (slope, start) = (coefficient(random, 2), coefficient(random, 1));
    match random.below(8) {
        0 => "Exp".into(),
        1 => format!("{slope:?} Mul Sin"),
        _ => format!("{slope:?} Mul {start:?} Add {}", random.choose(&OF_A_LINE)),
    }
}
