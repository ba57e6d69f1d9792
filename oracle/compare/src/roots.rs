//! Square roots by themselves: a list of one Sqrt at many numbers, held
//! against the processor's root, which is the nearest number.

use oracle::{random::Random, text};
use proved::{Library, Ran, Told};

/// Sorts of numbers, by turns.
const SORTS: [(&str, fn(&mut Random) -> f64); 7] = [
    ("random bits", random_bits),
    ("subnormal", subnormal),
    ("next to powers of two", near_power_of_two),
    ("next to squares of whole numbers", near_whole_square),
    ("next to rounded squares", near_square),
    ("next to the square of a middle", near_middle),
    ("below zero", below_zero),
];

/// How many roots were compared, and those that differ.
#[derive(Debug, Default)]
pub struct Roots {
    pub compared: u64,
    pub differences: Vec<String>,
}

/// The leading one of 53 binary digits.
const LEADING: u64 = 1 << 52;

fn random_bits(random: &mut Random) -> f64 {
    let number = f64::from_bits(random.bits() >> 1);
    if number.is_finite() { number } else { 2.0 }
}

fn subnormal(random: &mut Random) -> f64 {
    let digits = 1 + random.below(52);
    f64::from_bits(random.bits() % (1 << digits))
}

/// Up to four numbers further up or down, but not below 0.
fn beside(random: &mut Random, number: f64) -> f64 {
    let bits = (number.to_bits() + random.below(9) as u64).saturating_sub(4);
    f64::from_bits(bits.min(f64::MAX.to_bits()))
}

fn near_power_of_two(random: &mut Random) -> f64 {
    let field = 1 + random.below(2046) as u64;
    beside(random, f64::from_bits(field << 52))
}

fn near_whole_square(random: &mut Random) -> f64 {
    let root = random.bits() % (1 << (1 + random.below(27)));
    beside(random, (root * root) as f64)
}

fn near_square(random: &mut Random) -> f64 {
    let digits = LEADING + random.bits() % LEADING;
    let field = 512 + random.below(1020) as u64;
    let root = f64::from_bits(field << 52 | digits % LEADING);
    beside(random, root * root)
}

/// The square of a number with 54 binary digits, cut to 53: its root lies next
/// to the middle of two numbers, where rounding is hardest.
fn near_middle(random: &mut Random) -> f64 {
    let middle = u128::from(2 * (LEADING + random.bits() % LEADING) + 1);
    let square = middle * middle;
    let dropped = 128 - square.leading_zeros() - 53;
    let digits = (square >> dropped) as u64;
    // an even power of two beside it keeps the root's digits
    let field = 1 + u64::from(dropped) % 2 + 2 * random.below(1022) as u64;
    beside(random, f64::from_bits(field << 52 | digits % LEADING))
}

fn below_zero(random: &mut Random) -> f64 {
    -random_bits(random)
}

/// What a run of one Sqrt owes.
fn owed(x: f64) -> Ran {
    if x < 0.0 {
        return Ran {
            value: 0,
            told: Told {
                number: 14,
                answer: [0, 0, 0],
            },
        };
    }
    Ran {
        value: x.sqrt().to_bits(),
        told: Told {
            number: 0,
            answer: [0, 1, 1],
        },
    }
}

/// So many numbers, of every sort by turns.
pub fn compare(library: Library, count: u64, seed: u64) -> Roots {
    let list = text::list("Sqrt");
    let mut random = Random::new(seed);
    let mut roots = Roots::default();
    for turn in 0..count {
        let (sort, number) = SORTS[(turn % SORTS.len() as u64) as usize];
        let x = number(&mut random);
        let given = (library.run)(&list, x);
        if given != owed(x) {
            let bits = x.to_bits();
            roots.differences.push(format!(
                "the root of {x:?} (bits {bits:016x}), {sort}: {given:?}"
            ));
            if roots.differences.len() >= 10 {
                return roots;
            }
        }
        roots.compared += 1;
    }
    roots
}

#[cfg(test)]
mod tests {
    use super::*;

    #[test]
    fn sorts_are_what_they_are_called() {
        let mut random = Random::new(1);
        for _ in 0..10_000 {
            assert!(random_bits(&mut random).is_finite());
            assert!(subnormal(&mut random) < f64::MIN_POSITIVE);
            assert!(near_power_of_two(&mut random) >= 0.0);
            assert!(below_zero(&mut random) <= 0.0);
            assert!(near_middle(&mut random).is_finite());
            assert!(near_square(&mut random).is_finite());
        }
    }

    /// The root of a number next to the square of a middle lies near the middle:
    /// rounding up and down differ there by about one half of the last digit.
    #[test]
    fn middles_are_hard() {
        let mut random = Random::new(2);
        let hard = (0..1000).filter(|_| {
            let x = near_middle(&mut random);
            let root = x.sqrt();
            // what is left of x, in units of the root's last digit times twice the root
            let left = (-root).mul_add(root, x) / (2.0 * root) / (root * f64::EPSILON);
            (0.2..0.6).contains(&left.abs())
        });
        assert!(hard.count() > 300);
    }
}
