//! Lists that tell a right count of pairs from wrong ones: powers 0 to 64;
//! factors of 1 and of 64 terms on either side; products in which terms fall
//! together; Div terms, one inside the other; bodies that run twice; products
//! that don't count; refusals in, before and after a product.

use crate::{answer::number::*, random::Random, text};

/// A list in words, and what reading it comes to, known from the request's
/// words beforehand: how many pairs are multiplied, or the number that refuses.
#[derive(Debug, Clone, PartialEq, Eq)]
pub struct Case {
    pub words: String,
    pub read: Result<u64, u8>,
}

fn done(words: impl Into<String>, pairs: u64) -> Case {
    Case {
        words: words.into(),
        read: Ok(pairs),
    }
}

fn refused(words: impl Into<String>, number: u8) -> Case {
    Case {
        words: words.into(),
        read: Err(number),
    }
}

/// All of them.
pub fn cases() -> Vec<Case> {
    [
        examples(),
        powers(),
        lengths(),
        falling_together(),
        quotients(),
        bodies(),
        not_counted(),
        refusals(),
    ]
    .concat()
}

/// What is put around each of them: so the sum read is another, and the count is
/// more or the same.
const AROUND: [&str; 6] = [
    "W",
    "Dup W Pop",
    "W 0 Pow",
    "W Dup Mul",
    "On(1: W) Mul",
    "Both(0: W)",
];
/// With more pairs a case takes long, and stands by itself alone.
const LONG: u64 = 4096;

/// Each of them as bytes, by itself and with something around it.
pub fn near_limits() -> Vec<Vec<u8>> {
    let mut lists = Vec::new();
    for case in cases() {
        let is_long = case.read.is_ok_and(|pairs| pairs > LONG);
        let count = if is_long { 1 } else { AROUND.len() };
        let around = AROUND[..count].iter();
        lists.extend(around.map(|around| text::list(&around.replace('W', &case.words))));
    }
    lists
}

/// Longer words aren't stored, but for an example of the request.
const MOST_STORED: usize = 1500;
/// A sum of more words is left out again before the end, so that its answers
/// are short; so is one of more pairs.
const MOST_WORDS: usize = 8;
const MOST_PAIRS: u64 = 100;

/// Those that are stored.
pub fn stored() -> Vec<Vec<u8>> {
    let worded = |case: &Case| {
        let is_long = case.words.split(' ').count() > MOST_WORDS;
        let is_left_out = case.read.is_ok_and(|pairs| is_long || pairs > MOST_PAIRS);
        let around = if is_left_out { "Dup W Pop" } else { "W" };
        text::list(&around.replace('W', &case.words))
    };
    let is_short = |case: &Case| case.words.len() <= MOST_STORED;
    let short = cases().into_iter().filter(is_short);
    let all: Vec<Case> = examples().into_iter().chain(short).collect();
    all.iter().map(worded).collect()
}

fn examples() -> Vec<Case> {
    vec![
        done("Dup Mul", 1),
        done("3 Pow", 2),
        done("1 Add 3 Pow", 10),
        done("1 Add 63 Pow", 4030),
        done("Pop 5 Exp2", 0),
        done("Both(0: 2 Mul)", 2),
        done(format!("{} Dup Mul", neighbours(64)), 4096),
    ]
}

/// One product less than the power; 0, 1, and what isn't whole and from 0 up
/// take none.
fn powers() -> Vec<Case> {
    let mut cases = Vec::new();
    for power in ["0", "-0", "1", "-1", "-2", "-64", "0.5", "64.5"] {
        cases.push(done(format!("{power} Pow"), 0));
    }
    for (power, of_one, of_two) in [
        ("2", 1, 4),
        ("4", 3, 18),
        ("62", 61, 3904),
        ("63", 62, 4030),
    ] {
        cases.push(done(format!("{power} Pow"), of_one));
        cases.push(done(format!("1 Add {power} Pow"), of_two));
    }
    cases.extend([
        done("1 Add 0 Pow", 0),
        done("1 Add 1 Pow", 0),
        done("64 Pow", 63),
        done("0 Mul 64 Pow", 64),
        done("Pop E 2 Pow", 1),
        done("E Flip Pow", 0),
        done("2;2^-53 Pow", 1),
        done("1 Add 31 Pow 2 Pow", 990 + 1024),
        done("Dup 0 Mul Add 1 Add 3 Pow", 11),
        done("0 Mul 1 Add 3 Pow", 11),
    ]);
    cases
}

/// Factors of 1 and of 64 terms, the longer one deeper or on top.
fn lengths() -> Vec<Case> {
    vec![
        done("2 Mul", 1),
        done("1 Add 2 Mul", 2),
        done("1 Add 2 Flip Mul", 2),
        done("1 Add Dup Mul", 4),
        done("1 Add 63 Pow 2 Mul", 4030 + 64),
        done("1 Add 63 Pow 2 Flip Mul", 4030 + 64),
        done("1 Add 63 Pow 0 Mul", 4030 + 64),
        done("Dup 1 Add 62 Pow Flip 1 Add Mul", 3904 + 126),
        done("Dup 1 Add 62 Pow Flip 1 Add Flip Mul", 3904 + 126),
    ]
}

/// The spacing of binary64 numbers from 2^60 to 2^61.
const SPACING: u64 = 1 << 8;

/// Powers of x next to each other, from -2^60 down: so many.
pub fn neighbouring_powers(count: u64) -> Vec<f64> {
    let power = |at| -(((1 << 60) + at * SPACING) as f64);
    (0..count).map(power).collect()
}

/// From x to the sum of these powers of it.
pub fn neighbours(count: u64) -> String {
    let powers = neighbouring_powers(count);
    let more = powers[1..]
        .iter()
        .map(|power| format!(" Over {power} Pow Add"));
    format!("Dup {} Pow{} Flip Pop", powers[0], more.collect::<String>())
}

/// Of these the product of two takes 64 terms again, and those of up to so many
/// a power of 64, since powers that differ too little are one.
const MOST_RAISED: u64 = 33;

fn falling_together() -> Vec<Case> {
    let coefficients = format!("Dup -2^60 Pow Flip -{SPACING} Pow 1 Add 63 Pow Mul");
    let mut cases = vec![
        done(format!("{} 2 Pow", neighbours(64)), 4096),
        done(format!("{coefficients} Dup Mul"), 4030 + 64 + 4096),
        refused(format!("{} 3 Pow", neighbours(64)), NO_ROOM),
    ];
    for count in [2, MOST_RAISED] {
        let pairs = raised_pairs(&neighbouring_powers(count), 64);
        cases.push(done(format!("{} 64 Pow", neighbours(count)), pairs));
    }
    let past = format!("{} 64 Pow", neighbours(MOST_RAISED + 1));
    cases.push(refused(past, NO_ROOM));
    cases
}

/// How many pairs the products of a power try, where the base is a sum of these
/// powers of x, by sorting all sums of two powers.
pub fn raised_pairs(base: &[f64], power: usize) -> u64 {
    let mut reached = base.to_vec();
    let mut pairs = 0;
    for _ in 1..power {
        pairs += (reached.len() * base.len()) as u64;
        let sums = reached.iter().flat_map(|a| base.iter().map(move |b| a + b));
        reached = sums.collect();
        reached.sort_by(f64::total_cmp);
        reached.dedup();
    }
    pairs
}

/// From x to 1/(x+1) + 1/(x+2), and to the reciprocal of that.
const TWO: &str = "Dup 1 Add Reciprocal Flip 2 Add Reciprocal Add";
const NESTED: &str = "Dup 1 Add Reciprocal Flip 2 Add Reciprocal Add Reciprocal";

/// What two Div terms hold is multiplied too, and isn't counted.
fn quotients() -> Vec<Case> {
    vec![
        done("1 Add Reciprocal Dup Mul", 1),
        done("1 Add Reciprocal 2 Pow", 1),
        done("1 Add Reciprocal 3 Pow", 2),
        done("1 Add Reciprocal 0 Pow", 0),
        refused("1 Add Reciprocal -1 Pow", TOO_COMPLEX),
        done(format!("{TWO} Dup Mul"), 4),
        done(format!("{TWO} 3 Pow"), 4 + 6),
        done(format!("{NESTED} Dup Mul"), 1),
        done(format!("{NESTED} 3 Pow"), 2),
        done("1 Add 31 Pow Reciprocal Dup Mul", 990 + 1),
        done("1 Add Reciprocal 1 Flip Div", 0),
        refused("1 Add Reciprocal 1 Add Dup Mul", TOO_COMPLEX),
        refused(format!("{TWO} 1 Add 2 Pow"), TOO_COMPLEX),
    ]
}

/// A record counts as often as it runs.
fn bodies() -> Vec<Case> {
    vec![
        done("Both(0: Both(0: 2 Mul))", 4),
        done("Both(0: Both(0: Both(0: 1 Pow 2 Pow)))", 8),
        done("Dup Both(1: 1 Add 3 Pow) Sub", 20),
        done("1 Add Dup Both(1: Dup Mul) Mul", 4 + 4 + 9),
        done("Fork(1: Dup Mul)(1: 3 Pow)(1: 1 Add 3 Pow) Add Add", 13),
        done("Dup Bracket(1: 4 Pow)(1: Dup Mul) Mul", 5),
        done("On(1: 1 Add 2 Pow) Add", 4),
        done("By(1: 3 Pow) Mul", 3),
        done("2 Dip(1: 1 Add Dup Mul) Mul", 4 + 3),
        done("2 Gap(1: Dup Mul)", 1),
        done("Run(Dup Mul) Custom(3 Pow)", 3),
        done("Both(0: Run(1 Add 1 Pow 2 Mul))", 4),
    ]
}

/// Products in other records, and records that multiply nothing.
fn not_counted() -> Vec<Case> {
    vec![
        done("", 0),
        done("Dup Add Neg Not", 0),
        done("1 Add 2 Flip Complex", 0),
        done("1 Add 0;1 Complex", 0),
        done("1 Add 63 Pow 0 Complex", 4030),
        done("Dup 1 Add Flip Complex", 0),
        done("Dup 1 Add Reciprocal Div", 0),
        done("Dup 3 Pow Flip 1 Add 61 Pow Reciprocal Div", 2 + 3780),
        done("2 Div Reciprocal", 0),
        done("Pop 5 Exp", 0),
        done("Pop 64 Exp2", 0),
        done("Pop 64 Exp10", 0),
        done("Exp", 0),
        done("Sqrt", 0),
        done("Dup Mul Sqrt", 1),
        done("3 Pow Sqrt Sin Cos Ln", 2),
        done("0;1 Mul", 1),
    ]
}

/// A refusal has no pairs, wherever it is.
fn refusals() -> Vec<Case> {
    vec![
        // in a product: its first pair, a later one; its first of several, a later one
        refused("Sin Dup Mul", TOO_COMPLEX),
        refused("Dup Sin Add Dup Mul", TOO_COMPLEX),
        refused("1 Add Dup Sin 1 Add Mul", TOO_COMPLEX),
        refused("1e200 Mul Dup Mul", NOT_FINITE),
        refused("Dup 1e200 Mul Dup Mul Add Dup Mul", NOT_FINITE),
        refused("1e100 Add 4 Pow", NOT_FINITE),
        refused("-1e308 Pow 1 Add 2 Pow", POWER_NOT_FINITE),
        refused("-5e307 Pow 1 Add 4 Pow", POWER_NOT_FINITE),
        refused("1 Add 64 Pow", NO_ROOM),
        refused("1 Add 65 Pow", BIG_POWER),
        refused("1 Add 0.5 Pow", TOO_COMPLEX),
        refused("2 Mul 0.5 Pow", NEEDS_MATH),
        // before any product, and after one
        refused("Pop Pop Dup Mul", TOO_MANY_VARIABLES),
        refused("inf Add Dup Mul", NOT_FINITE),
        refused("Dup Mul Array", NON_SCALAR),
        refused("Dup Mul Other", NON_REAL),
        refused("1 Add 3 Pow inf Add", NOT_FINITE),
        refused("1 Add 3 Pow Else", NOT_SUPPORTED),
        refused("Both(0: 2 Mul) Both(1:)(1:)", INTERPRETER_BUG),
        refused("2 Mul NoNormal", NO_INVERSE),
        // nothing is left after a product, or two sums
        refused("1 Add 3 Pow Pop", NO_OUTPUT),
        refused("1 Add 3 Pow Dup", TOO_MANY_OUTPUTS),
    ]
}

/// What a random list of products does in turn to the sum on top, above x.
const STEPS: [&str; 22] = [
    "Dup Mul",
    "2 Pow",
    "3 Pow",
    "0 Pow",
    "1 Pow",
    "4 Pow",
    "1 Add",
    "2 Add",
    "Over Add",
    "Over 2 Pow Add",
    "Over Mul",
    "Over 1 Add Mul",
    "0 Mul",
    "0.5 Mul",
    "0;1 Mul",
    "Reciprocal",
    "Over 1 Add Reciprocal Mul",
    "Over Reciprocal Add",
    "On(1: Dup Mul) Mul",
    "Both(0: 1 Add 2 Mul)",
    "-1 Pow",
    "1 Complex",
];

/// A random list of products, of so many steps.
pub fn random_list(random: &mut Random, size: usize) -> Vec<u8> {
    let mut words = String::from("Dup");
    if random.once_in(8) {
        let count = 2 + random.below(40) as u64;
        words = format!("Dup {}", neighbours(count));
    }
    for _ in 0..size {
        words += " ";
        let step: &&str = random.choose(&STEPS);
        words += step;
    }
    if !random.once_in(16) {
        words += " Flip Pop";
    }
    text::list(&words)
}
