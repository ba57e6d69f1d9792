//! Lists over a crowded stack: sums raised, multiplied, added and copied where
//! the stack and what is held have 1,024 entries, one less or one more; powers
//! after powers; powers of quotients and of complex coefficients; refusals in
//! the last product of a power. They tell whether the places in which products
//! are formed are apart from those that count.

use crate::{algebra::MOST_STACKED, generate::repeated, text};

/// A list in words, and the number that reading it comes to where it is known
/// from document 01 beforehand.
#[derive(Debug, Clone, PartialEq, Eq)]
pub struct Case {
    pub words: String,
    pub number: Option<u8>,
}

impl Case {
    fn new(words: String, number: impl Into<Option<u8>>) -> Self {
        Case {
            words,
            number: number.into(),
        }
    }
}

/// All of them, as bytes.
pub fn near_limits() -> Vec<Vec<u8>> {
    [others(), at_the_limit()]
        .concat()
        .iter()
        .map(|case| text::list(&case.words))
        .collect()
}

/// All but those of [`at_the_limit`].
pub fn others() -> Vec<Case> {
    [
        last_products(),
        powers(),
        after_a_power(),
        last_products_on_a_full_stack(),
        around_the_limit(),
    ]
    .concat()
}

/// From x to a sum of 4 terms, of which 5 entries at most are on the stack; its
/// square has 10, its cube 17.
const SPARSE: &str = "Dup 2 Pow 3 Mul Over 4 Pow Add Over 8 Pow 5 Mul Add Add";
/// From x to 1/(1/(x+1) + 1/(x+2)), of 7 entries: Div inside Div.
const NESTED: &str = "Dup 1 Add Reciprocal Flip 2 Add Reciprocal Add Reciprocal";
/// The same with other numbers.
const OTHER: &str = "Dup 3 Add Reciprocal Flip 4 Add Reciprocal Add Reciprocal";
/// Three levels of Div, 15 entries.
const DEEP: &str = "Dup NESTED Flip OTHER Add Reciprocal";
/// From x to two sums of 32 terms that have no power in common.
const APART: &str = "Dup 3 Add 31 Pow Over 32 Pow Mul Flip 2 Add 31 Pow";
/// From x to two sums of 4 terms.
const TWO: &str = "Dup SPARSE Flip SPARSE";
/// From x to x and, above it, a sum of 64 terms with different coefficients.
const WIDE: &str = "Dup 2 Add Over 2 Pow 3 Add Mul Over 4 Pow 5 Add Mul Over 8 Pow 7 Add Mul \
                    Over 16 Pow 11 Add Mul Over 32 Pow 13 Add Mul";
/// How many entries that sum has, and how many of it stand in a crowd.
const WIDE_ENTRIES: usize = 64;
const WIDE_SUMS: usize = 13;

/// Words with what the names above stand for.
fn spelt(words: &str) -> String {
    [
        ("TWO", TWO),
        ("DEEP", DEEP),
        ("APART", APART),
        ("SPARSE", SPARSE),
        ("NESTED", NESTED),
        ("OTHER", OTHER),
    ]
    .iter()
    .fold(words.to_owned(), |words, (name, stands_for)| {
        words.replace(name, stands_for)
    })
}

/// What makes one sum of x, and the most entries that there are on the way, x
/// and what the way holds counted, as a sum is pushed.
const WAYS: [(&str, usize); 84] = [
    // products of a sum by itself
    ("Dup Mul", 2),
    ("1 Add Dup Mul", 4),
    ("SPARSE Dup Mul", 10),
    ("2 Add 31 Pow Dup Mul", 64),
    ("2 Add 21 Pow Dup Dup Mul Mul", 66),
    // squares, cubes, and more
    ("2 Pow", 2),
    ("3 Pow", 2),
    ("64 Pow", 2),
    ("SPARSE 2 Pow", 10),
    ("SPARSE 3 Pow", 17),
    ("SPARSE 4 Pow", 24),
    ("2 Add 31 Pow 2 Pow", 63),
    ("2 Add 21 Pow 3 Pow", 64),
    ("2 Add 63 Pow", 64),
    // powers 0 and 1
    ("0 Pow", 2),
    ("1 Pow", 2),
    ("SPARSE 0 Pow", 5),
    ("SPARSE 1 Pow", 5),
    ("2 Add 31 Pow 0 Pow", 33),
    ("2 Add 31 Pow 1 Pow", 33),
    ("2 Add 63 Pow 0 Pow", 65),
    ("2 Add 63 Pow 1 Pow", 65),
    // a product with what lies below
    ("Dup Over Mul Add", 3),
    ("SPARSE Dup Over Mul Add", 14),
    ("Dup 1 Add Flip 2 Add 62 Pow Over Mul Add", 67),
    ("Dup 2 Add 62 Pow Flip 1 Add Over Mul Sub", 128),
    // two large sums, with no power in common and with all
    ("APART Add", 64),
    ("APART Sub", 64),
    ("APART Flip Sub", 64),
    ("Dup 2 Add 31 Pow Flip 3 Add 31 Pow Add", 64),
    ("Dup 2 Add 31 Pow Flip 3 Add 31 Pow Sub", 64),
    ("2 Add 63 Pow Dup Add", 128),
    ("2 Add 63 Pow Dup Sub", 128),
    ("2 Add 63 Pow Neg", 64),
    // around powers: both, one of them held while the other is raised
    ("TWO Both(1: 2 Pow) Add", 20),
    ("TWO Both(1: 3 Pow) Add", 34),
    ("TWO Both(1: 0 Pow) Add", 9),
    ("TWO Both(1: 1 Pow) Add", 9),
    ("TWO Both(1: Dup Mul) Add", 20),
    ("SPARSE Both(0: 2 Pow)", 24),
    // the sum and copies of it
    ("SPARSE Fork(1: 2 Pow)(1: 3 Pow) Add", 31),
    ("SPARSE Fork(1: 0 Pow)(1: 1 Pow) Add", 13),
    ("TWO Fork(2: Mul)(1: 2 Pow) Add", 28),
    ("SPARSE On(1: 2 Pow) Add", 14),
    ("SPARSE On(1: Dup Mul) Add", 14),
    ("SPARSE On(1: 1 Pow) Add", 9),
    ("SPARSE On(1: On(1: 2 Pow) Mul) Add", 21),
    ("2 Add 31 Pow On(1: 2 Pow) Sub", 95),
    ("2 Add 31 Pow On(1: Dup Mul) Sub", 96),
    ("SPARSE By(1: 2 Pow) Add", 14),
    // one beside another
    ("TWO Dip(1: 3 Pow) Add", 21),
    ("TWO Dip(1: 0 Pow) Add", 9),
    ("TWO Bracket(1: 2 Pow)(1: 3 Pow) Add", 27),
    ("Dup SPARSE Gap(1: 2 Pow)", 6),
    // powers of quotients
    ("1 Add Reciprocal 2 Pow", 4),
    ("1 Add Reciprocal 3 Pow", 5),
    ("1 Add Reciprocal Dup Mul", 6),
    ("NESTED 2 Pow", 13),
    ("NESTED 3 Pow", 21),
    ("NESTED 6 Pow", 57),
    ("NESTED Dup Mul", 14),
    ("DEEP 2 Pow", 44),
    ("DEEP Dup Mul", 44),
    // powers of complex coefficients
    ("1;2 Add 2 Pow", 3),
    ("0;1 Mul 1 Add 31 Pow 2 Pow", 63),
    ("Dup Complex 2 Pow", 2),
    ("Dup 2 Pow 1 Add Complex 3 Pow", 7),
    // what else is formed of a sum or a constant
    ("Not", 2),
    ("SPARSE Not", 5),
    ("2 Add 62 Pow Not", 63),
    ("Reciprocal", 1),
    ("1 Add Reciprocal", 3),
    ("Dup Div", 2),
    ("Dup Complex", 2),
    ("Pop 5 Exp2", 1),
    ("Pop 5 Exp10", 1),
    ("Exp", 2),
    ("Sin", 2),
    ("3 Log", 2),
    ("Log2", 2),
    ("Sqrt", 1),
    ("Dup Flip Pop", 2),
    ("Dup Over Pop Pop", 3),
    ("Identity Neg", 1),
];

/// What lies below x, and what is held while something is made of x: sums of
/// 64 terms and constants.
#[derive(Debug, Clone, Copy)]
struct Crowd {
    below_wide: usize,
    below_ones: usize,
    held_wide: usize,
    held_ones: usize,
    /// Held by one Dip each, or else by one Bracket.
    by_dips: bool,
}

/// What is left at the end.
#[derive(Debug, Clone, Copy, PartialEq, Eq)]
enum Left {
    /// What was made of x.
    Made,
    /// All the others, each taken away from the one below it.
    Others,
}

impl Crowd {
    /// So many entries in each of five ways: on the stack, few sums or many;
    /// held, all or half of them.
    fn of(entries: usize) -> [Crowd; 5] {
        let none = Crowd {
            below_wide: 0,
            below_ones: 0,
            held_wide: 0,
            held_ones: 0,
            by_dips: false,
        };
        let ones = entries - WIDE_SUMS * WIDE_ENTRIES;
        [
            Crowd {
                below_wide: WIDE_SUMS,
                below_ones: ones,
                ..none
            },
            Crowd {
                held_wide: WIDE_SUMS,
                held_ones: ones,
                ..none
            },
            Crowd {
                below_wide: WIDE_SUMS - 7,
                below_ones: ones - 1,
                held_wide: 7,
                held_ones: 1,
                by_dips: true,
            },
            Crowd {
                below_ones: entries,
                ..none
            },
            Crowd {
                below_ones: entries - 200,
                held_ones: 200,
                ..none
            },
        ]
    }

    fn below(self) -> usize {
        self.below_wide + self.below_ones
    }

    fn held(self) -> usize {
        self.held_wide + self.held_ones
    }

    /// The list that makes something of x over this crowd.
    fn around(self, way: &str, left: Left) -> String {
        let way = match left {
            Left::Made => spelt(way),
            Left::Others => spelt(way) + " Pop",
        };
        let held = if self.by_dips {
            "Dip(1: ".repeat(self.held()) + &way + &")".repeat(self.held())
        } else if self.held() > 0 {
            format!("Bracket({}:)(1: {way})", self.held())
        } else {
            way
        };
        let (before, end) = (self.before(), self.end(left));
        format!("{before} {held} {end}")
    }

    /// From x to all that lies below it, x, and all that is to be held.
    fn before(self) -> String {
        let mut words = String::new();
        if self.below_wide > 0 {
            let more = "Dup ".repeat(self.below_wide - 1);
            words += &format!("{WIDE} Flip Dip(1: {more}) ");
        }
        words += &format!("Dip(1: {}) ", ones(self.below_ones));
        if self.held_wide > 0 {
            let more = "Dup ".repeat(self.held_wide - 1);
            words += &format!("{WIDE} {more}");
        }
        words + &ones(self.held_ones)
    }

    fn end(self, left: Left) -> String {
        match left {
            Left::Made => {
                let (held, below) = (times("Pop", self.held()), times("Pop", self.below()));
                format!("{held} Dip(1: {below})")
            }
            Left::Others => times("Sub", self.below() + self.held() - 1),
        }
    }
}

/// The constants from 1 up.
fn ones(count: usize) -> String {
    (1..=count).map(|one| format!("{one} ")).collect()
}

/// A record `count` times, which may be none.
fn times(record: &str, count: usize) -> String {
    match count {
        0 => String::new(),
        _ => repeated(record, count),
    }
}

/// Every way over crowds of few sums, and by turns over those of many, which
/// take the judge long: with one entry to spare, with none, and with one too
/// many, which is 12.
pub fn at_the_limit() -> Vec<Case> {
    let mut cases = Vec::new();
    for (turn, (way, most)) in WAYS.into_iter().enumerate() {
        let crowds = |entries| {
            let [a, b, c, d, e] = Crowd::of(entries);
            [a, b, c, [d, e][turn % 2]]
        };
        let fits = MOST_STACKED - most;
        for crowd in crowds(fits - 1) {
            cases.push(Case::new(crowd.around(way, Left::Others), 0));
        }
        for crowd in crowds(fits) {
            cases.push(Case::new(crowd.around(way, Left::Made), 0));
            cases.push(Case::new(crowd.around(way, Left::Others), 0));
        }
        for crowd in crowds(fits + 1) {
            cases.push(Case::new(crowd.around(way, Left::Made), 12));
        }
    }
    cases
}

/// Ways that take much room, over 958 to 1,024 entries on the stack and held.
fn around_the_limit() -> Vec<Case> {
    let ways = [
        "2 Add 31 Pow Dup Mul",
        "2 Add 21 Pow 3 Pow",
        "Dup 1 Add Flip 2 Add 62 Pow Over Mul Add",
        "2 Add 63 Pow 1 Pow",
        "SPARSE Fork(1: 2 Pow)(1: 3 Pow) Add",
        "2 Add 15 Pow On(1: 3 Pow) Sub",
        "DEEP 2 Pow",
    ];
    let mut cases = Vec::new();
    for entries in 957..MOST_STACKED {
        let crowds = Crowd::of(entries);
        for (at, way) in ways.iter().enumerate() {
            let crowd = crowds[(entries + at) % 3];
            cases.push(Case::new(crowd.around(way, Left::Made), None));
        }
    }
    cases
}

/// A power inside a body, or after one, when another was formed before it.
const ONE_AND_ANOTHER: [&str; 11] = [
    "Dup FIRST Flip THEN Add",
    "Dup FIRST Flip Run(THEN) Add",
    "Dup FIRST Flip Custom(THEN) Add",
    "Dup FIRST Flip On(1: THEN) Add Add",
    "Dup FIRST Dip(1: THEN) Add",
    "Dup FIRST Gap(1: THEN)",
    "Dup FIRST Flip By(1: THEN) Add Add",
    "Dup FIRST Flip Dup Both(1: THEN) Add Add",
    "Dup FIRST Bracket(1:)(1: THEN) Add",
    "Dup FIRST Flip Fork(1: THEN)(1: FIRST)(1: THEN) Add Add Add",
    "On(1: FIRST On(1: Pop 7 THEN) Sub) On(1: THEN) Add Add",
];

/// Large, small, nested and complex powers, each before each.
fn after_a_power() -> Vec<Case> {
    let outers = [
        "2 Add 31 Pow",
        "2 Add 31 Pow 1 Pow",
        "3 Pow",
        "SPARSE 2 Pow",
        "SPARSE Dup Mul",
        "1 Add Reciprocal 5 Pow",
        "NESTED 3 Pow",
        "1;2 Add 4 Pow",
    ];
    let inners = [
        "0 Pow",
        "1 Pow",
        "2 Pow",
        "3 Pow",
        "Dup Mul",
        "5 Add 2 Pow",
        "5 Add Dup Mul",
        "SPARSE 3 Pow",
        "2 Add 21 Pow",
        "1 Add Reciprocal 2 Pow",
        "NESTED 2 Pow",
        "0;1 Add 3 Pow",
        "1 Complex 2 Pow",
        "Not 2 Pow",
    ];
    let mut cases = Vec::new();
    for both in ONE_AND_ANOTHER {
        for outer in outers {
            for inner in inners {
                let words = both.replace("FIRST", outer).replace("THEN", inner);
                cases.push(Case::new(spelt(&words), None));
            }
        }
    }
    cases
}

/// Powers of quotients, up to three levels of them, and of complex
/// coefficients: small ones, and those next to 64.
fn powers() -> Vec<Case> {
    let bases = [
        "1 Add Reciprocal",
        "2 Mul 3 Add Reciprocal",
        "0;1 Mul 1 Add Reciprocal",
        "Dup 1 Add Reciprocal Flip 2 Add Reciprocal Sub",
        "SPARSE Reciprocal",
        "NESTED",
        "NESTED Neg",
        "Dup NESTED Flip OTHER Add",
        "DEEP",
        "DEEP Neg",
        "1 Add Reciprocal 1 Add Reciprocal 1 Add Reciprocal",
        "Sin Reciprocal",
        "0;1 Mul",
        "0;1 Add",
        "1;2 Mul 3;-4 Add",
        "Dup Complex",
        "Dup 2 Pow 1 Add Complex",
        "1 Complex",
        "0;-0 Add",
        "-0;0 Mul 1;-0 Add",
    ];
    let mut cases = Vec::new();
    for base in bases {
        for power in [0, 1, 2, 3, 4, 5, 6, 7, 8, 21, 61, 62, 63, 64, 65] {
            cases.push(Case::new(spelt(&format!("{base} {power} Pow")), None));
        }
        cases.push(Case::new(spelt(&format!("{base} Dup Mul")), None));
        cases.push(Case::new(spelt(&format!("{base} Dup Dup Mul Mul")), None));
    }
    cases
}

/// Bases whose 64th power is refused in the last of its 63 products, with the
/// number, and what their 63rd power comes to. What the Rust gives up (7) it
/// gives up in the first product: the terms of a product are of the kinds of
/// its factors.
const LAST: [(&str, u8, u8); 22] = [
    // a power that isn't finite: alone, first, with a coefficient, inside
    ("-2.83e306 Pow", 18, 0),
    ("-2.83e306 Pow 3 Mul", 18, 0),
    ("-2.83e306 Pow 0 Mul", 18, 0),
    ("-2.83e306 Pow 0;1 Mul", 18, 0),
    ("-2.83e306 Pow 1 Add", 18, 0),
    ("-2.83e306 Pow 65536 Add", 18, 0),
    // a coefficient that isn't: alone, at the first pair, at the last, complex
    ("65536 Mul", 15, 0),
    ("-65536 Mul", 15, 0),
    ("0;65536 Mul", 15, 0),
    ("65536 Add", 15, 0),
    ("65536 Mul 1 Add", 15, 0),
    ("-2.83e306 Pow 65536 Mul", 18, 0),
    // 65 entries
    ("1 Add", 12, 0),
    ("65535 Mul 1 Add", 12, 0),
    ("0;1 Add", 12, 0),
    // what is given up is told first
    ("Sin", 7, 7),
    ("1e300 Mul Dup Sin Add", 7, 7),
    ("Dup -1e308 Pow Flip Sin Add", 7, 7),
    ("Sin Reciprocal", 7, 7),
    ("1 Add Reciprocal 1 Add", 7, 7),
    // and none of these
    ("65535 Mul", 0, 0),
    ("-2.8e306 Pow", 0, 0),
];

/// The 64th and the 63rd power of each; refusals in the last of fewer products;
/// powers of x that rounding brings together.
fn last_products() -> Vec<Case> {
    let mut cases = Vec::new();
    for (base, last, before) in LAST {
        cases.push(Case::new(format!("{base} 64 Pow"), last));
        cases.push(Case::new(format!("{base} 63 Pow"), before));
    }
    for (base, number) in [
        ("1 Add Reciprocal 63 Pow", 12),
        ("1 Add Reciprocal 62 Pow", 0),
        ("65536 Add Reciprocal 62 Pow", 0),
        ("NESTED 7 Pow", 12),
        ("NESTED 6 Pow", 0),
        ("DEEP 3 Pow", 12),
        ("1e155 Mul 1 Add 2 Pow", 15),
        ("1e103 Mul 1 Add 3 Pow", 15),
        ("1e102 Mul 1 Add 3 Pow", 0),
        ("-6e307 Pow 2 Add 3 Pow", 18),
        ("-5e307 Pow 2 Add 3 Pow", 0),
        ("-6e307 Pow 2 Add Reciprocal 3 Pow", 18),
        ("1e103 Mul 1 Add Reciprocal 3 Pow", 15),
    ] {
        cases.push(Case::new(spelt(base), number));
    }
    let neighbours = "Dup -1152921504606846976 Pow Flip -1152921504606847232 Pow 3 Mul Add";
    for power in [2, 3, 5, 33, 63, 64] {
        let words = format!("{neighbours} {power} Pow");
        cases.push(Case::new(words.clone(), None));
        cases.push(Case::new(format!("{words} Reciprocal 2 Pow"), None));
    }
    cases
}

/// The 64th powers with room for 2 to 5 entries: what the last product comes
/// to where that is enough for the base and the exponent, and 12 before it
/// where it isn't.
fn last_products_on_a_full_stack() -> Vec<Case> {
    let mut cases = Vec::new();
    for (base, last, _) in LAST {
        for room in [2, 3, 4, 5] {
            for crowd in &Crowd::of(MOST_STACKED - room)[..3] {
                let words = crowd.around(&format!("{base} 64 Pow"), Left::Made);
                let number = (room == 5 && last != 0).then_some(last);
                cases.push(Case::new(words, number));
            }
        }
    }
    cases
}
