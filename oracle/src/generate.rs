//! Lists to compare: exhaustive short ones, random ones that mostly succeed,
//! ones near the paper's limits, and damaged copies.

use crate::{
    Complex,
    algebra::MOST_STACKED,
    answer::number::TOO_MANY_OUTPUTS,
    judge,
    random::Random,
    records::{MOST_LEVELS, MOST_RECORDS, RECORD, Record, bytes_of, kind},
    text,
};

/// Modifier codes.
mod modifier {
    pub const DIP: u8 = 1;
    pub const GAP: u8 = 2;
    pub const ON: u8 = 3;
    pub const BY: u8 = 4;
    pub const BOTH: u8 = 5;
    pub const BRACKET: u8 = 6;
    pub const FORK: u8 = 7;
}

const POP: u8 = 2;
const DUP: u8 = 3;
const OVER: u8 = 38;
/// Neg, Not, Sqrt, Exp, Sin, Cos, Reciprocal, Exp2, Exp10, Ln, Log2, Log10.
const UNARY: [u8; 12] = [5, 6, 7, 13, 14, 15, 16, 32, 33, 35, 36, 37];
/// Add, Sub, Mul, Div, Pow, Complex, Log.
const BINARY: [u8; 7] = [8, 9, 10, 11, 12, 17, 34];

/// What lists are grown of.
struct Vocabulary {
    unary: &'static [u8],
    binary: &'static [u8],
    modifiers: &'static [u8],
    reals_only: bool,
}

const READ: Vocabulary = Vocabulary {
    unary: &UNARY,
    binary: &BINARY,
    modifiers: &[1, 2, 3, 4, 5, 6, 7],
    reals_only: false,
};

/// Neg, Not, Sqrt, Reciprocal; Add, Sub, Mul, Div, Pow; On.
const RUN: Vocabulary = Vocabulary {
    unary: &[5, 6, 7, 16],
    binary: &[8, 9, 10, 11, 12],
    modifiers: &[modifier::ON],
    reals_only: true,
};

/// What a leftover stack is brought together with.
const GATHERING: [u8; 6] = [8, 8, 9, 10, 10, POP];

/// All lists of up to `length` records of an alphabet that has every primitive
/// that is read and the numbers that the algebra treats apart.
pub fn exhaustive(length: usize) -> impl Iterator<Item = Vec<u8>> {
    let alphabet = alphabet();
    (0..=length).flat_map(move |length| {
        let alphabet = alphabet.clone();
        let count = alphabet.len().pow(length as u32);
        (0..count).map(move |mut index| {
            let mut list = Vec::with_capacity(length * RECORD);
            for _ in 0..length {
                list.extend(alphabet[index % alphabet.len()].to_bytes());
                index /= alphabet.len();
            }
            list
        })
    })
}

/// All lists of one modifier with one body, or two (Bracket, Fork), of up to
/// one record of the alphabet each and 0 to 2 arguments, after up to one
/// record, and, where there is one body, before up to one.
pub fn exhaustive_modifiers() -> impl Iterator<Item = Vec<u8>> {
    let short: Vec<Vec<Record>> = std::iter::once(Vec::new())
        .chain(alphabet().into_iter().map(|record| vec![record]))
        .collect();
    let bodies: Vec<Vec<Record>> = (0..=2)
        .flat_map(|arguments| short.iter().map(move |inside| body(arguments, inside)))
        .collect();
    let one_body = counted([short.len(), 6, bodies.len(), short.len()]).map({
        let (short, bodies) = (short.clone(), bodies.clone());
        move |[before, code, inside, after]| {
            let modified = modified(ONE_BODY[code], &bodies[inside]);
            bytes_of(&[&short[before][..], &modified, &short[after]].concat())
        }
    });
    let two_bodies =
        counted([short.len(), 2, bodies.len(), bodies.len()]).map(move |[before, code, a, b]| {
            let inside = [&bodies[a][..], &bodies[b]].concat();
            let modified = modified(TWO_BODIES[code], &inside);
            bytes_of(&[&short[before][..], &modified].concat())
        });
    one_body.chain(two_bodies)
}

const ONE_BODY: [u8; 6] = [
    modifier::DIP,
    modifier::GAP,
    modifier::ON,
    modifier::BY,
    modifier::BOTH,
    modifier::FORK,
];
const TWO_BODIES: [u8; 2] = [modifier::BRACKET, modifier::FORK];

/// All ways to choose, below each of four ends.
fn counted(ends: [usize; 4]) -> impl Iterator<Item = [usize; 4]> {
    (0..ends.iter().product()).map(move |mut index| {
        ends.map(|end| {
            let chosen = index % end;
            index /= end;
            chosen
        })
    })
}

fn body(arguments: u8, inside: &[Record]) -> Vec<Record> {
    let body = Record {
        arguments,
        inside: inside.len() as u32,
        ..Record::of(kind::BODY)
    };
    [&[body][..], inside].concat()
}

fn modified(code: u8, inside: &[Record]) -> Vec<Record> {
    let modifier = Record {
        code,
        inside: inside.len() as u32,
        ..Record::of(kind::MODIFIER)
    };
    [&[modifier][..], inside].concat()
}

fn alphabet() -> Vec<Record> {
    let primitives = (1..=17).chain(32..=38).map(Record::primitive);
    let numbers = [0.0, 1.0, 2.0, 0.5, -1.0, std::f64::consts::E].map(Record::real);
    primitives
        .chain(numbers)
        .chain([Record::complex(Complex::I)])
        .collect()
}

/// A random list of up to about `size` records. Many of them are refused.
pub fn random_list(random: &mut Random, size: usize) -> Vec<u8> {
    grow(random, size, &READ, false)
}

/// A random list of up to about `size` records, mostly of what the runner runs.
pub fn list_to_run(random: &mut Random, size: usize) -> Vec<u8> {
    grow(random, size, &RUN, false)
}

/// A random list of up to about `size` records that mostly reads to one sum:
/// what makes it refuse is mostly taken back at once.
pub fn good_list(random: &mut Random, size: usize) -> Vec<u8> {
    grow(random, size, &READ, true)
}

fn grow(random: &mut Random, size: usize, of: &'static Vocabulary, takes_back: bool) -> Vec<u8> {
    let mut grower = Grower {
        random,
        of,
        records: Vec::new(),
        left: size,
        takes_back,
    };
    let height = grower.run(1, 0);
    if !grower.random.once_in(30) {
        grower.gather(height);
    }
    bytes_of(&grower.records)
}

/// Grows a list while it keeps track of the stack's height.
struct Grower<'a> {
    random: &'a mut Random,
    of: &'static Vocabulary,
    records: Vec<Record>,
    left: usize,
    takes_back: bool,
}

impl Grower<'_> {
    fn primitive(&mut self, code: u8) {
        self.records.push(Record::primitive(code));
    }

    /// Some records in a row, from a stack of one height to one of another.
    fn run(&mut self, mut height: usize, depth: usize) -> usize {
        let length = 1 + self.random.below(self.left.clamp(1, 12));
        for _ in 0..length {
            if self.left == 0 {
                break;
            }
            self.left -= 1;
            let before = self.records.len();
            let next = self.record(height, depth);
            if self.takes_back && depth == 0 && self.is_refused() && !self.random.once_in(20) {
                self.records.truncate(before);
            } else {
                height = next;
            }
        }
        height
    }

    /// Whether the records so far refuse, more than by leaving several sums.
    fn is_refused(&self) -> bool {
        match judge::read(&bytes_of(&self.records)).owed() {
            Some(Err(refusal)) => refusal.number != TOO_MANY_OUTPUTS,
            Some(Ok(_)) => false,
            None => true,
        }
    }

    fn record(&mut self, height: usize, depth: usize) -> usize {
        match self.random.below(100) {
            0..=24 => self.push(height),
            25..=44 if height >= 1 => {
                let code = *self.random.choose(self.of.unary);
                self.primitive(code);
                height
            }
            45..=74 if height >= 2 => {
                let code = *self.random.choose(self.of.binary);
                self.primitive(code);
                height - 1
            }
            75..=84 if height >= 1 => self.shuffle(height),
            85..=96 if depth < 6 => self.nested(height, depth),
            97 => {
                self.records.push(Record::of(kind::UNDER_MARKER));
                height
            }
            98 if self.random.once_in(6) => self.odd_record(height),
            _ => self.push(height),
        }
    }

    fn push(&mut self, height: usize) -> usize {
        let number = self.random.number();
        let number = if self.random.once_in(60) {
            self.random.any_number()
        } else {
            number
        };
        let record = if self.random.once_in(8) && !self.of.reals_only {
            let im = self.random.number();
            let im = if self.random.once_in(3) { 0.0 } else { im };
            Record::complex(Complex::new(number, im))
        } else {
            Record::real(number)
        };
        self.records.push(record);
        height + 1
    }

    /// Identity, Pop, Dup, Flip or Over.
    fn shuffle(&mut self, height: usize) -> usize {
        let (code, height) = match self.random.below(10) {
            0 => (1, height),
            1 if height > 1 => (POP, height - 1),
            2 | 3 if height > 1 => (4, height),
            4 if height > 1 => (OVER, height + 1),
            _ => (DUP, height + 1),
        };
        self.primitive(code);
        height
    }

    /// A kind or a code that refuses.
    fn odd_record(&mut self, height: usize) -> usize {
        let kinds = [
            kind::ARRAY,
            kind::OTHER_PUSH,
            kind::OBVERSE,
            kind::NO_NORMAL,
            kind::ANYTHING_ELSE,
        ];
        let record = match self.random.below(3) {
            0 => Record::primitive(self.random.bits() as u8),
            1 => Record {
                code: self.random.bits() as u8,
                ..Record::of(kind::MODIFIER)
            },
            _ => Record::of(*self.random.choose(&kinds)),
        };
        self.records.push(record);
        height
    }

    /// A record with an inside.
    fn nested(&mut self, height: usize, depth: usize) -> usize {
        let at = self.records.len();
        let end = match self.random.below(10) {
            0 => {
                self.records.push(Record::of(kind::RUN));
                self.run(height, depth + 1)
            }
            1 => {
                self.records.push(Record::of(kind::CUSTOM_INVERSE));
                self.run(height, depth + 1)
            }
            _ => self.modifier(height, depth),
        };
        self.records[at].inside = (self.records.len() - at - 1) as u32;
        end
    }

    fn modifier(&mut self, height: usize, depth: usize) -> usize {
        let code = *self.random.choose(self.of.modifiers);
        self.records.push(Record {
            code,
            ..Record::of(kind::MODIFIER)
        });
        let arguments = self.random.below(height.min(3) + 1);
        let below = height.saturating_sub(1);
        if self.random.once_in(60) {
            // A wrong count of bodies.
            for _ in 0..self.random.below(4) {
                self.body(arguments, height, depth);
            }
            return height;
        }
        match code {
            modifier::DIP => self.body(1, below, depth) + 1,
            modifier::GAP => self.body(1, below, depth),
            modifier::ON => self.body(1, height, depth) + 1,
            modifier::BY => self.body(arguments, height + usize::from(arguments > 0), depth),
            modifier::BOTH => {
                let rest = height - arguments;
                let end = self.body(arguments, rest, depth);
                // The second time starts `arguments` higher.
                (end + arguments + end).saturating_sub(rest)
            }
            modifier::BRACKET => {
                // The first body runs last, over what the second leaves.
                let second = self.random.below(height.min(2) + 1);
                let end = self.body(arguments, height, depth);
                let other = self.body(second, height - arguments, depth);
                (other + end).saturating_sub(height - arguments)
            }
            modifier::FORK => self.fork(height, depth),
            _ => unreachable!("seven modifiers"),
        }
    }

    fn fork(&mut self, height: usize, depth: usize) -> usize {
        let counts: Vec<usize> = (0..self.random.below(4))
            .map(|_| self.random.below(height.min(2) + 1))
            .collect();
        let rest = height - counts.iter().max().unwrap_or(&0);
        counts.iter().fold(rest, |height, &count| {
            let end = self.body(count, rest + count, depth);
            (height + end).saturating_sub(rest)
        })
    }

    fn body(&mut self, arguments: usize, height: usize, depth: usize) -> usize {
        let at = self.records.len();
        self.records.push(Record {
            arguments: arguments as u8,
            ..Record::of(kind::BODY)
        });
        let end = self.run(height, depth + 1);
        self.records[at].inside = (self.records.len() - at - 1) as u32;
        end
    }

    /// Bring the stack to one sum.
    fn gather(&mut self, height: usize) {
        if height == 0 {
            self.push(0);
        }
        for _ in 1..height {
            let code = *self.random.choose(&GATHERING);
            self.primitive(code);
            if self.takes_back && self.is_refused() {
                self.records.pop();
                self.primitive(POP);
            }
        }
    }
}

/// A copy with something broken or moved, of records or entries of `size` bytes.
pub fn damaged(random: &mut Random, list: &[u8], other: &[u8], size: usize) -> Vec<u8> {
    let mut list = list.to_vec();
    for _ in 0..1 + random.below(2) {
        match random.below(8) {
            0 | 1 if !list.is_empty() => {
                let at = random.below(list.len());
                list[at] ^= 1 << random.below(8);
            }
            2 | 3 if !list.is_empty() => {
                // A field that matters, to a small number.
                let start = random.below(list.len().div_ceil(size)) * size;
                let at = (start + *random.choose(&[0, 0, 1, 2, 3, 4, 4])).min(list.len() - 1);
                list[at] = random.below(16) as u8;
            }
            4 if !list.is_empty() => {
                // A number that isn't finite, or -0 where there is none.
                let start = random.below(list.len().div_ceil(size)) * size;
                let at = (start + 8 * (1 + random.below(size / 8 - 1))).min(list.len());
                let end = (at + 8).min(list.len());
                let number = *random.choose(&[f64::NAN, f64::INFINITY, -0.0]);
                list[at..end].copy_from_slice(&number.to_le_bytes()[..end - at]);
            }
            5 => list.truncate(random.below(list.len() + 1)),
            6 => list.truncate(random.below(list.len() / size + 1) * size),
            _ => {
                let at = random.below(list.len() / size + 1) * size;
                let from = random.below(other.len() / size + 1) * size;
                list.splice(at..at, other[from..].iter().copied());
            }
        }
    }
    list
}

/// Lists in which two refusals are at odds, so that their order shows.
pub fn at_odds() -> Vec<Vec<u8>> {
    let words = [
        "Sin 65 Pow",
        "1e308 Mul 65 Pow",
        "0.5 Mul 65 Pow",
        "Sin 0.5 Pow",
        "2 Mul Sin 0.5 Pow",
        "Sin 1 Add Reciprocal 0.5 Pow",
        "2 Mul 1 Add Reciprocal 0.5 Pow",
        "2 Mul -1e308 Pow",
        "-1e308 Pow 1e308 Neg Pow",
        "1e10 Add 64 Pow",
        "1e4 Add 64 Pow",
        "1 Add -1e308 Pow",
        "-1e308 Pow 1 Add 64 Pow",
        "Sin 3 Log",
        "Sin 3 Log 1e308 Mul",
        "Sin Sin Sin 3 Log",
        "Sin Sin Sin Dup Sub Reciprocal",
        "Sin Sin Sin Reciprocal",
        "1 Add 60 Pow Sin Sin Sin",
        "1 Add 60 Pow Sin Sin Sin Sin",
        "1 Add 61 Pow Sin Sin Sin",
        "1 Add 63 Pow Dup Sub Reciprocal",
        "1 Add inf Add",
        "Pop Pop inf",
        "inf Array",
        "Array inf",
        "Neg Array",
        "Neg Neg Array",
        "Dup Mul Array",
        "Dup Mul 1 Flip Dip(1: Array)",
        "Dup Mul 1 Flip Dip(1: inf)",
        "3 Pow 0.5 Mul 1e308 Add",
        "3 Pow 0.5 Mul Dup 1e308 Mul Add",
        "Dup 3 Pow 0.5 Mul Add",
        "Pop Dip(1: inf)",
        "Dip(1: inf)(1:)",
    ];
    words.map(text::list).into()
}

/// Every way to a power of x that isn't finite. F stands for a factor that
/// comes to the coefficient before.
const WAYS_TO_A_POWER: [&str; 16] = [
    // products: a square, two powers, of several terms, inside one Div and two
    "-1e308 Pow F Dup Mul",
    "Dup -1e308 Pow F Flip -1.5e308 Pow F Mul",
    "-1e308 Pow F Dup 1 Add Mul",
    "-1e308 Pow F 1 Add Reciprocal Dup Mul",
    "Dup -1e308 Pow F 1 Add Reciprocal Flip -1e308 Pow 2 Add Reciprocal Add Reciprocal Dup Mul",
    // whole powers: at the first product and at a later one
    "-1e308 Pow F 2 Pow",
    "-5e307 Pow F 4 Pow",
    "-5e307 Pow F 1 Add 4 Pow",
    // quotients, both ways
    "-1e308 Pow F Dup Reciprocal Div",
    "-1e308 Pow F Dup Reciprocal Flip Div",
    "-1e308 Pow F Dup 1 Add Reciprocal Div",
    // roots, and a power by a large exponent
    "-1e308 Pow F -2 Pow",
    "-1e308 Pow F 2.5 Pow",
    "2 Pow F -1e308 Pow",
    // read, and refused where it is derived
    "-1e308 Pow F 1 Add Reciprocal",
    "-1e308 Pow F Reciprocal 1 Add Reciprocal",
];

/// Lists that come to a power that isn't finite in every way: alone, with a
/// coefficient 0 and with one that overflows at the same entry, at an earlier
/// and at a later one; after what counts as handled; inside.
pub fn power_overflows() -> Vec<String> {
    let mut lists = Vec::new();
    for way in WAYS_TO_A_POWER {
        for factor in [
            "",
            "0 Mul",
            "1e200 Mul",
            "1e200 Add",
            "Reciprocal 1e200 Add",
        ] {
            lists.push(way.replace("F ", &format!("{factor} ")));
        }
        for context in [
            "Neg Neg W",
            "Dup Mul W",
            "Run(W)",
            "Custom(W)",
            "1 Dip(1: W) Pop",
            "On(1: W) Pop",
            "Both(1: W)",
            "Fork(1: W)(1:) Pop",
            "W Sin",
        ] {
            lists.push(context.replace('W', &way.replace("F ", "")));
        }
    }
    lists
}

/// Lists at, below and above each of the paper's limits.
pub fn near_limits() -> Vec<Vec<u8>> {
    let mut lists: Vec<Vec<u8>> = Vec::new();
    let mut add = |words: &str| lists.push(text::list(words));
    limits_of_numbers(&mut add);
    limits_of_entries(&mut add);
    limits_of_the_stack(&mut add);
    limits_of_records(&mut add);
    power_overflows().iter().for_each(|words| add(words));
    refusals(&mut add);
    lists.extend(at_odds());
    lists
}

/// Each way to refuse, alone and after what counts as handled, at the top and inside.
fn refusals(add: &mut impl FnMut(&str)) {
    for refusing in [
        "Array",
        "Other",
        "Obverse",
        "NoNormal",
        "Else",
        "Max",
        "SinH",
        "CosH",
        "Root",
        "Pop Pop",
        "Pop Sin",
        "Pop Pop Array",
        "Dip(1:)(1:)",
        "Gap",
        "On(1:)(1:)",
        "By",
        "Both(1:)(1:)",
        "Bracket(1:)",
        "Bracket(1:)(1:)(1:)",
        "Pop Dip(1: Sin)",
        "Pop Gap(1:)",
        "Pop On(1:)",
        "By(2:)",
        "Both(2:)",
        "Bracket(2:)(0:)",
        "Fork(2:)",
        "Dup",
        "Pop",
        "Sin 2 Mul",
        "Sin 2 Div",
        "Over",
        "Complex",
        "Sin 1 Add 0.5 Pow",
        "1 Add Exp",
        "Dup Log",
        "Flip",
    ] {
        for context in [
            "W",
            "Neg W",
            "Neg Neg W",
            "Dup Mul W",
            "1 Complex W",
            "Run(Neg W)",
            "Custom(Neg Neg W)",
            "Under W",
            "1 Dip(1: W)",
            "1 Dip(1: Neg Neg W)",
            "1 Dip(1: Dup Mul W)",
            "Dup Mul 1 Dip(1: Pop W)",
            "On(1: W)",
            "Dup Mul On(1: Pop 1 Neg W)",
            "Gap(1: 1 W)",
            "By(1: W)",
            "Both(0: W)",
            "1 Both(1: W)",
            "1 Bracket(1:)(1: W)",
            "1 Bracket(1: W)(1:)",
            "Fork(1: W)(1:)",
            "Fork(1:)(1: W)",
            "Dup Mul Fork(1:)(1: W)",
        ] {
            add(&context.replace('W', refusing));
        }
    }
}

fn limits_of_numbers(add: &mut impl FnMut(&str)) {
    for base in [
        "",
        "1 Add",
        "Sin",
        "Sin 1 Add",
        "Cos Reciprocal",
        "0 Mul",
        "1 Add Reciprocal",
    ] {
        for power in [
            "63",
            "64",
            "65",
            "1e9",
            "2^53",
            "-1",
            "-64",
            "-65",
            "0.5",
            "64.5",
            "5e-324",
            "0",
            "-0",
            "2;2^-53",
            "2;2^-52",
            "0.5;2^-53",
            "65;2^-53",
            "65;1",
        ] {
            add(&format!("{base} {power} Pow"));
        }
    }
    for dividend in ["0", "-0", "0;-0", "1", "1;-0", "2", "0.5;1"] {
        for divisor in [
            "1 Add",
            "Sin 1 Add",
            "1 Add Reciprocal",
            "Sin",
            "3 Pow",
            "Dup Sub 1 Add",
        ] {
            add(&format!("{divisor} {dividend} Flip Div"));
        }
    }
    for number in ["inf", "-inf", "nan"] {
        add(&format!("{number} Add"));
        add(&format!("{number};0 Add"));
        add(&format!("0;{number} Add"));
        add(&format!("Pop Pop {number} Add"));
    }
    for words in [
        "1e308 Mul 10 Mul",
        "1e308 Mul Dup Add",
        "1e308 Mul Dup Dup Add Sub",
        "1e308 Mul Dup Neg Flip Sub",
        "0 Div",
        "0 Mul Reciprocal",
        "Sin 0 Mul Reciprocal",
        "1e-300 Div 1e-300 Div",
        "1e-200 Div",
        "1e308 Pow 1e308 Pow",
        "-1e308 Pow 1e308 Pow",
        "-1e308 Pow -2 Pow",
        "-1e308 Pow Dup Mul",
        "-1e308 Pow Dup Dup Mul Mul",
        "-1e308 Pow Reciprocal Dup Mul",
        "-1e308 Pow Dup 1 Add Reciprocal Div",
        "1e308 Mul Not",
        "1e308;1e308 Mul Dup Mul",
        "1e200 Mul Dup Mul",
        "1e200 Add Dup Mul",
        "1e200 Add Reciprocal Dup Mul",
        "1e308 1e308 Complex 1e308 Complex Add",
        "1e308;0 1e308;1e308 Complex Add",
        "1e308;0 -1e308;1e308 Complex Add",
        "E Mul Exp",
        "0.5 Mul Exp",
        "Pop 0.5 Exp",
        "Pop 2 Exp",
        "Pop 64 Exp",
        "Pop 65 Exp",
        "Pop 65 Exp2",
        "Pop 64 Exp10",
        "Pop 0.5 Exp10",
        "Pop 1 Sqrt",
        "Pop 4 Sqrt",
        "Pop 1;-0 Sqrt",
        "Pop 1;-0 -0.5 Pow",
        "Pop 1;-0 -1 Pow",
        "2 Mul Sqrt",
        "2 Mul Reciprocal Sqrt",
        "2 Mul 1 Add Reciprocal Sqrt",
        "Sin Reciprocal Sqrt",
        "Sin Reciprocal 2 Mul Sqrt",
        "1 Add Reciprocal Sqrt",
        "3 Log",
        "2 Log",
        "10 Log",
        "E Log",
        "2 Mul 3 Log",
        "Sin 3 Log",
        "0 Log",
        "1 Log",
        "-2 Log",
        "1e308 Log 1e308 Mul",
        "Ln 1e308 Mul Log2 1e308 Mul",
        "Log2 1e308 Mul",
        "1e308 Mul Sin 1e308 Mul",
        "1e308 Mul Exp 1e308 Mul",
        "1e308 Mul 1 Add Dup Mul",
        "1e300 Mul Dup 1e300 Mul Mul",
        "-0.9999999999999999 Pow 1e308 Mul",
        "3 Pow 0.5 Mul",
        "3 Pow 0.5 Mul 1 Add",
        "3 Pow 2 Mul 0;1 Mul",
        "3 Pow 2 Mul 1 0 Complex Add",
        "3 Pow 0 Mul",
        "3 Pow 0 Mul Neg",
        "2 Pow 1e308 Mul",
        "2 Pow 1e308 Mul 1 Add",
        "Dup 2 Pow 1e308 Mul Add",
        "Dup 1e200 Mul Flip Dup Mul Add",
        "1e-310 Mul Neg Neg",
        "1e-200 Mul Neg Neg",
        "1.0000000000000002 Mul Neg Neg",
        "1.0000000000000004 Mul Neg Neg",
        "2^53 Pow Dup Mul",
    ] {
        add(words);
    }
}

fn limits_of_entries(add: &mut impl FnMut(&str)) {
    for terms in [61, 62, 63, 64, 65] {
        let power = format!("1 Add {terms} Pow");
        add(&power);
        for after in [
            "1 Add",
            "Not",
            "Neg",
            "Sin",
            "Cos",
            "Exp",
            "Ln",
            "Reciprocal",
            "Dup Mul",
            "Dup Add",
            "Sin Reciprocal",
            "Sin Sin",
            "Reciprocal Reciprocal",
            "Reciprocal Dup Mul",
            "0;1 Complex",
            "1 Flip Complex",
            "0.5 Pow",
            "0 Mul",
            "Ln Sin",
            "x Mul",
            "-1 Pow",
        ] {
            add(&format!("{power} {}", after.replace("x Mul", "2;0 Mul")));
        }
        add(&format!("Dup -1 Pow Flip {power} Add"));
        add(&format!("Dup Sin Flip {power} Add"));
        add(&format!("{power} 65 Pow"));
    }
    // Sums of functions: powers that never meet.
    for terms in [7, 8, 9, 10] {
        let powers: String = (0..terms)
            .map(|term| format!("Over {} Pow Add ", f64::from(1 << term) + 0.5))
            .collect();
        add(&format!("Dup {powers} Flip Pop Dup Mul"));
        add(&format!("Dup {powers} Flip Pop Dup Mul Sin"));
        add(&format!("Dup {powers} Flip Pop Reciprocal Dup Mul"));
        add(&format!("Dup {powers} Flip Pop Reciprocal"));
        add(&format!("Dup {powers} Flip Pop 3 Pow"));
    }
    for words in [
        "Sin Sin Sin",
        "Sin Sin Sin Sin",
        "Sin Sin Sin Reciprocal",
        "Sin Sin Sin Reciprocal Reciprocal",
        "Sin Sin Sin 0 Mul Reciprocal",
        "Sin Sin Sin 1 Add Reciprocal",
        "Sin Sin Sin Ln",
        "Sin Sin Sin 2 Log",
        "Sin Sin Reciprocal Dup Mul",
        "Sin Cos Reciprocal 2 Mul Ln",
        "Sin Reciprocal Sin Reciprocal",
        "Cos Cos Cos Cos Cos",
        "Exp Ln Sin",
        "Exp Ln Sin Cos",
        "1 Add Reciprocal 1 Add Reciprocal 1 Add Reciprocal",
        "1 Add Reciprocal 1 Add Reciprocal 1 Add Reciprocal 1 Add Reciprocal",
    ] {
        add(words);
    }
}

/// A record `count` times, by nested Both: each level doubles.
pub(crate) fn repeated(record: &str, count: usize) -> String {
    (0..count.ilog2() as usize + 1)
        .filter(|bit| count >> bit & 1 == 1)
        .map(|bit| "Both(0: ".repeat(bit) + record + &")".repeat(bit) + " ")
        .collect()
}

fn limits_of_the_stack(add: &mut impl FnMut(&str)) {
    // x and this many constants, one entry each.
    for count in [1021, 1022, 1023, 1024] {
        let pushes = repeated("1", count);
        let pops = repeated("Pop", count);
        add(&format!("{pushes} {pops}"));
        for top in [
            "Dup Pop",
            "Over Pop",
            "Flip",
            "On(1: Pop)",
            "On(1:)",
            "By(1: Pop)",
            "By(2: Pop)",
            "By(0: 1 Pop)",
            "Dip(1: 1 Pop)",
            "Dip(1: Dup Pop)",
            "Gap(1: 1 Pop 1)",
            "Gap(1: 1)",
            "Both(1: 1 Pop)",
            "Both(2: Dup Pop)",
            "Bracket(1: 1 Pop)(1:)",
            "Bracket(1:)(1: 1 Pop)",
            "Fork(1:)",
            "Fork(1: Pop)(1:)",
            "Fork(2: Pop Pop)(1:)",
            "Fork(0: 1 Pop)",
            "Sin",
            "Not",
            "Identity",
            "Sin Pop 1",
            "1 Add",
            "Add 1",
        ] {
            add(&format!("{pushes} {top} {pops}"));
        }
    }
    // 64 entries a sum, sixteen of them.
    let sum = "1 Add 63 Pow";
    for copies in [14, 15, 16] {
        let dups = "Dup ".repeat(copies);
        let adds = "Pop ".repeat(copies);
        for top in [
            "",
            "On(1: Pop)",
            "Dip(1: Dup Pop)",
            "Dup Pop",
            "Fork(1: Pop)(1:)",
            "1 Pop",
        ] {
            add(&format!("{sum} {dups} {top} {adds}"));
        }
    }
}

fn limits_of_records(add: &mut impl FnMut(&str)) {
    for count in [MOST_RECORDS - 1, MOST_RECORDS, MOST_RECORDS + 1] {
        add(&"Neg ".repeat(count));
        add(&"Under ".repeat(count));
    }
    for levels in [
        MOST_LEVELS - 1,
        MOST_LEVELS,
        MOST_LEVELS + 1,
        MOST_LEVELS + 2,
    ] {
        nested(levels).iter().for_each(|words| add(words));
        add(&("Both(0: ".repeat(6) + "2 Mul" + &")".repeat(6)));
    }
}

/// A record inside so many others: runs, custom inverses, and modifiers, where
/// a modifier and its body are a level each.
fn nested(levels: usize) -> [String; 3] {
    let pairs = levels / 2;
    let odd = if levels.is_multiple_of(2) {
        "Neg"
    } else {
        "Run(Neg)"
    };
    [
        "Run(".repeat(levels) + "Neg" + &")".repeat(levels),
        "Custom(".repeat(levels + 1) + &")".repeat(levels + 1),
        "Gap(1: 2 ".repeat(pairs) + odd + &")".repeat(pairs),
    ]
}

/// Lists at, below and above the limits of the run: 256 values, power 64, and
/// numbers that aren't finite at the same record.
pub fn near_limits_of_the_run() -> Vec<Vec<u8>> {
    let mut lists = Vec::new();
    for count in 252..=257 {
        let (dups, pops) = ("Dup ".repeat(count), "Pop ".repeat(count));
        for top in [
            "",
            "1 Pop",
            "inf",
            "Over Pop",
            "Flip",
            "Add Dup",
            "0 Div",
            "64 Pow",
            "65 Pow",
            "Sin",
            "On(1:) Pop",
            "On(1: Pop)",
            "On(1: Dup Pop) Pop",
            "On(1: On(1: Pop))",
            "On(1: On(1:) Pop) Pop",
            "Run(1) Pop",
        ] {
            lists.push(text::list(&format!("{dups} {top} {pops}")));
        }
    }
    for levels in 62..=65 {
        let held = "On(1: ".repeat(levels) + "Neg" + &")".repeat(levels);
        lists.push(text::list(&(held + &" Add".repeat(levels))));
    }
    lists
}

/// Numbers whose roots are stored: squares and their neighbours, powers of 2,
/// subnormals, the largest, some below zero, and numbers next to the square of
/// a middle of two neighbours, where rounding is hardest.
const ROOTS_OF: [&str; 26] = [
    "0",
    "-0",
    "1",
    "2",
    "3",
    "4",
    "3.9999999999999996",
    "4.000000000000001",
    "0.9999999999999999",
    "1.0000000000000002",
    "2^-1022",
    "2^-1021",
    "2^1023",
    "2^1022",
    "5e-324",
    "1e-323",
    "1.5e-323",
    "2.2250738585072009e-308",
    "1.7976931348623157e308",
    "1.0000000000000004",
    "1.0000000000000007",
    "9007199254740993",
    "9007199254740995",
    "-5e-324",
    "-1",
    "-1e308",
];

/// Formulas of dives, whose derivatives are run.
const FORMULAS: [&str; 18] = [
    "",
    "0 Pow",
    "2 Pow",
    "3 Pow",
    "64 Pow",
    "-1 Mul 5 Add",
    "Dup 3 Pow Add",
    "Dup 2 Pow Sub",
    "On(1: 4 Pow 0.5 Mul) 7 Pow Add",
    "On(1: 3 Pow) On(1: 9 Pow) 33 Pow Add Add",
    "1 Add 7 Pow",
    "1 Add 63 Pow",
    // drag formulas: their speed has the root of x
    "1.5 Pow",
    "1.5 Pow 2 Mul",
    "Dup 1.5 Pow Add",
    "Dup 1.5 Pow -12 Mul Flip 48 Mul Add",
    "Dup 1.5 Pow Flip 2 Pow Sub",
    "On(1: 1.5 Pow 0.6666666666666666 Mul) On(1: 2 Pow 0.5 Mul) 3 Pow Add Add",
];

/// Lists whose runs are stored whatever else they meet: a power of every
/// sort, alone, on a number that was pushed, inside On, where nothing lies
/// below and where all other values do; derivatives; lists at the limits of a
/// list and of the run, and just past them.
pub fn runs_to_store() -> Vec<Vec<u8>> {
    let mut lists: Vec<Vec<u8>> = FORMULAS
        .iter()
        .filter_map(|words| judge::derivative(&text::list(words)).done())
        .collect();
    let mut add = |words: &str| lists.push(text::list(words));
    for words in [
        "",
        "Dup Mul",
        "Dup 3 Pow Add",
        "Dup 0 Pow Mul",
        "0 Flip Pow",
    ] {
        add(words);
    }
    for power in [
        "0", "-0", "1", "2", "64", "65", "-1", "0.5", "5e-324", "1e308", "inf",
    ] {
        add(&format!("{power} Pow"));
        add(&format!("Pop {power} Pow"));
        add(&format!("On(1: {power} Pow) Add"));
        add(&format!(
            "{}{power} Pow{}",
            "Dup ".repeat(254),
            " Pop".repeat(254)
        ));
        for base in ["0", "-0", "5e-324", "-7", "1e308"] {
            add(&format!("Pop {base} {power} Pow"));
        }
    }
    for root in ROOTS_OF {
        add(&format!("Pop {root} Sqrt"));
    }
    for words in [
        "Sqrt",
        "Pop Sqrt",
        "Neg Sqrt",
        "Dup Sqrt Mul",
        "On(1: Sqrt) Mul",
        "Sqrt Dup Mul",
        "Dup Mul Sqrt",
        "2 Root",
    ] {
        add(words);
    }
    for count in [MOST_RECORDS, MOST_RECORDS + 1] {
        add(&"Neg ".repeat(count));
    }
    for levels in [MOST_LEVELS, MOST_LEVELS + 1] {
        nested(levels).iter().for_each(|words| add(words));
    }
    for count in [255, 256] {
        let (dups, pops) = ("Dup ".repeat(count), "Pop ".repeat(count));
        add(&format!("{dups} {pops}"));
    }
    for held in [127, 128] {
        let dups = "Dup ".repeat(255 - held);
        let pops = "Pop ".repeat(255 - held);
        let (on, end) = ("On(1: ".repeat(held / 2), ") Pop".repeat(held / 2));
        add(&format!("{dups}{on}Neg{end} {pops}"));
    }
    lists
}

/// Lists at each limit and just past it.
pub fn at_limits() -> Vec<Vec<u8>> {
    let mut lists = Vec::new();
    let mut add = |words: &str| lists.push(text::list(words));
    for count in [MOST_RECORDS, MOST_RECORDS + 1] {
        add(&"Neg ".repeat(count));
        add(&"Under ".repeat(count));
    }
    for levels in [MOST_LEVELS, MOST_LEVELS + 1] {
        nested(levels).iter().for_each(|words| add(words));
    }
    at_limits_of_sums(&mut add);
    at_limits_of_the_stack(&mut add);
    lists
}

/// 64 entries, insides counted, an entry inside 3 others, powers of 64 and an
/// imaginary part that counts as none.
fn at_limits_of_sums(add: &mut impl FnMut(&str)) {
    for words in [
        "1 Add 63 Pow",
        "1 Add 64 Pow",
        "1 Add 62 Pow Sin",
        "1 Add 63 Pow Sin",
        "1 Add 60 Pow Sin Sin Sin",
        "1 Add 61 Pow Sin Sin Sin",
        "Sin Sin Sin",
        "Sin Sin Sin Sin",
        "64 Pow",
        "65 Pow",
        "2;2^-53 Pow",
        "2;2^-52 Pow",
    ] {
        add(words);
    }
}

/// 1,024 entries on the stack and held.
fn at_limits_of_the_stack(add: &mut impl FnMut(&str)) {
    // x and constants, one entry each, and what needs room for `more` entries.
    for (more, top) in [
        (0, ""),
        (0, "Gap(1: 1)"),
        (1, "1 Pop"),
        (1, "On(1: Pop)"),
        (1, "By(1: Pop)"),
        (1, "Dip(1: 1 Pop)"),
        (1, "Both(1: 1 Pop)"),
        (1, "Bracket(1: 1 Pop)(1:)"),
        (1, "Fork(1: Pop)(1:)"),
    ] {
        for count in [MOST_STACKED - 1 - more, MOST_STACKED - more] {
            let (pushes, pops) = (repeated("1", count), repeated("Pop", count));
            add(&format!("{pushes} {top} {pops}"));
        }
    }
    // Sums of 64 entries: sixteen fill the stack.
    for (copies, top) in [
        (15, ""),
        (16, ""),
        (14, "On(1: Pop)"),
        (15, "On(1: Pop)"),
        (15, "1 Pop"),
    ] {
        let (dups, pops) = ("Dup ".repeat(copies), "Pop ".repeat(copies));
        add(&format!("1 Add 63 Pow {dups} {top} {pops}"));
    }
}
