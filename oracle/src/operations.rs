//! Stored answers of arithmetic on sums: one primitive on one or two sums.
//!
//! A case is made from lists that each turn x into a sum. The sums stand side by
//! side on the stack, the primitive is run on them, and what the judge reads is
//! the result. Cases in which something else refuses first are left out.

use std::collections::{BTreeMap, BTreeSet};

use crate::{
    Answer, Refusal, features::Features, generate, judge, random::Random, records::RECORD,
    sums::ENTRY, text,
};

/// A primitive on sums, and what comes of it.
#[derive(Debug, Clone, PartialEq, Eq)]
pub struct Case {
    pub code: u8,
    pub first: Vec<u8>,
    pub second: Vec<u8>,
    pub result: Result<Vec<u8>, u8>,
}

impl Case {
    /// The case as a line of hex: code, counts of entries, number, count of the
    /// result's entries, then the entries.
    pub fn line(&self) -> String {
        let (number, result) = match &self.result {
            Ok(entries) => (0, entries.as_slice()),
            Err(number) => (*number, [].as_slice()),
        };
        let count = |entries: &[u8]| u8::try_from(entries.len() / ENTRY).expect("few entries");
        let head = [
            self.code,
            count(&self.first),
            count(&self.second),
            number,
            count(result),
        ];
        let entries = [&self.first, &self.second, result].concat();
        let mut line = whole_hex(&head);
        for entry in entries.chunks(ENTRY) {
            line.push(' ');
            line.push_str(&whole_hex(entry));
        }
        line.push('\n');
        line
    }
}

fn whole_hex(bytes: &[u8]) -> String {
    bytes.iter().map(|byte| format!("{byte:02x}")).collect()
}

/// How many sums the primitive takes; none where it is no arithmetic.
pub fn operands(code: u8) -> usize {
    match code {
        8..=12 | 17 | 34 => 2,
        5..=7 | 13..=16 | 32 | 33 | 35..=37 => 1,
        _ => 0,
    }
}

/// The codes of all arithmetic.
pub fn codes() -> Vec<u8> {
    (0..=u8::MAX).filter(|&code| operands(code) > 0).collect()
}

fn sum_of(list: &[u8]) -> Option<Vec<u8>> {
    judge::read(list).done().map(|read| read.entries)
}

/// The case of a primitive on what the lists make of x.
pub fn case(code: u8, first: &[u8], second: &[u8], features: &mut Features) -> Option<Case> {
    let both = operands(code) == 2;
    let mut list = first.to_vec();
    if both {
        list = [&text::list("Dup"), first, &text::list("Flip"), second].concat();
    }
    list.extend(crate::records::Record::primitive(code).to_bytes());
    let last = list.len() / RECORD - 1;
    let result = match judge::read_noting(&list, features) {
        Answer::Rust(Ok(read)) => Ok(read.entries),
        Answer::Rust(Err(Refusal { number, place })) | Answer::Limit(Refusal { number, place })
            if place == last =>
        {
            Err(number)
        }
        _ => return None,
    };
    Some(Case {
        code,
        first: sum_of(first)?,
        second: if both { sum_of(second)? } else { Vec::new() },
        result,
    })
}

/// The code of a primitive by its name in words.
pub fn code_of(name: &str) -> u8 {
    text::list(name)[1]
}

/// Limits, at and one past, and two refusals at odds in one step: the primitive, and what its operands are.
pub const LIMITS: [(&str, &str, &str); 38] = [
    ("Pow", "1 Add", "Pop 63"),
    ("Pow", "1 Add", "Pop 64"),
    ("Pow", "", "Pop 64"),
    ("Pow", "", "Pop 65"),
    ("Pow", "Sin", "Pop 65"),
    ("Pow", "Sin", "Pop 1"),
    ("Pow", "Sin", "Pop 0"),
    ("Pow", "", "Pop 2;1.1102230246251565e-16"),
    ("Pow", "", "Pop 2;2.220446049250313e-16"),
    ("Pow", "2 Mul", "Pop 0.5"),
    ("Pow", "1 Add", "Pop 0.5"),
    ("Pow", "", "Pop -1"),
    ("Pow", "1 Add Reciprocal", "Pop -1"),
    ("Pow", "1e300 Mul", "Pop 2"),
    ("Add", "1 Add 62 Pow", "Sin"),
    ("Add", "1 Add 63 Pow", "Sin"),
    ("Add", "1 Add 63 Pow", ""),
    ("Sin", "Sin Sin", ""),
    ("Sin", "Sin Sin Sin", ""),
    ("Sin", "1 Add 62 Pow", ""),
    ("Sin", "1 Add 63 Pow", ""),
    ("Sin", "1 Add 60 Pow Sin Sin Sin", ""),
    ("Reciprocal", "Sin Sin Sin", ""),
    ("Reciprocal", "Sin Sin Sin Dup Sub", ""),
    ("Reciprocal", "Dup Sub", ""),
    ("Mul", "1e308 Mul", "Sin"),
    ("Mul", "Dup 1e308 Mul Flip Sin Add", "1e308 Mul"),
    ("Mul", "1e200 Mul 1 Add", "1e200 Mul 1 Add"),
    ("Div", "Pop 0", "1 Add"),
    ("Div", "Pop 1", "1 Add"),
    ("Mul", "-1e308 Pow", "-1e308 Pow"),
    ("Mul", "-1e308 Pow 1e200 Mul", "-1e308 Pow 1e200 Mul"),
    ("Mul", "-1e308 Pow 1e200 Add", "-1e308 Pow 1e200 Add"),
    (
        "Mul",
        "-1e308 Pow Reciprocal 1e200 Add",
        "-1e308 Pow Reciprocal 1e200 Add",
    ),
    (
        "Mul",
        "-1e308 Pow 1 Add Reciprocal",
        "-1e308 Pow 1 Add Reciprocal",
    ),
    ("Div", "-1e308 Pow", "-1e308 Pow Reciprocal"),
    ("Pow", "-1e308 Pow", "Pop -2"),
    ("Pow", "-5e307 Pow", "Pop 4"),
];

/// How many cases are gone through.
const ROUNDS: usize = 20_000;
/// The longest operand, in bytes.
const LONG_SUM: usize = 5 * ENTRY;

/// How many cases of one primitive are kept, for sums and for each number of a refusal.
const SUMS: usize = 40;
const REFUSALS: usize = 10;

/// Lists that make a short sum of x, each sum once.
fn makers() -> Vec<Vec<u8>> {
    let mut random = Random::new(30);
    let mut lists: Vec<Vec<u8>> = generate::exhaustive(2).collect();
    lists.extend((0..6_000).map(|round| generate::good_list(&mut random, 2 + round % 8)));
    let mut met = BTreeSet::new();
    lists.retain(|list| match judge::read(list).done() {
        Some(read) => read.entries.len() <= LONG_SUM && met.insert(read.entries),
        None => false,
    });
    lists
}

/// The cases, gone through in a fixed order: one is kept if it reaches an arm that none before it did.
pub fn select() -> Vec<Case> {
    let mut reached = BTreeSet::new();
    let mut cases: Vec<Case> = LIMITS
        .iter()
        .filter_map(|&(name, first, second)| {
            let (first, second) = (text::list(first), text::list(second));
            case(code_of(name), &first, &second, &mut Features::off())
        })
        .collect();
    assert_eq!(
        cases.len(),
        LIMITS.len(),
        "each limit is met in its own step"
    );
    let mut kept = BTreeMap::new();
    let (makers, codes, mut random) = (makers(), codes(), Random::new(31));
    for round in 0..ROUNDS {
        let code = codes[round % codes.len()];
        let (first, second) = (random.choose(&makers), random.choose(&makers));
        let second = if operands(code) == 2 {
            second.as_slice()
        } else {
            &[]
        };
        let mut features = Features::on();
        let made = case(code, first, second, &mut features);
        let names = features.into_names();
        let Some(made) = made else { continue };
        let number = *made.result.as_ref().err().unwrap_or(&0);
        let many = if number == 0 { SUMS } else { REFUSALS };
        let count: &mut usize = kept.entry((code, number)).or_default();
        if *count < many && !names.is_subset(&reached) {
            *count += 1;
            reached.extend(names);
            cases.push(made);
        }
    }
    cases
}
