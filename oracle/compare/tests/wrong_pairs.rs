//! Readings that count pairs wrongly are found. Each takes the library's answer
//! and changes the pairs where its rule is broken in the last records.

use compare::{
    arguments,
    work::{self, Compared},
};
use oracle::{
    records::{RECORD, Record, check, kind},
    sums::ENTRY,
};
use proved::{LIBRARY, Library, Told};

const DUP: u8 = 3;
const MUL: u8 = 10;
const POW: u8 = 12;
const COMPLEX: u8 = 17;
const BOTH: u8 = 5;

/// How many entries of a sum are outermost, and how many of these have the
/// coefficient 0.
fn outermost(sum: &[u8]) -> [u64; 2] {
    let (mut terms, mut zeros, mut at) = (0, 0, 0);
    while at < sum.len() {
        let inside = u32::from_le_bytes(sum[at + 4..at + 8].try_into().expect("4 bytes"));
        let is_zero = sum[at + 16..at + 32].iter().all(|&byte| byte == 0);
        terms += 1;
        zeros += u64::from(is_zero);
        at += (1 + inside as usize) * ENTRY;
    }
    [terms, zeros]
}

/// A list that is read: its pairs, its terms and those of them that are zero.
struct Known {
    pairs: u64,
    terms: u64,
    zeros: u64,
    has_insides: bool,
}

fn known(list: &[u8]) -> Option<Known> {
    let mut room = [0; 64 * ENTRY];
    let told = proved::read(list, &mut room);
    let sum = &room[..told.answer[1] as usize * ENTRY];
    let [terms, zeros] = outermost(sum);
    (told.number == 0).then_some(Known {
        pairs: told.answer[3],
        terms,
        zeros,
        has_insides: terms < told.answer[1],
    })
}

/// A list in which the last records are told from those before them.
struct Ending<'a> {
    list: &'a [u8],
    records: Vec<Record>,
}

impl<'a> Ending<'a> {
    fn new(list: &'a [u8]) -> Option<Self> {
        let records = check(list).ok()?;
        Some(Ending { list, records })
    }
    fn last(&self, from_end: usize) -> Option<Record> {
        let at = self.records.len().checked_sub(from_end)?;
        Some(self.records[at])
    }
    fn is(&self, from_end: usize, code: u8) -> bool {
        let is_it = |record: Record| record.kind == kind::PRIMITIVE && record.code == code;
        self.last(from_end).is_some_and(is_it)
    }
    /// What is read before so many last records.
    fn before(&self, last: usize) -> Option<Known> {
        known(&self.list[..self.list.len() - last * RECORD])
    }
    /// A sum that the list ends with raising to this whole number from 2 up.
    fn raised(&self) -> Option<(Known, u64)> {
        let power = f64::from_bits(self.last(2).filter(|last| last.kind == kind::REAL)?.re);
        let is_whole = power.fract() == 0.0 && (2.0..=64.0).contains(&power);
        let base = self.before(2)?;
        (self.is(1, POW) && is_whole).then_some((base, power as u64))
    }
    /// A sum that the list ends with squaring.
    fn squared(&self) -> Option<Known> {
        let is_squared = self.is(1, MUL) && self.is(2, DUP);
        is_squared.then(|| self.before(2)).flatten()
    }
}

/// The pairs as they are told of a sum that is read, by a broken rule.
fn of_a_sum(broken: fn(&Ending, &Known) -> Option<u64>, list: &[u8], told: &mut Told<4>) {
    let wrong = || broken(&Ending::new(list)?, &known(list)?);
    if told.number == 0 {
        told.answer[3] = wrong().unwrap_or(told.answer[3]);
    }
}

macro_rules! broken {
    ($($name:ident = $rule:expr;)*) => {
        $(fn $name(list: &[u8], sum: &mut [u8]) -> Told<4> {
            let mut told = proved::read(list, sum);
            of_a_sum($rule, list, &mut told);
            told
        })*
        const WRONG: &[(&str, Read)] = &[$((stringify!($name), $name)),*];
    };
}

type Read = fn(&[u8], &mut [u8]) -> Told<4>;

broken! {
    never_counted = |_, _| Some(0);
    one_too_many = |_, read| (read.pairs > 0).then_some(read.pairs + 1);
    two_bytes = |_, read| Some(read.pairs.min(65_535));
    complex_counted_too = |ending, read| ending.is(1, COMPLEX).then_some(read.pairs + 1);
    base_for_product_so_far = |ending, _| {
        let (base, power) = ending.raised()?;
        Some(base.pairs + (power - 1) * base.terms * base.terms)
    };
    a_product_too_many = |ending, read| {
        let (base, _) = ending.raised()?;
        Some(read.pairs + read.terms * base.terms)
    };
    new_terms_alone = |ending, read| Some(ending.squared()?.pairs + read.terms);
    zero_terms_left_out = |ending, _| {
        let base = ending.squared()?;
        let terms = base.terms - base.zeros;
        Some(base.pairs + terms * terms)
    };
    insides_counted_too = |ending, read| {
        let base = ending.squared()?;
        base.has_insides.then_some(read.pairs + 4)
    };
    bodies_counted_once = |ending, read| {
        let first = ending.records.first()?;
        let is_both = first.kind == kind::MODIFIER && first.code == BOTH;
        is_both.then_some(read.pairs / 2)
    };
}

/// The count of what came before a refusal, with that.
fn kept_on_a_refusal(list: &[u8], sum: &mut [u8]) -> Told<4> {
    let mut told = proved::read(list, sum);
    let before = || Ending::new(list)?.before(1);
    if told.number != 0 && !list.is_empty() {
        told.answer[3] = before().map_or(0, |before| before.pairs);
    }
    told
}

/// The count of a sum for which there is no room, with that.
fn kept_without_room(list: &[u8], sum: &mut [u8]) -> Told<4> {
    let mut told = proved::read(list, sum);
    if told.number == 17 {
        told.answer[3] = known(list).map_or(0, |read| read.pairs);
    }
    told
}

fn compared(read: Read) -> Compared {
    let words = "--lists 2000 --seed 1".split(' ').map(String::from);
    let settings = arguments::parse(words).expect("good words");
    work::compare(&settings, Library { read, ..LIBRARY })
}

#[test]
fn pairs_are_met() {
    let tally = compared(LIBRARY.read).tally;
    assert!(
        tally.pairs.told > 500 && tally.pairs.most > 90_000,
        "{:?}",
        tally.pairs
    );
}

#[test]
fn each_broken_rule_is_found() {
    let kept: [(&str, Read); 2] = [
        ("kept_on_a_refusal", kept_on_a_refusal),
        ("kept_without_room", kept_without_room),
    ];
    for (name, read) in WRONG.iter().chain(&kept) {
        let differences = compared(*read).differences;
        let first = differences.first().map_or("none", String::as_str);
        assert!(first.contains(": read, room of "), "{name}: {first}");
    }
}

/// Where nothing is multiplied, that is said.
#[test]
fn pairs_that_are_missing() {
    let words = "--exhaustive 1".split(' ').map(String::from);
    let settings = arguments::parse(words).expect("good words");
    let missing = work::compare(&settings, LIBRARY).tally.missing();
    for answer in [
        "read never tells pairs",
        "read never tells more than 90000 pairs",
    ] {
        assert!(missing.iter().any(|missing| missing == answer), "{answer}");
    }
}
