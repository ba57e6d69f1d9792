//! Lists over a crowded stack: the guard and the Rust agree on them, and the
//! limit of 1,024 lies where document 01 has it.

use std::collections::BTreeMap;

use oracle::{
    Answer, Refusal,
    crowded::{self, Case},
    judge, text,
};

/// The number that reading comes to, once the guard and the Rust agree on it.
fn number(case: &Case) -> u8 {
    let list = text::list(&case.words);
    let answer = judge::read(&list);
    match &answer {
        Answer::Rust(result) => {
            let guard = judge::guard_read(&list);
            assert_eq!(guard.as_ref(), Some(result), "{}", case.words);
            result.as_ref().map_or_else(|refusal| refusal.number, |_| 0)
        }
        Answer::Limit(refusal) => refusal.number,
        _ => panic!("{answer:?} on {}", case.words),
    }
}

/// How many of some cases come to each number, which is the one that they
/// tell, if they tell one.
fn numbers(cases: &[Case]) -> BTreeMap<u8, usize> {
    let mut numbers = BTreeMap::new();
    for case in cases {
        let number = number(case);
        let told = case.number.unwrap_or(number);
        assert_eq!(number, told, "{}", case.words);
        *numbers.entry(number).or_default() += 1;
    }
    println!("{numbers:?}");
    numbers
}

/// 1,024 entries on the stack and held are well, 1,025 are 12.
#[test]
fn at_the_limit() {
    let cases = crowded::at_the_limit();
    let numbers = numbers(&cases);
    assert_eq!(numbers[&12] * 4, cases.len());
    assert_eq!(numbers[&0] + numbers[&12], cases.len());
}

#[test]
fn all_others() {
    let numbers = numbers(&crowded::others());
    for number in [0, 7, 12, 15, 16, 18] {
        assert!(numbers[&number] > 10, "{number}");
    }
}

/// Constants below x, what is done to x, and which of its records is refused
/// with 12, from 0 up, if one is: operands that are popped don't count, and
/// what is held does.
const PLACES: [(usize, &str, Option<usize>); 31] = [
    (1022, "Dup Mul", None),
    (1023, "Dup Mul", Some(0)),
    (1022, "2 Pow", None),
    (1023, "2 Pow", Some(0)),
    (1022, "0 Pow", None),
    (1023, "1 Pow", Some(0)),
    (1020, "1 Add Dup Mul", None),
    (1021, "1 Add Dup Mul", Some(2)),
    // the result itself
    (960, "1 Add 63 Pow", None),
    (961, "1 Add 63 Pow", Some(3)),
    (1021, "1 Add 2 Pow", None),
    (1022, "1 Add 2 Pow", Some(2)),
    (1018, "1 Add 5 Pow", None),
    (1019, "1 Add 5 Pow", Some(3)),
    (1021, "Dup Over Mul", None),
    (1022, "Dup Over Mul", Some(1)),
    (1022, "Dup Add", None),
    (1022, "Not", None),
    (1023, "Not", Some(0)),
    // held
    (1021, "On(1: 2 Pow)", None),
    (1022, "On(1: 2 Pow)", Some(2)),
    (1023, "On(1: 2 Pow)", Some(0)),
    (1021, "Dup Both(1: 2 Pow)", None),
    (1022, "Dup Both(1: 2 Pow)", Some(3)),
    (1020, "Fork(1: 2 Pow)(1: 1 Pow)", None),
    (1021, "Fork(1: 2 Pow)(1: 1 Pow)", Some(2)),
    (1022, "Fork(1: 2 Pow)(1: 1 Pow)", Some(5)),
    (1023, "Fork(1: 2 Pow)(1: 1 Pow)", Some(0)),
    (1022, "Dup Bracket(1:)(1: 2 Pow)", Some(4)),
    (1022, "Dup Dip(1: 2 Pow)", Some(3)),
    (1022, "Dup Gap(1: 2 Pow)", None),
];

#[test]
fn places() {
    for (constants, words, refused) in PLACES {
        let below = "1 ".repeat(constants);
        let list = text::list(&format!("Dip(1: {below}) {words}"));
        let owed = match refused {
            // Dip and its body come before the constants
            Some(record) => Answer::Limit(Refusal::new(12, 2 + constants + record)),
            None => Answer::Rust(Err(Refusal::whole(4))),
        };
        assert_eq!(judge::read(&list), owed, "{constants}, {words}");
    }
}
